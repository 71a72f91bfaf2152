//! Cases for an old release under a longer rulebook: an accepted release, and text that is written behind its rulebook and a new line.
//! Its declarations are over what the rulebook declares and over new things, under names that play on all that is named there.
use crate::cases::Texts;
use crate::draft::{C, Draft, G, R};
use crate::generate;
use crate::graphs;
use crate::names;
use crate::oracle::{self, AREA, RULEBOOK_BYTES};
use crate::pages;
use crate::random::Random;
use crate::releases;
use crate::rulebook::{self, Rulebook, Symbol};
use crate::rulebooks::{self, base62, spoiled};
use crate::special;
use crate::tree::{self, Style, Tree, atom, list};

/// The heads of declarations. Names are separate by them.
pub const KINDS: [&str; 4] = ["sort", "ctor", "pred", "rule"];
const SORT: usize = 0;
const CTOR: usize = 1;
const PRED: usize = 2;
const RULE: usize = 3;

/// A release, and what is written behind its rulebook and a new line.
pub struct Case {
    pub texts: Texts,
    pub further: Vec<u8>,
}

impl Case {
    /// The same goals and certificate under the longer rulebook.
    pub fn longer(&self) -> Texts {
        let rulebook = [&self.texts.rulebook[..], b"\n", &self.further].concat();
        Texts { rulebook, ..self.texts.clone() }
    }
}

/// The names that forms with this head have.
pub fn named<'a>(forms: &'a [Tree], head: &'a str) -> impl Iterator<Item = &'a [u8]> {
    forms.iter().filter(move |f| f.form(head)).map(|f| f.members()[1].bytes())
}

/// The abbreviations of a certificate without their `?`.
pub fn abbreviated(certificate: &[Tree]) -> impl Iterator<Item = &[u8]> {
    named(certificate, "def").map(|name| &name[1..])
}

/// The atoms with a leading `?`, without it.
pub fn marked(forms: &[Tree]) -> Vec<Vec<u8>> {
    tree::tokens(forms).iter().filter_map(|t| t.strip_prefix(b"?")).map(<[u8]>::to_vec).collect()
}

/// Whether two names share a bucket in every table of the port: its counts of buckets divide 768.
pub fn share_bucket(a: &[u8], b: &[u8]) -> bool {
    let sum = |name: &[u8]| name.iter().fold(0u32, |h, &byte| h.wrapping_mul(31).wrapping_add(byte.into()));
    sum(a) % 768 == sum(b) % 768
}

fn accepted(texts: &Texts) -> bool {
    oracle::opinion(texts, [AREA; 4], second::LIMITS).number == 0
}

/// An accepted release of those that the other families draw.
fn release(rng: &mut Random) -> Texts {
    loop {
        let texts = match rng.below(200) {
            0..100 => {
                let size = generate::size(rng);
                Draft::random(rng, size).write(rng)
            }
            100..140 => pages::grown(rng),
            140..160 => graphs::texts(rng),
            160..168 => special::deep(rng).0,
            168..174 => special::doubling(rng).0,
            174..176 => special::full(rng).0,
            176 => special::many_requests(rng).0,
            _ => releases::texts(rng),
        };
        if accepted(&texts) {
            return texts;
        }
    }
}

/// Bytes that another end takes at most.
const END: usize = 18;

/// Gives a text another end: behind its last token, in white space, in a comment with its 0A or without.
fn end(text: &mut Vec<u8>, rng: &mut Random) {
    while rng.chance(50) && matches!(text.last(), Some(b' ' | b'\n')) {
        text.pop();
    }
    match rng.below(8) {
        0 => text.push(b'\n'),
        1 => text.extend(rng.pick(tree::WHITE).bytes()),
        2 => tree::comment(rng, text),
        3 | 4 => {
            tree::comment(rng, text);
            text.pop();
        }
        _ => {}
    }
}

/// White space, a comment or a declaration of exactly so many bytes.
fn filler(bytes: usize, rng: &mut Random) -> String {
    match rng.below(4) {
        0 if bytes > 1 => format!(";{}\n", "(".repeat(bytes - 2)),
        1 if bytes > 100 => format!("(sort {})", "w".repeat(bytes - "(sort )".len())),
        2 => "\n".repeat(bytes),
        _ => " ".repeat(bytes),
    }
}

/// Declarations in any layout, so many of them as fit.
fn written(mut forms: Vec<Tree>, room: usize, rng: &mut Random) -> Vec<u8> {
    let style = tree::style(rng);
    loop {
        let text = tree::write(&tree::tokens(&forms), style, rng);
        if text.len() <= room || forms.is_empty() {
            return text;
        }
        forms.truncate(forms.len() / 2);
    }
}

/// One of these names, or any.
fn one_of(names: &[Vec<u8>], rng: &mut Random) -> Vec<u8> {
    if names.is_empty() { names::name(rng) } else { rng.pick(names).clone() }
}

/// A name that shares a bucket with another.
fn neighbour(name: &[u8], rng: &mut Random) -> Vec<u8> {
    loop {
        let drawn = base62(rng.below(60 * 60 * 60)).into_bytes();
        if share_bucket(&drawn, name) {
            return drawn;
        }
    }
}

/// An accepted release read back, and all that is named in it.
struct Known {
    draft: Draft,
    /// By the heads of declarations; new ones join them.
    names: [Vec<Vec<u8>>; 4],
    /// Goals, variables and abbreviations without their `?`, numbers.
    others: [Vec<Vec<u8>>; 4],
    /// Whether the certificate was changed to use what only the further text declares.
    ahead: bool,
}

impl Known {
    fn read(texts: &Texts, rng: &mut Random) -> Self {
        let forms = [&texts.rulebook, &texts.goals, &texts.certificate].map(|text| tree::read(text));
        let names = KINDS.map(|head| named(&forms[R], head).map(<[u8]>::to_vec).collect());
        let goals = named(&forms[G], "goal").map(<[u8]>::to_vec).collect();
        let abbreviations = abbreviated(&forms[C]).map(<[u8]>::to_vec).collect();
        let numbers = tree::tokens(&forms[C]).into_iter().filter(|t| t.iter().all(u8::is_ascii_digit)).collect();
        let styles = [(); 3].map(|()| tree::style(rng));
        let others = [goals, marked(&forms[R]), abbreviations, numbers];
        let draft = Draft { book: Rulebook::of(&forms[R]), forms, styles };
        Self { draft, names, others, ahead: false }
    }

    /// A name for a new declaration of this kind.
    fn name(&mut self, kind: usize, rng: &mut Random) -> Vec<u8> {
        let own = one_of(&self.names[kind], rng);
        let name = match rng.below(12) {
            0..3 => one_of(&self.names[(kind + rng.from(1, 3)) % 4], rng),
            3..6 => one_of(&self.others[rng.below(4)], rng),
            6 => [own, names::name(rng)].concat(),
            7 => {
                let own = String::from_utf8_lossy(&own);
                let length = rng.below(own.chars().count());
                own.chars().take(length).collect::<String>().into_bytes()
            }
            8 => neighbour(&own, rng),
            9 => rng.from(0, 20).to_string().into_bytes(),
            _ => names::name(rng),
        };
        if name.is_empty() || name[0] == b'?' || self.names[kind].contains(&name) {
            return names::fresh(rng, &mut self.names[kind]);
        }
        self.names[kind].push(name.clone());
        name
    }

    /// The kind itself, or one that it rests on where there is none of it yet.
    fn possible(&self, kind: usize) -> usize {
        match kind {
            CTOR if self.draft.book.sorts.is_empty() => SORT,
            RULE if self.draft.book.preds.is_empty() => PRED,
            kind => kind,
        }
    }

    /// A declaration, which from now on others may name.
    fn declare(&mut self, kind: usize, name: Vec<u8>, rng: &mut Random) -> Tree {
        let book = &mut self.draft.book;
        let sorts = book.sorts.len();
        let most = if sorts == 0 { 0 } else { *rng.pick(&[0, 1, 2, 2, 3, 6]) };
        match kind {
            SORT => {
                let tree = list([atom("sort"), atom(&name)]);
                book.sorts.push(name);
                tree
            }
            CTOR => {
                let inputs = rulebook::inputs(rng, sorts, most);
                book.ctors.push(Symbol { name, inputs, output: rng.below(sorts) });
                book.ctor_tree(&book.ctors[book.ctors.len() - 1])
            }
            PRED => {
                book.preds.push(Symbol { name, inputs: rulebook::inputs(rng, sorts, most), output: 0 });
                book.pred_tree(&book.preds[book.preds.len() - 1])
            }
            _ => {
                let (conclusion, premises) = (rng.below(book.preds.len()), rng.below(4));
                let depth = rng.below(3);
                book.rule(rng, conclusion, premises, depth, &mut Vec::new());
                let mut rule = book.rules.pop().expect("a rule");
                rule.name = name;
                book.rule_tree(&rule)
            }
        }
    }

    /// Declarations of one kind or of all.
    fn declarations(&mut self, rng: &mut Random) -> Vec<Tree> {
        let only = if rng.chance(50) { Some(rng.below(4)) } else { None };
        let most = [4, 12, 40][generate::size(rng)];
        let mut out = Vec::new();
        for _ in 0..rng.from(1, most) {
            let kind = self.possible(only.unwrap_or_else(|| rng.below(4)));
            let name = self.name(kind, rng);
            out.push(self.declare(kind, name, rng));
        }
        out
    }

    /// As many declarations as fit, under names as short as there are.
    fn many(&mut self, room: usize, rng: &mut Random) -> Vec<u8> {
        let only = if rng.chance(50) { Some(rng.below(4)) } else { None };
        let mut out = Vec::new();
        for n in 0.. {
            let kind = self.possible(only.unwrap_or_else(|| rng.below(4)));
            let name = base62(n).into_bytes();
            if self.names[kind].contains(&name) {
                continue;
            }
            self.names[kind].push(name.clone());
            let form = tree::write(&tree::tokens(&[self.declare(kind, name, rng)]), Style::Tight, rng);
            if out.len() + form.len() > room {
                break;
            }
            out.extend(form);
        }
        out
    }

    /// A form that is refused: mostly a duplicate.
    fn refused(&mut self, rng: &mut Random) -> Tree {
        let kind = self.possible(rng.below(4));
        match rng.below(8) {
            0..3 => rng.pick(&self.draft.forms[R]).clone(),
            3 | 4 => {
                let name = one_of(&self.names[kind], rng);
                self.declare(kind, name, rng)
            }
            5 => list([atom("pred"), atom(self.name(PRED, rng)), list([atom(names::name(rng))])]),
            6 => list([atom("rule"), atom(self.name(RULE, rng)), list([]), list([atom(names::name(rng))])]),
            _ => [atom("a"), list([]), list([atom("sort"), atom("?a")]), list([atom("sort")])][rng.below(4)].clone(),
        }
    }

    /// A declaration that the certificate uses from now on: a copy of a rule of one of its steps, or a constant.
    fn used_ahead(&mut self, rng: &mut Random) -> Tree {
        self.ahead = true;
        if self.draft.book.sorts.is_empty() || rng.chance(60) {
            let name = atom(self.name(RULE, rng));
            let step = *rng.pick(&self.draft.certificate("step"));
            let old = std::mem::replace(self.draft.at(C, &[step, 2]), name.clone());
            let is_old = |f: &&Tree| f.form("rule") && f.members()[1] == old;
            let mut rule = self.draft.forms[R].iter().find(is_old).expect("the step's rule").clone();
            rule.members_mut().expect("a rule")[1] = name;
            return rule;
        }
        let name = self.name(CTOR, rng);
        let mut used = named(&self.draft.forms[C], "def").map(<[u8]>::to_vec).collect();
        let abbreviation = names::variable(rng, &mut used);
        self.draft.forms[C].insert(0, list([atom("def"), atom(abbreviation), atom(&name)]));
        let sort = rng.pick(&self.draft.book.sorts);
        list([atom("ctor"), atom(name), list([]), atom(sort)])
    }

    /// What is written behind a rulebook that leaves so many bytes for it.
    fn further(&mut self, room: usize, rng: &mut Random) -> Vec<u8> {
        match rng.below(100) {
            0..4 => Vec::new(),
            4..10 => (0..rng.from(1, 5)).flat_map(|_| tree::write(&[], Style::Wild, rng)).collect(),
            10..15 => {
                let room = if rng.chance(50) { room } else { rng.from(0, room) };
                self.many(room, rng)
            }
            15..17 => rulebooks::text(rng),
            17 => spoiled(written(self.declarations(rng), room, rng), rng),
            18..21 => {
                let mut forms = self.declarations(rng);
                let at = rng.below(forms.len() + 1);
                forms.insert(at, self.refused(rng));
                written(forms, room, rng)
            }
            21..26 => {
                let used = self.used_ahead(rng);
                written([vec![used], self.declarations(rng)].concat(), room, rng)
            }
            _ => written(self.declarations(rng), room, rng),
        }
    }
}

/// A release that is accepted, with further text.
fn lengthened(mut texts: Texts, rng: &mut Random) -> Case {
    let mut known = Known::read(&texts, rng);
    if rng.chance(30) {
        let text = known.draft.text(R, rng);
        if text.len() <= RULEBOOK_BYTES {
            texts.rulebook = text;
        }
    }
    if texts.rulebook.len() + END <= RULEBOOK_BYTES {
        end(&mut texts.rulebook, rng);
    }
    let room = RULEBOOK_BYTES.saturating_sub(texts.rulebook.len() + 1);
    let mut further = known.further(room, rng);
    if known.ahead {
        texts.certificate = known.draft.text(C, rng);
    }
    if further.len() + END <= room {
        end(&mut further, rng);
    }
    // Now and then as long as it may be, or one byte longer.
    if rng.chance(6) && further.len() < room {
        let bytes = room - further.len() + usize::from(rng.chance(20));
        further.splice(0..0, filler(bytes, rng).into_bytes());
    }
    Case { texts, further }
}

/// A case; now and then its rulebook was made longer before.
pub fn draw(rng: &mut Random) -> Case {
    let mut case = lengthened(release(rng), rng);
    while rng.chance(10) && accepted(&case.longer()) {
        case = lengthened(case.longer(), rng);
    }
    case
}
