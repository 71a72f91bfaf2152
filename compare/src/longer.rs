//! An old release under a longer rulebook, the customer's request L4: where a release is accepted, and its rulebook, a new line and further
//! text are an accepted rulebook, the static library accepts the release under the longer one with the same five counts.
use crate::call::{self, Call, Held, Release, RulebookAlone};
use crate::cases::{Texts, hex};
use crate::draft::binds;
use crate::lent::{self, Desk};
use crate::longer_texts::{self, Case, KINDS, abbreviated, marked, named, share_bucket};
use crate::oracle::{self, AREA, RULEBOOK_BYTES};
use crate::random::Random;
use crate::tally::Tally;
use crate::tree::{self, Tree};
use std::collections::BTreeMap;
use std::io::Write;
use std::sync::atomic::Ordering::Relaxed;

/// Numbers of a longer rulebook that must come often.
const REFUSED: [u8; 4] = [2, 3, 12, 13];

/// So many pairs must show every misreading, and a release that becomes accepted.
const ENOUGH: usize = 1_000;

/// What pairs show. R is the rulebook, T the further text.
const SHAPES: [&str; 25] = [
    "R ends directly behind a closing",
    "R ends with 0A",
    "R ends in other white space",
    "R ends in a comment without 0A",
    "T is empty",
    "T is white space and comments",
    "T ends in a comment without 0A",
    "new sorts",
    "new constructors",
    "new predicates",
    "new rules",
    "new declarations of all kinds",
    "more than 100 new declarations",
    "the longer rulebook has 8,192 bytes",
    "a new name is R's of another kind",
    "a new name is a goal's",
    "a new name is a variable's of R without ?",
    "a new name is an abbreviation's without ?",
    "a new name is a number",
    "a new name begins with one of R's of its kind, or begins one",
    "a new name shares a bucket with one of R's of its kind",
    "the certificate has abbreviations",
    "the certificate has bindings",
    "the certificate has stated conclusions",
    "the certificate has conclusions that are built",
];

/// How a text ends: behind a closing, with 0A, in other white space, in a comment.
fn ends(text: &[u8]) -> [bool; 4] {
    let line = text.rsplit(|&b| b == b'\n').next().unwrap_or_default();
    let comment = line.contains(&b';');
    let (newline, closing) = (text.ends_with(b"\n"), !comment && text.ends_with(b")"));
    [closing, newline, !newline && !comment && !closing, comment]
}

/// What the names that T declares play on.
fn names(old: &[Tree], new: &[Tree], goals: &[Tree], certificate: &[Tree]) -> [bool; 7] {
    let mut out = [false; 7];
    let (variables, goals) = (marked(old), named(goals, "goal").collect::<Vec<_>>());
    let abbreviations: Vec<_> = abbreviated(certificate).collect();
    let declared = KINDS.map(|head| named(old, head).collect::<Vec<_>>());
    for (kind, name) in KINDS.iter().enumerate().flat_map(|(k, head)| named(new, head).map(move |n| (k, n))) {
        let own = &declared[kind];
        let shows = [
            (0..KINDS.len()).any(|k| k != kind && declared[k].contains(&name)),
            goals.contains(&name),
            variables.iter().any(|v| v == name),
            abbreviations.contains(&name),
            name.iter().all(u8::is_ascii_digit),
            own.iter().any(|o| o.starts_with(name) || name.starts_with(o)),
            own.iter().any(|o| share_bucket(o, name)),
        ];
        out.iter_mut().zip(shows).for_each(|(out, shows)| *out |= shows);
    }
    out
}

/// What the steps of a certificate show.
fn steps(certificate: &[Tree]) -> [bool; 4] {
    let steps: Vec<&[Tree]> = certificate.iter().filter(|f| f.form("step")).map(|f| &f.members()[4..]).collect();
    [
        certificate.iter().any(|f| f.form("def")),
        steps.iter().any(|items| items.iter().any(binds)),
        steps.iter().any(|items| !items.iter().all(binds)),
        steps.iter().any(|items| items.iter().all(binds)),
    ]
}

fn shapes(case: &Case) -> [bool; SHAPES.len()] {
    let Texts { rulebook, goals, certificate } = &case.texts;
    let [old, new, goals, certificate] = [rulebook, &case.further, goals, certificate].map(|text| tree::read(text));
    let [_, _, _, comment] = ends(&case.further);
    let kinds = KINDS.map(|head| named(&new, head).next().is_some());
    let length = rulebook.len() + 1 + case.further.len();
    let empty = case.further.is_empty();
    let shows = [
        &ends(rulebook)[..],
        &[empty, new.is_empty() && !empty, comment],
        &kinds,
        &[kinds.iter().all(|&k| k), new.len() > 100, length == RULEBOOK_BYTES],
        &names(&old, &new, &goals, &certificate),
        &steps(&certificate),
    ];
    shows.concat().try_into().expect("one for each shape")
}

/// Whether the second opinion keeps to L4 on these texts.
fn kept(texts: &Texts, longer: &Texts) -> bool {
    let old = Release::second(texts, [AREA; 4]);
    let alone = RulebookAlone::second(&longer.rulebook, [AREA; 4]);
    old.number != 0 || alone.number != 0 || Release::second(longer, [AREA; 4]) == old
}

/// What was seen of all cases.
struct Seen {
    /// Places for the call with the rulebook, with the longer one alone, and with the longer one.
    desks: [Desk; 3],
    tally: Tally,
    pairs: usize,
    /// Longer rulebooks that are refused, by their numbers.
    refused: BTreeMap<u8, usize>,
    /// Refused releases that the longer rulebook accepts, by their numbers before.
    accepted: BTreeMap<u8, usize>,
    shapes: [usize; SHAPES.len()],
    /// The largest of each count.
    most: [usize; 5],
    /// For each misreading that breaks L4 the first pair that shows it.
    shown: [Option<usize>; second::LONGER.len()],
}

impl Seen {
    fn new(rng: &mut Random) -> Self {
        Self {
            desks: [(); 3].map(|()| Desk::new(rng)),
            tally: Tally::default(),
            pairs: 0,
            refused: BTreeMap::new(),
            accepted: BTreeMap::new(),
            shapes: [0; SHAPES.len()],
            most: [0; 5],
            shown: [None; second::LONGER.len()],
        }
    }

    /// One call, held to the Rust and the second opinion.
    fn call<C: Call>(&mut self, desk: usize, case: &C::Case, rng: &mut Random) -> Held {
        let lengths = lent::long_enough(rng);
        let mut held = call::held::<C>(case, lengths, &mut self.desks[desk], rng);
        held.difference.take().into_iter().for_each(|line| self.tally.differs(line));
        held
    }

    fn case(&mut self, case: &Case, rng: &mut Random) {
        self.tally.cases += 1;
        lent::CASE.store(self.tally.cases, Relaxed);
        let longer = case.longer();
        let old = self.call::<Release>(0, &case.texts, rng).said;
        let alone = self.call::<RulebookAlone>(1, &longer.rulebook, rng).said;
        let Held { due, source, said: new, .. } = self.call::<Release>(2, &longer, rng);
        self.tally.due(due.number, source);
        let promised = match (old.number, alone.number) {
            (0, 0) => {
                self.pair(case, &longer);
                self.most.iter_mut().zip(new.counts()).for_each(|(most, n)| *most = n.max(*most));
                new == old
            }
            (number, 0) => {
                if new.number == 0 {
                    *self.accepted.entry(number).or_default() += 1;
                }
                true
            }
            (_, number) => {
                *self.refused.entry(number).or_default() += 1;
                new.number == number || oracle::too_long(&case.texts)
            }
        };
        if !promised {
            self.tally.differs(format!(
                "{}, further text {}: answered {old}, the longer rulebook {alone}, under it {new}",
                case.texts,
                hex(&case.further)
            ));
        }
    }

    fn pair(&mut self, case: &Case, longer: &Texts) {
        self.pairs += 1;
        self.shapes.iter_mut().zip(shapes(case)).for_each(|(count, shows)| *count += usize::from(shows));
        for (first, &misreading) in self.shown.iter_mut().zip(&second::LONGER).filter(|(first, _)| first.is_none()) {
            second::plant(Some(misreading));
            if !kept(&case.texts, longer) {
                *first = Some(self.pairs);
            }
        }
        second::plant(None);
    }

    /// Whether there were enough pairs for all that must show, and something did not.
    fn lacks(&self) -> bool {
        let shown =
            self.accepted.contains_key(&12) && self.shown.iter().all(|first| first.is_some_and(|n| n <= ENOUGH));
        self.pairs >= ENOUGH && !shown
    }

    fn print(&mut self, what: &str, out: &mut impl Write) -> std::io::Result<()> {
        self.tally.print(what, &REFUSED, out)?;
        writeln!(out, "pairs\t{}", self.pairs)?;
        for (number, count) in &self.refused {
            writeln!(out, "longer rulebook refused\t{count}\tnumber {number}")?;
        }
        for (number, count) in &self.accepted {
            writeln!(out, "accepted only under the longer rulebook\t{count}\tnumber {number} before")?;
        }
        for (count, shape) in self.shapes.iter().zip(SHAPES) {
            writeln!(out, "pairs with\t{count}\t{shape}")?;
        }
        let most: Vec<_> =
            self.most.iter().zip(Release::COUNTED).map(|(n, counted)| format!("{n} {counted}")).collect();
        writeln!(out, "most counted\t{}", most.join(", "))?;
        for (first, &misreading) in self.shown.iter().zip(&second::LONGER) {
            let first = first.map_or("-".into(), |n| n.to_string());
            writeln!(out, "misreading shown by pair\t{first}\t{}", second::name(misreading))?;
        }
        if self.lacks() {
            writeln!(out, "not shown within {ENOUGH} pairs: a misreading, or a release that becomes accepted")?;
        }
        self.tally.print_differences(out)
    }
}

/// Compares until there were `n` pairs, prints what was seen, and says whether all is as it must be.
pub fn compare(n: usize, seed: u64, out: &mut impl Write) -> std::io::Result<bool> {
    let mut rng = Random::new(seed);
    let mut seen = Seen::new(&mut rng);
    while seen.pairs < n {
        let case = longer_texts::draw(&mut rng);
        seen.case(&case, &mut rng);
    }
    seen.print(&format!("seed {seed}"), out)?;
    Ok(seen.tally.good() && !seen.lacks())
}
