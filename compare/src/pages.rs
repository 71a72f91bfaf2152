//! Cases for the call that writes the release page: accepted releases with several goals, unused steps, chains of references and
//! names about as long as their columns; and those of the call with three texts.
use crate::cases::Texts;
use crate::draft::{C, Draft, G, R};
use crate::generate;
use crate::graphs;
use crate::names;
use crate::random::Random;
use crate::releases;
use crate::tree::{Tree, atom, list};

/// Bytes of the page's columns for a goal's name and a rule's.
pub const GOAL: usize = 32;
pub const RULE: usize = 22;

/// Characters of one to four bytes that a name may hold anywhere.
const CHARACTERS: [&[&str]; 4] = [
    &["a", "b", "x", "0", "-", "+", "?", "%", "\0", "\u{7f}"],
    &["é", "ß", "ы", "\u{84}", "\u{a1}", "\u{308}", "\u{7ff}"],
    &["\u{800}", "漢", "字", "\u{200b}", "\u{2060}", "\u{d7ff}", "\u{e000}", "\u{feff}", "\u{fffd}", "\u{ffff}"],
    &["\u{10000}", "😀", "\u{40000}", "\u{fffff}", "\u{10ffff}"],
];

/// Characters of so many bytes together; of one length as far as they fit, or of any.
fn filled(rng: &mut Random, bytes: usize) -> String {
    let one = if rng.chance(30) { Some(rng.from(1, 4)) } else { None };
    let ascii = rng.chance(30);
    let mut out = String::new();
    while out.len() < bytes {
        let room = (bytes - out.len()).min(4);
        let length = match one {
            _ if ascii => 1,
            Some(length) => length.min(room),
            None => rng.from(1, room),
        };
        out += *rng.pick(CHARACTERS[length - 1]);
    }
    out
}

/// A name about as long as its column: a character of one to four bytes begins some bytes before its end, or at it, and more follows or not.
fn long(rng: &mut Random, width: usize) -> Vec<u8> {
    let (before, length) = (width - rng.below(5), rng.from(1, 4));
    let mut out = filled(rng, before);
    out += *rng.pick(CHARACTERS[length - 1]);
    if rng.chance(50) {
        let more = if rng.chance(80) { rng.from(1, 4) } else { rng.from(1, 60) };
        out += &filled(rng, more);
    }
    // No name leads with `?`.
    if out.starts_with('?') {
        out.replace_range(..1, "q");
    }
    out.into_bytes()
}

/// A name for a column, not yet among `used`: about as long as it, or a usual one. Names that only differ behind the column come too.
pub fn fresh(rng: &mut Random, width: usize, used: &mut Vec<Vec<u8>>) -> Vec<u8> {
    if rng.chance(20) {
        return names::fresh(rng, used);
    }
    let mut name = long(rng, width);
    if !used.is_empty() && rng.chance(10) {
        name = rng.pick(used).clone();
    }
    while used.contains(&name) {
        let more = rng.from(1, 3);
        name.extend(filled(rng, more).bytes());
    }
    used.push(name.clone());
    name
}

/// Gives every name at this place of these forms another one, and says which.
fn rename(forms: &mut [Tree], head: &str, width: usize, rng: &mut Random) -> Vec<(Tree, Tree)> {
    let mut used = Vec::new();
    let mut out = Vec::new();
    for form in forms.iter_mut().filter(|f| f.form(head)) {
        let place = &mut form.members_mut().expect("a form")[1];
        let new = atom(fresh(rng, width, &mut used));
        out.push((std::mem::replace(place, new.clone()), new));
    }
    out
}

/// Follows a renaming where forms with this head name the old ones.
fn follow(forms: &mut [Tree], head: &str, place: usize, renamed: &[(Tree, Tree)]) {
    for form in forms.iter_mut().filter(|f| f.form(head)) {
        let name = &mut form.members_mut().expect("a form")[place];
        if let Some((_, new)) = renamed.iter().find(|(old, _)| old == name) {
            *name = new.clone();
        }
    }
}

/// Copies of rules under other names, which steps may take instead.
fn more_rules(draft: &mut Draft, rng: &mut Random) -> Vec<(Tree, Tree)> {
    let rules: Vec<Tree> = draft.forms[R].iter().filter(|f| f.form("rule")).cloned().collect();
    let mut used: Vec<Vec<u8>> = draft.book.rules.iter().map(|r| r.name.clone()).collect();
    let mut out = Vec::new();
    for mut rule in rules {
        if rng.chance(40) {
            continue;
        }
        let name = atom(names::fresh(rng, &mut used));
        let old = std::mem::replace(&mut rule.members_mut().expect("a rule")[1], name.clone());
        draft.forms[R].push(rule);
        out.push((old, name));
    }
    out
}

/// A step once more under the next number, now and then by a copy of its rule.
fn again(step: &Tree, number: usize, rules: &[(Tree, Tree)], rng: &mut Random) -> Tree {
    let mut copy = step.clone();
    let members = copy.members_mut().expect("a step");
    members[1] = atom(number.to_string());
    let same: Vec<_> = rules.iter().filter(|(old, _)| *old == members[2]).collect();
    if !same.is_empty() && rng.chance(60) {
        members[2] = rng.pick(&same).1.clone();
    }
    copy
}

/// Whether a tree holds an abbreviation or a variable.
fn abbreviates(tree: &Tree) -> bool {
    tree.variable() || tree.members().iter().any(abbreviates)
}

/// A judgment that a step states without abbreviations.
fn stated(step: &Tree) -> Option<&Tree> {
    step.members()[4..].iter().find(|item| !abbreviates(item))
}

/// The steps of a draft, and for each the first that it is a copy of.
struct Grown {
    steps: Vec<Tree>,
    first: Vec<usize>,
}

impl Grown {
    /// The steps that conclude the same as this one, as far as is known.
    fn copies(&self, n: usize) -> Vec<usize> {
        (0..self.steps.len()).filter(|&m| self.first[m] == self.first[n]).collect()
    }
}

/// Copies of steps behind the others, so that some are unused.
fn more_steps(draft: &mut Draft, rules: &[(Tree, Tree)], rng: &mut Random) -> Grown {
    let steps: Vec<Tree> = draft.certificate("step").into_iter().map(|i| draft.forms[C][i].clone()).collect();
    let mut grown = Grown { first: (0..steps.len()).collect(), steps };
    for _ in 0..rng.below(1 + 2 * grown.steps.len()) {
        let of = rng.below(grown.steps.len());
        let copy = again(&grown.steps[of], grown.steps.len(), rules, rng);
        draft.forms[C].push(copy.clone());
        grown.steps.push(copy);
        grown.first.push(grown.first[of]);
    }
    grown
}

/// Goals for what steps state, with results that name the step or a copy of it, in any order.
fn more_goals(draft: &mut Draft, grown: &Grown, rng: &mut Random) {
    let mut used: Vec<Vec<u8>> = Vec::new();
    draft.forms[G].iter().for_each(|g| {
        if let Tree::Atom(name) = &g.members()[1] {
            used.push(name.clone())
        }
    });
    let mut results = Vec::new();
    for (n, step) in grown.steps.iter().enumerate() {
        let Some(judgment) = stated(step).filter(|_| rng.chance(40)) else { continue };
        let name = atom(names::fresh(rng, &mut used));
        let copies = grown.copies(n);
        let at = rng.below(draft.forms[G].len() + 1);
        draft.forms[G].insert(at, list([atom("goal"), name.clone(), judgment.clone()]));
        results.push(list([atom("result"), name, atom(rng.pick(&copies).to_string())]));
    }
    rng.shuffle(&mut results);
    draft.forms[C].extend(results);
}

/// Some results move behind all steps, where each names its step or a copy of it.
fn other_results(draft: &mut Draft, grown: &Grown, rng: &mut Random) {
    for i in draft.certificate("result").into_iter().rev() {
        if rng.chance(50) {
            continue;
        }
        let mut result = draft.forms[C].remove(i);
        let members = result.members_mut().expect("a result");
        let Tree::Atom(number) = &members[2] else { unreachable!("a number") };
        let number: usize = String::from_utf8_lossy(number).parse().expect("a number");
        let copies = grown.copies(number);
        members[2] = atom(graphs::spelled(*rng.pick(&copies), rng));
        draft.forms[C].push(result);
    }
}

/// An accepted release of the generator, grown and renamed.
pub fn grown(rng: &mut Random) -> Texts {
    let size = generate::size(rng);
    let mut draft = Draft::random(rng, size);
    let rules = more_rules(&mut draft, rng);
    let grown = more_steps(&mut draft, &rules, rng);
    more_goals(&mut draft, &grown, rng);
    other_results(&mut draft, &grown, rng);
    let rules = rename(&mut draft.forms[R], "rule", RULE, rng);
    follow(&mut draft.forms[C], "step", 2, &rules);
    let goals = rename(&mut draft.forms[G], "goal", GOAL, rng);
    follow(&mut draft.forms[C], "result", 1, &goals);
    if rng.chance(4) {
        // A goal is left open.
        let results = draft.certificate("result");
        let at = *rng.pick(&results);
        draft.forms[C].remove(at);
    }
    draft.write(rng)
}

pub fn texts(rng: &mut Random) -> Texts {
    match rng.below(100) {
        0..35 => grown(rng),
        35..60 => graphs::texts(rng),
        _ => releases::texts(rng),
    }
}

/// Lengths of the buffer for a page of so many bytes, or for none: none at all, some that lack up to a line, next to the page's, and longer.
pub fn rooms(page: Option<usize>, rng: &mut Random) -> Vec<usize> {
    let Some(page) = page else {
        return vec![0, 65 * rng.from(1, 12) - rng.below(2), rng.below(5_000)];
    };
    let less = [(); 3].map(|()| page - rng.from(1, 66.min(page)));
    let more = page + if rng.chance(90) { rng.below(200) } else { rng.below(20_000) };
    [&[0][..], &less, &[rng.below(page), page - 1, page, page + 1, more]].concat()
}
