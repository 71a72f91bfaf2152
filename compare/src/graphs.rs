//! Releases whose steps all conclude the same, so that any step may refer to any earlier one and any goal's result may name any step:
//! chains, strands and tangles of references, any share of them used.
use crate::cases::Texts;
use crate::oracle::{CERTIFICATE_BYTES, GOALS_BYTES};
use crate::pages::{GOAL, RULE, fresh};
use crate::random::Random;

/// Which earlier steps a step refers to.
#[derive(Clone, Copy)]
enum Shape {
    Any,
    /// One of the last so many.
    Near(usize),
    /// The one so many before: as many strands beside each other.
    Strands(usize),
    /// One of the first so many.
    Far(usize),
}

impl Shape {
    fn random(rng: &mut Random) -> Self {
        match rng.below(6) {
            0 | 1 => Shape::Any,
            2 => Shape::Near(rng.from(1, 5)),
            3 => Shape::Strands(1),
            4 => Shape::Strands(rng.from(2, 6)),
            _ => Shape::Far(rng.from(1, 4)),
        }
    }

    /// One of `n` earlier steps.
    fn reference(self, n: usize, rng: &mut Random) -> usize {
        match self {
            Shape::Any => rng.below(n),
            Shape::Near(most) => n - rng.from(1, most.min(n)),
            Shape::Strands(count) => n - count.min(n),
            Shape::Far(most) => rng.below(most.min(n)),
        }
    }
}

/// How many steps: few, or so many that shares are exact halves of a percent, or as many as fit.
fn count(rng: &mut Random) -> usize {
    match rng.below(100) {
        0..40 => rng.from(1, 12),
        40..70 => 8 * *rng.pick(&[1, 1, 2, 3, 5, 5, 7, 9, 11, 13, 15, 25, 25, 50, 75, 125]),
        70..90 => rng.from(13, 150),
        90..97 => rng.from(151, 700),
        _ => rng.from(701, 3_000),
    }
}

/// A step's number as a certificate may spell it.
pub fn spelled(n: usize, rng: &mut Random) -> String {
    match rng.below(40) {
        0 => format!("+{n}"),
        1 => format!("00{n}"),
        2 => format!("+000000000000000000000{n}"),
        _ => n.to_string(),
    }
}

/// Names by their number of premises, in long columns or short.
fn rules(rng: &mut Random, short: bool) -> [Vec<Vec<u8>>; 4] {
    let mut used = Vec::new();
    std::array::from_fn(|premises| {
        let names = (0..rng.from(1, 3)).map(|n| match short {
            true => format!("{}{n}", ["a", "b", "c", "d"][premises]).into(),
            false => fresh(rng, RULE, &mut used),
        });
        names.collect()
    })
}

fn rulebook(rules: &[Vec<Vec<u8>>; 4]) -> Vec<u8> {
    let mut out = b"(pred p())\n".to_vec();
    for (premises, name) in rules.iter().enumerate().flat_map(|(k, names)| names.iter().map(move |n| (k, n))) {
        out.extend([b"(rule ", &name[..], b" (", &b"(p)".repeat(premises)[..], b") (p))\n"].concat());
    }
    out
}

/// Goals, as many as fit, and the bytes that their results take at most.
fn goals(rng: &mut Random) -> (Vec<Vec<u8>>, Vec<u8>, usize) {
    let most = if rng.chance(80) { rng.from(1, 6) } else { rng.from(7, 60) };
    let (mut names, mut text) = (Vec::new(), Vec::new());
    for _ in 0..most {
        let name = fresh(rng, GOAL, &mut names);
        let form = [b"(goal ", &name[..], b" (p))\n"].concat();
        if text.len() + form.len() > GOALS_BYTES {
            names.pop();
            break;
        }
        text.extend(form);
    }
    let results = names.iter().map(|n| n.len() + 45).sum();
    (names, text, results)
}

/// The step that a result names, of `n`: any, one of the first, of the last, the last, or the one before it.
fn result(n: usize, how: usize, rng: &mut Random) -> usize {
    match how {
        0 | 1 => rng.below(n),
        2 => rng.below(n.min(8)),
        3 => n - rng.from(1, n.min(8)),
        4 => n - 1,
        _ => n - n.min(2),
    }
}

/// Steps until their count is reached or `end` bytes are.
fn steps(rng: &mut Random, rules: &[Vec<Vec<u8>>; 4], count: usize, end: usize) -> Vec<Vec<u8>> {
    // Long ones are one chain more often, so that almost all of it is used.
    let shape = if count > 150 && rng.chance(30) { Shape::Strands(1) } else { Shape::random(rng) };
    let fresh_ones = *rng.pick(&[0, 0, 2, 10, 30]);
    let most = rng.from(1, 3);
    let (mut out, mut bytes) = (Vec::new(), 0);
    while out.len() < count {
        let n = out.len();
        let premises = if n == 0 || rng.chance(fresh_ones) { 0 } else { rng.from(1, most) };
        let refs: Vec<String> = (0..premises).map(|_| spelled(shape.reference(n, rng), rng)).collect();
        let name = rng.pick(&rules[premises]);
        let step =
            [b"(step ", spelled(n, rng).as_bytes(), b" ", name, b" (", refs.join(" ").as_bytes(), b"))\n"].concat();
        bytes += step.len();
        if bytes > end {
            break;
        }
        out.push(step);
    }
    out
}

pub fn texts(rng: &mut Random) -> Texts {
    let count = count(rng);
    let rules = rules(rng, count > 300);
    let (mut names, goals, results) = goals(rng);
    let steps = steps(rng, &rules, count, CERTIFICATE_BYTES - results);
    let (how, late) = (rng.below(6), *rng.pick(&[0, 50, 100]));
    // Behind each step the results that name it and come early; the others at the end, in any order.
    let mut early = vec![Vec::new(); steps.len()];
    let mut last = Vec::new();
    rng.shuffle(&mut names);
    for name in names {
        let n = result(steps.len(), how, rng);
        let form = [b"(result ", &name[..], b" ", spelled(n, rng).as_bytes(), b")\n"].concat();
        if rng.chance(late) { last.extend(form) } else { early[n].extend(form) }
    }
    let forms: Vec<u8> = steps.into_iter().zip(early).flat_map(|(step, results)| [step, results].concat()).collect();
    Texts { rulebook: rulebook(&rules), goals, certificate: [forms, last].concat() }
}

/// A chain of so many steps and one goal, whose result leans on so many of them.
pub fn chain(steps: usize, used: usize) -> Texts {
    let forms = (0..steps).map(|n| match n {
        0 => "(step 0 a())".into(),
        n => format!("(step {n} b({}))", n - 1),
    });
    let certificate: String = forms.chain([format!("(result g {})", used - 1)]).collect();
    let rulebook = "(pred p())(rule a()(p))(rule b((p))(p))".into();
    Texts { rulebook, goals: "(goal g(p))".into(), certificate: certificate.into() }
}
