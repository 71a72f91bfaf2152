//! The mixture of cases, and the fixed list.
use crate::aim::{self, AIMS};
use crate::cases::{Answer, Texts};
use crate::damage;
use crate::draft::Draft;
use crate::oracle::{self, Reply, Text};
use crate::random::Random;
use crate::rulebook::Size;
use crate::special;
use crate::tree::{self, Style, Token};
use std::collections::{BTreeMap, HashSet};

pub struct Case {
    pub texts: Texts,
    /// What was done to a valid case, or `valid`.
    pub kind: String,
}

pub fn size(rng: &mut Random) -> Size {
    match rng.below(100) {
        0..55 => 0,
        55..88 => 1,
        _ => 2,
    }
}

/// One case; `small` keeps to the smallest size.
pub fn case(rng: &mut Random, small: bool) -> Case {
    let size = if small { 0 } else { size(rng) };
    let (texts, kind) = match rng.below(1000) {
        0..310 => (Draft::random(rng, size).write(rng), "valid".into()),
        310..325 => special::deep(rng),
        325..335 => special::doubling(rng),
        335..338 if !small => special::full(rng),
        338..340 if !small => special::many_requests(rng),
        335..350 => special::soup(rng),
        350..740 => {
            let number = *rng.pick(AIMS);
            let texts = loop {
                if let Some(texts) = aim::aim(number, Draft::random(rng, size), rng) {
                    break texts;
                }
            };
            (texts, format!("aimed-{number}"))
        }
        _ => damage::damage(Draft::random(rng, size), rng),
    };
    Case { texts, kind }
}

/// A case with the unchanged Rust's answer.
pub struct Answered {
    pub case: Case,
    pub answer: Answer,
    text: Option<Text>,
}

fn answered(case: Case) -> Option<Answered> {
    match oracle::answer(&case.texts) {
        Reply::Rust(answer, text) => Some(Answered { case, answer, text }),
        Reply::Outside(..) => None,
    }
}

/// The tokens of a text of the bench set, which has no comment and no white space but space and 0A.
fn split(text: &[u8]) -> Vec<Token> {
    let mut out: Vec<Token> = Vec::new();
    let mut apart = true;
    for &b in text {
        match b {
            b'(' | b')' => out.push(vec![b]),
            b' ' | b'\n' => {}
            _ if apart => out.push(vec![b]),
            _ => out.last_mut().expect("a token begun").push(b),
        }
        apart = matches!(b, b'(' | b')' | b' ' | b'\n');
    }
    out
}

/// The bench set cut at every length, and with each token dropped, doubled, or swapped with the next.
fn bench_family() -> Vec<Case> {
    let bench = special::bench();
    let mut out = vec![Case { texts: bench.clone(), kind: "bench".into() }];
    let texts = [&bench.rulebook, &bench.goals, &bench.certificate];
    let mut put = |which: usize, text: Vec<u8>, kind: &str| {
        let mut texts = bench.clone();
        *[&mut texts.rulebook, &mut texts.goals, &mut texts.certificate][which] = text;
        out.push(Case { texts, kind: format!("bench-{kind}") });
    };
    for (which, text) in texts.into_iter().enumerate() {
        (0..text.len()).for_each(|n| put(which, text[..n].to_vec(), "cut"));
        let tokens = split(text);
        let plain = |tokens: &[Token]| tree::write(tokens, Style::Plain, &mut Random::new(0));
        for i in 0..tokens.len() {
            let mut t = tokens.clone();
            t.insert(i, tokens[i].clone());
            put(which, plain(&t), "token-doubled");
            let mut t = tokens.clone();
            t.remove(i);
            put(which, plain(&t), "token-dropped");
            if i + 1 < tokens.len() && tokens[i] != tokens[i + 1] {
                let mut t = tokens.clone();
                t.swap(i, i + 1);
                put(which, plain(&t), "tokens-swapped");
            }
        }
    }
    out
}

const FIXED_SEED: u64 = 20_260;
const FIXED_DRAWN: usize = 60_000;

/// The fixed list: the bench family, then small random cases, so many of each number and text.
pub fn fixed() -> Vec<Answered> {
    let mut seen = HashSet::new();
    let mut out: Vec<Answered> = Vec::new();
    for case in bench_family() {
        if seen.insert(case.texts.to_string()) {
            out.extend(answered(case));
        }
    }
    let mut held: BTreeMap<(u8, u8), usize> = BTreeMap::new();
    let mut rng = Random::new(FIXED_SEED);
    for _ in 0..FIXED_DRAWN {
        let Some(a) = answered(case(&mut rng, true)) else { continue };
        let deep = a.answer.number == 4 || a.case.kind.starts_with("depth");
        let (bytes, quota) = match a.answer.number {
            0 if deep => (1600, 515),
            0 => (400, 500),
            4 => (1200, 12),
            3 | 18.. => (400, 55),
            _ => (400, 36),
        };
        let text = a.text.map_or(0, |t| 1 + t as u8);
        let held = held.entry((a.answer.number, text)).or_default();
        if *held < quota && a.case.texts.len() <= bytes && seen.insert(a.case.texts.to_string()) {
            *held += 1;
            out.push(a);
        }
    }
    out
}
