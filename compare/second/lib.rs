//! A second opinion on all calls, worked from document 01, its readings and the customer's later requests alone: it shares
//! no code with the port, with the Rust or with the opened copy of it. It takes raw bytes, any lengths of areas and texts,
//! any limits of the store.
//!
//! `misread!("...")` marks the place of a misreading of 01 that can be planted, one at a time: see misreadings.rs.
#[macro_use]
mod misreadings;
mod page;
mod reader;
mod release;
mod rulebook;
mod steps;
mod store;

pub use misreadings::{COUNT, LONGER, name, of_page, plant};
pub use page::{Judged, Line, Page, Written};

use reader::Reader;
use release::Checker;
use rulebook::Rulebook;

/// A number and four counts, and of the call with three texts a fifth, which the customer's request L1 added: "every request
/// to the store that was met, found or made".
#[derive(Clone, Copy, PartialEq, Eq, Debug)]
pub struct Answer {
    pub number: u8,
    pub counts: [usize; 4],
    pub requested: Option<usize>,
}

/// Nodes and words that the store may hold.
#[derive(Clone, Copy)]
pub struct Limits {
    pub nodes: usize,
    pub words: usize,
}

/// 01's limits of the store.
pub const LIMITS: Limits = Limits { nodes: 2_048, words: 8_192 };

/// Words that each area must have, and that a call leaves zero.
pub const AREA: usize = 16_384;

type Outcome<T> = Result<T, u8>;

/// Area lengths, then text lengths: `texts` has each text's length and limit.
fn lengths(areas: [usize; 4], texts: &[(usize, usize)]) -> Outcome<()> {
    let least = match () {
        _ if misread!("an area of one word fewer is enough") => AREA - 1,
        _ if misread!("an area wants one word more") => AREA + 1,
        _ => AREA,
    };
    let tested = match () {
        _ if misread!("the first area is not tested") => &areas[1..],
        _ if misread!("the fourth area is not tested") => &areas[..3],
        _ => &areas,
    };
    let short = match () {
        _ if misread!("the second area is not tested") => [areas[0], areas[2], areas[3]].iter().any(|&n| n < least),
        _ if misread!("the third area is not tested") => [areas[0], areas[1], areas[3]].iter().any(|&n| n < least),
        _ if misread!("areas are refused only where all are short") => areas.iter().all(|&n| n < least),
        _ => tested.iter().any(|&n| n < least),
    };
    let long = texts.iter().any(|&(length, limit)| length > limit);
    if misread!("text lengths before area lengths") && long {
        return Err(2);
    }
    if short {
        return Err(1);
    }
    if long { Err(2) } else { Ok(()) }
}

/// The limit of rulebook and goals.
fn short_limit(goals: bool) -> usize {
    let (less, more) = if goals {
        (misread!("goals of 8,192 bytes are too long"), misread!("goals of 8,193 bytes are not too long"))
    } else {
        (misread!("a rulebook of 8,192 bytes is too long"), misread!("a rulebook of 8,193 bytes is not too long"))
    };
    8_192 + usize::from(more) - usize::from(less)
}

fn certificate_limit() -> usize {
    match () {
        _ if misread!("a certificate of 32,768 bytes is too long") => 32_767,
        _ if misread!("a certificate of 32,769 bytes is not too long") => 32_769,
        _ => 32_768,
    }
}

/// The call with the rulebook alone.
pub fn rulebook(text: &[u8], areas: [usize; 4]) -> Answer {
    let read = || {
        lengths(areas, &[(text.len(), short_limit(false))])?;
        let book = Rulebook::read(text)?;
        let mut counts = [book.sorts.len(), book.constructors.len(), book.predicates.len(), book.rules.len()];
        if misread!("counts of constructors and predicates exchanged") {
            counts.swap(1, 2);
        }
        Ok(counts)
    };
    match read() {
        Ok(counts) => Answer { number: 0, counts, requested: None },
        Err(number) => Answer { number, counts: [0; 4], requested: None },
    }
}

/// The call with three texts.
pub fn release(rulebook: &[u8], goals: &[u8], certificate: &[u8], areas: [usize; 4], limits: Limits) -> Answer {
    // What was requested before a refusal.
    let mut until = 0;
    let outcome = judged([rulebook, goals, certificate], areas, limits, &mut until, |_, counts| counts);
    answered(outcome, until)
}

/// The call that writes the page, which the customer's request L2 added, before it looks at the lent buffer.
pub fn page(rulebook: &[u8], goals: &[u8], certificate: &[u8], areas: [usize; 4], limits: Limits) -> Judged {
    let mut due = None;
    let outcome = judged([rulebook, goals, certificate], areas, limits, &mut 0, |checker, counts| {
        due = Some(checker.goals.len());
        counts.map(|_| Page::of(checker))
    });
    Judged { outcome, due }
}

/// Three texts read and judged; `end` is asked where the certificate was read, or refused.
fn judged<T>(
    texts: [&[u8]; 3],
    areas: [usize; 4],
    limits: Limits,
    until: &mut usize,
    end: impl FnOnce(&Checker, Outcome<[usize; 5]>) -> Outcome<T>,
) -> Outcome<T> {
    let [rulebook, goals, certificate] = texts;
    let all = [
        (rulebook.len(), short_limit(false)),
        (goals.len(), short_limit(true)),
        (certificate.len(), certificate_limit()),
    ];
    let tested = match () {
        _ if misread!("the goals' length is tested after the rulebook") => &all[..1],
        _ if misread!("the certificate's length is tested after the goals") => &all[..2],
        _ => &all[..],
    };
    lengths(areas, tested)?;
    let book = Rulebook::read(rulebook)?;
    if all[1].0 > all[1].1 {
        return Err(2);
    }
    let mut checker = Checker::new(&book, limits);
    let early = if misread!("no goal is told only at the end") { Ok(()) } else { Err(17) };
    let goals = checker.goals(Reader::new(goals));
    *until = checker.store.requested;
    match goals {
        Err(17) => early?,
        other => other?,
    }
    if all[2].0 > all[2].1 {
        return Err(2);
    }
    let counts = checker.certificate(Reader::new(certificate));
    *until = checker.store.requested;
    end(&checker, counts)
}

/// The answer of a release, and what was requested before a refusal.
fn answered(outcome: Outcome<[usize; 5]>, until: usize) -> Answer {
    match outcome {
        Ok([steps, goals, terms, bytes, requested]) => {
            let mut counts = [steps, goals, terms, bytes];
            let mut requested = requested;
            if misread!("counts of terms and requests exchanged") {
                std::mem::swap(&mut counts[2], &mut requested);
            }
            Answer { number: 0, counts, requested: Some(requested) }
        }
        Err(number) => {
            let requested = if misread!("a refusal has the count of its requests") { until } else { 0 };
            Answer { number, counts: [0; 4], requested: Some(requested) }
        }
    }
}

/// Whether an answer leaves the first 16,384 words of each area zero; otherwise it leaves all untouched.
pub fn clears(number: u8) -> bool {
    number != 1 && number != 2
}
