//! Cases and their lines: tab-separated, texts in lowercase hexadecimal, an empty text as `-`.
use std::fmt;

#[derive(Clone, Default)]
pub struct Texts {
    pub rulebook: Vec<u8>,
    pub goals: Vec<u8>,
    pub certificate: Vec<u8>,
}

impl Texts {
    pub fn len(&self) -> usize {
        self.rulebook.len() + self.goals.len() + self.certificate.len()
    }
}

/// A number and its counts: steps, goals, terms, bytes and requested; or sorts, constructors, predicates and rules.
#[derive(Clone, Copy, PartialEq, Eq)]
pub struct Answer {
    pub number: u8,
    counts: [usize; 4],
    /// "every request to the store that was met, found or made"; the call with the rulebook alone has no such count.
    requested: Option<usize>,
}

impl Answer {
    /// Of the call with three texts.
    pub fn release(number: u8, counts: [usize; 4], requested: usize) -> Self {
        Self { number, counts, requested: Some(requested) }
    }

    /// Of the call with the rulebook alone.
    pub fn rulebook(number: u8, counts: [usize; 4]) -> Self {
        Self { number, counts, requested: None }
    }

    /// Three texts refused.
    pub fn refused(number: u8) -> Self {
        Self::release(number, [0; 4], 0)
    }

    /// A rulebook alone refused.
    pub fn rulebook_refused(number: u8) -> Self {
        Self::rulebook(number, [0; 4])
    }

    /// All its counts: five, or four.
    pub fn counts(&self) -> impl Iterator<Item = usize> {
        self.counts.into_iter().chain(self.requested)
    }
}

impl fmt::Display for Answer {
    fn fmt(&self, f: &mut fmt::Formatter<'_>) -> fmt::Result {
        write!(f, "{}", self.number)?;
        self.counts().try_for_each(|n| write!(f, "\t{n}"))
    }
}

pub fn hex(text: &[u8]) -> String {
    if text.is_empty() {
        return "-".into();
    }
    text.iter().map(|b| format!("{b:02x}")).collect()
}

fn unhex(field: &str) -> Option<Vec<u8>> {
    if field == "-" {
        return Some(Vec::new());
    }
    let digits = field.as_bytes();
    if digits.len() % 2 != 0 || !digits.iter().all(u8::is_ascii_hexdigit) {
        return None;
    }
    let byte = |i: usize| u8::from_str_radix(&field[i..i + 2], 16).ok();
    (0..digits.len()).step_by(2).map(byte).collect()
}

impl fmt::Display for Texts {
    fn fmt(&self, f: &mut fmt::Formatter<'_>) -> fmt::Result {
        let [r, g, c] = [&self.rulebook, &self.goals, &self.certificate].map(|t| hex(t));
        write!(f, "{r}\t{g}\t{c}")
    }
}

/// The texts of a case line; what follows the third field is left alone.
pub fn read(line: &str) -> Option<Texts> {
    let mut fields = line.split('\t').map(unhex);
    let mut next = || fields.next().flatten();
    Some(Texts { rulebook: next()?, goals: next()?, certificate: next()? })
}
