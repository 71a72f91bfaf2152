//! Expected answers on any bytes, and who gives them: the unchanged Rust in its domain; on texts that are not UTF-8 the
//! unchanged files as far as they reach, never an edited copy.
use crate::cases::{Answer, Texts};
use crate::oracle::{NODES, RULEBOOK_BYTES, Text, WORDS, number, rulebook, second, too_long, unchanged};

/// Who gives an expected answer.
#[derive(Clone, Copy, Debug)]
pub enum Source {
    /// The unchanged Rust, in its domain.
    Rust = 0,
    /// The unchanged Rust or its reader, up to a line that is not UTF-8.
    Reader = 1,
    /// Nobody else: the store past its limits.
    Second = 2,
    /// Nobody else: lengths.
    Lengths = 3,
}

/// A rulebook that is not UTF-8 is never read whole: the unchanged lex.rs and sexp.rs, which take any bytes, refuse it.
fn read_bytes(text: &[u8]) -> u8 {
    let mut lexer = reference::lex::Lexer::new(text);
    let mut read = || -> Result<(), String> {
        while lexer.peek()?.is_some() {
            reference::sexp::read(&mut lexer, 0)?;
        }
        Ok(())
    };
    number(&read().expect_err("a bad line is met"))
}

/// The lines before the first that is not UTF-8.
fn good_lines(text: &[u8]) -> &str {
    let good = text.split_inclusive(|&b| b == b'\n').take_while(|line| std::str::from_utf8(line).is_ok());
    let bytes = good.map(<[u8]>::len).sum();
    std::str::from_utf8(&text[..bytes]).expect("good lines")
}

pub fn rulebook_of_any_bytes(text: &[u8]) -> Option<(Answer, Source)> {
    match rulebook(text) {
        Some(answer) => Some((answer, Source::Rust)),
        None if text.len() > RULEBOOK_BYTES => None,
        None => Some((Answer::rulebook_refused(read_bytes(text)), Source::Reader)),
    }
}

/// Goals that are not UTF-8: the unchanged Rust reads the lines before the bad one. Where it meets their end (5), or
/// reads them whole (17, 29), the bad line is needed: 3.
fn goals_up_to_bad_line(rulebook: &str, goals: &[u8]) -> Answer {
    let (answer, text) = unchanged(rulebook, good_lines(goals), b"");
    match (answer.number, text) {
        (_, Some(Text::Rulebook)) => answer,
        (5 | 17 | 29, _) => Answer::refused(3),
        _ => answer,
    }
}

/// What the unchanged Rust or its reader says of any texts; nothing of lengths and of a store past its limits.
pub fn release_of_any_bytes(texts: &Texts) -> Option<(Answer, Source)> {
    if too_long(texts) {
        return None;
    }
    let Ok(rulebook) = std::str::from_utf8(&texts.rulebook) else {
        return Some((Answer::refused(read_bytes(&texts.rulebook)), Source::Reader));
    };
    second(texts, usize::MAX, usize::MAX);
    let (nodes, words) = opened::store::used();
    if nodes > NODES || words > WORDS {
        return None;
    }
    match std::str::from_utf8(&texts.goals) {
        Ok(goals) => Some((unchanged(rulebook, goals, &texts.certificate).0, Source::Rust)),
        Err(_) => Some((goals_up_to_bad_line(rulebook, &texts.goals), Source::Reader)),
    }
}
