//! The Rust's answers. Within its domain they come from the unchanged files (crate `reference`); the opened
//! copy (crate `opened`) only tells how full the store was and counts a rulebook's declarations. Texts that are not
//! UTF-8 are answered by the unchanged files as far as they reach; the second opinion (crate `second`) answers all. The
//! Rust has four counts of a release: the fifth, requested, is the second opinion's.
use crate::cases::{Answer, Texts};
use crate::messages;

pub const RULEBOOK_BYTES: usize = 8_192;
pub const GOALS_BYTES: usize = 8_192;
pub const CERTIFICATE_BYTES: usize = 32_768;
/// Words that each area must have.
pub const AREA: usize = 16_384;
pub const NODES: usize = 2_048;
pub const WORDS: usize = 8_192;

#[derive(Clone, Copy, PartialEq, Eq)]
pub enum Text {
    Rulebook,
    Goals,
    Certificate,
}

pub enum Reply {
    /// The unchanged Rust's answer, and the text that a refusal came from.
    Rust(Answer, Option<Text>),
    /// Outside the domain; the driver's own number 2, where a text is too long.
    Outside(&'static str, Option<Answer>),
}

pub fn number(message: &str) -> u8 {
    messages::number(message).unwrap_or_else(|| {
        eprintln!("compare: a message without a number: {message:?}");
        std::process::exit(3);
    })
}

/// Requests to the store by the second opinion, of texts that the unchanged Rust accepts.
fn requested(rulebook: &[u8], goals: &[u8], certificate: &[u8]) -> usize {
    second::release(rulebook, goals, certificate, [AREA; 4], second::LIMITS).requested.unwrap_or(0)
}

/// The unchanged Rust on valid UTF-8, with the text that it refused; the fifth count is the second opinion's.
pub fn unchanged(rulebook: &str, goals: &str, certificate: &[u8]) -> (Answer, Option<Text>) {
    use reference::kernel::Theory;
    let theory = match Theory::parse(rulebook) {
        Ok(theory) => theory,
        Err(e) => return (Answer::refused(number(&e)), Some(Text::Rulebook)),
    };
    match theory.check_reader(goals, certificate) {
        Ok(r) => {
            let requested = requested(rulebook.as_bytes(), goals.as_bytes(), certificate);
            (Answer::release(0, [r.steps, r.goals, r.terms, r.bytes as usize], requested), None)
        }
        Err(e) => {
            // With an empty certificate, goals that are read whole leave a goal open and nothing else.
            let alone = theory.check_reader(goals, &b""[..]).expect_err("no result, no release");
            let text = if number(&alone) == 29 { Text::Certificate } else { Text::Goals };
            (Answer::refused(number(&e)), Some(text))
        }
    }
}

/// The opened copy on raw bytes and any limits of the store: a second opinion, never the oracle.
pub fn second(texts: &Texts, nodes: usize, words: usize) -> Answer {
    if too_long(texts) {
        return Answer::refused(2);
    }
    opened::store::limit(nodes, words);
    let run = opened::kernel::Theory::parse(&texts.rulebook)
        .and_then(|theory| theory.check_reader(&texts.goals, &texts.certificate[..]));
    match run {
        Ok(r) => Answer::release(0, [r.steps, r.goals, r.terms, r.bytes as usize], opened::store::requested()),
        Err(e) => Answer::refused(number(&e)),
    }
}

/// The call with the rulebook alone, by the opened copy.
pub fn second_rulebook(rulebook: &[u8]) -> Answer {
    if rulebook.len() > RULEBOOK_BYTES {
        return Answer::rulebook_refused(2);
    }
    match opened::kernel::Theory::parse(rulebook) {
        Ok(theory) => Answer::rulebook(0, theory.counts()),
        Err(e) => Answer::rulebook_refused(number(&e)),
    }
}

/// The call with the rulebook alone: the number from the unchanged file, the counts from the opened copy.
pub fn rulebook(text: &[u8]) -> Option<Answer> {
    let source = std::str::from_utf8(text).ok()?;
    if text.len() > RULEBOOK_BYTES {
        return None;
    }
    match reference::kernel::Theory::parse(source) {
        Ok(_) => Some(second_rulebook(text)),
        Err(e) => Some(Answer::rulebook_refused(number(&e))),
    }
}

pub fn too_long(texts: &Texts) -> bool {
    texts.rulebook.len() > RULEBOOK_BYTES
        || texts.goals.len() > GOALS_BYTES
        || texts.certificate.len() > CERTIFICATE_BYTES
}

pub fn answer(texts: &Texts) -> Reply {
    if too_long(texts) {
        return Reply::Outside("too long", Some(Answer::refused(2)));
    }
    let Ok(rulebook) = std::str::from_utf8(&texts.rulebook) else {
        return Reply::Outside("rulebook not UTF-8", None);
    };
    let Ok(goals) = std::str::from_utf8(&texts.goals) else {
        return Reply::Outside("goals not UTF-8", None);
    };
    second(texts, usize::MAX, usize::MAX);
    let (nodes, words) = opened::store::used();
    if nodes > NODES || words > WORDS {
        return Reply::Outside("store past its limits", None);
    }
    let (answer, text) = unchanged(rulebook, goals, &texts.certificate);
    Reply::Rust(answer, text)
}

fn from_second(answer: second::Answer) -> Answer {
    match answer.requested {
        Some(requested) => Answer::release(answer.number, answer.counts, requested),
        None => Answer::rulebook(answer.number, answer.counts),
    }
}

/// The second opinion on the call with three texts.
pub fn opinion(texts: &Texts, areas: [usize; 4], limits: second::Limits) -> Answer {
    from_second(second::release(&texts.rulebook, &texts.goals, &texts.certificate, areas, limits))
}

/// The same on the call with the rulebook alone.
pub fn opinion_on_rulebook(text: &[u8], areas: [usize; 4]) -> Answer {
    from_second(second::rulebook(text, areas))
}
