//! Whole families of cases, none left out: short texts over bytes that matter, all characters, strings of tokens, pairs of faults.
use crate::call::{Release, RulebookAlone, Seen};
use crate::cases::Texts;
use crate::oracle::{self, AREA};
use crate::page;
use crate::pairs;
use crate::random::Random;
use crate::special;
use std::io::Write;

/// Brackets, the bytes that begin names, comments and numbers, white space of one and two bytes, bytes that are not UTF-8.
const BYTES: &[u8] = b"()?; \n+0az\xc2\x85\xff";

/// Every text of at most `most` parts, each in the place of each text of the bench set.
fn bytes(seen: &mut [Seen; 2], rng: &mut Random, most: u32) {
    for length in 0..=most {
        for n in 0..BYTES.len().pow(length) {
            let text: Vec<u8> = (0..length).map(|k| BYTES[n / BYTES.len().pow(k) % BYTES.len()]).collect();
            seen[1].case::<RulebookAlone>(&text, rng);
            for which in 0..3 {
                let mut texts = special::bench();
                *[&mut texts.rulebook, &mut texts.goals, &mut texts.certificate][which] = text.clone();
                seen[0].case::<Release>(&texts, rng);
            }
        }
    }
}

/// Every character: alone and within an atom of a rulebook, and in the place of the certificate's first space.
fn characters(seen: &mut [Seen; 2], rng: &mut Random) {
    for c in '\0'..=char::MAX {
        let mut bytes = [0; 4];
        let c = c.encode_utf8(&mut bytes).as_bytes();
        seen[1].case::<RulebookAlone>(&c.to_vec(), rng);
        seen[1].case::<RulebookAlone>(&[b"(sort a", c, b"b)"].concat(), rng);
        let mut texts = special::bench();
        let space = texts.certificate.iter().position(|&b| b == b' ').expect("a space");
        texts.certificate.splice(space..=space, c.iter().copied());
        seen[0].case::<Release>(&texts, rng);
    }
}

/// Goals and certificates from these tokens, by what stands before them.
const TOKENS: &[(usize, &str, &[&str])] = &[
    (1, "", &["(", ")", "goal", "g", "?g", "hold", "z", "s"]),
    (1, "(goal g (hold ", &["(", ")", "goal", "g", "q", "z", "s"]),
    (2, "", &["(", ")", "def", "?a", "z", "step", "0", "result"]),
    (2, "(def ?a ", &["(", ")", "?a", "z", "s", "q", "def"]),
    (2, "(step 0 base ())(step 1 ", &["(", ")", "base", "more", "0", "1", "x"]),
    (2, "(step 0 base ())(step 1 more (0) ", &["(", ")", "?x", "z", "s", "hold", "q"]),
    (2, "(step 0 base ())(step 1 more (0))(", &["(", ")", "result", "g", "1", "0", "q"]),
];

/// A refusal that more text cannot change: all but the end of text, no goal, and an open goal.
fn settled(texts: &Texts) -> bool {
    !matches!(oracle::opinion(texts, [AREA; 4], second::LIMITS).number, 0 | 5 | 17 | 29)
}

struct Family<'a> {
    which: usize,
    tokens: &'a [&'a str],
    /// Up to this length nothing is left out; then only texts that may still change are made longer.
    whole: usize,
    most: usize,
}

fn longer(seen: &mut Seen, rng: &mut Random, family: &Family, text: &str, length: usize) {
    let mut texts = special::bench();
    *[&mut texts.rulebook, &mut texts.goals, &mut texts.certificate][family.which] = text.into();
    seen.case::<Release>(&texts, rng);
    if length == family.most || (length >= family.whole && settled(&texts)) {
        return;
    }
    for token in family.tokens {
        longer(seen, rng, family, &format!("{text}{token} "), length + 1);
    }
}

fn tokens(seen: &mut Seen, rng: &mut Random, whole: usize, most: usize) {
    for &(which, before, tokens) in TOKENS {
        longer(seen, rng, &Family { which, tokens, whole, most }, before, 0);
    }
}

fn all_pairs(seen: &mut [Seen; 2], rng: &mut Random) {
    for form in pairs::forms() {
        form.all(|texts| {
            if form.in_rulebook() {
                seen[1].case::<RulebookAlone>(&texts.rulebook, rng);
            }
            seen[0].case::<Release>(&texts, rng);
        });
    }
}

/// One family: `bytes N`, `characters`, `tokens N M`, `pairs`, or `shares N`. Says whether all is as it must be.
pub fn run(what: &[&str], out: &mut impl Write) -> std::io::Result<Option<bool>> {
    if let ["shares", n] = what {
        return page::shares(n.parse().unwrap_or(0), out).map(Some);
    }
    let mut rng = Random::new(1);
    let mut seen = [Seen::new(&mut rng), Seen::new(&mut rng)];
    match what {
        ["bytes", n] => bytes(&mut seen, &mut rng, n.parse().unwrap_or(0)),
        ["characters"] => characters(&mut seen, &mut rng),
        ["tokens", n, m] => tokens(&mut seen[0], &mut rng, n.parse().unwrap_or(0), m.parse().unwrap_or(0)),
        ["pairs"] => all_pairs(&mut seen, &mut rng),
        _ => return Ok(None),
    }
    let what = what.join(" ");
    seen[0].print::<Release>(&format!("{what}, three texts"), out)?;
    seen[1].print::<RulebookAlone>(&format!("{what}, the rulebook alone"), out)?;
    Ok(Some(seen[0].good::<Release>() && seen[1].good::<RulebookAlone>()))
}
