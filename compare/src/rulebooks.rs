//! Rulebooks for the call with the rulebook alone: valid, aimed at each number, damaged, large, and not UTF-8.
use crate::aim;
use crate::damage;
use crate::draft::{BAD, Draft};
use crate::generate;
use crate::oracle::{self, RULEBOOK_BYTES};
use crate::pairs;
use crate::random::Random;
use crate::rulebook::Rulebook;
use crate::special;
use crate::tree::{self, atom, list};

/// The numbers of a rulebook's refusals, 1 and 2 apart. 10 cannot occur.
pub const NUMBERS: [u8; 13] = [3, 4, 5, 6, 7, 8, 9, 11, 12, 13, 14, 15, 16];

/// A draft whose goals and certificate are there only to be passed over.
fn draft(rng: &mut Random) -> Draft {
    let size = generate::size(rng);
    let book = Rulebook::random(rng, size);
    let rulebook = book.trees(rng);
    let goal = list([atom("goal"), atom("g"), list([atom("p")])]);
    let result = list([atom("result"), atom("g"), atom("0")]);
    Draft { book, forms: [rulebook, vec![goal], vec![result]], styles: [(); 3].map(|()| tree::style(rng)) }
}

fn valid(rng: &mut Random) -> Vec<u8> {
    let draft = draft(rng);
    draft.text(crate::draft::R, rng)
}

fn not_utf8(rng: &mut Random) -> Vec<u8> {
    let text = valid(rng);
    spoiled(text, rng)
}

/// A text with bytes that are not UTF-8 put in.
pub fn spoiled(mut text: Vec<u8>, rng: &mut Random) -> Vec<u8> {
    for _ in 0..rng.from(1, 2) {
        let mut bad = rng.pick(BAD).to_vec();
        if rng.chance(40) {
            bad.insert(0, b'\n');
        }
        if rng.chance(20) {
            bad.splice(0..0, *b" ; ");
        }
        let at = rng.below(text.len() + 1);
        text.splice(at..at, bad);
    }
    // Now and then something that is refused on an earlier line.
    if rng.chance(25) {
        let early = *rng.pick(&[&b")\n"[..], b"a\n", b"()\n", b"(\n"]);
        text.splice(0..0, early.iter().copied());
    }
    text
}

/// A rulebook damaged towards `number`: a few tries, since an aim may fall on a text that is passed over.
fn aimed(number: u8, rng: &mut Random) -> Vec<u8> {
    for _ in 0..16 {
        if number == 3 {
            return not_utf8(rng);
        }
        let Some(texts) = aim::aim(number, draft(rng), rng) else { continue };
        if oracle::second_rulebook(&texts.rulebook).number == number {
            return texts.rulebook;
        }
    }
    valid(rng)
}

/// Bytes changed anywhere, mostly ASCII.
fn bytes_changed(rng: &mut Random) -> Vec<u8> {
    let mut text = valid(rng);
    for _ in 0..rng.from(1, 4) {
        let at = rng.below(text.len());
        text[at] = if rng.chance(85) { *rng.pick(b"()?; \nabt\0[") } else { rng.below(256) as u8 };
    }
    text
}

/// Names of a few bytes, as many as fit into a length near the limit; now and then a last one that is refused.
fn large(rng: &mut Random) -> Vec<u8> {
    let kinds = rng.from(1, 4);
    let mut text = b"(sort t)(pred p())".to_vec();
    let end = RULEBOOK_BYTES - rng.below(40);
    for n in 0.. {
        let name = base62(n);
        let form = match n % kinds {
            0 => format!("(sort {name})"),
            1 => format!("(ctor {name}()t)"),
            2 => format!("(pred {name}(t))"),
            _ => format!("(rule {name}()(p))"),
        };
        if text.len() + form.len() > end {
            break;
        }
        text.extend(form.bytes());
    }
    match rng.below(4) {
        0 => text.extend(b"(sort t)"),
        1 => text.extend(b"(rule x()(q))"),
        _ => {}
    }
    while rng.chance(80) {
        text.push(b' ');
    }
    if rng.chance(30) {
        text.resize(RULEBOOK_BYTES + rng.below(2), b' ');
    }
    text
}

pub fn base62(mut n: usize) -> String {
    let digits = b"abcdefghijklmnopqrsuvwxyzABCDEFGHIJKLMNOPQRSTUVWXYZ0123456789";
    let mut out = String::new();
    loop {
        out.push(digits[n % digits.len()] as char);
        n /= digits.len();
        if n == 0 {
            return out;
        }
    }
}

pub fn text(rng: &mut Random) -> Vec<u8> {
    let mut text = match rng.below(1000) {
        0..260 => valid(rng),
        260..460 => pairs::rulebook(rng),
        460..760 => {
            let number = *rng.pick(&NUMBERS);
            aimed(number, rng)
        }
        760..880 => damage::damage(draft(rng), rng).0.rulebook,
        880..940 => bytes_changed(rng),
        940..960 => special::deep(rng).0.rulebook,
        960..980 => special::soup(rng).0.rulebook,
        980..985 => large(rng),
        _ => not_utf8(rng),
    };
    // Now and then as long as it may be, or one byte longer.
    if rng.below(100) == 0 && text.len() < RULEBOOK_BYTES {
        text.resize(RULEBOOK_BYTES + rng.below(2), b' ');
    }
    text
}
