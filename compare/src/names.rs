//! Names: ASCII, words of the forms, characters beyond ASCII, FEFF and NUL, and neighbours of white space.
use crate::random::Random;

const WORDS: &[&str] = &["sort", "ctor", "pred", "rule", "goal", "step", "result", "def", "by", "hold", "base", "more"];
const ODD: &[&str] =
    &["[", "]x", "{}", "a?b", "x?", "+1", "-0", "007", "'", "\"", "\\", "#", "|", ",", ".", "\\n", "1", "0"];
const BEYOND: &[&str] = &[
    "é",
    "λ",
    "漢",
    "字é",
    "😀",
    "a\u{308}",
    "Ω≠",
    "ы",
    "\u{7ff}",
    "\u{800}",
    "\u{d7ff}",
    "\u{e000}",
    "\u{ffff}",
    "\u{10000}",
    "\u{10ffff}",
    "ß",
    "\u{fffd}",
];
const FEFF_NUL: &[&str] = &["\u{feff}", "\u{feff}a", "a\u{feff}", "\0", "a\0", "\0\0", "\0a"];
/// Not white space, each next to a character that is, or taken for it elsewhere.
const NEAR: &[&str] = &[
    "\u{8}", "\u{e}", "\u{1c}", "\u{1f}", "\u{7f}", "\u{84}", "\u{86}", "\u{9f}", "\u{a1}", "\u{167f}", "\u{1681}",
    "\u{180e}", "\u{1fff}", "\u{200b}", "\u{2027}", "\u{202a}", "\u{202e}", "\u{2030}", "\u{205e}", "\u{2060}", "\u{10020}", "\u{12028}",
    "\u{2fff}", "\u{3001}",
];

pub fn name(rng: &mut Random) -> Vec<u8> {
    let text = match rng.below(100) {
        0..60 => {
            let mut s = String::from(*rng.pick(&["a", "b", "c", "f", "g", "p", "q", "s", "t", "x", "y", "z"]));
            if rng.chance(25) {
                s.push(*rng.pick(&['0', '1', '2', 'a', 'b']));
            }
            s
        }
        60..68 => rng.pick(WORDS).to_string(),
        68..76 => rng.pick(ODD).to_string(),
        76..88 => rng.pick(BEYOND).to_string(),
        88..94 => rng.pick(FEFF_NUL).to_string(),
        _ => rng.pick(NEAR).to_string(),
    };
    text.into_bytes()
}

/// A name that is not yet among `used`, which it joins. Sometimes a longer copy of one that is there.
pub fn fresh(rng: &mut Random, used: &mut Vec<Vec<u8>>) -> Vec<u8> {
    let mut n = name(rng);
    if !used.is_empty() && rng.chance(10) {
        n = [rng.pick(used).clone(), n].concat();
    }
    while used.contains(&n) {
        n.extend(name(rng));
    }
    used.push(n.clone());
    n
}

/// The same with a leading `?`.
pub fn variable(rng: &mut Random, used: &mut Vec<Vec<u8>>) -> Vec<u8> {
    loop {
        let n = if rng.chance(5) { b"?".to_vec() } else { name(rng) };
        let v = [b"?".to_vec(), n].concat();
        if !used.contains(&v) {
            used.push(v.clone());
            return v;
        }
        let longer = [v, name(rng)].concat();
        if !used.contains(&longer) {
            used.push(longer.clone());
            return longer;
        }
    }
}
