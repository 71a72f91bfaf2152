//! Texts to lex, 32,768 bytes at most: the lines of bench/lex again and again, and words drawn at random, which no branch predictor can learn.
use crate::lines::LINES;
use crate::random::Random;
use std::ops::RangeInclusive;

const BYTES: usize = 32_768;

/// Letters, and what parts words beside a space, a bracket and a line's end.
type Alphabet = (&'static str, &'static [RangeInclusive<char>], &'static [char]);

const ALPHABETS: [Alphabet; 6] = [
    ("ASCII, drawn", &['a'..='z', '0'..='9'], &['\t']),
    ("two-byte, drawn", &['а'..='я', 'α'..='ω', 'ß'..='ÿ'], &['\u{A0}', '\u{85}']),
    ("three-byte above 3000, drawn", &['一'..='俿', 'ぁ'..='ん', '가'..='갿'], &['\u{3000}']),
    ("three-byte below 3000, drawn", &['ก'..='ฮ', 'ა'..='ჰ', 'Ḁ'..='ỹ', '←'..='⇿'], &['\u{2003}', '\u{2009}', '\u{2028}', '\u{205F}']),
    ("four-byte, drawn", &['\u{12028}'..='\u{12100}', '😀'..='😿', '𝒜'..='𝓏'], &['\t']),
    ("all of these, drawn", &['a'..='z', 'а'..='я', '一'..='俿', 'ก'..='ฮ', '😀'..='😿'], &['\u{A0}', '\u{3000}', '\u{2003}']),
];

fn drawn(seed: u64, (_, letters, blanks): &Alphabet) -> String {
    let rng = &mut Random::new(seed);
    let letters: Vec<Vec<char>> = letters.iter().map(|r| r.clone().collect()).collect();
    let mut text = String::new();
    while text.len() < BYTES - 64 {
        for _ in 0..rng.from(1, 12) {
            let range = rng.pick(&letters);
            text.push(*rng.pick(range));
        }
        // Some words are parted by white space of the alphabet's own.
        text.push(if rng.chance(20) { *rng.pick(blanks) } else { *rng.pick(&[' ', ' ', ' ', '(', ')', '\n']) });
    }
    text
}

/// All texts, by name.
pub fn texts() -> Vec<(&'static str, String)> {
    let ascii = ("ASCII", "(step 1 more (0) (hold (s (s z))))\n");
    let lines = std::iter::once(ascii).chain(LINES.map(|(name, _, line)| (name, line)));
    let lines = lines.map(|(name, line)| (name, line.repeat(BYTES / line.len())));
    lines.chain(ALPHABETS.iter().zip(1..).map(|(a, seed)| (a.0, drawn(seed, a)))).collect()
}
