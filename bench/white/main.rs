//! The white-space test, a look at each character and the lexer: of this tree, of an older one and of the Rust. See bench/README.md.
#[allow(dead_code)]
mod lex;
#[path = "lex/lines.rs"]
mod lines;
#[allow(dead_code)]
#[path = "shared/measure.rs"]
mod measure;
#[allow(dead_code)]
mod random;
#[allow(dead_code)]
mod sexp;
mod tables;
mod texts;

use measure::{median, now};
use std::hint::black_box;

/// The number of white space among the kinds.
const WHITE: u64 = 1;
const ROUNDS: usize = 51;
const TURNS: usize = 8;

// So many bytes before the code of all sides: where code stands counts, so each run is built with another number.
std::arch::global_asm!(concat!(".section .text.bench_pad,\"ax\",@progbits\n.globl bench_pad\nbench_pad: .skip ", env!("BENCH_PAD"), "\n.text"));

unsafe extern "C" {
    static bench_pad: u8;
    // A slice is lent as its pointer and its length.
    fn before_tokens(text: *const u8, len: usize) -> usize;
    fn now_tokens(text: *const u8, len: usize) -> usize;
    fn before_look(text: *const u8, len: usize, place: usize) -> u64;
    fn now_look(text: *const u8, len: usize, place: usize) -> u64;
    fn before_white(value: u32) -> bool;
    fn now_white(value: u16) -> bool;
}

fn rust_tokens(text: &[u8]) -> usize {
    let mut lexer = lex::Lexer::new(text);
    let mut n = 0;
    while lexer.token().unwrap().is_some() {
        n += 1;
    }
    n
}

/// The Rust's test, called as the others are.
#[inline(never)]
#[allow(improper_ctypes_definitions)]
extern "C" fn rust_white(c: char) -> bool {
    c.is_whitespace()
}

/// The same of the character at a place of a text that is known to be UTF-8.
#[inline(never)]
unsafe extern "C" fn rust_look(text: *const u8, len: usize, place: usize) -> u64 {
    let rest = unsafe { std::str::from_utf8_unchecked(std::slice::from_raw_parts(text.add(place), len - place)) };
    rest.chars().next().map_or(0, |c| c.len_utf8() as u64 * 256 + u64::from(c.is_whitespace()))
}

/// How many characters of a text are white space, looked at one after the other.
fn looked(look: unsafe extern "C" fn(*const u8, usize, usize) -> u64, text: &str) -> usize {
    let (mut place, mut n) = (0, 0);
    while place < text.len() {
        let seen = unsafe { look(text.as_ptr(), text.len(), place) };
        n += usize::from(seen % 256 == WHITE);
        place += (seen / 256) as usize;
    }
    n
}

/// Microseconds of the Rust, before and now, in turns that begin with another side each time; medians.
fn timed(sides: [&dyn Fn() -> usize; 3]) -> [f64; 3] {
    let answers = sides.map(|side| side());
    assert!(answers.iter().all(|&n| n == answers[0]), "the sides answer {answers:?}");
    let mut times = [(); 3].map(|()| Vec::new());
    for round in 0..ROUNDS {
        for side in (0..3).map(|k| (k + round) % 3) {
            let start = now();
            for _ in 0..TURNS {
                black_box(sides[side]());
            }
            times[side].push((now() - start) / TURNS as f64);
        }
    }
    times.map(median)
}

fn tokens(text: &str) -> [f64; 3] {
    let port = |tokens: unsafe extern "C" fn(*const u8, usize) -> usize| move || unsafe { tokens(black_box(text).as_ptr(), text.len()) };
    timed([&|| rust_tokens(black_box(text).as_bytes()), &port(before_tokens), &port(now_tokens)])
}

fn looks(text: &str) -> [f64; 3] {
    let side = |look: unsafe extern "C" fn(*const u8, usize, usize) -> u64| move || looked(black_box(look), black_box(text));
    timed([&side(rust_look), &side(before_look), &side(now_look)])
}

/// The test alone, on the values of some characters.
fn tests(characters: &[char]) -> [f64; 3] {
    let wide: Vec<u32> = characters.iter().map(|&c| c.into()).collect();
    let narrow: Vec<u16> = wide.iter().map(|&v| v as u16).collect();
    timed([
        &|| black_box(characters).iter().filter(|&&c| rust_white(c)).count(),
        &|| black_box(&wide).iter().filter(|&&v| unsafe { before_white(v) }).count(),
        &|| black_box(&narrow).iter().filter(|&&v| unsafe { now_white(v) }).count(),
    ])
}

fn told(table: &str, text: &str, units: usize, times: [f64; 3]) {
    let [rust, before, now] = times.map(|t| t * 1e3 / units as f64);
    println!("{table}\t{text}\t{rust:.3}\t{before:.3}\t{now:.3}");
}

fn measured() {
    black_box(&raw const bench_pad);
    for (name, text) in texts::texts() {
        let characters: Vec<char> = text.chars().collect();
        told("tokens", name, characters.len(), tokens(&text));
        told("looks", name, characters.len(), looks(&text));
        // A character of four bytes does not reach the test; nor does one of one byte, but of ASCII texts all are taken.
        let asked: Vec<char> = characters.into_iter().filter(|c| text.is_ascii() || [2, 3].contains(&c.len_utf8())).collect();
        if !asked.is_empty() {
            told("tests", name, asked.len(), tests(&asked));
        }
    }
}

fn main() {
    match std::env::args().nth(1).as_deref() {
        Some("measure") => measured(),
        Some("tables") => tables::print(),
        Some("names") => texts::texts().iter().for_each(|(name, _)| println!("{name}")),
        // All tokens of one text, once, for a count of calls; how many characters it has, and of how many bytes they are.
        Some(wanted) => {
            let (_, text) = texts::texts().into_iter().find(|(name, _)| *name == wanted).expect("a text's name");
            black_box(unsafe { now_tokens(text.as_ptr(), text.len()) });
            let of = |bytes| text.chars().filter(|c| c.len_utf8() == bytes).count();
            println!("{}|{}|{}|{}|{}", text.chars().count(), of(1), of(2), of(3), of(4));
        }
        None => panic!("see bench/white/run"),
    }
}
