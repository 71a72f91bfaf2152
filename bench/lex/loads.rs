//! All tokens of a text, beside the Rust's `Lexer`; and the clearing of the areas beside `memset`.
use crate::lex;
use crate::measure::{AREA, Areas, Work, clear, memset};
use crate::run::Run;
use std::cell::RefCell;
use std::hint::black_box;

const BYTES: usize = 32_768;

unsafe extern "C" {
    // A slice is lent as its pointer and its length.
    fn count_tokens(text: *const u8, len: usize) -> usize;
}

struct Tokens(Vec<u8>);

impl Tokens {
    fn counted(&self) -> usize {
        unsafe { count_tokens(self.0.as_ptr(), self.0.len()) }
    }
}

impl Work for Tokens {
    type Kept = usize;
    const CLEARS: bool = false;

    fn bytes(&self) -> usize {
        self.0.len()
    }

    fn rust(&self) -> usize {
        let mut lexer = lex::Lexer::new(&self.0[..]);
        let mut n = 0;
        while lexer.token().unwrap().is_some() {
            n += 1;
        }
        n
    }

    fn port(&self, _: &mut Areas) {
        black_box(self.counted());
    }

    fn answer(&self, _: &mut Areas) -> u32 {
        assert_eq!(self.counted(), self.rust(), "the port counts other tokens");
        0
    }
}

/// The clearing of four areas; the Rust's side is `memset`.
struct Clearing(RefCell<Areas>);

impl Work for Clearing {
    type Kept = ();
    const CLEARS: bool = false;

    fn bytes(&self) -> usize {
        4 * AREA * 4
    }

    fn rust(&self) {
        memset(&mut self.0.borrow_mut());
    }

    fn port(&self, areas: &mut Areas) {
        clear(areas);
    }

    fn answer(&self, areas: &mut Areas) -> u32 {
        clear(areas);
        assert!(areas.iter().flatten().all(|&w| w == 0), "a word is left");
        0
    }
}

/// Whole lines, repeated and numbered, up to so many quarters of 32,768 bytes; the rest are spaces.
fn filled(quarters: usize, line: impl Fn(usize) -> String) -> Tokens {
    let bytes = BYTES * quarters / 4;
    let mut text = crate::texts::as_many(bytes, "", line).into_bytes();
    text.resize(bytes, b' ');
    Tokens(text)
}

pub fn loads(run: &mut Run) {
    run.load("lex", "ASCII", "0.6", |q| filled(q, |i| format!("(step {i} more ({i}) (hold (s (s z))))\n")));
    for (name, bar, line) in crate::lines::LINES {
        run.load("lex", name, bar, |q| filled(q, |_| line.into()));
    }
    run.fixed("lex", "clearing of the four areas, beside `memset`", "", Clearing(RefCell::new(crate::measure::areas())));
}
