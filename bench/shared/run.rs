//! A run over all loads: each is measured at three sizes and told as a line of words parted by tabs; or one load alone is done over
//! and over, for a profile.
use crate::calls::{Page, Release};
use crate::measure::{self, Areas, Times, Work, measure, now};
use crate::worst::median;
use std::hint::black_box;

/// Microseconds for a load at its whole size, and at a smaller one.
const WHOLE: f64 = 300_000.0;
const PART: f64 = 60_000.0;

/// What a run does.
pub enum Mode {
    /// All loads of the benches that the word begins with.
    Measure(String),
    /// One side of one load, for three seconds.
    Repeat { rust: bool, load: String },
}

pub struct Run {
    pub mode: Mode,
    pub areas: Areas,
}

fn told(bytes: usize, t: Times) -> String {
    format!("\t{bytes}\t{:.3}\t{:.3}\t{:.3}\t{:.3}", t.rust, t.port, t.clearing, t.memset)
}

impl Run {
    pub fn new(mode: Mode) -> Self {
        Self { mode, areas: measure::areas() }
    }

    /// Whether this load is measured; in the other mode it is repeated, if it is the one.
    fn due<W: Work>(&mut self, bench: &str, load: &str, whole: impl FnOnce() -> W) -> bool {
        match &self.mode {
            Mode::Measure(which) => bench.starts_with(which.as_str()),
            Mode::Repeat { rust, load: wanted } => {
                if load.starts_with(wanted.as_str()) {
                    let work = whole();
                    let answer = work.answer(&mut self.areas);
                    let (start, rust, mut turns) = (now(), *rust, 0);
                    while now() - start < 3e6 {
                        if rust {
                            black_box(black_box(&work).rust());
                        } else {
                            black_box(&work).port(&mut self.areas);
                        }
                        turns += 1;
                    }
                    println!("{load}: answer {answer}, {turns} calls, {:.2} us each", (now() - start) / f64::from(turns));
                }
                false
            }
        }
    }

    fn measured<W: Work>(&mut self, work: &W, budget: f64) -> String {
        told(work.bytes(), measure(work, &mut self.areas, budget))
    }

    /// A load of one size.
    pub fn fixed<W: Work>(&mut self, bench: &str, load: &str, bar: &str, work: W) {
        let answer = work.answer(&mut self.areas);
        // Measured by reference, so that the load is made once.
        if self.due(bench, load, || &work) {
            println!("speed\t{bench}\t{load}\t{bar}\t{answer}{}", self.measured(&work, WHOLE));
        }
    }

    /// A load that `make` gives in quarters of its whole size.
    pub fn load<W: Work>(&mut self, bench: &str, load: &str, bar: &str, make: impl Fn(usize) -> W) {
        if self.due(bench, load, || make(4)) {
            let mut line = format!("speed\t{bench}\t{load}\t{bar}\t{}", make(4).answer(&mut self.areas));
            for (quarters, budget) in [(4, WHOLE), (2, PART), (1, PART)] {
                let work = make(quarters);
                work.answer(&mut self.areas);
                line += &self.measured(&work, budget);
            }
            println!("{line}");
        }
    }

    /// A load of the call that writes the release page, beside the call with the same three texts; `make` as above. To be repeated it is `page: ` and its name.
    pub fn page(&mut self, load: &str, make: impl Fn(usize) -> Release) {
        if self.due("page", &format!("page: {load}"), || Page::new(make(4))) {
            let work = Page::new(make(4));
            let answer = work.answer(&mut self.areas);
            println!("page\trelease\t{load}\t{}\t{answer}{}", work.length(), self.measured(&work, WHOLE));
        }
    }

    /// A load that was looked for as the slowest of its length, with what bounds it, beside the median text of that length.
    pub fn worst<W: Work + median::Alike>(&mut self, load: &str, bound: &str, make: impl Fn(usize) -> W) {
        if self.due("worst", load, || make(4)) {
            let (whole, half) = (make(4), make(2));
            let answer = whole.answer(&mut self.areas);
            let mut line = format!("worst\t{}\t{load}\t{bound}\t{answer}", W::CALL);
            line += &self.measured(&whole, WHOLE);
            line += &self.measured(&half, PART);
            let (of_rust, of_port) = median::of_length(&whole, &mut self.areas);
            println!("{line}\t{of_rust:.3}\t{of_port:.3}");
        }
    }
}

impl<W: Work> Work for &W {
    type Kept = W::Kept;
    const CLEARS: bool = W::CLEARS;

    fn bytes(&self) -> usize {
        (**self).bytes()
    }

    fn rust(&self) -> Self::Kept {
        (**self).rust()
    }

    fn port(&self, areas: &mut Areas) {
        (**self).port(areas);
    }

    fn answer(&self, areas: &mut Areas) -> u32 {
        (**self).answer(areas)
    }
}
