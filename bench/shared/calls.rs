//! The calls on both sides, and what each answers.
use crate::kernel::{self, Theory};
use crate::measure::{AREA, Areas, Work, areas};
use crate::messages;
use std::cell::RefCell;
use std::hint::black_box;

pub const LONGEST_RULEBOOK: usize = 8_192;
pub const LONGEST_GOALS: usize = 8_192;
pub const LONGEST_CERTIFICATE: usize = 32_768;

/// A report of the call with the rulebook alone.
#[repr(C)]
struct RulebookReport {
    number: u32,
    _counts: [u32; 4],
}

/// A report of the call with three texts.
#[repr(C)]
#[derive(Debug, PartialEq)]
struct Report {
    number: u32,
    counts: [u32; 4],
    requested: u32,
}

/// What the call that writes the release page hands back.
#[repr(C)]
#[derive(Debug, PartialEq)]
struct Written {
    number: u32,
    length: u32,
}

unsafe extern "C" {
    // A slice is lent as its pointer and its length.
    #[rustfmt::skip]
    fn horn_rulebook(
        text: *const u8,
        bytes: usize,
        a: *mut u32,
        a_words: usize,
        b: *mut u32,
        b_words: usize,
        c: *mut u32,
        c_words: usize,
        d: *mut u32,
        d_words: usize,
    ) -> RulebookReport;
    #[rustfmt::skip]
    fn horn_release(
        rulebook: *const u8,
        rulebook_bytes: usize,
        goals: *const u8,
        goals_bytes: usize,
        certificate: *const u8,
        certificate_bytes: usize,
        a: *mut u32,
        a_words: usize,
        b: *mut u32,
        b_words: usize,
        c: *mut u32,
        c_words: usize,
        d: *mut u32,
        d_words: usize,
    ) -> Report;
    #[rustfmt::skip]
    fn horn_page(
        rulebook: *const u8,
        rulebook_bytes: usize,
        goals: *const u8,
        goals_bytes: usize,
        certificate: *const u8,
        certificate_bytes: usize,
        a: *mut u32,
        a_words: usize,
        b: *mut u32,
        b_words: usize,
        c: *mut u32,
        c_words: usize,
        d: *mut u32,
        d_words: usize,
        out: *mut u8,
        out_bytes: usize,
    ) -> Written;
}

/// 01's number of the Rust's answer.
fn number<T>(answer: &Result<T, String>) -> u32 {
    match answer {
        Ok(_) => 0,
        Err(message) => messages::number(message).unwrap_or_else(|| panic!("unknown message: {message}")).into(),
    }
}

/// The call with the rulebook alone.
pub struct Rulebook(pub String);

impl Rulebook {
    fn called(&self, areas: &mut Areas) -> RulebookReport {
        let [a, b, c, d] = areas.each_mut().map(|w| w.as_mut_ptr());
        unsafe { horn_rulebook(self.0.as_ptr(), self.0.len(), a, AREA, b, AREA, c, AREA, d, AREA) }
    }
}

impl Work for Rulebook {
    type Kept = Result<Theory, String>;
    const CLEARS: bool = true;

    fn bytes(&self) -> usize {
        self.0.len()
    }

    fn rust(&self) -> Self::Kept {
        Theory::parse(&self.0)
    }

    fn port(&self, areas: &mut Areas) {
        black_box(self.called(areas));
    }

    fn answer(&self, areas: &mut Areas) -> u32 {
        assert!(self.0.len() <= LONGEST_RULEBOOK, "the rulebook is too long");
        let number = number(&self.rust());
        assert_eq!(self.called(areas).number, number, "the port answers another number");
        number
    }
}

/// The call with three texts.
pub struct Release {
    pub rulebook: String,
    pub goals: String,
    pub certificate: String,
}

impl Release {
    pub fn new(rulebook: impl Into<String>, goals: impl Into<String>, certificate: impl Into<String>) -> Self {
        Self { rulebook: rulebook.into(), goals: goals.into(), certificate: certificate.into() }
    }

    pub fn lengths(&self) -> [usize; 3] {
        [self.rulebook.len(), self.goals.len(), self.certificate.len()]
    }

    /// Requests to the store by the second opinion.
    fn requested(&self) -> u32 {
        let [r, g, p] = [&self.rulebook, &self.goals, &self.certificate].map(|text| text.as_bytes());
        second::release(r, g, p, [AREA; 4], second::LIMITS).requested.unwrap_or(0) as u32
    }

    fn called(&self, areas: &mut Areas) -> Report {
        let [a, b, c, d] = areas.each_mut().map(|w| w.as_mut_ptr());
        let [r, g, p] = [&self.rulebook, &self.goals, &self.certificate].map(|text| text.as_ptr());
        let [rn, gn, pn] = self.lengths();
        unsafe { horn_release(r, rn, g, gn, p, pn, a, AREA, b, AREA, c, AREA, d, AREA) }
    }
}

impl Work for Release {
    /// The rulebook is freed outside of the time; what `check_reader` builds it frees itself, within.
    type Kept = (Option<Theory>, Result<kernel::Report, String>);
    const CLEARS: bool = true;

    fn bytes(&self) -> usize {
        self.lengths().iter().sum()
    }

    fn rust(&self) -> Self::Kept {
        match Theory::parse(&self.rulebook) {
            Ok(theory) => {
                let report = theory.check_reader(&self.goals, self.certificate.as_bytes());
                (Some(theory), report)
            }
            Err(message) => (None, Err(message)),
        }
    }

    fn port(&self, areas: &mut Areas) {
        black_box(self.called(areas));
    }

    fn answer(&self, areas: &mut Areas) -> u32 {
        let limits = [LONGEST_RULEBOOK, LONGEST_GOALS, LONGEST_CERTIFICATE];
        assert!((0..3).all(|i| self.lengths()[i] <= limits[i]), "a text is too long");
        let (_, answer) = self.rust();
        let number = number(&answer);
        // The Rust has four counts; the fifth is that of compare's second opinion.
        let requested = answer.as_ref().map_or(0, |_| self.requested());
        let counts = answer.map_or([0; 4], |r| [r.steps, r.goals, r.terms, r.bytes as usize].map(|n| n as u32));
        assert_eq!(self.called(areas), Report { number, counts, requested }, "the port answers something else");
        number
    }
}

/// The call that writes the release page, in a buffer that has room for it. Beside it stands, in place of the Rust, the call with the same three
/// texts, over the same areas.
pub struct Page {
    release: Release,
    /// The page by compare's second opinion; empty where the release is refused.
    due: Vec<u8>,
    lent: RefCell<(Areas, Vec<u8>)>,
}

/// More bytes than any page has.
const BUFFER: usize = 65_536;

impl Page {
    pub fn new(release: Release) -> Self {
        let [r, g, p] = [&release.rulebook, &release.goals, &release.certificate].map(|text| text.as_bytes());
        let due = second::page(r, g, p, [AREA; 4], second::LIMITS).written(BUFFER).text;
        Self { release, due, lent: RefCell::new((areas(), vec![0; BUFFER])) }
    }

    /// Bytes of the page.
    pub fn length(&self) -> usize {
        self.due.len()
    }

    fn called(&self) -> Written {
        let (areas, out) = &mut *self.lent.borrow_mut();
        let [a, b, c, d] = areas.each_mut().map(|w| w.as_mut_ptr());
        let [r, g, p] = [&self.release.rulebook, &self.release.goals, &self.release.certificate].map(|text| text.as_ptr());
        let [rn, gn, pn] = self.release.lengths();
        unsafe { horn_page(r, rn, g, gn, p, pn, a, AREA, b, AREA, c, AREA, d, AREA, out.as_mut_ptr(), BUFFER) }
    }
}

impl Work for Page {
    type Kept = ();
    const CLEARS: bool = false;

    fn bytes(&self) -> usize {
        self.release.bytes()
    }

    fn rust(&self) {
        black_box(self.release.called(&mut self.lent.borrow_mut().0));
    }

    fn port(&self, _: &mut Areas) {
        black_box(self.called());
    }

    fn answer(&self, areas: &mut Areas) -> u32 {
        let number = self.release.answer(areas);
        assert_eq!(self.called(), Written { number, length: self.due.len() as u32 }, "the page's call answers something else");
        assert!(self.lent.borrow().1.starts_with(&self.due), "another page");
        number
    }
}
