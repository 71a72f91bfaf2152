//! The calls of `libkernel.a`: a rulebook judged alone, a certificate checked against rulebook and goals, and the release page of one
//! that is accepted.
//!
//! ```
//! let mut areas = sambjoek::WorkAreas::new();
//! let rulebook = b"(sort t)(ctor z () t)(pred hold (t))(rule base () (hold z))";
//! let report = areas.release(rulebook, b"(goal g (hold z))", b"(step 0 base ())(result g 0)");
//! let report = report.unwrap();
//! assert_eq!((report.steps, report.terms, report.requested), (1, 2, 4));
//! let page = areas.page_text(rulebook, b"(goal g (hold z))", b"(step 0 base ())(result g 0)").unwrap();
//! assert!(page.lines().all(|line| line.len() == 64) && page.contains("used 100%"));
//! ```
//!
//! The library is code for any x86-64 processor and needs `memset` and `memcpy` of C. A call takes at most [`STACK_BYTES`] of stack.
#![no_std]
extern crate alloc;

mod refusal;

use alloc::{boxed::Box, string::String, vec};
pub use refusal::Refusal;

/// Words of a work area.
const AREA_WORDS: usize = 16_384;
/// The longest rulebook, in bytes; a longer one is [`Refusal::TextLong`].
pub const RULEBOOK_BYTES: usize = 8_192;
/// The longest goals text, in bytes.
pub const GOALS_BYTES: usize = 8_192;
/// The longest certificate, in bytes.
pub const CERTIFICATE_BYTES: usize = 32_768;
/// The bytes of a line of a release page. It has one for each goal, and one more.
pub const PAGE_LINE_BYTES: usize = 65;
/// A buffer of so many bytes is long enough for the page of any release: a goal takes 11 bytes of the goals text or more.
pub const PAGE_BYTES: usize = PAGE_LINE_BYTES * (GOALS_BYTES / 11 + 1);
/// The most stack that a call takes on any texts, in bytes, as `bindings/c/horn.h` says.
pub const STACK_BYTES: usize = 98_304;

/// What an accepted rulebook declares.
#[derive(Clone, Copy, Debug, PartialEq, Eq)]
pub struct RulebookReport {
    pub sorts: u32,
    pub constructors: u32,
    pub predicates: u32,
    pub rules: u32,
}

/// What was counted in an accepted certificate.
#[derive(Clone, Copy, Debug, PartialEq, Eq)]
pub struct Report {
    pub steps: u32,
    pub goals: u32,
    /// Terms in the store.
    pub terms: u32,
    /// The certificate's length.
    pub bytes: u32,
    /// How often a node was requested of the store, by goals and certificate together. It was found or made, and those made are
    /// `terms`: the others were shared. An abbreviation's use is no request. It can be far above 65,535.
    pub requested: u32,
}

/// What a call has written into a buffer that it was lent.
#[derive(Clone, Copy, Debug, PartialEq, Eq)]
pub struct Written {
    /// How many bytes, from the buffer's first on. Those behind them are as they were.
    pub length: usize,
}

/// An answer as a call returns it to C: 4 counts of the rulebook alone, 5 of three texts; of a page its length.
#[repr(C)]
struct Answer<const COUNTS: usize> {
    number: u32,
    counts: [u32; COUNTS],
}

unsafe extern "C" {
    // A slice is lent as its pointer and its length.
    #[rustfmt::skip]
    fn horn_rulebook(
        text: *const u8,
        bytes: usize,
        a: *mut u32,
        a_words: usize,
        b: *mut u32,
        b_words: usize,
        c: *mut u32,
        c_words: usize,
        d: *mut u32,
        d_words: usize,
    ) -> Answer<4>;
    #[rustfmt::skip]
    fn horn_release(
        rulebook: *const u8,
        rulebook_bytes: usize,
        goals: *const u8,
        goals_bytes: usize,
        certificate: *const u8,
        certificate_bytes: usize,
        a: *mut u32,
        a_words: usize,
        b: *mut u32,
        b_words: usize,
        c: *mut u32,
        c_words: usize,
        d: *mut u32,
        d_words: usize,
    ) -> Answer<5>;
    #[rustfmt::skip]
    fn horn_page(
        rulebook: *const u8,
        rulebook_bytes: usize,
        goals: *const u8,
        goals_bytes: usize,
        certificate: *const u8,
        certificate_bytes: usize,
        a: *mut u32,
        a_words: usize,
        b: *mut u32,
        b_words: usize,
        c: *mut u32,
        c_words: usize,
        d: *mut u32,
        d_words: usize,
        out: *mut u8,
        out_bytes: usize,
    ) -> Answer<1>;
}

impl<const COUNTS: usize> Answer<COUNTS> {
    fn counts(self) -> Result<[u32; COUNTS], Refusal> {
        match self.number {
            0 => Ok(self.counts),
            n => Err(Refusal::from_number(n).expect("the calls give 0 or a number of documents 01 and 02")),
        }
    }
}

/// The four areas that a call works in, 256 KiB together, for any number of calls. Between calls they hold zeros only.
pub struct WorkAreas {
    words: Box<[u32]>,
}

impl Default for WorkAreas {
    fn default() -> Self {
        Self::new()
    }
}

impl WorkAreas {
    pub fn new() -> Self {
        Self { words: vec![0; 4 * AREA_WORDS].into_boxed_slice() }
    }

    fn pointers(&mut self) -> [*mut u32; 4] {
        let base = self.words.as_mut_ptr();
        // SAFETY: `words` has four times so many words.
        [0, 1, 2, 3].map(|i| unsafe { base.add(i * AREA_WORDS) })
    }

    /// Reads and judges a rulebook.
    pub fn rulebook(&mut self, rulebook: &[u8]) -> Result<RulebookReport, Refusal> {
        let [a, b, c, d] = self.pointers();
        const N: usize = AREA_WORDS;
        // SAFETY: pointers and lengths are of live slices; the areas are this call's alone and do not overlap.
        let answer = unsafe { horn_rulebook(rulebook.as_ptr(), rulebook.len(), a, N, b, N, c, N, d, N) };
        let [sorts, constructors, predicates, rules] = answer.counts()?;
        Ok(RulebookReport { sorts, constructors, predicates, rules })
    }

    /// Reads and judges a rulebook, then goals under it, then a certificate for them. `Ok` only if the rulebook forces every goal.
    pub fn release(&mut self, rulebook: &[u8], goals: &[u8], certificate: &[u8]) -> Result<Report, Refusal> {
        let [a, b, c, d] = self.pointers();
        const N: usize = AREA_WORDS;
        let (r, g, p) = (rulebook.as_ptr(), goals.as_ptr(), certificate.as_ptr());
        // SAFETY: as above; texts are only read.
        let answer =
            unsafe { horn_release(r, rulebook.len(), g, goals.len(), p, certificate.len(), a, N, b, N, c, N, d, N) };
        let [steps, goals, terms, bytes, requested] = answer.counts()?;
        Ok(Report { steps, goals, terms, bytes, requested })
    }

    /// Judges as [`WorkAreas::release`] does and writes the release page at the front of `out`: a line for each goal, in the order of
    /// the goals text, with its name, its result's step and that step's rule, then one with the percentage of the steps that are used.
    /// A refusal writes nothing; [`Refusal::OutputLong`], if the page is longer than `out`, comes behind all others.
    pub fn page(
        &mut self,
        rulebook: &[u8],
        goals: &[u8],
        certificate: &[u8],
        out: &mut [u8],
    ) -> Result<Written, Refusal> {
        let [a, b, c, d] = self.pointers();
        const N: usize = AREA_WORDS;
        let (r, g, p) = (rulebook.as_ptr(), goals.as_ptr(), certificate.as_ptr());
        let (o, room) = (out.as_mut_ptr(), out.len());
        // SAFETY: as above; `out` is borrowed for this call alone, so it overlaps neither a text nor an area.
        let answer = unsafe {
            horn_page(r, rulebook.len(), g, goals.len(), p, certificate.len(), a, N, b, N, c, N, d, N, o, room)
        };
        let [length] = answer.counts()?;
        Ok(Written { length: length as usize })
    }

    /// The same in a buffer of its own, which is long enough for every page.
    pub fn page_text(&mut self, rulebook: &[u8], goals: &[u8], certificate: &[u8]) -> Result<String, Refusal> {
        let mut out = vec![0; PAGE_BYTES];
        let written = self.page(rulebook, goals, certificate, &mut out)?;
        out.truncate(written.length);
        Ok(String::from_utf8(out).expect("names are UTF-8 and are cut behind whole characters"))
    }
}

#[cfg(test)]
mod tests {
    use super::*;

    #[test]
    fn every_call_leaves_zeros() {
        let mut areas = WorkAreas::new();
        areas.words.fill(0xDEAD_BEEF);
        assert_eq!(areas.rulebook(b"(sort a)(sort a)"), Err(Refusal::Duplicate));
        assert!(areas.words.iter().all(|&w| w == 0));
        areas.words.fill(0xDEAD_BEEF);
        assert_eq!(areas.release(b"", b"", b""), Err(Refusal::NoGoal));
        assert!(areas.words.iter().all(|&w| w == 0));
        let (rulebook, goals, certificate) = (b"(pred p())(rule r()(p))", b"(goal g(p))", b"(step 0 r())(result g 0)");
        for (room, answer) in [(129, Err(Refusal::OutputLong)), (130, Ok(Written { length: 130 }))] {
            areas.words.fill(0xDEAD_BEEF);
            assert_eq!(areas.page(rulebook, goals, certificate, &mut vec![0; room]), answer);
            assert!(areas.words.iter().all(|&w| w == 0));
        }
    }

    #[test]
    fn a_long_text_leaves_the_areas() {
        let mut areas = WorkAreas::new();
        areas.words.fill(0xDEAD_BEEF);
        assert_eq!(areas.rulebook(&[b' '; RULEBOOK_BYTES + 1]), Err(Refusal::TextLong));
        assert_eq!(areas.release(b"", &[b' '; GOALS_BYTES + 1], b""), Err(Refusal::TextLong));
        assert_eq!(areas.release(b"", b"", &[b' '; CERTIFICATE_BYTES + 1]), Err(Refusal::TextLong));
        assert_eq!(areas.page(b"", b"", &[b' '; CERTIFICATE_BYTES + 1], &mut []), Err(Refusal::TextLong));
        assert!(areas.words.iter().all(|&w| w == 0xDEAD_BEEF));
    }
}
