//! What is lent to a call: texts and areas against pages that may not be touched, on both sides, and areas full of
//! words that mean nothing, or seem to mean something. A read or write beyond what was lent ends the run.
use crate::oracle::AREA;
use crate::random::Random;
use std::ffi::{c_int, c_void};
use std::sync::atomic::{AtomicUsize, Ordering::Relaxed};

unsafe extern "C" {
    fn mmap(at: *mut c_void, bytes: usize, access: c_int, flags: c_int, file: c_int, offset: i64) -> *mut c_void;
    fn mprotect(at: *mut c_void, bytes: usize, access: c_int) -> c_int;
    fn signal(number: c_int, handler: extern "C" fn(c_int)) -> usize;
    fn write(file: c_int, bytes: *const u8, count: usize) -> isize;
    fn _exit(status: c_int) -> !;
}

const PAGE: usize = 4_096;
/// So many words more than 16,384 a long area has at most.
pub const LONGER: usize = 2_000;
/// The status of a run that went beyond what was lent.
pub const BEYOND: i32 = 4;

/// The case that is being called, for the message.
pub static CASE: AtomicUsize = AtomicUsize::new(0);

extern "C" fn beyond(_: c_int) {
    let mut line = *b"compare: a read or write beyond what was lent, at case ....................\n";
    let (mut n, mut at) = (CASE.load(Relaxed), line.len() - 2);
    loop {
        line[at] = b'0' + (n % 10) as u8;
        n /= 10;
        at -= 1;
        if n == 0 {
            break;
        }
    }
    unsafe {
        write(2, line.as_ptr(), line.len());
        _exit(BEYOND)
    }
}

/// From now on a touched guard page ends the program with a message.
pub fn watch() {
    const SIGBUS: c_int = 7;
    const SIGSEGV: c_int = 11;
    unsafe {
        signal(SIGSEGV, beyond);
        signal(SIGBUS, beyond);
    }
}

/// Pages between two that may not be touched.
struct Pages {
    first: *mut u8,
    bytes: usize,
}

impl Pages {
    fn new(bytes: usize) -> Self {
        const READ_WRITE: c_int = 3;
        const PRIVATE_ANONYMOUS: c_int = 0x22;
        let (null, all) = (std::ptr::null_mut(), bytes + 2 * PAGE);
        unsafe {
            let base = mmap(null, all, 0, PRIVATE_ANONYMOUS, -1, 0);
            assert!(base as isize != -1, "no pages");
            let first = base.add(PAGE);
            assert!(bytes == 0 || mprotect(first, bytes, READ_WRITE) == 0, "no access to pages");
            Self { first: first.cast(), bytes }
        }
    }
}

/// Pages for one text or area, a run of them for each count.
#[derive(Default)]
pub struct Place {
    runs: Vec<Option<Pages>>,
}

/// Where something was put: the pages, and the offset and length of what is lent of them.
#[derive(Clone, Copy)]
pub struct Lent {
    first: *mut u8,
    bytes: usize,
    at: usize,
    length: usize,
}

impl Place {
    /// A place for `length` bytes, in as few pages as hold them, against their front or their back.
    fn lend(&mut self, length: usize, back: bool) -> Lent {
        let pages = length.div_ceil(PAGE);
        if self.runs.len() <= pages {
            self.runs.resize_with(pages + 1, || None);
        }
        let run = self.runs[pages].get_or_insert_with(|| Pages::new(pages * PAGE));
        Lent { first: run.first, bytes: run.bytes, at: if back { run.bytes - length } else { 0 }, length }
    }

    pub fn text(&mut self, text: &[u8], back: bool) -> Lent {
        let lent = self.lend(text.len(), back);
        // What lies beside it would be read as more of the text.
        let beside = b"(z) ?x;0\n";
        for (i, byte) in lent.all().iter_mut().enumerate() {
            *byte = beside[i % beside.len()];
        }
        lent.all()[lent.at..][..text.len()].copy_from_slice(text);
        lent
    }

    /// A buffer that holds these bytes.
    pub fn buffer(&mut self, held: &[u8], back: bool) -> Lent {
        let lent = self.lend(held.len(), back);
        lent.all().fill(BESIDE_BUFFER);
        lent.all()[lent.at..][..held.len()].copy_from_slice(held);
        lent
    }

    pub fn area(&mut self, words: &[u32], back: bool) -> Lent {
        let lent = self.lend(4 * words.len(), back);
        lent.words().fill(BESIDE);
        lent.words()[lent.at / 4..][..words.len()].copy_from_slice(words);
        lent
    }
}

const BESIDE: u32 = 0x5a5a_a5a5;
const BESIDE_BUFFER: u8 = 0xa5;

impl Lent {
    pub fn pointer(&self) -> *mut u8 {
        unsafe { self.first.add(self.at) }
    }

    #[allow(clippy::mut_from_ref)]
    fn all(&self) -> &mut [u8] {
        unsafe { std::slice::from_raw_parts_mut(self.first, self.bytes) }
    }

    #[allow(clippy::mut_from_ref)]
    fn words(&self) -> &mut [u32] {
        unsafe { std::slice::from_raw_parts_mut(self.first.cast(), self.bytes / 4) }
    }

    pub fn text_is(&self, text: &[u8]) -> bool {
        &self.all()[self.at..][..self.length] == text
    }

    /// Whether a buffer is as it must be: a text at its front, behind it what it held; what lies beside it untouched.
    pub fn buffer_is(&self, text: &[u8], held: &[u8]) -> bool {
        let (before, rest) = self.all().split_at(self.at);
        let (lent, behind) = rest.split_at(held.len());
        lent[..text.len()] == *text
            && lent[text.len()..] == held[text.len()..]
            && before.iter().chain(behind).all(|&b| b == BESIDE_BUFFER)
    }

    /// Where a buffer is first not as it must be, for the message.
    pub fn told(&self, text: &[u8], held: &[u8]) -> String {
        let due = text.iter().chain(&held[text.len()..]);
        let lent = &self.all()[self.at..][..held.len()];
        match lent.iter().zip(due).position(|(is, due)| is != due) {
            Some(i) => format!("byte {i} of the buffer is {:02x}", lent[i]),
            None if self.buffer_is(text, held) => "the buffer as expected".into(),
            None => "bytes beside the buffer written".into(),
        }
    }

    /// Whether an area is as it must be: what it held, or the first 16,384 words zero; what lies beside it untouched.
    pub fn area_is(&self, held: &[u32], cleared: bool) -> bool {
        let (before, rest) = self.words().split_at(self.at / 4);
        let (lent, behind) = rest.split_at(held.len());
        let zero = if cleared { AREA } else { 0 };
        lent[..zero].iter().all(|&w| w == 0)
            && lent[zero..] == held[zero..]
            && before.iter().chain(behind).all(|&w| w == BESIDE)
    }
}

/// Kinds of words that areas hold before a call.
pub const KINDS: [&str; 10] = [
    "random words",
    "ones",
    "zeros",
    "numbers below 16,384",
    "numbers below 8",
    "the next word's number",
    "the last word's number",
    "its own number",
    "one number throughout",
    "multiples of 4",
];

pub struct Garbage {
    kinds: [Vec<u32>; KINDS.len()],
}

impl Garbage {
    pub fn new(rng: &mut Random) -> Self {
        let constant = rng.below(AREA) as u32;
        let mut word = |kind: usize, i: u32| match kind {
            0 => rng.next() as u32 | 1,
            1 => u32::MAX,
            2 => 0,
            3 => rng.below(AREA) as u32,
            4 => rng.below(8) as u32,
            5 => i + 1,
            6 => i.wrapping_sub(1),
            7 => i,
            8 => constant,
            _ => 4 * i,
        };
        let most = (AREA + LONGER) as u32;
        Self { kinds: std::array::from_fn(|kind| (0..most).map(|i| word(kind, i)).collect()) }
    }

    pub fn words(&self, kind: usize, count: usize) -> &[u32] {
        &self.kinds[kind][..count]
    }
}

/// The places of what is lent to a call: four areas and up to three texts.
pub struct Desk {
    garbage: Garbage,
    areas: [Place; 4],
    texts: [Place; 3],
}

impl Desk {
    pub fn new(rng: &mut Random) -> Self {
        watch();
        Self { garbage: Garbage::new(rng), areas: Default::default(), texts: Default::default() }
    }

    /// Calls, and says which of the four areas and three texts were left as they must not be.
    pub fn lend<T>(
        &mut self,
        texts: &[&[u8]],
        lengths: [usize; 4],
        cleared: bool,
        rng: &mut Random,
        call: impl FnOnce(&[(*const u8, usize)], [*mut u32; 4]) -> T,
    ) -> (T, Vec<usize>) {
        let same = rng.below(KINDS.len());
        let all_same = rng.chance(50);
        let kinds = [(); 4].map(|()| if all_same { same } else { rng.below(KINDS.len()) });
        let held: [&[u32]; 4] = std::array::from_fn(|i| self.garbage.words(kinds[i], lengths[i]));
        let areas: [Lent; 4] = std::array::from_fn(|i| self.areas[i].area(held[i], rng.chance(50)));
        let placed: Vec<Lent> =
            texts.iter().zip(&mut self.texts).map(|(text, place)| place.text(text, rng.chance(60))).collect();
        let pointers: Vec<_> =
            placed.iter().zip(texts).map(|(lent, text)| (lent.pointer().cast_const(), text.len())).collect();
        let answer = call(&pointers, areas.map(|a| a.pointer().cast()));
        let mut wrong: Vec<usize> = (0..4).filter(|&i| !areas[i].area_is(held[i], cleared)).collect();
        wrong.extend((0..texts.len()).filter(|&i| !placed[i].text_is(texts[i])).map(|i| 4 + i));
        (answer, wrong)
    }
}

/// Lengths of the four areas, each its own and long enough.
pub fn long_enough(rng: &mut Random) -> [usize; 4] {
    [AREA; 4].map(|n| if rng.chance(50) { n } else { n + rng.from(1, LONGER) })
}

/// The same; now and then one or several are short.
pub fn lengths(rng: &mut Random) -> [usize; 4] {
    let mut lengths = long_enough(rng);
    if rng.below(100) == 0 {
        let most = if rng.chance(60) { 1 } else { 4 };
        for _ in 0..rng.from(1, most) {
            lengths[rng.below(4)] = match rng.below(4) {
                0 | 1 => AREA - 1,
                2 => 0,
                _ => rng.below(AREA),
            };
        }
    }
    lengths
}

/// Touches a byte beyond a text, an area or a buffer, which must end the program.
pub fn touch(what: &str) {
    watch();
    let mut place = Place::default();
    let text = place.text(b"(sort t)", what.ends_with("behind"));
    let area = Place::default().area(&[1; AREA], false);
    let buffer = Place::default().buffer(&[1; 130], what.ends_with("behind"));
    unsafe {
        let at = match what {
            "text-before" => text.pointer().sub(1),
            "text-behind" => text.pointer().add(8),
            "area-before" => area.pointer().sub(1),
            "area-behind" => area.pointer().add(4 * AREA),
            "buffer-before" => buffer.pointer().sub(1),
            _ => buffer.pointer().add(130),
        };
        if what.starts_with("text") {
            let _ = at.read_volatile();
        } else {
            at.write_volatile(1);
        }
    }
}
