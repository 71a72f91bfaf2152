//! Times two sides in turns by the process's own processor time; the lent areas, and the clearing of them alone.
use std::hint::black_box;

/// Words of an area.
pub const AREA: usize = 16_384;

pub type Areas = [Vec<u32>; 4];

/// What both sides do.
pub trait Work {
    /// What the Rust's side builds; it is freed outside of its time.
    type Kept;
    /// Whether the port's time holds the clearing of the four areas.
    const CLEARS: bool;
    fn bytes(&self) -> usize;
    fn rust(&self) -> Self::Kept;
    fn port(&self, areas: &mut Areas);
    /// The number that both answer. The program ends if they differ.
    fn answer(&self, areas: &mut Areas) -> u32;
}

/// Microseconds, medians.
#[derive(Clone, Copy, Default)]
pub struct Times {
    pub rust: f64,
    pub port: f64,
    pub clearing: f64,
    pub memset: f64,
}

/// POSIX's processor time of the process, as Linux numbers it.
const PROCESS_TIME: i32 = 2;
/// Microseconds of one turn, so that reading the clock does not count.
const TURN: f64 = 1_000.0;

#[repr(C)]
struct Timespec {
    seconds: i64,
    nanoseconds: i64,
}

unsafe extern "C" {
    fn clock_gettime(clock: i32, time: *mut Timespec) -> i32;
    // A slice is lent as its pointer and its length.
    fn clear_words(s: *mut u32, len: usize, n: usize);
}

pub fn areas() -> Areas {
    [(); 4].map(|()| vec![0xDEAD_BEEF; AREA])
}

/// The port's clearing at the end of a call, alone.
pub fn clear(areas: &mut Areas) {
    for area in black_box(areas) {
        unsafe { clear_words(area.as_mut_ptr(), AREA, AREA) }
    }
}

/// The same bytes by `memset`.
pub fn memset(areas: &mut Areas) {
    for area in black_box(areas) {
        unsafe { area.as_mut_ptr().write_bytes(0, AREA) }
    }
}

pub fn median(mut xs: Vec<f64>) -> f64 {
    xs.sort_by(f64::total_cmp);
    xs[xs.len() / 2]
}

/// Microseconds of processor time that this process has used: other work on the machine does not count.
pub fn now() -> f64 {
    let mut t = Timespec { seconds: 0, nanoseconds: 0 };
    assert_eq!(unsafe { clock_gettime(PROCESS_TIME, &mut t) }, 0, "no processor time");
    t.seconds as f64 * 1e6 + t.nanoseconds as f64 / 1e3
}

/// Microseconds of one call, the mean of `turns`.
fn time(turns: usize, mut call: impl FnMut()) -> f64 {
    let start = now();
    for _ in 0..turns {
        call();
    }
    (now() - start) / turns as f64
}

/// One call of the Rust's side, the mean of `turns`.
fn rust_time<W: Work>(work: &W, turns: usize) -> f64 {
    let mut kept = Vec::with_capacity(turns);
    time(turns, || kept.push(black_box(work).rust()))
}

/// Both sides, the clearing and `memset`, in turns, for some `budget` of microseconds; at least once.
pub fn measure<W: Work>(work: &W, areas: &mut Areas, budget: f64) -> Times {
    let once = rust_time(work, 1) + time(1, || work.port(areas));
    let turns = ((2.0 * TURN / once) as usize).clamp(1, 400);
    let rounds = ((budget / (once * turns as f64)) as usize).clamp(1, 100) | 1;
    let mut times = [(); 4].map(|()| Vec::new());
    for _ in 0..rounds {
        times[0].push(rust_time(work, turns));
        times[1].push(time(turns, || black_box(work).port(areas)));
        if W::CLEARS {
            times[2].push(time(turns, || clear(areas)));
            times[3].push(time(turns, || memset(areas)));
        }
    }
    let [rust, port, clearing, memset] = times.map(|t| if t.is_empty() { 0.0 } else { median(t) });
    Times { rust, port, clearing, memset }
}
