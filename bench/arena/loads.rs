//! Requests to the store, beside the Rust's `Arena`.
use crate::measure::{AREA, Areas, Work};
use crate::opened;
use crate::run::Run;
use std::hint::black_box;

const NODES: u32 = 2048;
const LIMIT: u32 = 8192;
const PLACES: u32 = 4096;
const TIMES: u32 = 20;

unsafe extern "C" {
    // A slice is lent as its pointer and its length.
    fn arena_intern(a: *mut u32, len: usize, nodes: u32, limit: u32, places: u32, key: *const u32, words: usize) -> u64;
}

/// Different nodes, each asked for 20 times. The Rust's time holds its doubling of the table, the port's the clearing of the index.
struct Requests(Vec<Vec<u32>>);

/// A head and up to three earlier numbers each.
fn requests(count: u32) -> Requests {
    let key = |i: u32| {
        let mut key = vec![i % 61];
        let mut rest = i / 61;
        for _ in 0..i % 4 {
            key.push(rest);
            rest = (rest * 7 + 3) % (i + 1);
        }
        if i % 4 == 0 {
            key[0] = 1000 + i;
        }
        key
    };
    Requests((0..count).map(key).collect())
}

impl Requests {
    /// The sum of the answers.
    #[inline(never)]
    fn asked(&self, area: &mut [u32]) -> u64 {
        area[..2].fill(0);
        area[2 + NODES as usize..2 + (NODES + PLACES) as usize].fill(0);
        let mut sum = 0u64;
        for _ in 0..TIMES {
            for key in &self.0 {
                let key = black_box(key);
                sum += unsafe { arena_intern(area.as_mut_ptr(), AREA, NODES, LIMIT, PLACES, key.as_ptr(), key.len()) };
            }
        }
        sum
    }
}

impl Work for Requests {
    type Kept = (opened::Arena, u64);
    const CLEARS: bool = false;

    /// Of the words asked for.
    fn bytes(&self) -> usize {
        self.0.iter().map(Vec::len).sum::<usize>() * 4 * TIMES as usize
    }

    #[inline(never)]
    fn rust(&self) -> Self::Kept {
        let mut arena = opened::Arena::new();
        let mut sum = 0u64;
        for _ in 0..TIMES {
            for key in &self.0 {
                sum += u64::from(arena.intern(black_box(key)).unwrap());
            }
        }
        (arena, sum)
    }

    fn port(&self, areas: &mut Areas) {
        black_box(self.asked(&mut areas[0]));
    }

    fn answer(&self, areas: &mut Areas) -> u32 {
        assert_eq!(self.asked(&mut areas[0]), self.rust().1, "the port gives other numbers");
        0
    }
}

pub fn loads(run: &mut Run) {
    run.load("arena", "2,000 nodes of 5,000 words, 40,000 requests", "0.9", |q| requests(500 * q as u32));
}
