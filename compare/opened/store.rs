//! Limits of the store, its use and the requests to it, for the opened copy of the Rust.
use std::cell::Cell;

thread_local! {
    static LIMITS: Cell<(usize, usize)> = const { Cell::new((usize::MAX, usize::MAX)) };
    static USED: Cell<(usize, usize)> = const { Cell::new((0, 0)) };
    static REQUESTED: Cell<usize> = const { Cell::new(0) };
}

/// Sets the limits of the next run, nodes and words, and forgets the use of the last.
pub fn limit(nodes: usize, words: usize) {
    LIMITS.set((nodes, words));
    USED.set((0, 0));
    REQUESTED.set(0);
}

/// Nodes and words held at the end of the last run, refused or not.
pub fn used() -> (usize, usize) {
    USED.get()
}

/// Requests of the last run that were met, whether a node was found or made.
pub fn requested() -> usize {
    REQUESTED.get()
}

/// Called when a request was met.
pub fn met() {
    REQUESTED.set(REQUESTED.get() + 1);
}

/// Called when a node not yet held is about to be stored, with the counts that would follow.
pub fn made(nodes: usize, words: usize) -> Result<(), String> {
    let limits = LIMITS.get();
    if nodes > limits.0 || words > limits.1 {
        return Err("store full".into());
    }
    USED.set((nodes, words));
    Ok(())
}
