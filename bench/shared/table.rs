//! The lines of all runs on standard input as tables.
use crate::measure::median;
use std::collections::BTreeMap;
use std::io::Read;

/// A load's words, and its figures in each run.
struct Load {
    words: Vec<String>,
    runs: Vec<Vec<f64>>,
}

impl Load {
    /// The median over the runs.
    fn of(&self, figure: impl Fn(&[f64]) -> f64) -> f64 {
        median(self.runs.iter().map(|r| figure(r)).collect())
    }

    fn most(&self, figure: impl Fn(&[f64]) -> f64) -> f64 {
        self.runs.iter().map(|r| figure(r)).fold(0.0, f64::max)
    }
}

/// Places of the figures of a size: bytes, Rust, port, clearing, memset.
const BYTES: usize = 0;
const RUST: usize = 1;
const PORT: usize = 2;
const CLEARING: usize = 3;
const MEMSET: usize = 4;
const SIZE: usize = 5;

fn us(x: f64) -> String {
    match x {
        x if x >= 1e5 => format!("{:.0} ms", x / 1e3),
        x if x >= 1e4 => format!("{:.1} ms", x / 1e3),
        x if x >= 100.0 => format!("{x:.0} us"),
        x => format!("{x:.2} us"),
    }
}

/// How much faster time grows than bytes, from one size to the next larger one, which stands before it; the clearing left out.
fn growth(r: &[f64], side: usize, larger: usize) -> f64 {
    let own = |size: usize| r[SIZE * size + side] - if side == PORT { r[SIZE * size + CLEARING] } else { 0.0 };
    (own(larger) / own(larger + 1)) / (r[SIZE * larger + BYTES] / r[SIZE * (larger + 1) + BYTES])
}

fn speed(loads: &[Load], runs: usize) {
    println!("## Beside the Rust\n");
    println!("|Bench|Load|Answer|Bytes|Rust|Port|Ratio, median of {runs}|Slowest of {runs}|Without the clearing|Over the Rust and `memset`|Bar|");
    println!("|-|-|-|-|-|-|-|-|-|-|-|");
    for l in loads {
        let clears = l.of(|r| r[CLEARING]) > 0.0;
        let only = |figure: &dyn Fn(&[f64]) -> f64| if clears { format!("{:.2}", l.of(figure)) } else { "-".into() };
        let [bench, load, bar, answer] = [0, 1, 2, 3].map(|i| &l.words[i]);
        println!(
            "|{bench}|{load}|{answer}|{}|{}|{}|{:.2}|{:.2}|{}|{}|{}|",
            l.of(|r| r[BYTES]),
            us(l.of(|r| r[RUST])),
            us(l.of(|r| r[PORT])),
            l.of(|r| r[PORT] / r[RUST]),
            l.most(|r| r[PORT] / r[RUST]),
            only(&|r| (r[PORT] - r[CLEARING]) / r[RUST]),
            only(&|r| r[PORT] / (r[RUST] + r[MEMSET])),
            if bar.is_empty() { "-" } else { bar },
        );
    }
    let clearing = |place: usize| loads.iter().map(|l| l.of(|r| r[place])).filter(|&t| t > 0.0).collect::<Vec<_>>();
    if !clearing(CLEARING).is_empty() {
        let [ours, limit] = [CLEARING, MEMSET].map(|place| us(median(clearing(place))));
        println!("\nThe clearing alone: {ours}; `memset` of the same bytes: {limit}.");
    }
    println!();
}

fn sizes(loads: &[Load]) {
    println!("## How time grows\n");
    println!("|Bench|Load|Bytes: quarter, half, whole|Port|Half / quarter|Whole / half|Rust, whole / half|");
    println!("|-|-|-|-|-|-|-|");
    for l in loads.iter().filter(|l| l.runs[0].len() > SIZE) {
        let three = |place: usize, shown: fn(f64) -> String| [2, 1, 0].map(|s| shown(l.of(|r| r[SIZE * s + place]))).join(", ");
        println!(
            "|{}|{}|{}|{}|{:.2}|{:.2}|{:.2}|",
            l.words[0],
            l.words[1],
            three(BYTES, |x| x.to_string()),
            three(PORT, us),
            l.of(|r| growth(r, PORT, 1)),
            l.of(|r| growth(r, PORT, 0)),
            l.of(|r| growth(r, RUST, 0)),
        );
    }
}

/// The call that writes the page stands in the port's place, the call with three texts in the Rust's.
fn pages(loads: &[Load], runs: usize) {
    println!("\n## The release page\n");
    println!("|Load|Answer|Bytes of the page|Call with three texts|Call that writes the page|Ratio, median of {runs}|Slowest of {runs}|");
    println!("|-|-|-|-|-|-|-|");
    for l in loads {
        let [load, page, answer] = [1, 2, 3].map(|i| &l.words[i]);
        println!(
            "|{load}|{answer}|{page}|{}|{}|{:.2}|{:.2}|",
            us(l.of(|r| r[RUST])),
            us(l.of(|r| r[PORT])),
            l.of(|r| r[PORT] / r[RUST]),
            l.most(|r| r[PORT] / r[RUST]),
        );
    }
}

fn worst(loads: &[Load]) {
    println!("\n## Worst cases\n");
    println!("|Call|Load|Answer|Bytes|Port|Median text|Times|Whole / half|Rust|Times its median|What bounds it|");
    println!("|-|-|-|-|-|-|-|-|-|-|-|");
    for l in loads {
        let [call, load, bound, answer] = [0, 1, 2, 3].map(|i| &l.words[i]);
        let (of_rust, of_port) = (2 * SIZE, 2 * SIZE + 1);
        println!(
            "|{call}|{load}|{answer}|{}|{}|{}|{:.1}|{:.2}|{}|{:.1}|{bound}|",
            l.of(|r| r[BYTES]),
            us(l.of(|r| r[PORT])),
            us(l.of(|r| r[of_port])),
            l.of(|r| r[PORT] / r[of_port]),
            l.of(|r| growth(r, PORT, 0)),
            us(l.of(|r| r[RUST])),
            l.of(|r| r[RUST] / r[of_rust]),
        );
    }
}

pub fn print() {
    let mut text = String::new();
    std::io::stdin().read_to_string(&mut text).expect("lines of runs");
    let mut tables: BTreeMap<&str, Vec<Load>> = BTreeMap::new();
    for line in text.lines() {
        let words: Vec<String> = line.split('\t').map(String::from).collect();
        let figures: Vec<f64> = words[5..].iter().map(|w| w.parse().expect("a figure")).collect();
        let kind = line.split('\t').next().expect("a word");
        let table = tables.entry(kind).or_default();
        match table.iter_mut().find(|l| l.words == words[1..5]) {
            Some(load) => load.runs.push(figures),
            None => table.push(Load { words: words[1..5].to_vec(), runs: vec![figures] }),
        }
    }
    if let Some(loads) = tables.get("speed") {
        speed(loads, loads[0].runs.len());
        sizes(loads);
    }
    if let Some(loads) = tables.get("page") {
        pages(loads, loads[0].runs.len());
    }
    if let Some(loads) = tables.get("worst") {
        worst(loads);
    }
}
