//! The lines of all runs on standard input as tables.
use crate::measure::median;
use std::io::Read;

const TABLES: [(&str, &str, &str); 3] = [
    ("tokens", "All tokens of a text", "character"),
    ("looks", "Each character of a text where it stands", "character"),
    ("tests", "The test alone, on the values of a text's characters", "value"),
];

pub fn print() {
    let mut input = String::new();
    std::io::stdin().read_to_string(&mut input).expect("lines of runs");
    let lines: Vec<Vec<&str>> = input.lines().map(|line| line.split('\t').collect()).collect();
    for (table, title, unit) in TABLES {
        println!("## {title}\n\n|Text|Rust, ns a {unit}|Before|Now|Now over before|Slowest|Now over the Rust|Slowest|\n|-|-|-|-|-|-|-|-|");
        let mut names: Vec<&str> = Vec::new();
        lines.iter().filter(|l| l[0] == table).for_each(|l| if !names.contains(&l[1]) { names.push(l[1]) });
        for name in names {
            let runs: Vec<[f64; 3]> = lines.iter().filter(|l| l[0] == table && l[1] == name).map(|l| [2, 3, 4].map(|i| l[i].parse().expect("a figure"))).collect();
            let of = |figure: &dyn Fn(&[f64; 3]) -> f64| median(runs.iter().map(figure).collect());
            let most = |figure: &dyn Fn(&[f64; 3]) -> f64| runs.iter().map(figure).fold(0.0, f64::max);
            let (before, rust) = (|r: &[f64; 3]| r[2] / r[1], |r: &[f64; 3]| r[2] / r[0]);
            println!(
                "|{name}|{:.2}|{:.2}|{:.2}|{:.2}|{:.2}|{:.2}|{:.2}|",
                of(&|r| r[0]),
                of(&|r| r[1]),
                of(&|r| r[2]),
                of(&before),
                most(&before),
                of(&rust),
                most(&rust)
            );
        }
        println!();
    }
}
