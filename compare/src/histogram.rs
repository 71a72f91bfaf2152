//! How often each number comes, by the text that was refused.
use crate::generate;
use crate::oracle::{self, Reply, Text};
use crate::random::Random;
use std::collections::BTreeMap;
use std::io::Write;

/// Numbers that the Rust can give, beside 0.
const REACHED: std::ops::RangeInclusive<u8> = 3..=29;

pub fn print(n: usize, seed: u64, out: &mut impl Write) -> std::io::Result<()> {
    let mut rng = Random::new(seed);
    // For each number: accepted or by text.
    let mut rows: BTreeMap<u8, [usize; 4]> = BTreeMap::new();
    let mut outside: BTreeMap<&str, usize> = BTreeMap::new();
    let mut kinds: BTreeMap<String, usize> = BTreeMap::new();
    for _ in 0..n {
        let case = generate::case(&mut rng, false);
        for kind in case.kind.split(' ') {
            *kinds.entry(kind.to_string()).or_default() += 1;
        }
        match oracle::answer(&case.texts) {
            Reply::Outside(why, _) => *outside.entry(why).or_default() += 1,
            Reply::Rust(answer, text) => {
                let column = match text {
                    None => 0,
                    Some(Text::Rulebook) => 1,
                    Some(Text::Goals) => 2,
                    Some(Text::Certificate) => 3,
                };
                rows.entry(answer.number).or_default()[column] += 1;
            }
        }
    }
    writeln!(out, "number\tall\trulebook\tgoals\tcertificate")?;
    for (number, row) in &rows {
        writeln!(out, "{number}\t{}\t{}\t{}\t{}", row.iter().sum::<usize>(), row[1], row[2], row[3])?;
    }
    for (why, count) in &outside {
        writeln!(out, "outside\t{count}\t{why}")?;
    }
    writeln!(out)?;
    for (kind, count) in &kinds {
        writeln!(out, "kind\t{count}\t{kind}")?;
    }
    let all = |number: u8| rows.get(&number).map_or(0, |r| r.iter().sum::<usize>());
    let least = REACHED.filter(|&k| k != 28).map(|k| (all(k), k)).min().expect("a number");
    writeln!(out, "\ncases\t{n}\tseed {seed}")?;
    writeln!(out, "accepted\t{}\t{:.1} %", all(0), 100.0 * all(0) as f64 / n.max(1) as f64)?;
    writeln!(out, "rarest\t{}\tnumber {}", least.0, least.1)
}
