//! What was seen of the calls of a family: how often each number is due, by who says so, and what differs.
use crate::sources::Source;
use std::collections::BTreeMap;
use std::io::Write;

#[derive(Default)]
pub struct Tally {
    rows: BTreeMap<u8, [usize; 4]>,
    pub cases: usize,
    differences: usize,
    /// The shortest of them, and some more.
    shortest: Vec<String>,
}

impl Tally {
    pub fn due(&mut self, number: u8, source: Source) {
        self.rows.entry(number).or_default()[source as usize] += 1;
    }

    pub fn differs(&mut self, line: String) {
        self.differences += 1;
        self.shortest.push(line);
        if self.shortest.len() > 200 {
            self.prune();
        }
    }

    fn prune(&mut self) {
        self.shortest.sort_by_key(String::len);
        self.shortest.truncate(20);
    }

    pub fn all(&self, number: u8) -> usize {
        self.rows.get(&number).map_or(0, |r| r.iter().sum())
    }

    pub fn good(&self) -> bool {
        self.differences == 0
    }

    /// The shortest of the differences, the histogram, and how many cases there were; `numbers` must come often.
    pub fn print(&mut self, what: &str, numbers: &[u8], out: &mut impl Write) -> std::io::Result<()> {
        self.prune();
        self.shortest.iter().try_for_each(|line| writeln!(out, "differs: {line}"))?;
        writeln!(out, "number\tall\tRust\tRust's reader\tsecond opinion\tlengths")?;
        for (number, row) in &self.rows {
            writeln!(out, "{number}\t{}\t{}", self.all(*number), row.map(|n| n.to_string()).join("\t"))?;
        }
        let least = numbers.iter().map(|&k| (self.all(k), k)).min().expect("a number");
        let share = 100.0 * self.all(0) as f64 / self.cases.max(1) as f64;
        writeln!(out, "\ncases\t{}\t{what}", self.cases)?;
        writeln!(out, "accepted\t{}\t{share:.1} %", self.all(0))?;
        writeln!(out, "rarest\t{}\tnumber {}", least.0, least.1)
    }

    pub fn print_differences(&self, out: &mut impl Write) -> std::io::Result<()> {
        writeln!(out, "differences\t{}", self.differences)
    }
}
