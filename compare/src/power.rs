//! What the generated cases can see: how many cases it takes until each misreading, planted in the second opinion,
//! gives another answer than the second opinion without it.
use crate::call::{Call, Release, RulebookAlone};
use crate::cases::{self, Texts};
use crate::lent;
use crate::page;
use crate::random::Random;
use std::io::Write;

/// For each misreading the first case that shows it.
fn shown<T, S: PartialEq>(
    n: usize,
    seed: u64,
    draw: impl Fn(&mut Random) -> T,
    second: impl Fn(&T, [usize; 4]) -> S,
) -> Vec<Option<usize>> {
    let mut rng = Random::new(seed);
    let mut took = vec![None; second::COUNT];
    for i in 1..=n {
        second::plant(None);
        let case = draw(&mut rng);
        let lengths = lent::lengths(&mut rng);
        let answer = second(&case, lengths);
        for (misreading, first) in took.iter_mut().enumerate().filter(|(_, first)| first.is_none()) {
            second::plant(Some(misreading));
            if second(&case, lengths) != answer {
                *first = Some(i);
            }
        }
    }
    second::plant(None);
    took
}

/// The page over all its buffers.
fn pages((texts, rooms): &(Texts, Vec<usize>), lengths: [usize; 4]) -> Vec<second::Written> {
    let judged = page::second(texts, lengths);
    rooms.iter().map(|&room| judged.written(room)).collect()
}

/// The table, and whether each misreading was shown by one of the three calls.
pub fn print(n: usize, seed: u64, out: &mut impl Write) -> std::io::Result<bool> {
    let calls = [
        shown(n, seed, Release::draw, Release::second),
        shown(n, seed, RulebookAlone::draw, RulebookAlone::second),
        shown(n, seed, page::draw, pages),
    ];
    let written = |first: Option<usize>| first.map_or("-".into(), |i| i.to_string());
    let mut rows: Vec<_> = (0..second::COUNT).map(|m| (calls.each_ref().map(|c| c[m]), second::name(m))).collect();
    // Unseen first, then by the smallest of the three.
    let least = |firsts: &[Option<usize>; 3]| firsts.iter().flatten().min().copied();
    rows.sort_by_key(|(firsts, _)| std::cmp::Reverse(least(firsts).unwrap_or(usize::MAX)));
    writeln!(out, "release\trulebook\tpage\tmisreading")?;
    for (firsts, name) in &rows {
        writeln!(out, "{}\t{name}", firsts.map(written).join("\t"))?;
    }
    let unseen = rows.iter().filter(|(firsts, _)| least(firsts).is_none()).count();
    for most in [10, 100, 1_000, 10_000, 100_000] {
        let within = |first: &Vec<Option<usize>>| first.iter().flatten().filter(|&&i| i <= most).count().to_string();
        writeln!(out, "within {most}\t{}", calls.each_ref().map(within).join("\t"))?;
    }
    writeln!(out, "misreadings\t{}\tseed {seed}\tcases {n} of each call\tunseen {unseen}", rows.len())?;
    Ok(unseen == 0)
}

/// The misreadings that no case of a list shows. A case is a line as `compare/paper/listed` writes it; none writes a page, so the page's
/// misreadings are left out.
pub fn unseen(list: &str, out: &mut impl Write) -> std::io::Result<()> {
    let mut took = vec![false; second::COUNT];
    for line in list.lines() {
        let fields: Vec<&str> = line.split(' ').take_while(|f| *f != "=").collect();
        let lent: [usize; 4] = std::array::from_fn(|i| fields[1 + i].parse().unwrap_or(0));
        let texts = cases::read(&[&fields[5..], &["-", "-"]].concat()[..3].join("\t"));
        let texts = texts.unwrap_or_else(|| panic!("not a case: {line}"));
        let said = || match fields[0] {
            "rulebook" => RulebookAlone::second(&texts.rulebook, lent),
            _ => Release::second(&texts, lent),
        };
        second::plant(None);
        let answer = said();
        for (misreading, shown) in took.iter_mut().enumerate().filter(|(_, shown)| !**shown) {
            second::plant(Some(misreading));
            *shown = said() != answer;
        }
    }
    second::plant(None);
    let asked = (0..second::COUNT).filter(|&m| !second::of_page(m));
    let names = asked.clone().filter(|&m| !took[m]).map(second::name);
    names.clone().try_for_each(|name| writeln!(out, "unseen\t{name}"))?;
    writeln!(out, "misreadings\t{}\tcalls {}\tunseen {}", asked.count(), list.lines().count(), names.count())
}
