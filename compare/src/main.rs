//! The comparison's driver: the Rust's answers to cases, and a seeded generator of cases. See ../README.md.
mod aim;
mod aim_steps;
#[cfg(library)]
mod call;
mod cases;
mod certificate;
mod damage;
mod draft;
#[cfg(library)]
mod exhaustive;
mod generate;
#[cfg(library)]
mod graphs;
mod histogram;
#[cfg(library)]
mod lent;
#[cfg(library)]
mod longer;
#[cfg(library)]
mod longer_texts;
mod messages;
mod names;
mod oracle;
#[cfg(library)]
mod page;
#[cfg(library)]
mod pages;
#[cfg(library)]
mod pairs;
#[cfg(library)]
mod power;
mod random;
#[cfg(library)]
mod releases;
mod rulebook;
#[cfg(library)]
mod rulebooks;
#[cfg(library)]
mod sources;
mod special;
#[cfg(library)]
mod tally;
mod tree;
#[cfg(library)]
mod two_faults;
mod written;

use cases::{Answer, hex};
use oracle::Reply;
use std::collections::{BTreeMap, HashSet};
use std::io::{BufWriter, Read, Write, stdin, stdout};

const USAGE: &str = "usage: compare/run COMMAND
  histogram N SEED    how often each number comes in N generated cases, by text
  generate N SEED     the cases themselves, with the Rust's answers
  answers             the Rust's answers to the case lines of standard input
  rulebook-answers    the same for the call with the rulebook alone
  second [NODES WORDS]  the opened copy's answers, on any bytes and limits: never the oracle
  opinion [NODES WORDS] the second opinion's answers, worked from 01 alone
  fixed | rulebooks   the fixed lists
  readings | by-hand  cases written for people (standard input) as case lines, checked
  rulebook-call N SEED  N generated rulebooks: the static library's call beside the Rust
  release-call N SEED   N generated cases: the static library's call with three texts beside the Rust
  page-call N SEED      N generated cases: its call that writes the release page, over buffers of several lengths
  longer N SEED         N releases accepted under a rulebook and under a longer one: the same counts
  rulebook-cases N SEED | release-cases N SEED  such cases themselves, with the library's answers
  exhaustive bytes N  every text of at most N bytes over an alphabet, as each of the three texts
  exhaustive characters  every character, alone, within an atom and between two tokens
  exhaustive tokens N M  every string of at most N tokens, and up to M of those that are not refused
  exhaustive pairs    every form with every pair of faults
  exhaustive shares N  the release page of every share of used steps of at most N
  power N SEED        how many of N cases it takes to show each planted misreading
  unseen              which of them no case of standard input shows (compare/paper/listed)
  guards              a touched guard page ends a run of the library
  keep [DIR]          all four files of compare/cases, written anew";

fn fail(message: &str) -> ! {
    eprintln!("compare: {message}");
    std::process::exit(2);
}

fn input() -> String {
    let mut text = String::new();
    stdin().read_to_string(&mut text).unwrap_or_else(|e| fail(&e.to_string()));
    text
}

fn texts_of(line: &str) -> cases::Texts {
    cases::read(line).unwrap_or_else(|| fail(&format!("not a case line: {line}")))
}

/// An answer and who gives it (the fifth count is the second opinion's); outside the domain there is none, but for the driver's own 2.
fn reply(reply: &Reply) -> String {
    match reply {
        Reply::Rust(answer, _) => format!("{answer}\trust"),
        Reply::Outside(why, None) => format!("outside\t-\t-\t-\t-\t-\t{why}"),
        Reply::Outside(why, Some(own)) => format!("{own}\tdriver: {why}"),
    }
}

fn main() {
    let args: Vec<String> = std::env::args().skip(1).collect();
    let args: Vec<&str> = args.iter().map(String::as_str).collect();
    let number = |s: &str| s.parse::<u64>().unwrap_or_else(|_| fail(&format!("not a number: {s}")));
    let mut out = BufWriter::new(stdout().lock());
    let result = match args[..] {
        ["histogram", n, seed] => histogram::print(number(n) as usize, number(seed), &mut out),
        ["generate", n, seed] => generated(number(n) as usize, number(seed), &mut out),
        ["answers"] => input().lines().try_for_each(|l| writeln!(out, "{}", reply(&oracle::answer(&texts_of(l))))),
        ["rulebook-answers"] => {
            input().lines().try_for_each(|l| match oracle::rulebook(&texts_of(&format!("{l}\t-\t-")).rulebook) {
                Some(answer) => writeln!(out, "{answer}"),
                None => writeln!(out, "outside\t-\t-\t-\t-"),
            })
        }
        ["second"] => second(oracle::NODES, oracle::WORDS, &mut out),
        ["second", nodes, words] => second(number(nodes) as usize, number(words) as usize, &mut out),
        ["fixed"] => fixed(&mut out),
        ["rulebooks"] => rulebooks(&mut out),
        ["readings"] => readings(&mut out),
        ["by-hand"] => by_hand(&mut out),
        #[cfg(library)]
        ["rulebook-call", n, seed] => call::<call::RulebookAlone>(number(n) as usize, number(seed), &mut out),
        #[cfg(library)]
        ["release-call", n, seed] => call::<call::Release>(number(n) as usize, number(seed), &mut out),
        #[cfg(library)]
        ["page-call", n, seed] => same(page::compare(number(n) as usize, number(seed), &mut out), &mut out),
        #[cfg(library)]
        ["longer", n, seed] => same(longer::compare(number(n) as usize, number(seed), &mut out), &mut out),
        #[cfg(library)]
        ["rulebook-cases", n, seed] => {
            call::answers::<call::RulebookAlone>("rulebook", number(n) as usize, number(seed), &mut out)
        }
        #[cfg(library)]
        ["release-cases", n, seed] => {
            call::answers::<call::Release>("release", number(n) as usize, number(seed), &mut out)
        }
        ["opinion"] => opinion(second::LIMITS, &mut out),
        ["opinion", nodes, words] => {
            opinion(second::Limits { nodes: number(nodes) as usize, words: number(words) as usize }, &mut out)
        }
        #[cfg(library)]
        ["power", n, seed] => power(number(n) as usize, number(seed), &mut out),
        #[cfg(library)]
        ["unseen"] => power::unseen(&input(), &mut out),
        #[cfg(library)]
        ["exhaustive", ref what @ ..] => exhaustive(what, &mut out),
        #[cfg(library)]
        ["touch", what] => return lent::touch(what),
        #[cfg(library)]
        ["guards"] => guards(&mut out),
        _ => fail(USAGE),
    };
    if let Err(e) = result.and_then(|()| out.flush()) {
        fail(&e.to_string());
    }
}

type Io = std::io::Result<()>;

fn generated(n: usize, seed: u64, out: &mut impl Write) -> Io {
    let mut rng = random::Random::new(seed);
    (0..n).try_for_each(|_| {
        let case = generate::case(&mut rng, false);
        writeln!(out, "{}\t{}\t{}", case.texts, reply(&oracle::answer(&case.texts)), case.kind)
    })
}

#[cfg(library)]
fn call<C: call::Call>(n: usize, seed: u64, out: &mut impl Write) -> Io {
    same(call::compare::<C>(n, seed, out), out)
}

/// Ends the program where a comparison found a difference.
#[cfg(library)]
fn same(compared: std::io::Result<bool>, out: &mut impl Write) -> Io {
    if compared? {
        return Ok(());
    }
    out.flush()?;
    fail("the call differs from what is due")
}

fn second(nodes: usize, words: usize, out: &mut impl Write) -> Io {
    input().lines().try_for_each(|l| writeln!(out, "{}", oracle::second(&texts_of(l), nodes, words)))
}

fn opinion(limits: second::Limits, out: &mut impl Write) -> Io {
    input().lines().try_for_each(|l| writeln!(out, "{}", oracle::opinion(&texts_of(l), [oracle::AREA; 4], limits)))
}

/// In a thread with room for misreadings that read without a limit of depth.
#[cfg(library)]
fn power(n: usize, seed: u64, out: &mut impl Write) -> Io {
    let run = move || {
        let mut table = Vec::new();
        power::print(n, seed, &mut table).map(|all| (all, table))
    };
    let thread = std::thread::Builder::new().stack_size(1 << 29).spawn(run)?;
    let (all, table) = thread.join().unwrap_or_else(|_| fail("a misreading did not end"))?;
    out.write_all(&table)?;
    out.flush()?;
    if all { Ok(()) } else { fail("a misreading was not seen") }
}

#[cfg(library)]
fn exhaustive(what: &[&str], out: &mut impl Write) -> Io {
    match exhaustive::run(what, out)? {
        Some(good) => same(Ok(good), out),
        None => fail(USAGE),
    }
}

/// A byte beyond a text, an area or a buffer is touched, each in a process of its own, which it must end.
#[cfg(library)]
fn guards(out: &mut impl Write) -> Io {
    for what in ["text-before", "text-behind", "area-before", "area-behind", "buffer-before", "buffer-behind"] {
        let status = std::process::Command::new(std::env::current_exe()?).args(["touch", what]).status()?;
        writeln!(out, "{what}: status {:?}", status.code())?;
        if status.code() != Some(lent::BEYOND) {
            fail("a guard page did not end the run");
        }
    }
    Ok(())
}

fn fixed(out: &mut impl Write) -> Io {
    generate::fixed().iter().try_for_each(|a| writeln!(out, "{}\t{}\t{}", a.case.texts, a.answer, a.case.kind))
}

/// The rulebooks of the fixed list, so many of each number, and the longest that 01 names.
fn rulebooks(out: &mut impl Write) -> Io {
    let spaces = vec![b' '; oracle::RULEBOOK_BYTES];
    let mut kept = vec![(spaces, "longest".to_string()), (special::bench().rulebook, "bench".to_string())];
    kept.extend(generate::fixed().into_iter().map(|a| (a.case.texts.rulebook, a.case.kind)));
    let mut seen = HashSet::new();
    let mut held: BTreeMap<u8, usize> = BTreeMap::new();
    for (text, kind) in kept {
        let Some(answer) = oracle::rulebook(&text) else { continue };
        let count = held.entry(answer.number).or_default();
        if *count < if answer.number == 0 { 150 } else { 25 } && seen.insert(text.clone()) {
            *count += 1;
            writeln!(out, "{}\t{answer}\t{kind}", hex(&text))?;
        }
    }
    Ok(())
}

fn written() -> Vec<written::Written> {
    written::read(&input()).unwrap_or_else(|e| fail(&e))
}

/// Case lines of readings, each of which the Rust must answer as written.
fn readings(out: &mut impl Write) -> Io {
    let mut wrong = 0;
    for case in written() {
        let said = reply(&oracle::answer(&case.texts));
        if said != format!("{}\trust", case.answer) {
            wrong += 1;
            eprintln!("differs: {}: written {}, the Rust {said}", case.reason, case.answer);
        }
        writeln!(out, "{}\t{}\t{}", case.texts, case.answer, case.reason)?;
    }
    if wrong > 0 { fail(&format!("{wrong} readings differ from the Rust")) } else { Ok(()) }
}

/// What others say of a case worked by hand: the second opinion; over areas long enough the opened copy, and the Rust in its domain.
fn opinions(case: &written::Written) -> Vec<(&'static str, Answer)> {
    let (nodes, words) = case.store;
    let areas = case.areas.unwrap_or([oracle::AREA; 4]);
    let second = match case.rulebook_alone {
        true => oracle::opinion_on_rulebook(&case.texts.rulebook, areas),
        false => oracle::opinion(&case.texts, areas, second::Limits { nodes, words }),
    };
    let second = ("the second opinion", second);
    if case.areas.iter().flatten().any(|&n| n < oracle::AREA) {
        return vec![second];
    }
    if case.rulebook_alone {
        return vec![second, ("the opened copy", oracle::second_rulebook(&case.texts.rulebook))];
    }
    let mut out = vec![second, ("the opened copy", oracle::second(&case.texts, nodes, words))];
    if case.store == (oracle::NODES, oracle::WORDS) {
        if let Reply::Rust(answer, _) = oracle::answer(&case.texts) {
            out.push(("the Rust", answer));
        }
    }
    out
}

/// Case lines of answers worked by hand, each compared with the opened copy and the Rust where they can speak.
fn by_hand(out: &mut impl Write) -> Io {
    let mut wrong = 0;
    for case in written() {
        for (who, said) in opinions(&case) {
            if said != case.answer {
                wrong += 1;
                eprintln!("differs: {}: by hand {}, {who} {said}", case.reason, case.answer);
            }
        }
        let (nodes, words) = case.store;
        let call = if case.rulebook_alone { "rulebook" } else { "release" };
        let areas = case.areas.map_or("-".into(), |a| a.map(|n| n.to_string()).join(","));
        // All lines have as many fields: a rulebook alone has no fifth count.
        let fifth = if case.rulebook_alone { "\t-" } else { "" };
        writeln!(out, "{}\t{}{fifth}\t{nodes}\t{words}\t{areas}\t{call}\t{}", case.texts, case.answer, case.reason)?;
    }
    if wrong > 0 { fail(&format!("{wrong} answers by hand differ from others")) } else { Ok(()) }
}
