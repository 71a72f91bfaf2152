//! The static library's calls beside the Rust and the second opinion: number, counts, texts, and every word of the areas.
use crate::cases::{Answer, Texts, hex};
use crate::lent::{self, Desk};
use crate::oracle::{self, AREA};
use crate::random::Random;
use crate::sources::{self, Source};
use crate::tally::Tally;
use crate::{releases, rulebooks};
use std::io::Write;
use std::sync::atomic::Ordering::Relaxed;

/// What the call with the rulebook alone hands back.
#[repr(C)]
struct RulebookReport {
    number: u32,
    counts: [u32; 4],
}

/// What the call with three texts hands back.
#[repr(C)]
struct ReleaseReport {
    number: u32,
    counts: [u32; 4],
    requested: u32,
}

unsafe extern "C" {
    // A slice is lent as its pointer and its length.
    fn horn_rulebook(
        text: *const u8,
        bytes: usize,
        a: *mut u32,
        a_words: usize,
        b: *mut u32,
        b_words: usize,
        c: *mut u32,
        c_words: usize,
        d: *mut u32,
        d_words: usize,
    ) -> RulebookReport;
    fn horn_release(
        rulebook: *const u8,
        rulebook_bytes: usize,
        goals: *const u8,
        goals_bytes: usize,
        certificate: *const u8,
        certificate_bytes: usize,
        a: *mut u32,
        a_words: usize,
        b: *mut u32,
        b_words: usize,
        c: *mut u32,
        c_words: usize,
        d: *mut u32,
        d_words: usize,
    ) -> ReleaseReport;
}

/// A number that no paper has shows as 255.
pub fn number(n: u32) -> u8 {
    u8::try_from(n).unwrap_or(u8::MAX)
}

/// A call of the library, with what it is held to.
pub trait Call {
    type Case;
    /// What the counts count.
    const COUNTED: &[&str];
    /// Numbers that must come often, beside 0, 1 and 2.
    const NUMBERS: &[u8];
    /// Numbers that must not come at all.
    const NEVER: &[u8] = &[];
    fn draw(rng: &mut Random) -> Self::Case;
    fn texts(case: &Self::Case) -> Vec<&[u8]>;
    /// What the Rust says over areas long enough, where it or its reader can speak.
    fn rust(case: &Self::Case) -> Option<(Answer, Source)>;
    /// What the second opinion says.
    fn second(case: &Self::Case, areas: [usize; 4]) -> Answer;
    /// What the library answers.
    fn call(texts: &[(*const u8, usize)], areas: [*mut u32; 4], lent: [usize; 4]) -> Answer;
}

/// Drawn cases, a line each: the call, the areas' lengths, the texts in hexadecimal; then `=` and the library's answer.
pub fn answers<C: Call>(name: &str, n: usize, seed: u64, out: &mut impl Write) -> std::io::Result<()> {
    let mut rng = Random::new(seed);
    let mut areas = [(); 4].map(|()| vec![0u32; 2 * AREA]);
    (0..n).try_for_each(|_| {
        let case = C::draw(&mut rng);
        let lent = lent::lengths(&mut rng);
        let texts = C::texts(&case);
        let pointers: Vec<_> = texts.iter().map(|t| (t.as_ptr(), t.len())).collect();
        let answer = C::call(&pointers, areas.each_mut().map(|a| a.as_mut_ptr()), lent);
        let [i, j, k, l] = lent;
        let texts: Vec<_> = texts.into_iter().map(hex).collect();
        writeln!(out, "{name} {i} {j} {k} {l} {} = {}", texts.join(" "), answer.to_string().replace('\t', " "))
    })
}

pub struct RulebookAlone;

impl Call for RulebookAlone {
    type Case = Vec<u8>;
    const COUNTED: &[&str] = &["sorts", "constructors", "predicates", "rules"];
    const NUMBERS: &[u8] = &rulebooks::NUMBERS;
    const NEVER: &[u8] = &[10];

    fn draw(rng: &mut Random) -> Vec<u8> {
        rulebooks::text(rng)
    }

    fn texts(text: &Vec<u8>) -> Vec<&[u8]> {
        vec![text]
    }

    fn rust(text: &Vec<u8>) -> Option<(Answer, Source)> {
        sources::rulebook_of_any_bytes(text)
    }

    fn second(text: &Vec<u8>, areas: [usize; 4]) -> Answer {
        oracle::opinion_on_rulebook(text, areas)
    }

    fn call(texts: &[(*const u8, usize)], [a, b, c, d]: [*mut u32; 4], [i, j, k, l]: [usize; 4]) -> Answer {
        let (text, bytes) = texts[0];
        let r = unsafe { horn_rulebook(text, bytes, a, i, b, j, c, k, d, l) };
        Answer::rulebook(number(r.number), r.counts.map(|n| n as usize))
    }
}

pub struct Release;

impl Call for Release {
    type Case = Texts;
    const COUNTED: &[&str] = &["steps", "goals", "terms", "bytes", "requested"];
    const NUMBERS: &[u8] = &releases::NUMBERS;

    fn draw(rng: &mut Random) -> Texts {
        releases::texts(rng)
    }

    fn texts(texts: &Texts) -> Vec<&[u8]> {
        vec![&texts.rulebook, &texts.goals, &texts.certificate]
    }

    fn rust(texts: &Texts) -> Option<(Answer, Source)> {
        sources::release_of_any_bytes(texts)
    }

    fn second(texts: &Texts, areas: [usize; 4]) -> Answer {
        oracle::opinion(texts, areas, second::LIMITS)
    }

    fn call(texts: &[(*const u8, usize)], [a, b, c, d]: [*mut u32; 4], [i, j, k, l]: [usize; 4]) -> Answer {
        let [(r, rn), (g, gn), (p, pn)] = texts[..] else { unreachable!("three texts") };
        let r = unsafe { horn_release(r, rn, g, gn, p, pn, a, i, b, j, c, k, d, l) };
        Answer::release(number(r.number), r.counts.map(|n| n as usize), r.requested as usize)
    }
}

/// Who is asked what is due over areas of these lengths: the Rust, or its reader, where they are long enough and it can speak.
pub fn due(rust: Option<(Answer, Source)>, second: Answer, lengths: [usize; 4]) -> (Answer, Source) {
    match rust {
        Some(said) if lengths.iter().all(|&n| n >= AREA) => said,
        _ => (second, if second.number < 3 && second.number > 0 { Source::Lengths } else { Source::Second }),
    }
}

/// A call held to what is due.
pub struct Held {
    pub due: Answer,
    pub source: Source,
    pub said: Answer,
    /// What differs, the second opinion, texts and areas included.
    pub difference: Option<String>,
}

/// Calls over areas of these lengths.
pub fn held<C: Call>(case: &C::Case, lengths: [usize; 4], desk: &mut Desk, rng: &mut Random) -> Held {
    let second = C::second(case, lengths);
    let (due, source) = due(C::rust(case), second, lengths);
    let texts = C::texts(case);
    let call = |texts: &[_], areas| C::call(texts, areas, lengths);
    let (said, wrong) = desk.lend(&texts, lengths, second::clears(due.number), rng, call);
    let differs = said != due || second != due || !wrong.is_empty();
    let difference = differs.then(|| {
        let texts: Vec<_> = texts.into_iter().map(hex).collect();
        format!(
            "{}: areas {lengths:?}, expected {due} ({source:?}), second opinion {second}, answered {said}, wrong afterwards: {wrong:?}",
            texts.join("\t")
        )
    });
    Held { due, source, said, difference }
}

/// What was seen of all cases.
pub struct Seen {
    desk: Desk,
    tally: Tally,
    longer: usize,
    short: usize,
    /// The largest of each count.
    most: [usize; 5],
}

impl Seen {
    pub fn new(rng: &mut Random) -> Self {
        Self { desk: Desk::new(rng), tally: Tally::default(), longer: 0, short: 0, most: [0; 5] }
    }

    /// One case, over areas that are drawn.
    pub fn case<C: Call>(&mut self, case: &C::Case, rng: &mut Random) {
        self.tally.cases += 1;
        lent::CASE.store(self.tally.cases, Relaxed);
        let lengths = lent::lengths(rng);
        let held = held::<C>(case, lengths, &mut self.desk, rng);
        self.tally.due(held.due.number, held.source);
        self.longer += usize::from(lengths.iter().all(|&n| n > AREA));
        self.short += usize::from(lengths.iter().filter(|&&n| n < AREA).count() > 1);
        self.most.iter_mut().zip(held.due.counts()).for_each(|(most, n)| *most = n.max(*most));
        held.difference.into_iter().for_each(|line| self.tally.differs(line));
    }

    /// The histogram, and the shortest of the differences.
    pub fn print<C: Call>(&mut self, what: &str, out: &mut impl Write) -> std::io::Result<()> {
        self.tally.print(what, C::NUMBERS, out)?;
        writeln!(out, "all four areas longer\t{}", self.longer)?;
        writeln!(out, "several areas short\t{}", self.short)?;
        let most: Vec<_> =
            self.most.iter().zip(C::COUNTED).map(|(most, counted)| format!("{most} {counted}")).collect();
        writeln!(out, "most counted\t{}", most.join(", "))?;
        self.tally.print_differences(out)
    }

    pub fn good<C: Call>(&self) -> bool {
        self.tally.good() && C::NEVER.iter().all(|&k| self.tally.all(k) == 0)
    }
}

/// Compares `n` generated cases, prints the histogram, and says whether all is as it must be.
pub fn compare<C: Call>(n: usize, seed: u64, out: &mut impl Write) -> std::io::Result<bool> {
    let mut rng = Random::new(seed);
    let mut seen = Seen::new(&mut rng);
    for _ in 0..n {
        let case = C::draw(&mut rng);
        seen.case::<C>(&case, &mut rng);
    }
    seen.print::<C>(&format!("seed {seed}"), out)?;
    Ok(seen.good::<C>())
}
