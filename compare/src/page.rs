//! The static library's call that writes the release page, beside the second opinion: number, length, every byte of the buffer, texts, and
//! every word of the areas; the number beside the Rust and the call with three texts too.
use crate::call::{self, Call, Release};
use crate::cases::{Answer, Texts, hex};
use crate::graphs;
use crate::lent::{self, Desk, Place};
use crate::oracle::AREA;
use crate::pages::{self, GOAL, RULE};
use crate::random::Random;
use crate::releases;
use crate::tally::Tally;
use std::io::Write;
use std::sync::atomic::Ordering::Relaxed;

/// What the call hands back.
#[repr(C)]
struct Written {
    number: u32,
    length: u32,
}

unsafe extern "C" {
    // A slice is lent as its pointer and its length.
    fn horn_page(
        rulebook: *const u8,
        rulebook_bytes: usize,
        goals: *const u8,
        goals_bytes: usize,
        certificate: *const u8,
        certificate_bytes: usize,
        a: *mut u32,
        a_words: usize,
        b: *mut u32,
        b_words: usize,
        c: *mut u32,
        c_words: usize,
        d: *mut u32,
        d_words: usize,
        out: *mut u8,
        out_bytes: usize,
    ) -> Written;
}

/// What the second opinion says, before a buffer is looked at.
pub fn second(texts: &Texts, areas: [usize; 4]) -> second::Judged {
    second::page(&texts.rulebook, &texts.goals, &texts.certificate, areas, second::LIMITS)
}

/// Texts and lengths of the buffer for them.
pub fn draw(rng: &mut Random) -> (Texts, Vec<usize>) {
    let texts = pages::texts(rng);
    let page = second(&texts, [AREA; 4]).outcome.ok().map(|p| p.text().len());
    let rooms = pages::rooms(page, rng);
    (texts, rooms)
}

/// What accepted releases show.
const SHAPES: [&str; 16] = [
    "several goals",
    "several results at one step",
    "steps that are not used",
    "steps used only through others",
    "an exact half of a percent",
    "less than 1 percent",
    "99.5 percent or more, but not all",
    "a step's number of 3 digits or more",
    "a goal's name of 31 bytes",
    "a goal's name of 32 bytes",
    "a goal's name of 33 bytes",
    "a character of 2 bytes over the end of a column",
    "a character of 3 bytes over the end of a column",
    "a character of 4 bytes over the end of a column",
    "a rule's name longer than its column",
    "more than 600 goals",
];

/// Bytes of the character that lies over the end of a column, or 0.
fn across(name: &[u8], width: usize) -> usize {
    let Ok(name) = std::str::from_utf8(name) else { return 0 };
    let over = name.char_indices().find(|(at, c)| *at < width && at + c.len_utf8() > width);
    over.map_or(0, |(_, c)| c.len_utf8())
}

fn shapes(page: &second::Page) -> [bool; SHAPES.len()] {
    let (lines, used, steps) = (&page.lines, page.used, page.steps);
    let results: std::collections::HashSet<&str> = lines.iter().map(|l| &l.step[..]).collect();
    let goal = |bytes: usize| lines.iter().any(|l| l.goal.len() == bytes);
    let over = |n: usize| lines.iter().any(|l| across(&l.goal, GOAL) == n || across(&l.rule, RULE) == n);
    [
        lines.len() > 1,
        results.len() < lines.len(),
        used < steps,
        used > results.len(),
        200 * used % (2 * steps) == steps,
        100 * used < steps,
        used < steps && 1_000 * used >= 995 * steps,
        lines.iter().any(|l| l.step.len() > 2),
        goal(31),
        goal(32),
        goal(33),
        over(2),
        over(3),
        over(4),
        lines.iter().any(|l| l.rule.len() > RULE),
        lines.len() > 600,
    ]
}

/// What was seen of all cases.
struct Seen {
    desk: Desk,
    buffer: Place,
    tally: Tally,
    /// Calls by whether their number was 0, 31 or another.
    calls: [usize; 3],
    /// Buffers that lay against the page behind them, and against the page before.
    placed: [usize; 2],
    shapes: [usize; SHAPES.len()],
    longest: usize,
}

impl Seen {
    fn new(rng: &mut Random) -> Self {
        let (desk, buffer, tally) = (Desk::new(rng), Place::default(), Tally::default());
        Self { desk, buffer, tally, calls: [0; 3], placed: [0; 2], shapes: [0; SHAPES.len()], longest: 0 }
    }

    /// One case, over all its buffers against their back; over one of them against its front too.
    fn case(&mut self, texts: &Texts, rooms: &[usize], lengths: [usize; 4], rng: &mut Random) {
        self.tally.cases += 1;
        lent::CASE.store(self.tally.cases, Relaxed);
        let judged = second(texts, lengths);
        self.judged(texts, lengths, &judged, rng);
        if let Ok(page) = &judged.outcome {
            self.shapes.iter_mut().zip(shapes(page)).for_each(|(count, shows)| *count += usize::from(shows));
            self.longest = self.longest.max(page.text().len());
        }
        let front = *rng.pick(rooms);
        for (room, back) in rooms.iter().map(|&room| (room, true)).chain([(front, false)]) {
            self.call(texts, lengths, &judged.written(room), (room, back), rng);
        }
    }

    /// The number that is due, held to what the Rust and the library's call with three texts say of it.
    fn judged(&mut self, texts: &Texts, lengths: [usize; 4], judged: &second::Judged, rng: &mut Random) {
        let number = judged.outcome.as_ref().err().copied().unwrap_or(0);
        let (answer, source) = call::due(Release::rust(texts), Answer::refused(number), lengths);
        self.tally.due(answer.number, source);
        let call = |texts: &[_], areas| Release::call(texts, areas, lengths);
        let (said, _) = self.desk.lend(&Release::texts(texts), lengths, second::clears(number), rng, call);
        if answer.number != number || said.number != number {
            self.tally.differs(format!(
                "{texts}: areas {lengths:?}, expected {} ({source:?}), second opinion {number}, the call with three texts {}",
                answer.number, said.number
            ));
        }
    }

    /// One call over one buffer, which holds random bytes.
    fn call(
        &mut self,
        texts: &Texts,
        lengths: [usize; 4],
        due: &second::Written,
        (room, back): (usize, bool),
        rng: &mut Random,
    ) {
        self.calls[[31, 0].iter().position(|&n| n == due.number).map_or(2, |i| 1 - i)] += 1;
        self.placed[usize::from(!back)] += 1;
        let held: Vec<u8> = (0..room.div_ceil(8)).flat_map(|_| rng.next().to_le_bytes()).take(room).collect();
        let buffer = self.buffer.buffer(&held, back);
        let [i, j, k, l] = lengths;
        let call = |texts: &[(*const u8, usize)], [a, b, c, d]: [*mut u32; 4]| {
            let [(r, rn), (g, gn), (p, pn)] = texts[..] else { unreachable!("three texts") };
            unsafe { horn_page(r, rn, g, gn, p, pn, a, i, b, j, c, k, d, l, buffer.pointer(), room) }
        };
        let cleared = second::clears(due.number);
        let (said, wrong) = self.desk.lend(&Release::texts(texts), lengths, cleared, rng, call);
        let same = call::number(said.number) == due.number && said.length as usize == due.length;
        if !same || !wrong.is_empty() || !buffer.buffer_is(&due.text, &held) {
            self.tally.differs(format!(
                "{texts}: areas {lengths:?}, buffer {room} {}, expected {} {} {}, answered {} {}, {}, wrong afterwards: {wrong:?}",
                if back { "against its back" } else { "against its front" },
                due.number,
                due.length,
                hex(&due.text),
                said.number,
                said.length,
                buffer.told(&due.text, &held),
            ));
        }
    }

    fn print(&mut self, what: &str, out: &mut impl Write) -> std::io::Result<()> {
        self.tally.print(what, &releases::NUMBERS, out)?;
        let [accepted, long, refused] = self.calls;
        writeln!(out, "calls\t{}\t{accepted} of them 0, {long} 31, {refused} others", accepted + long + refused)?;
        writeln!(out, "buffers\t{} against their back, {} against their front", self.placed[0], self.placed[1])?;
        writeln!(out, "longest page\t{} bytes", self.longest)?;
        for (count, shape) in self.shapes.iter().zip(SHAPES) {
            writeln!(out, "accepted with\t{count}\t{shape}")?;
        }
        self.tally.print_differences(out)
    }
}

/// Compares `n` generated cases, prints what was seen, and says whether all is as it must be.
pub fn compare(n: usize, seed: u64, out: &mut impl Write) -> std::io::Result<bool> {
    let mut rng = Random::new(seed);
    let mut seen = Seen::new(&mut rng);
    for _ in 0..n {
        let (texts, rooms) = draw(&mut rng);
        let lengths = lent::lengths(&mut rng);
        seen.case(&texts, &rooms, lengths, &mut rng);
    }
    seen.print(&format!("seed {seed}"), out)?;
    Ok(seen.tally.good())
}

/// Compares every share of at most so many steps, each with a buffer as long as its page.
pub fn shares(most: usize, out: &mut impl Write) -> std::io::Result<bool> {
    let mut rng = Random::new(1);
    let mut seen = Seen::new(&mut rng);
    for (steps, used) in (1..=most).flat_map(|steps| (1..=steps).map(move |used| (steps, used))) {
        seen.case(&graphs::chain(steps, used), &[130], [AREA; 4], &mut rng);
    }
    seen.print(&format!("every share of at most {most} steps"), out)?;
    Ok(seen.tally.good())
}
