//! The release page, worked from the text of the customer's request L2, on other ways than the definition: characters are walked from a
//! name's front, used steps spread from the results, the percentage is rounded by its remainder.
use crate::Outcome;
use crate::reader::character;
use crate::release::{Checker, Met};

/// "Goal name in 32 bytes", "right-aligned in 8", "the rule's name in 22".
const NAME: usize = 32;
const STEP: usize = 8;
const RULE: usize = 22;
/// "A whole percentage in 3 bytes", "padded to 64 bytes".
const PERCENTAGE: usize = 3;
const LAST: usize = 64;

/// "One line for each goal": its name, the number of its result's step as it is shown, and that step's rule.
pub struct Line {
    pub goal: Vec<u8>,
    pub step: String,
    pub rule: Vec<u8>,
}

/// What the page of an accepted release tells.
pub struct Page {
    pub lines: Vec<Line>,
    pub used: usize,
    pub steps: usize,
}

/// "Each answers its number and the length of each text written"; what stands at the front of the buffer then.
#[derive(Clone, PartialEq, Eq, Debug)]
pub struct Written {
    pub number: u8,
    pub length: usize,
    pub text: Vec<u8>,
}

/// A release as it was judged, before the buffer is looked at.
pub struct Judged {
    pub outcome: Outcome<Page>,
    /// Lines that the goals make, where the certificate was asked for: misreadings tell 31 by them.
    pub due: Option<usize>,
}

impl Judged {
    /// "31, output longer than the lent buffer, after all of 1 to 29, nothing written."
    pub fn written(&self, room: usize) -> Written {
        let refused = |number| Written { number, length: 0, text: Vec::new() };
        let page = match &self.outcome {
            Ok(page) => page,
            Err(number) => {
                let early =
                    misread!("31 before the certificate's refusals") || (*number == 29 && misread!("31 before 29"));
                let longer = self.due.is_some_and(|lines| 65 * (lines + 1) > room);
                return refused(if early && longer { 31 } else { *number });
            }
        };
        let text = page.text();
        let fits = match () {
            _ if misread!("a page as long as the buffer is 31") => text.len() < room,
            _ if misread!("a page longer by a byte fits") => text.len() <= room + 1,
            _ if misread!("the last line need not fit") => text.len() <= room + LAST + 1,
            _ => text.len() <= room,
        };
        match () {
            _ if fits => Written { number: 0, length: text.len(), text },
            _ if misread!("31 writes what fits") => Written { number: 31, length: 0, text: text[..room].to_vec() },
            _ if misread!("31 tells how long the page is") => Written { length: text.len(), ..refused(31) },
            _ => refused(31),
        }
    }
}

impl Page {
    pub fn of(checker: &Checker) -> Self {
        let order: Vec<usize> = match () {
            _ if misread!("lines in the results' order") => checker.results.iter().map(|r| r.goal).collect(),
            _ if misread!("lines in the order of the results' steps") => {
                let mut by_step: Vec<&Met> = checker.results.iter().collect();
                by_step.sort_by_key(|r| r.step);
                by_step.iter().map(|r| r.goal).collect()
            }
            _ if misread!("lines in the names' order") => {
                let mut by_name: Vec<usize> = (0..checker.goals.len()).collect();
                by_name.sort_by_key(|&g| checker.goals[g].name);
                by_name
            }
            _ => (0..checker.goals.len()).collect(),
        };
        let lines = order.into_iter().filter_map(|goal| line(checker, goal)).collect();
        Self { lines, used: used(checker), steps: checker.steps.len() }
    }

    /// The bytes of the page.
    pub fn text(&self) -> Vec<u8> {
        let end: &[u8] = if misread!("lines end in 0D 0A") { b"\r\n" } else { b"\n" };
        let mut out = Vec::new();
        for line in &self.lines {
            let step = right(line.step.as_bytes(), STEP, misread!("a step's number is left-aligned"));
            out.extend([&field(&line.goal, NAME)[..], &step, &field(&line.rule, RULE)].join(&b' '));
            out.extend(end);
        }
        let whole = percentage(self.used, self.steps).to_string();
        let whole = right(whole.as_bytes(), PERCENTAGE, misread!("the percentage is left-aligned"));
        let last = [b"used ", &whole[..], b"%"].concat();
        let width = match () {
            _ if misread!("the last line is not filled") => 0,
            _ if misread!("the last line has 64 bytes with its 0A") => LAST - 1,
            _ => LAST,
        };
        out.extend(&last);
        out.extend(filling(width, last.len()));
        if !misread!("the last line has no 0A") {
            out.extend(end);
        }
        out
    }
}

/// The line of a goal; one without a result has none, as only misreadings leave it.
fn line(checker: &Checker, goal: usize) -> Option<Line> {
    let met = checker.results.iter().find(|r| r.goal == goal)?;
    let judgment = checker.goals[goal].judgment;
    let first = checker.steps.iter().position(|s| s.judgment == judgment).unwrap_or(met.step);
    let shown = if misread!("the first step that concludes a goal is shown") { first } else { met.step };
    let by = match () {
        _ if misread!("the rule of the first step that concludes a goal is shown") => first,
        _ if misread!("the rule of the first step is shown") => 0,
        _ if misread!("the rule of the last step is shown") => checker.steps.len() - 1,
        _ => shown,
    };
    let step = match () {
        _ if misread!("a step's number is shown plus one") => (shown + 1).to_string(),
        _ if misread!("a step's number is shown as it is written") => {
            String::from_utf8_lossy(&met.written[..met.written.len().min(STEP)]).into_owned()
        }
        _ => shown.to_string(),
    };
    Some(Line { goal: checker.goals[goal].name.to_vec(), step, rule: checker.steps[by].rule.to_vec() })
}

/// "A step is used if a result leans on it, directly or through other steps": the results' steps, then what they refer to, and so on
/// until nothing is added.
fn used(checker: &Checker) -> usize {
    let results = || checker.results.iter().map(|r| r.step);
    let below = |n: u64| usize::try_from(n).ok().filter(|&n| n < checker.steps.len());
    match () {
        _ if misread!("steps up to the last result's are used") => results().max().map_or(0, |n| n + 1),
        _ if misread!("a step that two results lean on counts twice") => {
            results().map(|n| leaned(checker, vec![n]).iter().filter(|&&l| l).count()).sum()
        }
        _ if misread!("a result's own step is not used") => {
            let below = results().flat_map(|n| &checker.steps[n].references).filter_map(|&n| below(n)).collect();
            leaned(checker, below).iter().filter(|&&l| l).count()
        }
        _ if misread!("a step that any step refers to is used") => {
            let any = checker.steps.iter().flat_map(|s| &s.references).filter_map(|&n| below(n));
            let all: std::collections::HashSet<usize> = any.chain(results()).collect();
            all.len()
        }
        _ => leaned(checker, results().collect()).iter().filter(|&&l| l).count(),
    }
}

/// Of each step, whether it is among these or they lean on it.
fn leaned(checker: &Checker, steps: Vec<usize>) -> Vec<bool> {
    let mut leaned = vec![false; checker.steps.len()];
    let (mut added, mut far) = (steps, 0);
    while !added.is_empty() {
        added.retain(|&n| !std::mem::replace(&mut leaned[n], true));
        far += 1;
        if misread!("only results' own steps are used")
            || (far > 1 && misread!("references of references are not used"))
        {
            break;
        }
        let next = added.iter().flat_map(|&n| references(&checker.steps[n].references));
        // Only misreadings leave a reference that is none.
        added = next.filter_map(|&n| usize::try_from(n).ok().filter(|&n| n < leaned.len())).collect();
    }
    leaned
}

fn references(all: &[u64]) -> &[u64] {
    match () {
        _ if misread!("only a step's first reference is used") => &all[..all.len().min(1)],
        _ if misread!("only a step's last reference is used") => &all[all.len().saturating_sub(1)..],
        _ => all,
    }
}

/// "100 times used divided by steps, halves up."
fn percentage(used: usize, steps: usize) -> usize {
    if steps == 0 {
        // Only misreadings accept a release without a step.
        return 0;
    }
    let used = if misread!("the percentage of the unused steps") { steps.saturating_sub(used) } else { used };
    if misread!("a percentage is rounded twice") {
        let tenths = (2_000 * used + steps) / (2 * steps);
        return (tenths + 5) / 10;
    }
    let all = if misread!("100 times used is cut to 16 bits") { 100 * used % 65_536 } else { 100 * used };
    let (whole, rest) = (all / steps, all % steps);
    let up = match () {
        _ if misread!("a percentage's halves go down") => 2 * rest > steps,
        _ if misread!("a percentage's halves go to even") => 2 * rest > steps || (2 * rest == steps && whole % 2 == 1),
        _ if misread!("a percentage is cut") => false,
        _ if misread!("a percentage is rounded up") => rest > 0,
        _ => 2 * rest >= steps,
    };
    whole + usize::from(up)
}

/// "All filling is with spaces": from a length up to a width.
fn filling(width: usize, length: usize) -> Vec<u8> {
    let fill = match () {
        _ if misread!("filling is with NUL") => 0,
        _ if misread!("filling is with 0") => b'0',
        _ => b' ',
    };
    vec![fill; width.saturating_sub(length)]
}

/// A number "right-aligned" in so many bytes.
fn right(number: &[u8], width: usize, left: bool) -> Vec<u8> {
    let mut fill = filling(width, number.len());
    if misread!("numbers are filled with 0") {
        fill.fill(b'0');
    }
    if left { [number, &fill].concat() } else { [&fill, number].concat() }
}

/// A name in so many bytes, "a name's [filling] behind it".
fn field(name: &[u8], width: usize) -> Vec<u8> {
    let shown = cut(name, width);
    let taken =
        if misread!("names are filled by characters, not bytes") { characters(shown).len() } else { shown.len() };
    let fill = filling(width, taken);
    if misread!("a name's filling stands before it") { [&fill, shown].concat() } else { [shown, &fill].concat() }
}

/// "A long name is cut after the last whole character that fits."
fn cut(name: &[u8], width: usize) -> &[u8] {
    let wide = match () {
        _ if misread!("a name is cut inside a character") => return &name[..name.len().min(width)],
        _ if misread!("a shown name has a byte less") => width - 1,
        _ if misread!("a long name is shown with a byte less") && name.len() > width => width - 1,
        _ if misread!("a shown name has a byte more") => width + 1,
        _ => width,
    };
    let mut end = 0;
    for (count, bytes) in characters(name).into_iter().enumerate() {
        let past = if misread!("a name is cut by characters, not bytes") { count >= wide } else { end + bytes > wide };
        if past {
            return if misread!("a character over the end is shown") && end < wide {
                &name[..end + bytes]
            } else {
                &name[..end]
            };
        }
        end += bytes;
    }
    name
}

/// The bytes of each character of a name.
fn characters(name: &[u8]) -> Vec<usize> {
    let mut out = Vec::new();
    let mut at = 0;
    while at < name.len() {
        // Only misreadings leave bytes that are no character.
        out.push(character(&name[at..]).unwrap_or(1));
        at += out[out.len() - 1];
    }
    out
}
