//! Cases written for people: cases/readings.txt and cases/by-hand.txt. A case is some lines that replace a
//! text of the bench set, then its answer:
//!
//!     R TEXT | R+ TEXT (at the end of the bench rulebook) | G TEXT | C TEXT
//!     store NODES WORDS       limits of the store, where not 01's
//!     areas A B C D           lengths of the areas, where not long enough
//!     call rulebook           the call with the rulebook alone
//!     = NUMBER [COUNT COUNT COUNT COUNT [COUNT]] | REASON    five counts of three texts, four of a rulebook alone
//!
//! In a text `\n`, `\t`, `\\` and `\xHH` are bytes, `\{N*TEXT}` is TEXT, in which escapes count too, N times,
//! `\[N]` is 01's certificate of row 28 up to step N, and `\<N*RULE>` has steps 0 to N - 1 by RULE, without references.
//! Other lines are blank or start with `#`.
use crate::cases::{Answer, Texts};
use crate::special;

pub struct Written {
    pub texts: Texts,
    pub answer: Answer,
    pub store: (usize, usize),
    pub areas: Option<[usize; 4]>,
    pub rulebook_alone: bool,
    pub reason: String,
}

fn unescape(s: &str) -> Result<Vec<u8>, String> {
    let mut out = Vec::new();
    let mut rest = s;
    while let Some(i) = rest.find('\\') {
        out.extend(rest[..i].bytes());
        rest = &rest[i + 1..];
        let escape = rest.chars().next().ok_or("a lone \\")?;
        rest = &rest[escape.len_utf8()..];
        match escape {
            'n' => out.push(b'\n'),
            't' => out.push(b'\t'),
            '\\' => out.push(b'\\'),
            'x' => {
                let digits = rest.get(..2).ok_or("\\x wants two digits")?;
                out.push(u8::from_str_radix(digits, 16).map_err(|_| "\\x wants two digits")?);
                rest = &rest[2..];
            }
            '{' | '[' | '<' => {
                let closing = [('{', '}'), ('[', ']'), ('<', '>')].into_iter().find(|(open, _)| *open == escape);
                let end = closing.and_then(|(_, close)| rest.find(close)).ok_or("an escape without its end")?;
                let inner = &rest[..end];
                rest = &rest[end + 1..];
                let number = |s: &str| s.parse::<usize>().map_err(|_| format!("not a number: {s}"));
                if escape == '[' {
                    out.extend(special::steps(number(inner)?).bytes());
                    continue;
                }
                let (count, text) = inner.split_once('*').ok_or("\\{N*TEXT} and \\<N*RULE> want a *")?;
                match escape {
                    '{' => out.extend(unescape(text)?.repeat(number(count)?)),
                    _ => out.extend(special::steps_by(text, number(count)?).bytes()),
                }
            }
            other => return Err(format!("unknown escape \\{other}")),
        }
    }
    out.extend(rest.bytes());
    Ok(out)
}

fn fresh() -> Written {
    Written {
        texts: special::bench(),
        answer: Answer::refused(0),
        store: (crate::oracle::NODES, crate::oracle::WORDS),
        areas: None,
        rulebook_alone: false,
        reason: String::new(),
    }
}

fn numbers(s: &str) -> Result<Vec<usize>, String> {
    s.split_whitespace().map(|w| w.parse().map_err(|_| format!("not a number: {w}"))).collect()
}

fn line(case: &mut Written, line: &str) -> Result<bool, String> {
    let (word, rest) = line.split_once(' ').unwrap_or((line, ""));
    match word {
        "R" => case.texts.rulebook = unescape(rest)?,
        "R+" => case.texts.rulebook.extend(unescape(rest)?),
        "G" => case.texts.goals = unescape(rest)?,
        "C" => case.texts.certificate = unescape(rest)?,
        "store" => match numbers(rest)?[..] {
            [nodes, words] => case.store = (nodes, words),
            _ => return Err("store wants two numbers".into()),
        },
        "areas" => case.areas = Some(numbers(rest)?.try_into().map_err(|_| "areas wants four numbers")?),
        "call" if rest == "rulebook" => case.rulebook_alone = true,
        "=" => {
            let (answer, reason) = rest.split_once(" | ").ok_or("an answer wants a reason")?;
            case.answer = match (case.rulebook_alone, &numbers(answer)?[..]) {
                (false, [number]) if *number > 0 => Answer::refused(*number as u8),
                (true, [number]) if *number > 0 => Answer::rulebook_refused(*number as u8),
                (false, [number, counts @ .., e]) if counts.len() == 4 => {
                    Answer::release(*number as u8, counts.try_into().expect("four"), *e)
                }
                (true, [number, counts @ ..]) if counts.len() == 4 => {
                    Answer::rulebook(*number as u8, counts.try_into().expect("four"))
                }
                _ => return Err("an answer is a number, or a number and its counts, five of three texts".into()),
            };
            case.reason = reason.trim().replace('\t', " ");
            return Ok(true);
        }
        _ => return Err(format!("unknown word {word}")),
    }
    Ok(false)
}

pub fn read(source: &str) -> Result<Vec<Written>, String> {
    let mut out = Vec::new();
    let mut case = fresh();
    let mut begun = false;
    for (n, text) in source.lines().enumerate() {
        if text.trim().is_empty() || text.starts_with('#') {
            continue;
        }
        begun = !line(&mut case, text).map_err(|e| format!("line {}: {e}", n + 1))?;
        if !begun {
            out.push(std::mem::replace(&mut case, fresh()));
        }
    }
    if begun { Err("the last case has no answer".into()) } else { Ok(out) }
}
