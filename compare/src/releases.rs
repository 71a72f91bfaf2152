//! Cases for the call with three texts: the generator's, texts that are not UTF-8, tables near their limits, and texts as
//! long as they may be, or longer.
use crate::cases::Texts;
use crate::draft::Draft;
use crate::generate;
use crate::oracle::{CERTIFICATE_BYTES, GOALS_BYTES, RULEBOOK_BYTES};
use crate::pairs;
use crate::random::Random;
use crate::rulebooks::{base62, spoiled};
use crate::special;

/// The numbers of refusals, 1 and 2 apart.
pub const NUMBERS: [u8; 27] =
    [3, 4, 5, 6, 7, 8, 9, 10, 11, 12, 13, 14, 15, 16, 17, 18, 19, 20, 21, 22, 23, 24, 25, 26, 27, 28, 29];

/// A text of a case, and its limit.
fn pick<'a>(texts: &'a mut Texts, rng: &mut Random) -> (&'a mut Vec<u8>, usize) {
    match rng.below(3) {
        0 => (&mut texts.rulebook, RULEBOOK_BYTES),
        1 => (&mut texts.goals, GOALS_BYTES),
        _ => (&mut texts.certificate, CERTIFICATE_BYTES),
    }
}

fn not_utf8(rng: &mut Random) -> Texts {
    let size = generate::size(rng);
    let mut texts = Draft::random(rng, size).write(rng);
    let (text, _) = pick(&mut texts, rng);
    *text = spoiled(std::mem::take(text), rng);
    texts
}

/// Forms from `form`, as many as fit before `end`.
fn as_many(text: &mut Vec<u8>, end: usize, form: impl Fn(usize) -> String) -> usize {
    for n in 0.. {
        let next = form(n);
        if text.len() + next.len() > end {
            return n;
        }
        text.extend(next.bytes());
    }
    unreachable!("a text has an end")
}

/// As many abbreviations, goals or steps as fit; now and then a last form that is refused.
fn many(rng: &mut Random) -> Texts {
    let mut texts = special::bench();
    let end = CERTIFICATE_BYTES - 60 - rng.below(40);
    match rng.below(4) {
        0 => {
            texts.certificate.truncate(35);
            as_many(&mut texts.certificate, end, |n| format!("(def ?{} z)", base62(n)));
            texts.certificate.extend(b"(result g 1)");
        }
        1 => {
            // Each abbreviation is the one before with an s more, so that the store fills up too.
            texts.certificate.truncate(35);
            texts.certificate.extend(b"(def ?_ z)");
            let last = |n: usize| if n == 0 { "_".into() } else { base62(n - 1) };
            let end = end.min(rng.from(35_000, 50_000));
            as_many(&mut texts.certificate, end, |n| format!("(def ?{}(s ?{}))", base62(n), last(n)));
            texts.certificate.extend(b"(result g 1)");
        }
        2 => {
            texts.goals.clear();
            let goals = as_many(&mut texts.goals, GOALS_BYTES, |n| format!("(goal {}(hold z))", base62(n)));
            texts.certificate = b"(step 0 base())".to_vec();
            for n in 0..goals {
                texts.certificate.extend(format!("(result {} 0)", base62(n)).bytes());
            }
        }
        _ => {
            texts.certificate.clear();
            let steps = as_many(&mut texts.certificate, end, |n| format!("(step {n} base())"));
            texts
                .certificate
                .extend(format!("(step {steps} more({}))(result g {steps})", rng.below(steps + 1)).bytes());
        }
    }
    if rng.chance(30) {
        texts.certificate.extend(*rng.pick(&[&b"(def ?a z)"[..], b"(result g 0)", b"(step 1 base())", b"(def ?- z"]));
    }
    texts
}

/// Forms as short as there are, so that tables get as many entries as texts allow; now and then the largest rulebook too.
fn tight(rng: &mut Random) -> Texts {
    let mut rulebook = b"(sort t)(ctor z()t)(pred p())(rule a()(p))".to_vec();
    if rng.chance(30) {
        // Names of two bytes and more, which are not yet there.
        as_many(&mut rulebook, RULEBOOK_BYTES, |n| match (n % 4, base62(n + 61)) {
            (0, name) => format!("(sort {name})"),
            (1, name) => format!("(ctor {name}()t)"),
            (2, name) => format!("(pred {name}(t))"),
            (_, name) => format!("(rule {name}()(p))"),
        });
    }
    let mut goals = Vec::new();
    let end = if rng.chance(50) { GOALS_BYTES } else { rng.from(20, GOALS_BYTES) };
    let count = as_many(&mut goals, end, |n| format!("(goal {}(p))", base62(n)));
    let results: String = (0..count).map(|n| format!("(result {} 0)", base62(n))).collect();
    let mut certificate = b"(step 0 a())".to_vec();
    let end = CERTIFICATE_BYTES - results.len() - rng.below(20);
    let (steps, defs) = (rng.below(3), rng.from(1, 3));
    // So many steps, then so many abbreviations, again and again; the steps before the n-th form are known from n.
    as_many(&mut certificate, end, |n| {
        let (turn, at) = (n / (steps + defs), n % (steps + defs));
        if at < steps { format!("(step {} a())", 1 + turn * steps + at) } else { format!("(def ?{} z)", base62(n)) }
    });
    certificate.extend(results.bytes());
    Texts { rulebook, goals, certificate }
}

pub fn texts(rng: &mut Random) -> Texts {
    let mut texts = match rng.below(1000) {
        0..645 => generate::case(rng, false).texts,
        645..945 => pairs::texts(rng),
        945..985 => not_utf8(rng),
        985..990 => special::full(rng).0,
        990..995 => many(rng),
        _ => tight(rng),
    };
    // Now and then a text as long as it may be, or one byte longer.
    if rng.below(50) == 0 {
        let (text, limit) = pick(&mut texts, rng);
        if text.len() < limit {
            text.resize(limit + usize::from(rng.chance(50)), b' ');
        }
    }
    texts
}
