//! Cases with a shape of their own: the bench set, depths 255 to 258, abbreviations that double, full stores, requests to
//! the store past 16 bits.
use crate::cases::Texts;
use crate::random::Random;

/// 01's bench set.
pub fn bench() -> Texts {
    let rulebook = "(sort t)(ctor z () t)(ctor s (t) t)(pred hold (t))(rule base () (hold z))(rule more ((hold ?x)) (hold (s ?x)))";
    Texts {
        rulebook: rulebook.into(),
        goals: "(goal g (hold (s z)))".into(),
        certificate: "(step 0 base ())\n(step 1 more (0))\n(result g 1)\n".into(),
    }
}

/// Step 0 by base, then steps to `last` by more, each from the one before, as in 01's row 28.
pub fn steps(last: usize) -> String {
    let mut out = String::from("(step 0 base ())\n");
    for n in 1..=last {
        out += &format!("(step {n} more ({}))\n", n - 1);
    }
    out
}

/// Steps 0 to `count` less one by a rule without premises.
pub fn steps_by(rule: &str, count: usize) -> String {
    (0..count).map(|n| format!("(step {n} {rule}())")).collect()
}

fn nested(count: usize, inner: &str) -> String {
    format!("{}{inner}{}", "(s ".repeat(count), ")".repeat(count))
}

/// A term whose innermost atom has a depth of 255 to 258, in one of the three texts or in all.
pub fn deep(rng: &mut Random) -> (Texts, String) {
    let mut texts = bench();
    texts.rulebook.extend(b"(rule any () (hold ?x))");
    let depth = rng.from(255, 258);
    // A judgment's terms have depth 2, the term of an abbreviation 1.
    let term = nested(depth - 2, "z");
    let place = rng.below(5);
    let (goals, certificate) = match place {
        0 => (term.clone(), format!("(step 0 any () (hold {term}))")),
        1 => ("z".into(), format!("(step 0 base ())(step 1 any () (?x {term}))")),
        2 => ("z".into(), format!("(def ?a {})(step 0 base ())", nested(depth - 1, "z"))),
        3 => ("z".into(), format!("(step 0 base ())(step 1 any () (hold {term}))")),
        _ => {
            texts.rulebook.extend(format!("(rule deep () (hold {}))", nested(depth - 2, "?y")).bytes());
            (nested(depth - 2, "z"), "(step 0 deep () (?y z))".into())
        }
    };
    texts.goals = format!("(goal g (hold {goals}))").into();
    texts.certificate = format!("{certificate}(result g 0)").into();
    (texts, format!("depth-{depth}"))
}

/// Each abbreviation is twice the last, so that its tree is out of reach and only sharing holds it.
pub fn doubling(rng: &mut Random) -> (Texts, String) {
    let count = rng.from(2, 60);
    let mut certificate = String::from("(def ?0 z)");
    for n in 1..=count {
        certificate += &format!("(def ?{n} (f ?{} ?{}))", n - 1, n - 1);
    }
    let other = if rng.chance(70) { count } else { rng.below(count) };
    certificate +=
        &format!("(step 0 any () (?x ?{count}))(step 1 any () (p (f ?{} ?{})))", count - 1, other.saturating_sub(1));
    certificate += "(step 2 same (0 1))(result g 2)";
    let texts = Texts {
        rulebook: "(sort t)(ctor z () t)(ctor f (t t) t)(pred p (t))(pred q ())(rule any () (p ?x))(rule same ((p ?x)(p ?x)) (q))".into(),
        goals: "(goal g (q))".into(),
        certificate: certificate.into(),
    };
    (texts, "doubling".into())
}

/// A store that ends near its limits: nodes by steps, or words by wide nodes.
pub fn full(rng: &mut Random) -> (Texts, String) {
    if rng.chance(50) {
        let mut texts = bench();
        texts.certificate = steps(rng.from(1018, 1026)).into();
        texts.certificate.extend(b"(result g 1)\n");
        return (texts, "many-nodes".into());
    }
    let mut certificate = String::from("(def ?0 z)");
    for n in 1..=rng.from(904, 912) {
        certificate += &format!("(def ?{n}(f z z z z z z z ?{}))", n - 1);
    }
    certificate += "(step 0 a())(result g 0)";
    let texts = Texts {
        rulebook: "(sort t)(ctor z()t)(ctor f(t t t t t t t t)t)(pred q())(rule a()(q))".into(),
        goals: "(goal g(q))".into(),
        certificate: certificate.into(),
    };
    (texts, "many-words".into())
}

/// A term of a conclusion: its text, and the requests that building it takes. A bound variable takes none.
fn leaf(rng: &mut Random) -> (&'static str, usize) {
    *rng.pick(&[(" z", 1), (" z", 1), (" ?x", 0), ("(s z)", 2), ("(s ?x)", 1)])
}

/// A conclusion of so many arguments with so many leaves each, still open at its end, and how many nodes it has.
fn broad(rng: &mut Random, outer: usize, inner: usize) -> (String, usize) {
    let (mut conclusion, mut nodes) = (String::from("(p"), 1);
    for _ in 0..outer {
        conclusion += "(f";
        nodes += 1;
        for _ in 0..inner {
            let (text, requests) = leaf(rng);
            conclusion += text;
            nodes += requests;
        }
        conclusion += ")";
    }
    (conclusion, nodes)
}

/// Steps that build it, as long as there are no more requests than wanted; and how many there are then.
fn broad_steps(rng: &mut Random, nodes: usize, wanted: usize) -> (String, usize) {
    // The goal takes two requests, each of the first two steps as many, the abbreviation one.
    let mut certificate = String::from("(def ?z z)(step 0 a()(?x ?z)(h z))(step 1 a()(?x z))");
    let mut requested = 2 + 1 + 2 + 2;
    for n in 2.. {
        let (form, more) = match rng.below(8) {
            0 => (format!("(step {n} r(0)(?x ?z))"), nodes),
            1 => (format!("(step {n} r(1)(?x z))"), nodes + 1),
            _ => (format!("(step {n} r({}))", rng.below(2)), nodes),
        };
        if requested + more > wanted {
            break;
        }
        requested += more;
        certificate += &form;
    }
    (certificate, requested)
}

/// Steps that build a conclusion of hundreds of nodes again and again, each found but for the first time: requests to the
/// store at 65,535, next to it, next to its multiples, or anywhere beyond.
pub fn many_requests(rng: &mut Random) -> (Texts, String) {
    let (outer, inner) = (rng.from(8, 20), rng.from(24, 40));
    let (conclusion, nodes) = broad(rng, outer, inner);
    let inputs = |count: usize| vec!["t"; count].join(" ");
    let rulebook = format!(
        "(sort t)(ctor z()t)(ctor s(t)t)(ctor f({})t)(pred p({}))(pred h(t))(rule a()(h ?x))(rule r((h ?x)){conclusion}))",
        inputs(inner),
        inputs(outer)
    );
    let wanted = match rng.below(4) {
        0 | 1 => rng.from(65_533, 65_538),
        2 => rng.from(2, 3) * 65_536 + rng.below(3) - 1,
        _ => rng.from(65_600, 200_000),
    };
    let (mut certificate, mut requested) = broad_steps(rng, nodes, wanted);
    // What is still missing, by abbreviations.
    for n in 0.. {
        let whole = format!("(f{})", " z".repeat(inner));
        let (term, more) = if requested + inner < wanted { (whole, inner + 1) } else { (" z".into(), 1) };
        if requested + more > wanted {
            break;
        }
        requested += more;
        certificate += &format!("(def ?{n}{term})");
    }
    certificate += "(result g 0)";
    let texts = Texts { rulebook: rulebook.into(), goals: "(goal g(h z))".into(), certificate: certificate.into() };
    (texts, "many-requests".into())
}

/// Tokens without sense.
pub fn soup(rng: &mut Random) -> (Texts, String) {
    let words = [
        "(", "(", ")", ")", "sort", "rule", "goal", "step", "def", "result", "?x", "?", "0", "1", "t", "z", "\n", "()",
        ";",
    ];
    let mut texts = bench();
    let mut text = Vec::new();
    for _ in 0..rng.below(12) {
        text.extend(rng.pick(&words).bytes());
        text.push(b' ');
    }
    match rng.below(3) {
        0 => texts.rulebook = text,
        1 => texts.goals = text,
        _ => texts.certificate = text,
    }
    (texts, "soup".into())
}
