//! What the loads share of their texts.

/// 01's rulebook.
pub const BENCH: &str = "(sort t)(ctor z () t)(ctor s (t) t)(pred hold (t))(rule base () (hold z))(rule more ((hold ?x)) (hold (s ?x)))";
/// 01's goals.
pub const BENCH_GOALS: &str = "(goal g (hold (s z)))";
/// 01's certificate.
pub const BENCH_CERTIFICATE: &str = "(step 0 base ())\n(step 1 more (0))\n(result g 1)\n";

pub const DIGITS: &[u8] = b"abcdefghijklmnopqrstuvwxyzABCDEFGHIJKLMNOPQRSTUVWXYZ0123456789";

/// The n-th of the shortest names.
pub fn name(mut n: usize) -> String {
    let mut out = String::new();
    loop {
        out.push(DIGITS[n % DIGITS.len()] as char);
        n /= DIGITS.len();
        if n == 0 {
            return out;
        }
    }
}

/// Forms from `form` after `head`, as many as fit into `bytes`.
pub fn as_many(bytes: usize, head: &str, form: impl Fn(usize) -> String) -> String {
    let mut text = String::from(head);
    for n in 0.. {
        let next = form(n);
        if text.len() + next.len() > bytes {
            break;
        }
        text += &next;
    }
    text
}

/// A list of `n` times the same word, behind its head.
pub fn applied(head: &str, word: &str, n: usize) -> String {
    format!("({head}{})", format!(" {word}").repeat(n))
}

/// As many declarations of the four kinds as fit into `bytes`.
pub fn most_of_all_kinds(bytes: usize) -> String {
    as_many(bytes, "(sort _)(pred _())", |n| match n % 4 {
        0 => format!("(sort {})", name(n)),
        1 => format!("(ctor {}()_)", name(n)),
        2 => format!("(pred {}(_))", name(n)),
        _ => format!("(rule {}()(_))", name(n)),
    })
}

/// A predicate of `count` inputs and a rule with as many variables.
pub fn widest_rule(count: usize) -> String {
    let variables: Vec<String> = (0..count).map(|n| format!("?{}", name(n))).collect();
    format!("(sort t)(ctor z()t){}(rule r()(p {}))", declared("pred p", count, ""), variables.join(" "))
}

/// A declaration with `inputs` inputs of sort t.
pub fn declared(head: &str, inputs: usize, output: &str) -> String {
    format!("({head}({}){output})", vec!["t"; inputs].join(" "))
}

/// z with so many s around it.
pub fn numeral(n: usize) -> String {
    format!("{}z{}", "(s ".repeat(n), ")".repeat(n))
}
