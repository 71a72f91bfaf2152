//! Texts that were looked for as the slowest of their length, each with what bounds it by counting.
use crate::calls::{LONGEST_CERTIFICATE, LONGEST_GOALS, LONGEST_RULEBOOK, Release, Rulebook};
use crate::run::Run;
use crate::texts::{BENCH, BENCH_GOALS, applied, as_many, declared, name, numeral};
use crate::worst::buckets::{self, ABBREVIATIONS, SYMBOLS, mates};
use crate::worst::index;

/// What rulebooks begin with whose certificates need one goal.
const START: &str = "(sort t)(ctor a()t)(pred q())(rule b()(q))";
const GOALS: &str = "(goal g(q))";
const CERTIFICATE: &str = "(step 0 b())(result g 0)";

fn part(limit: usize, quarters: usize) -> usize {
    limit * quarters / 4
}

/// Names of variables, those of two bytes last.
fn variables(count: usize) -> Vec<String> {
    (0..count).rev().map(|n| format!("?{}", name(n))).collect()
}

/// As many variables in one rule as fit, in premises of 40 inputs each; and how many premises and variables there are.
fn variables_of_a_rule(bytes: usize) -> (String, usize, Vec<String>) {
    const WIDTH: usize = 40;
    let start = format!("{START}{}(rule f(){})", declared("pred p", WIDTH, ""), applied("p", "a", WIDTH));
    // Premises of forty variables of three bytes take 163 bytes each.
    let premises = (bytes - start.len() - 20) / (3 + WIDTH * 4);
    let all = variables(premises * WIDTH);
    let written: String = all.chunks(WIDTH).map(|v| format!("(p {})", v.join(" "))).collect();
    (format!("{start}(rule r({written})(q))"), premises, all)
}

fn most_variables(quarters: usize) -> Rulebook {
    Rulebook(variables_of_a_rule(part(LONGEST_RULEBOOK, quarters)).0)
}

/// A step by that rule, which binds its last variables, again and again.
fn bound_again(quarters: usize) -> Release {
    let (rulebook, premises, variables) = variables_of_a_rule(part(LONGEST_RULEBOOK, quarters));
    let references = vec!["1"; premises].join(" ");
    let bindings: String = variables[variables.len() - 62..].iter().map(|v| format!("({v} a)")).collect();
    let start = format!("{CERTIFICATE}(step 1 f())");
    let form = |n: usize| format!("(step {} r({references}){bindings})", n + 2);
    Release::new(rulebook, GOALS, as_many(part(LONGEST_CERTIFICATE, quarters), &start, form))
}

/// Sorts in one bucket, and a predicate whose inputs all have the oldest.
fn sorts_in_one_bucket(quarters: usize) -> Rulebook {
    let bytes = part(LONGEST_RULEBOOK, quarters);
    let sorts = mates("a", "", SYMBOLS);
    let start = as_many(bytes / 2, "(sort a)", |n| format!("(sort {})", sorts[n]));
    let inputs = (bytes - start.len() - 12) / 2;
    Rulebook(format!("{start}(pred p({}))", vec!["a"; inputs].join(" ")))
}

/// Constructors in one bucket, and a certificate whose terms are all the oldest.
fn constructors_in_one_bucket(quarters: usize) -> Release {
    const WIDTH: usize = 200;
    let others = mates("a", "", SYMBOLS);
    let start = format!("{START}{}", declared("ctor f", WIDTH, "t"));
    let rulebook = as_many(part(LONGEST_RULEBOOK, quarters), &start, |n| format!("(ctor {}()t)", others[n]));
    let form = |n: usize| format!("(def ?{}{})", name(n), applied("f", "a", WIDTH));
    Release::new(rulebook, GOALS, as_many(part(LONGEST_CERTIFICATE, quarters), CERTIFICATE, form))
}

/// Abbreviations in one bucket, then terms that are all the oldest. With a prefix all have one length and differ in their last bytes.
fn abbreviations_in_one_bucket(quarters: usize, prefix: &str) -> Release {
    const WIDTH: usize = 100;
    let bytes = part(LONGEST_CERTIFICATE, quarters);
    let oldest = format!("?{prefix}{}", if prefix.is_empty() { "a" } else { "aaa" });
    let others = mates(&oldest, &format!("?{prefix}"), ABBREVIATIONS);
    let start = as_many(bytes / 2, &format!("{CERTIFICATE}(def {oldest} a)"), |n| format!("(def {} a)", others[n]));
    let form = |n: usize| format!("(def ?-{n}{})", applied("f", &oldest, WIDTH));
    Release::new(format!("{START}{}", declared("ctor f", WIDTH, "t")), GOALS, as_many(bytes, &start, form))
}

/// As many goals as fit, all in one bucket, and their results, the oldest first.
fn goals_in_one_bucket(quarters: usize) -> Release {
    let others = mates("a", "", buckets::GOALS);
    let goals = as_many(part(LONGEST_GOALS, quarters), "", |n| format!("(goal {}(q))", others[n]));
    let count = goals.matches("(goal").count();
    let results: String = (0..count).map(|n| format!("(result {} 0)", others[n])).collect();
    Release::new(START, goals, format!("(step 0 b()){results}"))
}

/// A rule whose conclusion has as many nodes as fit, and steps by it. `premise`: it is a premise, which each step matches.
fn steps_by_a_large_rule(quarters: usize, premise: bool) -> Release {
    const WIDTH: usize = 58;
    let start = format!("{START}{}{}", declared("ctor f", WIDTH, "t"), declared("pred p", WIDTH, ""));
    let term = applied("f", "a", WIDTH);
    let with = |terms: usize| {
        let judgment = format!("(p{}{})", term.repeat(terms), " a".repeat(WIDTH - terms));
        let rules = if premise { format!("(rule f(){judgment})(rule r({judgment})(q))") } else { format!("(rule r(){judgment})") };
        format!("{start}{rules}")
    };
    let rulebook = (0..=WIDTH).rev().map(with).find(|r| r.len() <= part(LONGEST_RULEBOOK, quarters)).expect("a rulebook that fits");
    let (fact, reference) = if premise { ("(step 1 f())", "1") } else { ("(step 1 b())", "") };
    let form = |n: usize| format!("(step {} r({reference}))", n + 2);
    Release::new(rulebook, GOALS, as_many(part(LONGEST_CERTIFICATE, quarters), &format!("{CERTIFICATE}{fact}"), form))
}

/// A rule whose conclusion has as many nodes with a variable as fit, and steps by it from two facts in turns.
fn steps_by_a_large_open_rule(quarters: usize) -> Release {
    const WIDTH: usize = 40;
    let facts = "(ctor c()t)(ctor f(t)t)(pred h(t))(rule l()(h a))(rule m()(h c))";
    let start = format!("{START}{facts}{}{}", declared("ctor w", WIDTH, "t"), declared("pred p", WIDTH, ""));
    let term = format!("(w{})", "(f ?x)".repeat(WIDTH));
    let with = |terms: usize| format!("{start}(rule r((h ?x))(p{}{}))", term.repeat(terms), " a".repeat(WIDTH - terms));
    let rulebook = (0..=WIDTH).rev().map(with).find(|r| r.len() <= part(LONGEST_RULEBOOK, quarters)).expect("a rulebook that fits");
    let form = |n: usize| format!("(step {} r({}))", n + 3, 1 + n % 2);
    let certificate = as_many(part(LONGEST_CERTIFICATE, quarters), &format!("{CERTIFICATE}(step 1 l())(step 2 m())"), form);
    Release::new(rulebook, GOALS, certificate)
}

/// A rule of as many premises as fit, and steps by it.
fn most_premises(quarters: usize) -> Release {
    let premises = (part(LONGEST_RULEBOOK, quarters) - START.len() - 20) / 3;
    let references = vec!["0"; premises].join(" ");
    let form = |n: usize| format!("(step {} r({references}))", n + 1);
    let rulebook = format!("{START}(rule r({})(q))", "(q)".repeat(premises));
    Release::new(rulebook, GOALS, as_many(part(LONGEST_CERTIFICATE, quarters), CERTIFICATE, form))
}

/// One step with as many references as fit, all of steps that there are not.
fn bad_references(quarters: usize) -> Release {
    let bytes = part(LONGEST_CERTIFICATE, quarters);
    Release::new(BENCH, BENCH_GOALS, as_many(bytes - 2, "(step 0 more (", |_| "18446744073709551615 ".into()) + "))")
}

/// Terms as deep as a text may be, in rules and in the certificate.
fn deep(quarters: usize) -> Release {
    let start = "(sort t)(ctor z()t)(ctor s(t)t)(pred p(t))(pred q())(rule b()(q))";
    let rulebook = as_many(part(LONGEST_RULEBOOK, quarters), start, |n| format!("(rule {n}()(p {}))", numeral(253)));
    let form = |n: usize| format!("(def ?{} {})", name(n), numeral(255));
    Release::new(rulebook, GOALS, as_many(part(LONGEST_CERTIFICATE, quarters), CERTIFICATE, form))
}

/// A certificate that is one line for each byte, behind its forms.
fn lines(quarters: usize) -> Release {
    Release::new(START, GOALS, as_many(part(LONGEST_CERTIFICATE, quarters), CERTIFICATE, |_| "\n".into()))
}

/// White space and comments of three-byte characters.
fn blanks(quarters: usize) -> Release {
    Release::new(START, GOALS, as_many(part(LONGEST_CERTIFICATE, quarters), CERTIFICATE, |_| "\u{2003};\u{2003}\n".into()))
}

pub fn loads(run: &mut Run) {
    run.worst(
        "variables of one rule",
        "all but some hundred variables take 4 bytes, so v is below 2,100; each is looked for among those before it: v(v-1)/2, below 2.2 million comparisons",
        most_variables,
    );
    run.worst(
        "sorts in one bucket, the oldest used",
        "s sorts of 10 bytes and u inputs of 2 bytes, 10s + 2u up to 8,192: s(s-1)/2 + su, below 1.0 million comparisons",
        sorts_in_one_bucket,
    );
    run.worst(
        "variables bound again and again",
        "a binding takes 6 bytes, so there are below 5,462; each looks at fewer than 2,100 variables: below 11.5 million comparisons",
        bound_again,
    );
    run.worst(
        "constructors in one bucket, the oldest used",
        "c constructors of 13 bytes, so c is below 631, and an atom takes 2 bytes of 40,960: below 13 million comparisons",
        constructors_in_one_bucket,
    );
    run.worst(
        "abbreviations in one bucket, the oldest used",
        "d abbreviations of 12 bytes and u uses of 3 bytes, 12d + 3u up to 32,768: d(d-1)/2 + du, below 8.6 million comparisons",
        |q| abbreviations_in_one_bucket(q, ""),
    );
    run.worst(
        "abbreviations in one bucket, long common prefixes",
        "with names of l bytes there are up to 32,768/l, each looked for among those before it: below 2 to the 29 over l bytes looked at",
        |q| abbreviations_in_one_bucket(q, "abcdefghijklmnopqrstuvwxyz"),
    );
    run.worst(
        "goals in one bucket",
        "a goal takes 13 bytes and its result 14, so there are below 631: each is looked for twice among them, below 0.6 million comparisons",
        goals_in_one_bucket,
    );
    run.worst(
        "steps by a rule of most nodes, built",
        "a step takes 14 bytes and a node of the rule 2: below 2,341 steps of below 4,096 nodes, below 9.6 million requests to the store",
        |q| steps_by_a_large_rule(q, false),
    );
    run.worst("steps by a rule of most nodes, matched", "the same product: below 9.6 million nodes matched", |q| steps_by_a_large_rule(q, true));
    run.worst(
        "steps by a rule of most nodes with a variable",
        "a step takes 15 bytes and a node with a variable 6: below 2,185 steps of below 1,366 nodes, below 3.0 million requests to the store",
        steps_by_a_large_open_rule,
    );
    run.worst("most premises", "a premise takes 3 bytes and its reference 2: each reference is matched once, linear", most_premises);
    run.worst("bad references", "each is read once, linear", bad_references);
    run.worst("deepest terms in rulebook and certificate", "256 levels are a frame each, each token is read once, linear", deep);
    run.worst("a line for each byte", "each line is tested once, linear", lines);
    run.worst("white space and comments of three bytes", "each byte is read twice, linear", blanks);
    index::loads(run);
}
