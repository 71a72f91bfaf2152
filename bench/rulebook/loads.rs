//! The call with the rulebook alone, beside the Rust's `Theory::parse`.
use crate::calls::{LONGEST_RULEBOOK, Rulebook};
use crate::run::Run;
use crate::texts::{BENCH, as_many, most_of_all_kinds, name, widest_rule};

/// Rules of up to two premises, four variables and nested terms, on 2 sorts, 4 constructors and 20 predicates.
fn rules(count: usize) -> String {
    let mut text = String::from("(sort nat)(sort list)(ctor zero () nat)(ctor succ (nat) nat)(ctor nil () list)(ctor cons (nat list) list)");
    for i in 0..10 {
        text += &format!("\n(pred sum{i} (nat nat nat))(pred append{i} (list list list))");
    }
    for i in 0..count {
        let (k, n) = (i % 10, i / 4);
        text += &match i % 4 {
            0 => format!("\n(rule sum-zero-{n} () (sum{k} zero ?n ?n))"),
            1 => format!("\n(rule sum-succ-{n} ((sum{k} ?m ?n ?k)) (sum{k} (succ ?m) ?n (succ ?k)))"),
            2 => format!("\n(rule append-nil-{n} () (append{k} nil ?ys ?ys))"),
            _ => format!("\n(rule append-cons-{n} ((append{k} ?xs ?ys ?zs) (sum{k} ?x zero ?x)) (append{k} (cons ?x ?xs) ?ys (cons ?x ?zs)))"),
        };
    }
    text
}

pub fn loads(run: &mut Run) {
    let part = |q: usize| LONGEST_RULEBOOK * q / 4;
    run.fixed("rulebook", "bench rulebook", "", Rulebook(BENCH.into()));
    run.load("rulebook", "40 rules", "0.7", |q| Rulebook(rules(10 * q)));
    run.load("rulebook", "100 rules", "0.7", |q| Rulebook(rules(25 * q)));
    run.load("rulebook", "most names", "0.7", |q| Rulebook(as_many(part(q), "", |n| format!("(sort {})", name(n)))));
    run.load("rulebook", "most names of all four kinds", "0.7", |q| Rulebook(most_of_all_kinds(part(q))));
    run.load("rulebook", "most variables", "0.7", |q| Rulebook(widest_rule(325 * q)));
    run.load("rulebook", "refused early: the first token closes", "", |q| Rulebook(format!("){}", most_of_all_kinds(part(q) - 1))));
    run.load("rulebook", "refused early: the first form", "", |q| Rulebook(format!("(_){}", most_of_all_kinds(part(q) - 3))));
    run.load("rulebook", "refused late: the last form", "", |q| Rulebook(most_of_all_kinds(part(q) - 3) + "(_)"));
}
