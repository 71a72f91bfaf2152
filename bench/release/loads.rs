//! The call with three texts, beside the Rust's `Theory::parse` and `check_reader`.
use crate::calls::{LONGEST_CERTIFICATE, LONGEST_GOALS, LONGEST_RULEBOOK, Release};
use crate::run::Run;
use crate::texts::{BENCH, BENCH_CERTIFICATE, BENCH_GOALS, as_many, declared, most_of_all_kinds, name, numeral, widest_rule};

/// Bytes kept for the forms behind those that fill a certificate.
const TAIL: usize = 20;

fn part(limit: usize, quarters: usize) -> usize {
    limit * quarters / 4
}

/// Step 0 by base and so many more, each from the one before; the goal is that of step 254, which is as deep as a text may be.
fn chain(steps: usize) -> Release {
    let mut certificate = String::from("(step 0 base ())\n");
    for n in 1..=steps {
        certificate += &format!("(step {n} more ({}))\n", n - 1);
    }
    certificate += "(result g 254)\n";
    Release::new(BENCH, format!("(goal g (hold {}))", numeral(254)), certificate)
}

/// A chain with each conclusion stated in full.
fn stated(quarters: usize) -> Release {
    let start = "(step 0 base () (hold z))\n";
    let form = |n: usize| format!("(step {} more ({n}) (hold {}))\n", n + 1, numeral(n + 1));
    let certificate = as_many(part(LONGEST_CERTIFICATE, quarters) - TAIL, start, form) + "(result g 1)\n";
    Release::new(BENCH, BENCH_GOALS, certificate)
}

/// Sums of numerals: rules of one premise and three variables, abbreviations in bindings.
fn sums(count: usize) -> Release {
    let rulebook = "(sort nat)(ctor zero () nat)(ctor succ (nat) nat)(pred sum (nat nat nat))
(rule sum-zero () (sum zero ?n ?n))
(rule sum-succ ((sum ?m ?n ?k)) (sum (succ ?m) ?n (succ ?k)))";
    let mut certificate = String::from("(def ?two (succ (succ zero)))\n(step 0 sum-zero () (?n ?two))\n");
    for n in 1..=count {
        certificate += &format!("(step {n} sum-succ ({}) (?n ?two))\n", n - 1);
    }
    certificate += "(result g 1)\n";
    Release::new(rulebook, "(goal g (sum (succ zero) (succ (succ zero)) (succ (succ (succ zero)))))", certificate)
}

fn largest_rulebook(quarters: usize) -> Release {
    let rulebook = most_of_all_kinds(part(LONGEST_RULEBOOK, quarters));
    Release::new(rulebook, "(goal g(_))", format!("(step 0 {}())(result g 0)", name(3)))
}

fn most_abbreviations(quarters: usize) -> Release {
    let certificate = as_many(part(LONGEST_CERTIFICATE, quarters), BENCH_CERTIFICATE, |n| format!("(def ?{} z)", name(n)));
    Release::new(BENCH, BENCH_GOALS, certificate)
}

fn most_goals(quarters: usize) -> Release {
    let goals = as_many(part(LONGEST_GOALS, quarters), "", |n| format!("(goal {}(hold z))", name(n)));
    let count = goals.matches("(goal").count();
    let results: String = (0..count).map(|n| format!("(result {} 0)", name(n))).collect();
    Release::new(BENCH, goals, format!("(step 0 base ()){results}"))
}

/// Abbreviations of numerals as deep as a text may be.
fn deepest_terms(quarters: usize) -> Release {
    let form = |n: usize| format!("(def ?{} {})\n", name(n), numeral(255));
    Release::new(BENCH, BENCH_GOALS, as_many(part(LONGEST_CERTIFICATE, quarters), BENCH_CERTIFICATE, form))
}

/// The rule with most variables, which a step takes with its conclusion stated, again and again.
fn widest(quarters: usize) -> Release {
    let count = 325 * quarters;
    let judgment = format!("(p {})", vec!["z"; count].join(" "));
    let form = |n: usize| format!("(step {n} r(){judgment})");
    let certificate = as_many(part(LONGEST_CERTIFICATE, quarters) - TAIL, "", form) + "(result g 0)";
    Release::new(widest_rule(count), format!("(goal g {judgment})"), certificate)
}

/// So many quarters of the store's 8,192 words, but for two at the most: nodes of three arguments, most of them in wide ones.
fn full_store(quarters: usize) -> Release {
    const CONSTANTS: usize = 13;
    const WIDTH: usize = 100;
    let constants: String = (0..CONSTANTS).map(|n| format!("(ctor {}()t)", name(n))).collect();
    let (small, wide) = (declared("ctor F", 3, "t"), declared("ctor W", WIDTH, "t"));
    let rulebook = format!("(sort t){constants}{small}{wide}(pred p())(rule r()(p))");
    let node = |n: usize| format!("(F {} {} {})", name(n % 13), name(n / 13 % 13), name(n / 169));
    let mut certificate = String::from("(step 0 r())(result g 0)");
    // One word for each constant and for the judgment, 501 for each of these, then 4 for each of those.
    for n in 0..4 * quarters {
        let nodes: String = (n * WIDTH..(n + 1) * WIDTH).map(node).collect();
        certificate += &format!("(def ?{}(W{nodes}))", name(n));
    }
    for n in 0..10 * quarters {
        certificate += &format!("(def ?-{n}{})", node(4 * quarters * WIDTH + n));
    }
    Release::new(rulebook, "(goal g(p))", certificate)
}

/// A load by its name, its bar, and its texts in quarters of their whole size.
type Load = (&'static str, &'static str, fn(usize) -> Release);

const LOADS: [Load; 13] = [
    ("chain of 1,023 steps", "0.6", |q| chain(256 * q - 1)),
    ("conclusions stated", "", stated),
    ("600 sums", "", |q| sums(150 * q)),
    ("largest rulebook, small certificate", "0.6", largest_rulebook),
    ("most abbreviations", "0.6", most_abbreviations),
    ("most goals", "", most_goals),
    ("deepest terms", "", deepest_terms),
    ("widest rule", "", widest),
    ("full store", "", full_store),
    ("refused early: the rulebook's first token", "", |q| Release { rulebook: ")".into(), ..most_abbreviations(q) }),
    ("refused early: the certificate's first token", "", |q| {
        let all = most_abbreviations(q);
        Release { certificate: format!("){}", &all.certificate[1..]), ..all }
    }),
    ("refused late: the last form", "", |q| {
        let all = chain(256 * q - 1);
        Release { certificate: all.certificate.replace("(result g 254)", "(result h 254)"), ..all }
    }),
    ("refused late: a goal left open", "", |q| {
        let all = most_abbreviations(q);
        Release { certificate: all.certificate.replace("(result g 1)", ""), ..all }
    }),
];

fn bench_set() -> Release {
    Release::new(BENCH, BENCH_GOALS, BENCH_CERTIFICATE)
}

pub fn loads(run: &mut Run) {
    run.fixed("release", "bench set", "", bench_set());
    LOADS.iter().for_each(|(load, bar, make)| run.load("release", load, bar, make));
}

/// The same loads by the call that writes the release page, beside the call with three texts.
pub fn pages(run: &mut Run) {
    run.page("bench set", |_| bench_set());
    LOADS.iter().for_each(|(load, _, make)| run.page(load, make));
}
