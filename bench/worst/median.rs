//! The median text of a length: over texts drawn at random, all accepted.
use crate::calls::{Release, Rulebook};
use crate::measure::{Areas, Work, measure, median};
use crate::random::Random;
use crate::texts::DIGITS;
use std::collections::HashSet;

const DRAWN: u64 = 21;
/// Microseconds for one of them.
const EACH: f64 = 8_000.0;
/// Steps by rules with a premise, so few that the store has room for what they build.
const LED: usize = 300;

/// A load that texts can be drawn for.
pub trait Alike: Work + Sized {
    const CALL: &str;
    fn alike(&self, rng: &mut Random) -> Self;
}

impl Alike for Rulebook {
    const CALL: &str = "rulebook";

    fn alike(&self, rng: &mut Random) -> Self {
        Self(Book::random(rng, self.0.len()).text)
    }
}

impl Alike for Release {
    const CALL: &str = "release";

    fn alike(&self, rng: &mut Random) -> Self {
        let [r, g, c] = self.lengths();
        let book = Book::random(rng, r.max(300));
        Maker::new(book, rng).release(g, c)
    }
}

/// The medians of the Rust's and of the port's time.
pub fn of_length<W: Alike>(load: &W, areas: &mut Areas) -> (f64, f64) {
    let times: Vec<_> = (1..=DRAWN)
        .map(|seed| {
            let work = load.alike(&mut Random::new(seed));
            assert_eq!(work.answer(areas), 0, "a drawn text is refused");
            measure(&work, areas, EACH)
        })
        .collect();
    (median(times.iter().map(|t| t.rust).collect()), median(times.iter().map(|t| t.port).collect()))
}

struct Symbol {
    name: String,
    inputs: Vec<usize>,
}

/// A rule whose premise, if it has one, is a predicate of variables alone, so that every step fits it.
struct Rule {
    name: String,
    premise: Option<usize>,
    conclusion: usize,
}

/// A rulebook: sorts with their constants, constructors, predicates, rules; each predicate has a rule that gives all its judgments.
struct Book {
    text: String,
    /// By output.
    constructors: Vec<Vec<Symbol>>,
    predicates: Vec<Symbol>,
    rules: Vec<Rule>,
    names: HashSet<String>,
}

impl Book {
    /// A new name of one to eight bytes.
    fn name(&mut self, rng: &mut Random) -> String {
        loop {
            let name: String = (0..rng.from(1, 8)).map(|_| *rng.pick(DIGITS) as char).collect();
            if self.names.insert(name.clone()) {
                return name;
            }
        }
    }

    fn random(rng: &mut Random, bytes: usize) -> Self {
        let mut book = Self { text: String::new(), constructors: vec![], predicates: vec![], rules: vec![], names: HashSet::new() };
        let sorts: Vec<String> = (0..rng.from(1, 3)).map(|_| book.name(rng)).collect();
        let listed = |xs: &[usize]| xs.iter().map(|&s| sorts[s].clone()).collect::<Vec<_>>().join(" ");
        for sort in &sorts {
            book.text += &format!("(sort {sort})");
            book.constructors.push(vec![]);
        }
        for n in 0..rng.from(3, 8) * sorts.len() {
            let (name, output) = (book.name(rng), n % sorts.len());
            // The first two of a sort are constants.
            let inputs: Vec<usize> = (0..if n / sorts.len() < 2 { 0 } else { rng.from(1, 2) }).map(|_| rng.below(sorts.len())).collect();
            book.text += &format!("(ctor {name} ({}) {})", listed(&inputs), sorts[output]);
            book.constructors[output].push(Symbol { name, inputs });
        }
        for _ in 0..rng.from(2, 4) {
            let name = book.name(rng);
            let inputs: Vec<usize> = (0..rng.from(1, 3)).map(|_| rng.below(sorts.len())).collect();
            book.text += &format!("(pred {name} ({}))", listed(&inputs));
            book.predicates.push(Symbol { name, inputs });
        }
        for n in 0.. {
            let (text, rule) = book.rule(rng, n);
            if n >= book.predicates.len() && book.text.len() + text.len() > bytes {
                return book;
            }
            book.text += &text;
            book.rules.push(rule);
        }
        unreachable!("a text has an end")
    }

    /// The n-th rule; the first ones give each predicate.
    fn rule(&mut self, rng: &mut Random, n: usize) -> (String, Rule) {
        let name = self.name(rng);
        if n < self.predicates.len() {
            let text = format!("(rule {name} () {})\n", self.judgment(n, |i, _| format!("?x{i}")));
            return (text, Rule { name, premise: None, conclusion: n });
        }
        let (premise, conclusion) = (rng.below(self.predicates.len()), rng.below(self.predicates.len()));
        let sorts = self.predicates[premise].inputs.clone();
        // A variable of the premise, alone or under a constructor of one input, or a constant.
        let mut term = |sort: usize| {
            let known = sorts.iter().position(|&s| s == sort);
            let around = self.constructors[sort].iter().find(|c| c.inputs == [sort]);
            match (known, around, rng.below(3)) {
                (Some(i), Some(c), 0) => format!("({} ?x{i})", c.name),
                (Some(i), _, 0 | 1) => format!("?x{i}"),
                _ => self.constructors[sort][rng.below(2)].name.clone(),
            }
        };
        let given = self.judgment(conclusion, |_, sort| term(sort));
        let text = format!("(rule {name} ({}) {given})\n", self.judgment(premise, |i, _| format!("?x{i}")));
        (text, Rule { name, premise: Some(premise), conclusion })
    }

    fn judgment(&self, predicate: usize, mut term: impl FnMut(usize, usize) -> String) -> String {
        let p = &self.predicates[predicate];
        let terms: Vec<String> = p.inputs.iter().enumerate().map(|(i, &sort)| term(i, sort)).collect();
        format!("({} {})", p.name, terms.join(" "))
    }

    /// A ground term of a sort, with so many levels below.
    fn term(&self, rng: &mut Random, sort: usize, levels: usize) -> String {
        let all = &self.constructors[sort];
        let c = &all[if levels == 0 { rng.below(2) } else { rng.below(all.len()) }];
        if c.inputs.is_empty() {
            return c.name.clone();
        }
        let inputs: Vec<String> = c.inputs.iter().map(|&s| self.term(rng, s, levels - 1)).collect();
        format!("({} {})", c.name, inputs.join(" "))
    }
}

/// Goals and a certificate for a rulebook.
struct Maker<'a> {
    book: Book,
    rng: &'a mut Random,
    /// Judgments with their predicates, which a step states.
    pool: Vec<(usize, String)>,
    /// The predicate of each step, and how many steps of rules with a premise stand before it.
    steps: Vec<(usize, usize)>,
    certificate: String,
}

impl<'a> Maker<'a> {
    fn new(book: Book, rng: &'a mut Random) -> Self {
        let pool = (0..120)
            .map(|_| {
                let p = rng.below(book.predicates.len());
                (p, book.judgment(p, |_, sort| book.term(rng, sort, 2)))
            })
            .collect();
        Self { book, rng, pool, steps: vec![], certificate: String::new() }
    }

    /// A step that states a judgment of the pool.
    fn stated(&mut self, k: usize) {
        let (p, judgment) = &self.pool[k];
        self.certificate += &format!("(step {} {} () {judgment})\n", self.steps.len(), self.book.rules[*p].name);
        self.steps.push((*p, 0));
    }

    /// A step by a rule with a premise, if there is one for the step that is drawn; not many upon each other, so that the store has room.
    fn led(&mut self) {
        let from = self.rng.below(self.steps.len());
        let (p, before) = self.steps[from];
        let fitting: Vec<&Rule> = self.book.rules.iter().filter(|r| r.premise == Some(p)).collect();
        if before < 2 && !fitting.is_empty() {
            let rule = fitting[self.rng.below(fitting.len())];
            self.certificate += &format!("(step {} {} ({from}))\n", self.steps.len(), rule.name);
            self.steps.push((rule.conclusion, before + 1));
        }
    }

    /// Goals of the pool's judgments, then the steps and results for them, then forms of all kinds.
    fn release(mut self, goals_bytes: usize, certificate_bytes: usize) -> Release {
        let mut goals = String::new();
        for n in 0.. {
            let (name, k) = (self.book.name(self.rng), n % self.pool.len());
            let form = format!("(goal {name} {})\n", self.pool[k].1);
            if n > 0 && goals.len() + form.len() > goals_bytes {
                break;
            }
            goals += &form;
            if n < self.pool.len() {
                self.stated(k);
            }
            self.certificate += &format!("(result {name} {k})\n");
        }
        let mut led = 0;
        // The last form that no longer fits is taken back.
        let mut end = self.certificate.len();
        while self.certificate.len() <= certificate_bytes {
            end = self.certificate.len();
            match self.rng.below(4) {
                0 if led < LED => {
                    led += 1;
                    self.led();
                }
                1 => {
                    let (name, sort) = (self.book.name(self.rng), self.rng.below(self.book.constructors.len()));
                    self.certificate += &format!("(def ?{name} {})\n", self.book.term(self.rng, sort, 1));
                }
                _ => {
                    let k = self.rng.below(self.pool.len());
                    self.stated(k);
                }
            }
        }
        self.certificate.truncate(end);
        Release::new(self.book.text, goals, self.certificate)
    }
}
