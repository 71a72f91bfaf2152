//! Nodes that fall into one run of the store's index, for the port: a node's head is its symbol's address in the theory's area, so the
//! Rust, which numbers symbols, has no such run in these texts (others can be made for it in the same way).
use crate::calls::{LONGEST_CERTIFICATE, LONGEST_GOALS, LONGEST_RULEBOOK, Release};
use crate::run::{Mode, Run};
use crate::texts::{applied, as_many, declared, name};

/// Constants that the nodes of the run are made of, and their constructors of two inputs.
const CONSTANTS: usize = 48;
const CONSTRUCTORS: usize = 8;
/// Terms in a judgment of the goals or in an abbreviation.
const WIDTH: usize = 30;
/// Terms in a term of the rule's conclusion.
const INNER: usize = 58;
/// Nodes in the run: with their wide nodes they take four words each.
const RUN: usize = 1_900;

/// Where the walk for a node starts (01, "Stored terms").
fn place(key: &[u32]) -> u32 {
    let h = key.iter().fold(0u64, |h, &w| (h.rotate_left(5) ^ u64::from(w)).wrapping_mul(0x517c_c1b7_2722_0a95));
    (h >> (64 - 12)) as u32
}

/// A rulebook as it grows, with the address of its next entry (crate `items` has the layout).
struct Book {
    text: String,
    top: u32,
}

impl Book {
    fn symbol(&mut self, head: &str, inputs: usize, output: &str) -> u32 {
        let address = self.top;
        self.text += &declared(head, inputs, output);
        self.top += 5 + inputs as u32;
        address
    }
}

/// The rulebook, a constant, and terms whose nodes fill the index from the place of that constant on, the nearest first.
struct Hostile {
    rulebook: String,
    constant: String,
    terms: Vec<String>,
}

fn hostile() -> Hostile {
    // Behind four times 256 buckets stands the sort, in three words.
    let mut book = Book { text: "(sort t)".into(), top: 1024 + 3 };
    let constants: Vec<u32> = (0..CONSTANTS + 12).map(|n| book.symbol(&format!("ctor {}", name(n)), 0, "t")).collect();
    let constructors: Vec<u32> = (0..CONSTRUCTORS).map(|n| book.symbol(&format!("ctor -{n}"), 2, "t")).collect();
    book.symbol("pred first", CONSTANTS, "");
    book.symbol("pred p", WIDTH, "");
    book.symbol("ctor -w", WIDTH, "t");
    let mut nodes = Vec::new();
    for (n, &head) in constructors.iter().enumerate() {
        for a in 0..CONSTANTS {
            for b in 0..CONSTANTS {
                nodes.push((place(&[head, a as u32, b as u32]), format!("(-{n} {} {})", name(a), name(b))));
            }
        }
    }
    // Of the constants that are in no term of the run, the one with most nodes right behind it.
    let of = |n: usize| {
        let start = place(&[constants[n]]);
        let mut near: Vec<(u32, &String)> = nodes.iter().map(|(p, t)| ((p + 4096 - start) % 4096, t)).collect();
        near.sort();
        let gap = near.iter().enumerate().position(|(i, (p, _))| *p > i as u32).unwrap_or(near.len());
        (gap.min(RUN), n, near.iter().take(RUN).map(|(_, t)| (*t).clone()).collect::<Vec<_>>())
    };
    let (_, n, terms) = (CONSTANTS..CONSTANTS + 12).map(of).max_by_key(|(gap, ..)| *gap).expect("a constant");
    Hostile { rulebook: book.text, constant: name(n), terms }
}

impl Hostile {
    /// Goals that number the constants, then give the terms, as far as they fit; and the terms that are left.
    fn goals(&self) -> (String, &[String]) {
        let all: Vec<String> = (0..CONSTANTS).map(name).collect();
        let groups: Vec<&[String]> = self.terms.chunks_exact(WIDTH).collect();
        let start = format!("(goal -(first {}))", all.join(" "));
        let goals = as_many(LONGEST_GOALS, &start, |n| format!("(goal {}(p{}))", name(n), groups[n].concat()));
        let given = goals.matches("(p").count() * WIDTH;
        (goals, &self.terms[given..])
    }

    /// Abbreviations of the terms that are left.
    fn rest(terms: &[String]) -> String {
        terms.chunks_exact(WIDTH).enumerate().map(|(n, t)| format!("(def ?{}(-w{}))", name(n), t.concat())).collect()
    }

    /// The constant behind the run, again and again.
    fn asked_again(&self, quarters: usize) -> Release {
        let (goals, left) = self.goals();
        let form = |n: usize| format!("(def ?-{n}{})", applied("-w", &self.constant, WIDTH));
        let certificate = as_many(LONGEST_CERTIFICATE * quarters / 4, &Self::rest(left), form);
        Release::new(&self.rulebook, goals, certificate)
    }

    /// So many steps, or as many as fit, by a rule whose conclusion is made of that constant.
    fn built_again(&self, steps: usize) -> Release {
        let (goals, left) = self.goals();
        let start = format!("{}{}", self.rulebook, declared("ctor -i", INNER, "t"));
        let term = applied("-i", &self.constant, INNER);
        // A term and its input in the predicate's declaration.
        let terms = (LONGEST_RULEBOOK - start.len() - 40) / (term.len() + 2);
        let rulebook = format!("{start}{}(rule r()(c{}))", declared("pred c", terms, ""), term.repeat(terms));
        let form = |n: usize| if n < steps { format!("(step {n} r())") } else { " ".repeat(LONGEST_CERTIFICATE) };
        Release::new(rulebook, goals, as_many(LONGEST_CERTIFICATE, &Self::rest(left), form))
    }
}

pub fn loads(run: &mut Run) {
    let hostile = hostile();
    run.worst(
        "nodes in one run of the index, the last asked for",
        "a request looks at no more than 2,049 places and an atom takes 2 bytes of 40,960: below 42 million places",
        |q| hostile.asked_again(q),
    );
    run.worst(
        "the same by 8 steps of a rule of most nodes",
        "below 9.6 million requests (steps by a rule of most nodes) of 2,049 places each: below 20,000 million places",
        |q| hostile.built_again(2 * q),
    );
    // This takes too long to be measured in every run.
    if let Mode::Repeat { .. } = run.mode {
        run.worst("the same by as many steps as fit", "", |_| hostile.built_again(usize::MAX));
    }
}
