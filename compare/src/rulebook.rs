//! Well-sorted rulebooks of several sorts: nested patterns, repeated variables, many premises.
use crate::names;
use crate::random::Random;
use crate::tree::{Tree, atom, list};

pub struct Symbol {
    pub name: Vec<u8>,
    pub inputs: Vec<usize>,
    /// The sort of a constructor; unused in a predicate.
    pub output: usize,
}

pub enum Pattern {
    Var(usize),
    /// A constructor, or a predicate at the top of a judgment.
    App(usize, Vec<Pattern>),
}

pub struct Rule {
    pub name: Vec<u8>,
    pub vars: Vec<(Vec<u8>, usize)>,
    pub premises: Vec<Pattern>,
    pub conclusion: Pattern,
}

/// A ground term by its constructor, or a judgment by its predicate.
#[derive(Clone, PartialEq)]
pub struct Term {
    pub head: usize,
    pub args: Vec<Term>,
}

pub struct Rulebook {
    pub sorts: Vec<Vec<u8>>,
    pub ctors: Vec<Symbol>,
    pub preds: Vec<Symbol>,
    pub rules: Vec<Rule>,
    /// For each sort a constructor that leads to a smallest term, where there is one.
    smallest: Vec<Option<usize>>,
}

/// How large a case becomes: 0 is small, 2 large.
pub type Size = usize;

pub fn inputs(rng: &mut Random, sorts: usize, most: usize) -> Vec<usize> {
    (0..rng.from(0, most)).map(|_| rng.below(sorts)).collect()
}

/// Variables of one rule, by sort.
struct Vars<'a> {
    list: Vec<(Vec<u8>, usize)>,
    used: &'a mut Vec<Vec<u8>>,
}

impl Rulebook {
    pub fn random(rng: &mut Random, size: Size) -> Self {
        let (mut used, mut sorts) = (Vec::new(), Vec::new());
        for _ in 0..rng.from(1, [2, 4, 7][size]) {
            sorts.push(names::fresh(rng, &mut used));
        }
        let n = sorts.len();
        let mut ctors = Vec::new();
        let mut used = Vec::new();
        for output in 0..n {
            // Now and then a sort is left without a constant.
            let constants = if n > 1 && rng.chance(6) { 0 } else { rng.from(1, 1 + size) };
            for _ in 0..constants {
                ctors.push(Symbol { name: names::fresh(rng, &mut used), inputs: Vec::new(), output });
            }
        }
        for _ in 0..rng.from(1, [2, 4, 8][size]) {
            let mut inputs = inputs(rng, n, [2, 3, 4][size]);
            if inputs.is_empty() {
                inputs.push(rng.below(n));
            }
            ctors.push(Symbol { name: names::fresh(rng, &mut used), inputs, output: rng.below(n) });
        }
        let mut used = Vec::new();
        let mut preds = Vec::new();
        for _ in 0..rng.from(1, [2, 4, 6][size]) {
            let inputs = inputs(rng, n, [2, 3, 4][size]);
            preds.push(Symbol { name: names::fresh(rng, &mut used), inputs, output: 0 });
        }
        let smallest = Self::smallest(n, &ctors);
        let mut book = Self { sorts, ctors, preds, rules: Vec::new(), smallest };
        let mut used = Vec::new();
        // An axiom for most predicates, so that premises can be met.
        for p in 0..book.preds.len() {
            if rng.chance(85) {
                let depth = if rng.chance(85) { 0 } else { 1 };
                book.rule(rng, p, 0, depth, &mut used);
            }
        }
        for _ in 0..rng.from(0, [1, 4, 8][size]) {
            let p = rng.below(book.preds.len());
            let premises = if size == 2 && rng.chance(20) { rng.from(4, 9) } else { rng.from(0, 3) };
            let depth = rng.from(1, 1 + size);
            book.rule(rng, p, premises, depth, &mut used);
        }
        book
    }

    /// What these declarations, which must be accepted, make known, but for their rules.
    #[cfg(library)]
    pub fn of(forms: &[Tree]) -> Self {
        let declared = |head: &'static str| forms.iter().filter(move |f| f.form(head)).map(Tree::members);
        let sorts: Vec<Vec<u8>> = declared("sort").map(|xs| xs[1].bytes().to_vec()).collect();
        let sort = |tree: &Tree| sorts.iter().position(|s| s == tree.bytes()).expect("a known sort");
        let symbol = |xs: &[Tree]| Symbol {
            name: xs[1].bytes().to_vec(),
            inputs: xs[2].members().iter().map(sort).collect(),
            output: xs.get(3).map_or(0, sort),
        };
        let (ctors, preds): (Vec<_>, _) =
            (declared("ctor").map(symbol).collect(), declared("pred").map(symbol).collect());
        let smallest = Self::smallest(sorts.len(), &ctors);
        Self { sorts, ctors, preds, rules: Vec::new(), smallest }
    }

    /// One rule more.
    pub fn rule(
        &mut self,
        rng: &mut Random,
        conclusion: usize,
        premises: usize,
        depth: usize,
        used: &mut Vec<Vec<u8>>,
    ) {
        let mut names = Vec::new();
        let mut vars = Vars { list: Vec::new(), used: &mut names };
        let mut found = Vec::new();
        for _ in 0..premises {
            let p = rng.below(self.preds.len());
            found.push(self.judgment(rng, p, depth, 60, &mut vars));
        }
        let repeat = if premises == 0 { 15 } else { 75 };
        let conclusion = self.judgment(rng, conclusion, depth, repeat, &mut vars);
        let vars = vars.list;
        self.rules.push(Rule { name: names::fresh(rng, used), vars, premises: found, conclusion });
    }

    fn judgment(&self, rng: &mut Random, p: usize, depth: usize, repeat: usize, vars: &mut Vars) -> Pattern {
        let args = self.preds[p].inputs.iter().map(|&s| self.pattern(rng, s, depth, repeat, vars));
        Pattern::App(p, args.collect())
    }

    fn pattern(&self, rng: &mut Random, sort: usize, depth: usize, repeat: usize, vars: &mut Vars) -> Pattern {
        let heads: Vec<usize> = (0..self.ctors.len()).filter(|&c| self.ctors[c].output == sort).collect();
        if depth > 0 && !heads.is_empty() && rng.chance(55) {
            let c = *rng.pick(&heads);
            let args = self.ctors[c].inputs.iter().map(|&s| self.pattern(rng, s, depth - 1, repeat, vars));
            return Pattern::App(c, args.collect());
        }
        let same: Vec<usize> = (0..vars.list.len()).filter(|&v| vars.list[v].1 == sort).collect();
        if !same.is_empty() && rng.chance(repeat) {
            return Pattern::Var(*rng.pick(&same));
        }
        vars.list.push((names::variable(rng, vars.used), sort));
        Pattern::Var(vars.list.len() - 1)
    }

    fn smallest(sorts: usize, ctors: &[Symbol]) -> Vec<Option<usize>> {
        let mut out = vec![None; sorts];
        for _ in 0..sorts {
            let before = out.clone();
            for (i, c) in ctors.iter().enumerate() {
                if out[c.output].is_none() && c.inputs.iter().all(|&s| before[s].is_some()) {
                    out[c.output] = Some(i);
                }
            }
        }
        out
    }

    /// A ground term of a sort, or nothing where the sort has none.
    pub fn ground(&self, rng: &mut Random, sort: usize, fuel: usize) -> Option<Term> {
        let least = self.smallest[sort]?;
        let heads: Vec<usize> = (0..self.ctors.len())
            .filter(|&c| {
                self.ctors[c].output == sort && self.ctors[c].inputs.iter().all(|&s| self.smallest[s].is_some())
            })
            .collect();
        let head = if fuel == 0 { least } else { *rng.pick(&heads) };
        let args = self.ctors[head].inputs.iter().map(|&s| self.ground(rng, s, fuel.saturating_sub(1)));
        Some(Term { head, args: args.collect::<Option<_>>()? })
    }

    fn names(&self, sorts: &[usize]) -> Tree {
        list(sorts.iter().map(|&s| atom(&self.sorts[s])))
    }

    fn pattern_tree(&self, rule: &Rule, pattern: &Pattern, judgment: bool) -> Tree {
        match pattern {
            Pattern::Var(v) => atom(&rule.vars[*v].0),
            Pattern::App(h, args) => {
                let symbols = if judgment { &self.preds } else { &self.ctors };
                let head = atom(&symbols[*h].name);
                // A constant is an atom; a predicate without inputs keeps its brackets.
                if args.is_empty() && !judgment {
                    return head;
                }
                list(std::iter::once(head).chain(args.iter().map(|a| self.pattern_tree(rule, a, false))))
            }
        }
    }

    pub fn ctor_tree(&self, c: &Symbol) -> Tree {
        list([atom("ctor"), atom(&c.name), self.names(&c.inputs), atom(&self.sorts[c.output])])
    }

    pub fn pred_tree(&self, p: &Symbol) -> Tree {
        list([atom("pred"), atom(&p.name), self.names(&p.inputs)])
    }

    pub fn rule_tree(&self, rule: &Rule) -> Tree {
        let premises = rule.premises.iter().map(|p| self.pattern_tree(rule, p, true));
        let conclusion = self.pattern_tree(rule, &rule.conclusion, true);
        list([atom("rule"), atom(&rule.name), list(premises), conclusion])
    }

    /// The declarations, now and then in another order in which each comes after what it names.
    pub fn trees(&self, rng: &mut Random) -> Vec<Tree> {
        let sorts = self.sorts.iter().map(|s| list([atom("sort"), atom(s)]));
        let ctors = self.ctors.iter().map(|c| self.ctor_tree(c));
        let preds = self.preds.iter().map(|p| self.pred_tree(p));
        let (mut symbols, mut rules): (Vec<Tree>, Vec<Tree>) = (ctors.chain(preds).collect(), Vec::new());
        rules.extend(self.rules.iter().map(|r| self.rule_tree(r)));
        if rng.chance(40) {
            rng.shuffle(&mut symbols);
            rng.shuffle(&mut rules);
        }
        sorts.chain(symbols).chain(rules).collect()
    }
}
