//! Valid goals and certificates over a rulebook: bindings, abbreviations, stated and built conclusions.
use crate::names;
use crate::random::Random;
use crate::rulebook::{Pattern, Rulebook, Size, Term};
use crate::tree::{Tree, atom, list};

struct Step {
    rule: usize,
    refs: Vec<usize>,
    judgment: Term,
    values: Vec<Term>,
}

fn matches(pattern: &Pattern, term: &Term, values: &mut [Option<Term>]) -> bool {
    match pattern {
        Pattern::Var(v) => match &values[*v] {
            Some(t) => t == term,
            None => {
                values[*v] = Some(term.clone());
                true
            }
        },
        Pattern::App(h, args) => *h == term.head && args.iter().zip(&term.args).all(|(p, t)| matches(p, t, values)),
    }
}

fn instance(pattern: &Pattern, values: &[Term]) -> Term {
    match pattern {
        Pattern::Var(v) => values[*v].clone(),
        Pattern::App(h, args) => Term { head: *h, args: args.iter().map(|a| instance(a, values)).collect() },
    }
}

fn occurs(pattern: &Pattern, var: usize) -> bool {
    match pattern {
        Pattern::Var(v) => *v == var,
        Pattern::App(_, args) => args.iter().any(|a| occurs(a, var)),
    }
}

fn subterms(term: &Term, out: &mut Vec<Term>) {
    out.push(term.clone());
    term.args.iter().for_each(|a| subterms(a, out));
}

pub struct Maker<'a> {
    pub book: &'a Rulebook,
    pub rng: &'a mut Random,
    size: Size,
    steps: Vec<Step>,
    defs: Vec<(Vec<u8>, Term)>,
}

impl<'a> Maker<'a> {
    pub fn new(book: &'a Rulebook, rng: &'a mut Random, size: Size) -> Self {
        Self { book, rng, size, steps: Vec::new(), defs: Vec::new() }
    }

    /// Values for the variables that matching left open.
    fn complete(&mut self, rule: usize, values: Vec<Option<Term>>) -> Option<Vec<Term>> {
        let fuel = self.rng.below(2 + self.size);
        let vars = &self.book.rules[rule].vars;
        let filled = values.into_iter().zip(vars);
        filled.map(|(v, (_, sort))| v.or_else(|| self.book.ground(self.rng, *sort, fuel))).collect()
    }

    /// A step by this rule, its premises derived where no earlier step concludes them.
    fn fire(&mut self, rule: usize, values: Vec<Term>, depth: usize) -> Option<usize> {
        let r = &self.book.rules[rule];
        let mut refs = Vec::new();
        for p in &r.premises {
            refs.push(self.derive(&instance(p, &values), depth.checked_sub(1)?)?);
        }
        let judgment = instance(&r.conclusion, &values);
        self.steps.push(Step { rule, refs, judgment, values });
        Some(self.steps.len() - 1)
    }

    fn derive(&mut self, judgment: &Term, depth: usize) -> Option<usize> {
        let known: Vec<usize> = (0..self.steps.len()).filter(|&i| self.steps[i].judgment == *judgment).collect();
        if !known.is_empty() && self.rng.chance(90) {
            return Some(*self.rng.pick(&known));
        }
        if self.steps.len() > [5, 20, 60][self.size] {
            return known.last().copied();
        }
        let mut rules: Vec<usize> = (0..self.book.rules.len()).collect();
        self.rng.shuffle(&mut rules);
        for rule in rules {
            let r = &self.book.rules[rule];
            let mut values = vec![None; r.vars.len()];
            if (depth == 0 && !r.premises.is_empty()) || !matches(&r.conclusion, judgment, &mut values) {
                continue;
            }
            let Some(values) = self.complete(rule, values) else { continue };
            if let Some(step) = self.fire(rule, values, depth) {
                return Some(step);
            }
        }
        known.last().copied()
    }

    fn term(&mut self, t: &Term) -> Tree {
        if let Some((n, _)) = self.defs.iter().find(|(_, d)| d == t) {
            if self.rng.chance(75) {
                return atom(n);
            }
        }
        self.plain(&self.book.ctors[t.head].name, &t.args, false)
    }

    fn plain(&mut self, head: &[u8], args: &[Term], brackets: bool) -> Tree {
        if args.is_empty() && !brackets {
            return atom(head);
        }
        let args: Vec<Tree> = args.iter().map(|a| self.term(a)).collect();
        list(std::iter::once(atom(head)).chain(args))
    }

    fn judgment(&mut self, j: &Term) -> Tree {
        self.plain(&self.book.preds[j.head].name, &j.args, true)
    }

    fn index(&mut self, n: usize) -> Tree {
        let plain = n.to_string();
        match self.rng.below(40) {
            0 => atom(format!("+{plain}")),
            1 => atom(format!("00{plain}")),
            2 => atom(format!("+0000000000000000000000{plain}")),
            _ => atom(plain),
        }
    }

    fn step(&mut self, n: usize) -> Tree {
        let rule = &self.book.rules[self.steps[n].rule];
        let Step { refs, judgment, values, .. } = &self.steps[n];
        let (refs, judgment, values) = (refs.clone(), judgment.clone(), values.clone());
        let stated = self.rng.chance(50);
        let mut items = Vec::new();
        for (v, (name, _)) in rule.vars.iter().enumerate() {
            let needed = !stated && !rule.premises.iter().any(|p| occurs(p, v)) && occurs(&rule.conclusion, v);
            if needed || self.rng.chance(15) {
                let value = self.term(&values[v]);
                items.push(list([atom(name), value]));
            }
        }
        if stated {
            items.push(self.judgment(&judgment));
        }
        self.rng.shuffle(&mut items);
        let refs: Vec<Tree> = refs.iter().map(|&r| self.index(r)).collect();
        let head = [atom("step"), self.index(n), atom(&rule.name), list(refs)];
        list(head.into_iter().chain(items))
    }

    /// An abbreviation of a term that the coming step has.
    fn def(&mut self, n: usize, used: &mut Vec<Vec<u8>>) -> Option<Tree> {
        let mut terms = Vec::new();
        self.steps[n].judgment.args.iter().for_each(|a| subterms(a, &mut terms));
        self.steps[n].values.iter().for_each(|a| subterms(a, &mut terms));
        if terms.is_empty() {
            return None;
        }
        let t = self.rng.pick(&terms).clone();
        let tree = self.term(&t);
        let name = names::variable(self.rng, used);
        self.defs.push((name.clone(), t));
        Some(list([atom("def"), atom(name), tree]))
    }

    /// Goals and certificate, or nothing where no goal could be derived.
    pub fn texts(mut self) -> Option<(Vec<Tree>, Vec<Tree>)> {
        let mut wanted = Vec::new();
        for _ in 0..20 * (1 + self.size) {
            if wanted.len() > self.size || (!wanted.is_empty() && self.rng.chance(25)) || self.book.rules.is_empty() {
                break;
            }
            let rule = self.rng.below(self.book.rules.len());
            let open = vec![None; self.book.rules[rule].vars.len()];
            if let Some(values) = self.complete(rule, open) {
                wanted.extend(self.fire(rule, values, 2 + self.size));
            }
        }
        if wanted.is_empty() {
            return None;
        }
        let (mut used, mut goals, mut results) = (Vec::new(), Vec::new(), Vec::new());
        for w in wanted {
            let name = names::fresh(self.rng, &mut used);
            let j = self.steps[w].judgment.clone();
            goals.push(list([atom("goal"), atom(&name), self.judgment(&j)]));
            results.push((name, w));
        }
        let (mut used, mut forms) = (Vec::new(), Vec::new());
        let abbreviates = self.rng.chance(50);
        for n in 0..self.steps.len() {
            while abbreviates && self.rng.chance(35) {
                forms.extend(self.def(n, &mut used));
            }
            forms.push(self.step(n));
            while let Some(i) = results.iter().position(|(_, w)| *w <= n) {
                if self.rng.chance(50) {
                    break;
                }
                let (name, w) = results.remove(i);
                forms.push(list([atom("result"), atom(name), self.index(w)]));
            }
        }
        self.rng.shuffle(&mut results);
        for (name, w) in results {
            forms.push(list([atom("result"), atom(name), self.index(w)]));
        }
        Some((goals, forms))
    }
}
