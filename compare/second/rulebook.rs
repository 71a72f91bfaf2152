//! The rulebook: read whole, then judged declaration by declaration.
use crate::Outcome;
use crate::reader::{Reader, Token};

pub enum Tree<'a> {
    Atom(&'a [u8]),
    List(Vec<Tree<'a>>),
}

/// A constructor, or a predicate, whose output is no sort.
pub struct Symbol<'a> {
    pub name: &'a [u8],
    pub inputs: Vec<usize>,
    pub output: usize,
}

pub enum Pattern {
    Variable(usize),
    Apply(usize, Vec<Pattern>),
}

/// The variables of a rule with their sorts.
type Variables<'a> = Vec<(&'a [u8], usize)>;

/// For misreadings only: a variable that may take a sort anew.
const FORGOTTEN: usize = usize::MAX - 1;

fn forget(variables: &mut Variables) {
    variables.iter_mut().for_each(|v| v.1 = FORGOTTEN);
}

pub struct Rule<'a> {
    pub name: &'a [u8],
    pub variables: Variables<'a>,
    pub premises: Vec<Pattern>,
    pub conclusion: Pattern,
}

#[derive(Default)]
pub struct Rulebook<'a> {
    pub sorts: Vec<&'a [u8]>,
    pub constructors: Vec<Symbol<'a>>,
    pub predicates: Vec<Symbol<'a>>,
    pub rules: Vec<Rule<'a>>,
}

/// The place of a name among those of one kind.
fn place_of<'a>(
    mut names: impl DoubleEndedIterator<Item = &'a [u8]> + ExactSizeIterator,
    name: &[u8],
) -> Option<usize> {
    if misread!("a name is found by its beginning") {
        return names.rposition(|n| n.starts_with(name));
    }
    names.position(|n| n == name)
}

pub fn find(symbols: &[Symbol], name: &[u8]) -> Option<usize> {
    place_of(symbols.iter().map(|s| s.name), name)
}

pub fn find_rule<'a, 'b>(rules: &'b [Rule<'a>], name: &[u8]) -> Option<&'b Rule<'a>> {
    place_of(rules.iter().map(|r| r.name), name).map(|i| &rules[i])
}

fn tree<'a>(reader: &mut Reader<'a>, depth: usize) -> Outcome<Tree<'a>> {
    match reader.item(depth)? {
        Token::Atom(a) => Ok(Tree::Atom(a)),
        _ => {
            let mut members = Vec::new();
            loop {
                if misread!("in the rulebook depth before the look ahead") && depth >= 256 {
                    return Err(4);
                }
                if reader.closes()? {
                    return Ok(Tree::List(members));
                }
                members.push(tree(reader, depth + 1)?);
            }
        }
    }
}

fn name<'a>(tree: &Tree<'a>) -> Outcome<&'a [u8]> {
    match tree {
        Tree::List(xs) if xs.is_empty() && misread!("an empty list for a name is 8") => Err(8),
        Tree::List(_) => Err(7),
        Tree::Atom(a) if a[0] == b'?' && !misread!("declared names may lead with ?") => Err(11),
        Tree::Atom(a) if a.contains(&b'?') && misread!("declared names hold no ? at all") => Err(11),
        Tree::Atom(a) => Ok(a),
    }
}

/// A constructor's or predicate's tests in order.
#[derive(Clone, Copy)]
enum Part {
    Name,
    Inputs,
    Output,
    Duplicate,
}

/// A rule's tests in order.
#[derive(Clone, Copy)]
enum RulePart {
    Premises,
    Conclusion,
    Name,
    Duplicate,
}

impl<'a> Rulebook<'a> {
    pub fn read(text: &'a [u8]) -> Outcome<Self> {
        let mut reader = Reader::new(text);
        let mut book = Self::default();
        let mut forms = Vec::new();
        while reader.peek()?.is_some() {
            let form = tree(&mut reader, 0)?;
            if misread!("declarations are judged as they are read") {
                book.declare(&form)?;
            } else {
                forms.push(form);
            }
        }
        forms.iter().try_for_each(|form| book.declare(form))?;
        Ok(book)
    }

    fn declare(&mut self, form: &Tree<'a>) -> Outcome<()> {
        let Tree::List(members) = form else { return Err(7) };
        let Some(head) = members.first() else {
            return Err(if misread!("an empty declaration is 9") { 9 } else { 8 });
        };
        let Tree::Atom(head) = head else {
            return Err(if misread!("a declaration's head that is a list is 9") { 9 } else { 7 });
        };
        let most = match *head {
            b"sort" if misread!("a sort may have members more") => 2,
            b"ctor" if misread!("a constructor may have members more") => 4,
            b"pred" if misread!("a predicate may have members more") => 3,
            b"rule" if misread!("a rule may have members more") => 4,
            _ => usize::MAX,
        };
        match (*head, &members[1..most.min(members.len())]) {
            (b"sort", [n]) => self.sort(n),
            (b"ctor", [n, inputs, output]) => self.symbol(n, inputs, Some(output)),
            (b"pred", [n, inputs]) => self.symbol(n, inputs, None),
            (b"rule", [n, premises, conclusion]) => self.rule(n, premises, conclusion),
            _ => Err(9),
        }
    }

    fn sort(&mut self, n: &Tree<'a>) -> Outcome<()> {
        let n = name(n)?;
        if self.sorts.contains(&n) && !misread!("a duplicate sort passes") {
            return Err(13);
        }
        if misread!("sorts and constructors share names") && find(&self.constructors, n).is_some() {
            return Err(13);
        }
        self.sorts.push(n);
        Ok(())
    }

    /// The sort of a place.
    fn place(&self, tree: &Tree<'a>) -> Outcome<usize> {
        let Tree::Atom(a) = tree else { return Err(7) };
        if a[0] == b'?' {
            return Err(if misread!("a sort with ? is unknown") { 12 } else { 11 });
        }
        match self.sorts.iter().position(|s| s == a) {
            None if misread!("an unknown sort passes") => Ok(0),
            found => found.ok_or(12),
        }
    }

    fn inputs(&self, inputs: &Tree<'a>) -> Outcome<Vec<usize>> {
        let Tree::List(inputs) = inputs else {
            return if misread!("inputs given as an atom are none") { Ok(Vec::new()) } else { Err(7) };
        };
        if misread!("inputs from right to left") {
            inputs.iter().rev().try_for_each(|s| self.place(s).map(|_| ()))?;
        }
        inputs.iter().map(|s| self.place(s)).collect()
    }

    fn symbol(&mut self, n: &Tree<'a>, inputs: &Tree<'a>, output: Option<&Tree<'a>>) -> Outcome<()> {
        use Part::*;
        let mut order = [Name, Inputs, Output, Duplicate];
        match output.is_some() {
            true if misread!("a constructor's inputs before its name") => order = [Inputs, Name, Output, Duplicate],
            true if misread!("a constructor's output before its inputs") => order = [Name, Output, Inputs, Duplicate],
            true if misread!("a constructor's duplicate before its output") => {
                order = [Name, Inputs, Duplicate, Output]
            }
            true if misread!("a constructor's duplicate before its inputs") => {
                order = [Name, Duplicate, Inputs, Output]
            }
            true if misread!("a constructor's output before its name") => order = [Output, Name, Inputs, Duplicate],
            false if misread!("a predicate's inputs before its name") => order = [Inputs, Name, Output, Duplicate],
            false if misread!("a predicate's duplicate before its inputs") => order = [Name, Duplicate, Inputs, Output],
            _ => {}
        }
        if matches!(inputs, Tree::Atom(_)) && misread!("inputs given as an atom before the name") {
            return Err(7);
        }
        let (own, other) = match output {
            Some(_) => (&self.constructors, &self.predicates),
            None => (&self.predicates, &self.constructors),
        };
        let mut symbol = Symbol { name: b"", inputs: Vec::new(), output: usize::MAX };
        for part in order {
            match part {
                Name => symbol.name = name(n)?,
                Inputs => symbol.inputs = self.inputs(inputs)?,
                Output => symbol.output = output.map_or(Ok(usize::MAX), |s| self.place(s))?,
                Duplicate => {
                    let passes = match output {
                        Some(_) => misread!("a duplicate constructor passes"),
                        None => misread!("a duplicate predicate passes"),
                    };
                    let shared =
                        misread!("constructors and predicates share names") && find(other, symbol.name).is_some();
                    let sorts = misread!("sorts and predicates share names") && self.sorts.contains(&symbol.name);
                    if (find(own, symbol.name).is_some() && !passes) || shared || (sorts && output.is_none()) {
                        return Err(13);
                    }
                }
            }
        }
        match output {
            Some(_) => self.constructors.push(symbol),
            None => self.predicates.push(symbol),
        }
        Ok(())
    }

    fn premises(&self, premises: &Tree<'a>, variables: &mut Variables<'a>) -> Outcome<Vec<Pattern>> {
        let Tree::List(premises) = premises else { return Err(7) };
        if misread!("premises from right to left") {
            let mut aside = variables.clone();
            premises.iter().rev().try_for_each(|j| self.judgment(j, &mut aside).map(|_| ()))?;
        }
        premises.iter().map(|j| self.judgment(j, variables)).collect()
    }

    fn rule(&mut self, n: &Tree<'a>, premises: &Tree<'a>, conclusion: &Tree<'a>) -> Outcome<()> {
        use RulePart::*;
        let order = match () {
            _ if misread!("a rule's conclusion before its premises") => [Conclusion, Premises, Name, Duplicate],
            _ if misread!("a rule's name before its conclusion") => [Premises, Name, Conclusion, Duplicate],
            _ if misread!("a rule's name before its patterns") => [Name, Premises, Conclusion, Duplicate],
            _ if misread!("a rule's name and duplicate before its patterns") => [Name, Duplicate, Premises, Conclusion],
            _ if misread!("a rule's name and duplicate before its conclusion") => {
                [Premises, Name, Duplicate, Conclusion]
            }
            _ => [Premises, Conclusion, Name, Duplicate],
        };
        if matches!(premises, Tree::Atom(_)) && misread!("premises given as an atom after the conclusion") {
            self.judgment(conclusion, &mut Vec::new())?;
        }
        let mut rule =
            Rule { name: b"", variables: Vec::new(), premises: Vec::new(), conclusion: Pattern::Variable(0) };
        for part in order {
            match part {
                Premises => rule.premises = self.premises(premises, &mut rule.variables)?,
                Conclusion => {
                    if misread!("a variable's sort is forgotten at the conclusion") {
                        forget(&mut rule.variables);
                    }
                    rule.conclusion = self.judgment(conclusion, &mut rule.variables)?;
                }
                Name => rule.name = name(n)?,
                Duplicate => {
                    if self.rules.iter().any(|r| r.name == rule.name) && !misread!("a duplicate rule passes") {
                        return Err(13);
                    }
                    if find(&self.predicates, rule.name).is_some() && misread!("rules and predicates share names") {
                        return Err(13);
                    }
                }
            }
        }
        self.rules.push(rule);
        Ok(())
    }

    fn judgment(&self, tree: &Tree<'a>, variables: &mut Variables<'a>) -> Outcome<Pattern> {
        let Tree::List(members) = tree else { return Err(7) };
        let Some(head) = members.first() else { return Err(if misread!("an empty judgment is 7") { 7 } else { 8 }) };
        let Tree::Atom(head) = head else { return Err(7) };
        if head[0] == b'?' && misread!("a judgment's head with ? is 11") {
            return Err(11);
        }
        let p = find(&self.predicates, head).ok_or(12)?;
        let inputs = &self.predicates[p].inputs;
        let right = inputs.len() + 1 == members.len();
        if !right && misread!("in a rule a judgment's length after its terms") {
            self.terms(&members[1..], inputs, variables)?;
        }
        if !right && !misread!("in a rule a judgment's length is not tested") {
            return Err(15);
        }
        if misread!("a variable's sort is one for each judgment") {
            forget(variables);
        }
        Ok(Pattern::Apply(p, self.terms(&members[1..], inputs, variables)?))
    }

    fn terms(&self, terms: &[Tree<'a>], sorts: &[usize], variables: &mut Variables<'a>) -> Outcome<Vec<Pattern>> {
        terms.iter().zip(sorts).map(|(t, &s)| self.term(t, s, variables)).collect()
    }

    fn variable(&self, v: &'a [u8], sort: usize, variables: &mut Variables<'a>) -> Outcome<Pattern> {
        if v == b"?" && !misread!("in a rule ? alone is a variable") {
            return Err(if misread!("in a rule ? alone is 12") { 12 } else { 11 });
        }
        if let Some(i) = variables.iter().position(|w| w.0 == v) {
            if variables[i].1 == FORGOTTEN {
                variables[i].1 = sort;
            }
            if variables[i].1 != sort && !misread!("a variable at two sorts passes") {
                return Err(if misread!("a variable at two sorts is 15") { 15 } else { 14 });
            }
            return Ok(Pattern::Variable(i));
        }
        variables.push((v, sort));
        Ok(Pattern::Variable(variables.len() - 1))
    }

    fn term(&self, tree: &Tree<'a>, sort: usize, variables: &mut Variables<'a>) -> Outcome<Pattern> {
        let (head, args) = match tree {
            Tree::Atom(a) if a[0] == b'?' => return self.variable(a, sort, variables),
            Tree::Atom(a) => (*a, &[][..]),
            Tree::List(xs) => {
                let Some(head) = xs.first() else { return Err(if misread!("an empty term is 16") { 16 } else { 8 }) };
                let Tree::Atom(head) = head else { return Err(7) };
                let known = find(&self.constructors, head);
                if xs.len() == 1 && known.is_none() && misread!("in a rule unknown before a bracketed constant") {
                    return Err(12);
                }
                let constant = known.is_none_or(|c| self.constructors[c].inputs.is_empty());
                if xs.len() == 1 && !(misread!("in a rule 16 only for constants") && !constant) {
                    if !misread!("in a rule a bracketed constant passes") {
                        return Err(16);
                    }
                }
                (*head, &xs[1..])
            }
        };
        if head[0] == b'?' && misread!("in a rule a term's head with ? is 11") {
            return Err(11);
        }
        let c = find(&self.constructors, head).ok_or(12)?;
        let Symbol { inputs, output, .. } = &self.constructors[c];
        let sorted = *output == sort || misread!("in a rule a term's sort is not tested");
        let long = inputs.len() == args.len() || misread!("in a rule a term's length is not tested");
        if !sorted && misread!("in a rule a term's sort after its arguments") {
            self.terms(args, inputs, variables)?;
        }
        if !long && misread!("in a rule a term's length after its arguments") {
            self.terms(args, inputs, variables)?;
        }
        if !sorted || !long {
            return Err(15);
        }
        Ok(Pattern::Apply(c, self.terms(args, inputs, variables)?))
    }
}
