//! Steps: references, items, matching, building.
use crate::Outcome;
use crate::reader::Reader;
use crate::release::{Checker, number};
use crate::rulebook::{Pattern, Rule, find, find_rule};
use crate::store::Head;

/// A step: its judgment, its rule's name, and the numbers of the steps that it refers to.
pub struct Step<'a> {
    pub judgment: usize,
    pub rule: &'a [u8],
    pub references: Vec<u64>,
}

/// The values of a rule's variables.
type Values = Vec<Option<usize>>;

impl<'a> Checker<'a> {
    fn references(&mut self, reader: &mut Reader<'a>, count: usize) -> Outcome<Vec<u64>> {
        reader.list_item(1)?;
        let (mut refs, mut late) = (Vec::new(), Ok(()));
        while !reader.closes()? {
            let read = number(reader.atom_item(2)?);
            if misread!("references are judged after their closing") || misread!("references after their count") {
                late = late.and(read.map(|_| ()));
                refs.push(read.unwrap_or(0));
            } else {
                refs.push(read?);
            }
            let early = refs[refs.len() - 1] >= self.steps.len() as u64;
            if early && misread!("a reference is judged when it is read") {
                return Err(24);
            }
            if refs.len() > count && misread!("a reference too many is refused at once") {
                return Err(20);
            }
        }
        if misread!("references are judged after their closing") {
            late?;
        }
        let short = refs.len() < count && misread!("references too few pass");
        let long = refs.len() > count && misread!("references too many pass");
        if refs.len() != count && !short && !long && !misread!("references are counted after the items") {
            return Err(20);
        }
        late?;
        if refs.iter().any(|&r| r >= self.steps.len() as u64) && misread!("references are judged before the items") {
            return Err(24);
        }
        Ok(refs)
    }

    pub fn step(&mut self, reader: &mut Reader<'a>) -> Outcome<()> {
        let own = number(reader.atom_item(1)?)?;
        let due = own == self.steps.len() as u64 || misread!("a step's number is not tested");
        if !due && !misread!("a step's order after its rule") && !misread!("a step's order after its references") {
            return Err(19);
        }
        let name = reader.atom_item(1)?;
        let rule = find_rule(&self.book.rules, name);
        if rule.is_none() && misread!("a rule after its references") {
            self.references(reader, 0)?;
        }
        let rule = rule.ok_or(12)?;
        if !due && misread!("a step's order after its rule") {
            return Err(19);
        }
        let refs = self.references(reader, rule.premises.len())?;
        if !due {
            return Err(19);
        }
        let mut values = vec![None; rule.variables.len()];
        let mut stated = None;
        let mut twice = false;
        while !reader.closes()? {
            self.item(reader, rule, &mut values, &mut stated, &mut twice)?;
        }
        if twice {
            return Err(22);
        }
        if refs.len() != rule.premises.len() && misread!("references are counted after the items") {
            return Err(20);
        }
        let judgment = self.matching(rule, &refs, &mut values, stated)?;
        self.steps.push(Step { judgment, rule: name, references: refs });
        Ok(())
    }

    fn item(
        &mut self,
        reader: &mut Reader<'a>,
        rule: &Rule<'a>,
        values: &mut Values,
        stated: &mut Option<usize>,
        twice: &mut bool,
    ) -> Outcome<()> {
        reader.list_item(1)?;
        let head = reader.head(2)?;
        if head[0] == b'?' {
            if stated.is_some() && misread!("no binding after a conclusion") {
                return Err(22);
            }
            return self.binding(reader, rule, head, values);
        }
        if stated.is_some() && misread!("a second conclusion before it is read") {
            return Err(22);
        }
        if stated.is_some() && misread!("a second conclusion before its arguments") {
            find(&self.book.predicates, head).ok_or(12)?;
            return Err(22);
        }
        let all = !misread!("a stated conclusion requests nothing");
        let judgment = self.counted(all, |s| s.judgment(reader, head, 1))?;
        if *stated == Some(judgment) && misread!("an equal second conclusion passes") {
            return Ok(());
        }
        if stated.is_some() && !misread!("a second conclusion passes") {
            if !misread!("a second conclusion after all items") {
                return Err(22);
            }
            *twice = true;
        }
        *stated = Some(judgment);
        if misread!("a stated conclusion binds at once") && !self.matches(&rule.conclusion, true, judgment, values) {
            return Err(23);
        }
        Ok(())
    }

    fn binding(&mut self, reader: &mut Reader<'a>, rule: &Rule<'a>, v: &[u8], values: &mut Values) -> Outcome<()> {
        let found = rule.variables.iter().position(|w| w.0 == v);
        if v == b"?" && misread!("a binding of ? alone is 11") {
            return Err(11);
        }
        if found.is_none() && misread!("a binding's variable after its term") {
            self.term(reader, 2)?;
        }
        let found = match found {
            None if misread!("a binding of an unknown variable is 21") => return Err(21),
            found => found.ok_or(12)?,
        };
        let bound = values[found].is_some();
        if bound && misread!("a bound variable before its term") {
            return Err(21);
        }
        let term = self.counted(!misread!("a binding requests nothing"), |s| s.term(reader, 2))?;
        let sorted = self.sort_of(term) == rule.variables[found].1 || misread!("a binding's sort is not tested");
        if !sorted && misread!("a binding's sort before its closing") {
            return Err(21);
        }
        if bound && misread!("a bound variable before the closing") {
            return Err(21);
        }
        if misread!("a binding's closing is not asked for") {
            while !reader.closes()? {
                reader.next()?.ok_or(5)?;
            }
        } else {
            reader.closing()?;
        }
        if !sorted {
            return Err(if misread!("a binding's wrong sort is 15") { 15 } else { 21 });
        }
        if bound && !misread!("a second binding passes") {
            if values[found] != Some(term) || !misread!("an equal second binding passes") {
                return Err(21);
            }
        }
        values[found] = Some(term);
        Ok(())
    }

    /// Whether a term is an instance of a pattern, whose variables it binds.
    fn matches(&self, pattern: &Pattern, judgment: bool, term: usize, values: &mut Values) -> bool {
        match pattern {
            Pattern::Variable(v) => match values[*v] {
                Some(value) => value == term || misread!("a variable binds anew at each place"),
                None => {
                    values[*v] = Some(term);
                    true
                }
            },
            Pattern::Apply(h, args) => {
                let head = if judgment { Head::Predicate(*h) } else { Head::Constructor(*h) };
                let node = &self.store.nodes[term];
                if node.head != head {
                    return false;
                }
                if !judgment && misread!("matching compares only heads below the judgment") {
                    return true;
                }
                if misread!("matching leaves out the last argument") && args.len() > 1 {
                    return args
                        .iter()
                        .zip(&node.args)
                        .take(args.len() - 1)
                        .all(|(p, &t)| self.matches(p, false, t, values));
                }
                args.iter().zip(&node.args).all(|(p, &t)| self.matches(p, false, t, values))
            }
        }
    }

    fn matching(
        &mut self,
        rule: &Rule<'a>,
        refs: &[u64],
        values: &mut Values,
        stated: Option<usize>,
    ) -> Outcome<usize> {
        let missing = |s: &Self, r: u64| r >= s.steps.len() as u64;
        if refs.iter().any(|&r| missing(self, r)) && misread!("references before the stated conclusion") {
            return Err(24);
        }
        if stated.is_none() && misread!("a conclusion is built before the premises") {
            self.build(&rule.conclusion, &values.clone(), true)?;
        }
        if !misread!("the conclusion after the premises") {
            self.conclusion(rule, values, stated)?;
        }
        if refs.iter().any(|&r| missing(self, r)) && misread!("all 24 before 25") {
            return Err(24);
        }
        let mut pairs: Vec<_> = rule.premises.iter().zip(refs).collect();
        if misread!("premises are matched from right to left") {
            pairs.reverse();
        }
        let (mut mismatch, mut first) = (false, true);
        for (premise, &r) in pairs {
            if misread!("only the first premise is matched") && !first {
                break;
            }
            first = false;
            if missing(self, r) {
                if r == self.steps.len() as u64 && stated.is_some() && misread!("a step may rest on itself") {
                    continue;
                }
                return Err(24);
            }
            if !self.matches(premise, true, self.steps[r as usize].judgment, values)
                && !misread!("premises are not matched")
            {
                mismatch = true;
                if !misread!("all 24 and then 25") {
                    return Err(25);
                }
            }
            if misread!("a premise that is matched is requested") {
                self.store.requested += nodes(premise);
            }
        }
        if mismatch {
            return Err(25);
        }
        if misread!("the conclusion after the premises") {
            self.conclusion(rule, values, stated)?;
        }
        match stated {
            Some(judgment) => {
                if misread!("a stated conclusion is built too") {
                    self.store.requested += nodes(&rule.conclusion);
                }
                Ok(judgment)
            }
            None => self.built(rule, values),
        }
    }

    /// The conclusion, which is not stated.
    fn built(&mut self, rule: &Rule<'a>, values: &Values) -> Outcome<usize> {
        let (requested, held) = (self.store.requested, self.store.nodes.len());
        let judgment = self.build(&rule.conclusion, values, true)?;
        let found = held == self.store.nodes.len();
        if misread!("a conclusion that is built requests nothing") {
            self.store.requested = requested;
        }
        if misread!("a conclusion that is built is one request")
            || (found && misread!("a conclusion that is found whole is one request"))
        {
            self.store.requested = requested + 1;
        }
        Ok(judgment)
    }

    fn conclusion(&mut self, rule: &Rule<'a>, values: &mut Values, stated: Option<usize>) -> Outcome<()> {
        let Some(judgment) = stated else { return Ok(()) };
        if misread!("a stated conclusion binds nothing") {
            let mut aside = values.clone();
            return if self.matches(&rule.conclusion, true, judgment, &mut aside) { Ok(()) } else { Err(23) };
        }
        let matched = self.matches(&rule.conclusion, true, judgment, values);
        let unused = rule.variables.len() > values.iter().flatten().count();
        if matched && unused && misread!("a stated conclusion must bind all variables") {
            return Err(26);
        }
        if matched || misread!("a stated conclusion is not matched") { Ok(()) } else { Err(23) }
    }

    /// For misreadings only: terms and judgments of the rulebook are stored before all else.
    pub fn store_rulebook(&mut self) {
        if misread!("rule patterns without variables are stored") {
            for rule in &self.book.rules {
                let values = vec![None; rule.variables.len()];
                let _ = self.build(&rule.conclusion, &values, true);
            }
        }
        if misread!("constants are stored as they are declared") {
            for (c, _) in self.book.constructors.iter().enumerate().filter(|(_, c)| c.inputs.is_empty()) {
                let _ = self.store.put(Head::Constructor(c), Vec::new());
            }
        }
    }

    /// Built left to right, each node after its arguments.
    pub fn build(&mut self, pattern: &Pattern, values: &Values, judgment: bool) -> Outcome<usize> {
        match pattern {
            Pattern::Variable(v) => {
                self.store.requested += usize::from(misread!("a bound variable is requested"));
                values[*v].ok_or(26)
            }
            Pattern::Apply(h, args) => {
                if misread!("unbound variables before the store") && args.iter().any(|p| unbound(p, values)) {
                    return Err(26);
                }
                let built: Vec<usize> = if misread!("a conclusion is built from right to left") {
                    let mut back: Vec<_> =
                        args.iter().rev().map(|p| self.build(p, values, false)).collect::<Outcome<_>>()?;
                    back.reverse();
                    back
                } else {
                    args.iter().map(|p| self.build(p, values, false)).collect::<Outcome<_>>()?
                };
                self.store.put(if judgment { Head::Predicate(*h) } else { Head::Constructor(*h) }, built)
            }
        }
    }
}

/// Constructors and predicates of a pattern, at all their places.
fn nodes(pattern: &Pattern) -> usize {
    match pattern {
        Pattern::Variable(_) => 0,
        Pattern::Apply(_, args) => 1 + args.iter().map(nodes).sum::<usize>(),
    }
}

fn unbound(pattern: &Pattern, values: &Values) -> bool {
    match pattern {
        Pattern::Variable(v) => values[*v].is_none(),
        Pattern::Apply(_, args) => args.iter().any(|p| unbound(p, values)),
    }
}
