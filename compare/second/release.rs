//! Goals and certificate.
use crate::reader::{Reader, Token};
use crate::rulebook::{Rulebook, Symbol, find};
use crate::steps::Step;
use crate::store::{Head, Store};
use crate::{Limits, Outcome};
use std::collections::HashMap;

pub struct Goal<'a> {
    pub name: &'a [u8],
    pub judgment: usize,
    open: bool,
}

/// A result: the place of its goal, its step, and the step's number as it is written.
pub struct Met<'a> {
    pub goal: usize,
    pub step: usize,
    pub written: &'a [u8],
}

pub struct Checker<'a> {
    pub book: &'a Rulebook<'a>,
    pub store: Store,
    pub goals: Vec<Goal<'a>>,
    abbreviations: HashMap<&'a [u8], usize>,
    pub steps: Vec<Step<'a>>,
    pub results: Vec<Met<'a>>,
    /// The length of the certificate.
    bytes: usize,
}

/// A number: an optional `+`, then one or more ASCII digits, below 2 to the 64.
pub fn number(atom: &[u8]) -> Outcome<u64> {
    let digits = match atom {
        [b'+', rest @ ..] if !misread!("a number has no +") => rest,
        [b'-', rest @ ..] if misread!("a number may have -") => rest,
        _ => atom,
    };
    if digits.is_empty() && !misread!("a number may have no digits") {
        return Err(18);
    }
    if digits.len() > 20 && misread!("a number has at most 20 digits") {
        return Err(18);
    }
    if digits.len() > 1 && digits[0] == b'0' && misread!("a number has no leading zeros") {
        return Err(18);
    }
    let mut value: u128 = 0;
    for d in digits {
        if !d.is_ascii_digit() {
            return Err(18);
        }
        value = value * 10 + u128::from(d - b'0');
        let bound = match () {
            _ if misread!("2 to the 64 less 1 is no number") => u128::from(u64::MAX),
            _ if misread!("numbers are below 2 to the 63") => 1 << 63,
            _ if misread!("numbers are below 2 to the 32") => 1 << 32,
            _ => 1 << 64,
        };
        if value >= bound {
            if misread!("a large number passes as the largest") {
                value = u128::from(u64::MAX);
                continue;
            }
            return Err(18);
        }
    }
    if misread!("numbers are cut to 32 bits") {
        return Ok((value as u32).into());
    }
    if misread!("numbers are cut to 16 bits") {
        return Ok((value as u16).into());
    }
    Ok(value as u64)
}

impl<'a> Checker<'a> {
    pub fn new(book: &'a Rulebook<'a>, limits: Limits) -> Self {
        let (store, goals, abbreviations) = (Store::new(limits), Vec::new(), HashMap::new());
        let mut new = Self { book, store, goals, abbreviations, steps: Vec::new(), results: Vec::new(), bytes: 0 };
        new.store_rulebook();
        new
    }

    pub fn sort_of(&self, term: usize) -> usize {
        match self.store.nodes[term].head {
            Head::Constructor(c) => self.book.constructors[c].output,
            Head::Predicate(_) => usize::MAX,
        }
    }

    /// Whether so many arguments of these sorts fit a symbol.
    fn fits(&self, symbol: &Symbol, args: &[usize]) -> bool {
        let long = symbol.inputs.len() == args.len() || misread!("the number of arguments is not tested");
        let sorts = || args.iter().zip(&symbol.inputs).all(|(&a, &s)| self.sort_of(a) == s);
        long && (misread!("the sorts of arguments are not tested") || sorts())
    }

    /// Arguments until a closing is next.
    fn arguments(&mut self, reader: &mut Reader<'a>, depth: usize, symbol: &Symbol) -> Outcome<Vec<usize>> {
        let mut args = Vec::new();
        while !reader.closes()? {
            if misread!("an argument too many is refused unread") && args.len() == symbol.inputs.len() {
                return Err(15);
            }
            args.push(self.term(reader, depth)?);
            let sorts = || args.iter().zip(&symbol.inputs).all(|(&a, &s)| self.sort_of(a) == s);
            if misread!("an argument's sort is refused before later arguments") && !sorts() {
                return Err(15);
            }
            if misread!("an argument too many is refused before later ones") && args.len() > symbol.inputs.len() {
                return Err(15);
            }
            if misread!("arguments are refused before the closing")
                && !matches!(reader.peek(), Ok(Some(Token::Atom(_) | Token::Open)))
            {
                if !self.fits(symbol, &args) {
                    return Err(15);
                }
            }
        }
        Ok(args)
    }

    pub fn term(&mut self, reader: &mut Reader<'a>, depth: usize) -> Outcome<usize> {
        let (name, listed) = match reader.item(depth)? {
            Token::Atom(a) if a[0] == b'?' => {
                if a == b"?" && misread!("? alone for a term is 11") {
                    return Err(11);
                }
                let term = self.abbreviations.get(a).copied().ok_or(12)?;
                self.store.requested += usize::from(misread!("an abbreviation that is looked up is requested"));
                return Ok(term);
            }
            Token::Atom(a) => (a, false),
            _ => (reader.head(depth + 1)?, true),
        };
        if listed && name[0] == b'?' && misread!("an abbreviation may be a head") {
            if let Some(&t) = self.abbreviations.get(name) {
                reader.closing()?;
                return Ok(t);
            }
        }
        let Some(c) = find(&self.book.constructors, name) else {
            let none = Symbol { name, inputs: Vec::new(), output: 0 };
            if listed && misread!("an unknown constructor after its arguments") {
                self.arguments(reader, depth + 1, &none)?;
            }
            if listed && misread!("a bracketed constant before unknown") && reader.closes()? {
                return Err(16);
            }
            return Err(12);
        };
        let symbol = &self.book.constructors[c];
        let args = if listed { self.arguments(reader, depth + 1, symbol)? } else { Vec::new() };
        let bracketed = listed && args.is_empty();
        let fits = self.fits(symbol, &args);
        if bracketed && !fits && misread!("16 after 15") {
            return Err(15);
        }
        if bracketed && !misread!("a bracketed constant passes") {
            return Err(16);
        }
        if listed && symbol.inputs.is_empty() && misread!("arguments of a constant are 16") {
            return Err(16);
        }
        if !fits && misread!("a term is stored before 15") {
            self.store.put(Head::Constructor(c), args.clone())?;
        }
        if !fits && !listed && misread!("a constant's arity after the next token") {
            reader.peek()?.ok_or(5)?;
        }
        if !fits {
            return Err(15);
        }
        let unseen = match listed {
            true => misread!("a term in brackets requests only its arguments"),
            false => misread!("a constant is not requested"),
        };
        self.counted(!unseen, |s| s.store.put(Head::Constructor(c), args))
    }

    /// What `ask` does; its requests are counted, unless a misreading says otherwise.
    pub fn counted<T>(&mut self, counts: bool, ask: impl FnOnce(&mut Self) -> Outcome<T>) -> Outcome<T> {
        let before = self.store.requested;
        let answer = ask(self);
        if !counts {
            self.store.requested = before;
        }
        answer
    }

    /// What follows a judgment's head.
    pub fn judgment(&mut self, reader: &mut Reader<'a>, name: &'a [u8], depth: usize) -> Outcome<usize> {
        if name[0] == b'?' && misread!("a judgment's head with ? is 11 in goals and certificate") {
            return Err(11);
        }
        let Some(p) = find(&self.book.predicates, name) else {
            if misread!("an unknown predicate after its arguments") {
                let none = Symbol { name, inputs: Vec::new(), output: 0 };
                self.arguments(reader, depth + 1, &none)?;
            }
            return Err(12);
        };
        let symbol = &self.book.predicates[p];
        let all = !misread!("a judgment is requested without its terms");
        let args = self.counted(all, |s| s.arguments(reader, depth + 1, symbol))?;
        let fits = self.fits(symbol, &args);
        if !fits && misread!("a judgment is stored before 15") {
            self.store.put(Head::Predicate(p), args.clone())?;
        }
        if !fits {
            return Err(15);
        }
        self.counted(!misread!("a judgment requests only its terms"), |s| s.store.put(Head::Predicate(p), args))
    }

    pub fn goals(&mut self, mut reader: Reader<'a>) -> Outcome<()> {
        while reader.peek()?.is_some() {
            reader.list_item(0)?;
            self.goal(&mut reader)?;
        }
        if self.goals.is_empty() && !misread!("goals may be none") { Err(17) } else { Ok(()) }
    }

    fn goal(&mut self, reader: &mut Reader<'a>) -> Outcome<()> {
        let head = reader.head(1)?;
        let wrong = head != b"goal" && !misread!("a goal's head is not tested");
        if wrong && misread!("a goal's head after its name") {
            reader.atom_item(1)?;
        }
        if wrong {
            return Err(9);
        }
        let name = reader.atom_item(1)?;
        let question = name[0] == b'?' && !misread!("a goal's name may lead with ?");
        if question && !misread!("a goal's name after its judgment") {
            return Err(11);
        }
        if name.contains(&b'?') && misread!("a goal's name holds no ? at all") {
            return Err(11);
        }
        let shared = misread!("goals and predicates share names") && find(&self.book.predicates, name).is_some();
        let duplicate = self.goals.iter().any(|g| g.name == name) && !misread!("a duplicate goal passes") || shared;
        if duplicate && misread!("a goal's duplicate before its judgment") {
            return Err(13);
        }
        reader.list_item(1)?;
        let head = reader.head(2)?;
        let judgment = self.counted(!misread!("goals request nothing"), |s| s.judgment(reader, head, 1))?;
        if question {
            return Err(11);
        }
        if duplicate && misread!("a goal's duplicate before its closing") {
            return Err(13);
        }
        if misread!("a goal's closing is not asked for") {
            while !reader.closes()? {
                reader.next()?.ok_or(5)?;
            }
        } else {
            reader.closing()?;
        }
        if duplicate {
            return Err(13);
        }
        self.goals.push(Goal { name, judgment, open: true });
        Ok(())
    }

    pub fn certificate(&mut self, mut reader: Reader<'a>) -> Outcome<[usize; 5]> {
        self.bytes = reader.length();
        while reader.peek()?.is_some() {
            reader.list_item(0)?;
            match reader.head(1)? {
                b"def" => self.def(&mut reader)?,
                b"result" => self.result(&mut reader)?,
                b"step" => self.step(&mut reader)?,
                _ => return Err(9),
            }
            if misread!("reading ends when no goal is open") && self.goals.iter().all(|g| !g.open) {
                break;
            }
        }
        if self.goals.is_empty() && !misread!("goals may be none") {
            return Err(17);
        }
        let open = match () {
            _ if misread!("open goals pass") => false,
            _ if misread!("one result is enough") => self.goals.iter().all(|g| g.open),
            _ => self.goals.iter().any(|g| g.open),
        };
        if open {
            return Err(29);
        }
        let terms = match () {
            _ if misread!("terms are counted without judgments") => {
                self.store.nodes.iter().filter(|n| matches!(n.head, Head::Constructor(_))).count()
            }
            _ if misread!("terms are counted without those only abbreviated") => {
                self.store.nodes.len() - usize::from(!self.abbreviations.is_empty())
            }
            _ => self.store.nodes.len(),
        };
        Ok([self.steps.len(), self.goals.len(), terms, self.bytes, self.requested()])
    }

    fn requested(&self) -> usize {
        match self.store.requested {
            n if misread!("requested is cut to 16 bits") => n % 65_536,
            n if misread!("requested is at most 65,535") => n.min(65_535),
            n => n,
        }
    }

    fn def(&mut self, reader: &mut Reader<'a>) -> Outcome<()> {
        let name = reader.atom_item(1)?;
        let wrong = match () {
            _ if misread!("an abbreviation may lack ?") => name == b"?",
            _ if misread!("an abbreviation may be ? alone") => name[0] != b'?',
            _ => name[0] != b'?' || name == b"?",
        };
        if wrong && !misread!("an abbreviation's name after its term") {
            return Err(11);
        }
        let shared = misread!("abbreviations and constructors share names")
            && name.strip_prefix(b"?").is_some_and(|n| find(&self.book.constructors, n).is_some());
        let duplicate = self.abbreviations.contains_key(name) && !misread!("a duplicate abbreviation passes") || shared;
        if duplicate && misread!("an abbreviation's duplicate before its term") {
            return Err(13);
        }
        if misread!("an abbreviation knows itself") {
            let z = self.store.nodes.iter().position(|n| matches!(n.head, Head::Constructor(_)));
            if let (Some(z), false) = (z, duplicate) {
                self.abbreviations.insert(name, z);
            }
        }
        let term = self.counted(!misread!("an abbreviation's term requests nothing"), |s| s.term(reader, 1))?;
        if wrong {
            return Err(11);
        }
        if duplicate && misread!("an abbreviation's closing before its duplicate") {
            reader.closing()?;
        }
        if duplicate {
            return Err(13);
        }
        reader.closing()?;
        self.abbreviations.insert(name, term);
        Ok(())
    }

    fn result(&mut self, reader: &mut Reader<'a>) -> Outcome<()> {
        let name = reader.atom_item(1)?;
        if name[0] == b'?' && misread!("a result's name with ? is 11") {
            return Err(11);
        }
        let named = |g: &Goal| g.name == name && (g.open || misread!("a result may come twice"));
        let goal = self.goals.iter().position(named);
        if goal.is_none() && !misread!("a result's name after its number") {
            return Err(12);
        }
        let atom = reader.atom_item(1)?;
        let step = number(atom)?;
        let goal = goal.ok_or(12)?;
        if misread!("a result's closing before its step") {
            reader.closing()?;
        }
        let last = self.steps.len() as u64;
        if step == last && last > 0 && misread!("a result may name the step to come") {
            return Err(27);
        }
        let found = usize::try_from(step).ok().and_then(|n| Some((n, self.steps.get(n)?.judgment)));
        let Some((step, judgment)) = found else {
            return Err(if misread!("a result's step that is none is 12") { 12 } else { 24 });
        };
        let other = judgment != self.goals[goal].judgment && !misread!("a result's judgment is not tested");
        if other && misread!("a result's closing before its judgment") {
            reader.closing()?;
        }
        if other {
            return Err(27);
        }
        if !misread!("a result's closing before its step") {
            reader.closing()?;
        }
        self.goals[goal].open = false;
        self.results.push(Met { goal, step, written: atom });
        self.store.requested += usize::from(misread!("a result is requested"));
        Ok(())
    }
}
