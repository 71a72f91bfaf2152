//! The store of terms and judgments: equal nodes get one number.
use crate::{Limits, Outcome};
use std::collections::HashMap;

/// A constructor or a predicate: they never share a head.
#[derive(Clone, Copy, PartialEq, Eq, Hash, Debug)]
pub enum Head {
    Constructor(usize),
    Predicate(usize),
}

#[derive(Clone, PartialEq, Eq, Hash)]
pub struct Node {
    pub head: Head,
    pub args: Vec<usize>,
}

pub struct Store {
    pub nodes: Vec<Node>,
    numbers: HashMap<Node, usize>,
    words: usize,
    limits: Limits,
    /// "every request to the store that was met, found or made"
    pub requested: usize,
}

impl Store {
    pub fn new(limits: Limits) -> Self {
        Self { nodes: Vec::new(), numbers: HashMap::new(), words: 0, limits, requested: 0 }
    }

    pub fn put(&mut self, head: Head, args: Vec<usize>) -> Outcome<usize> {
        let key = match head {
            Head::Predicate(p) if misread!("constructors and predicates share heads") => Head::Constructor(p),
            _ => head,
        };
        let key = Node { head: key, args: args.clone() };
        let Limits { nodes, words } = self.limits;
        let nodes = match () {
            _ if misread!("the store holds one node fewer") => nodes - 1,
            _ if misread!("the store holds one node more") => nodes + 1,
            _ if misread!("nodes are not limited") => usize::MAX,
            _ => nodes,
        };
        let words = match () {
            _ if misread!("the store holds one word fewer") => words - 1,
            _ if misread!("the store holds one word more") => words + 1,
            _ if misread!("words are not limited") => usize::MAX,
            _ if misread!("a head is not counted as a word") => words + self.nodes.len() + 1,
            _ => words,
        };
        let full = self.nodes.len() + 1 > nodes || self.words + 1 + args.len() > words;
        if full && misread!("a full store refuses a node that it holds") {
            return Err(28);
        }
        if let Some(&n) = self.numbers.get(&key) {
            if !misread!("equal nodes are stored again") {
                self.requested += usize::from(!misread!("a node that is found is not requested"));
                return Ok(n);
            }
        }
        if full {
            return Err(28);
        }
        self.words += 1 + args.len();
        self.numbers.insert(key, self.nodes.len());
        self.nodes.push(Node { head, args });
        self.requested += usize::from(!misread!("a node that is made is not requested"));
        Ok(self.nodes.len() - 1)
    }
}
