//! Nested lists of the generator, their tokens, and the ways to write tokens as text.
use crate::random::Random;

#[derive(Clone, PartialEq)]
pub enum Tree {
    Atom(Vec<u8>),
    List(Vec<Tree>),
}

pub type Path = Vec<usize>;

pub fn atom(s: impl AsRef<[u8]>) -> Tree {
    Tree::Atom(s.as_ref().to_vec())
}

pub fn list(xs: impl IntoIterator<Item = Tree>) -> Tree {
    Tree::List(xs.into_iter().collect())
}

impl Tree {
    pub fn members(&self) -> &[Tree] {
        match self {
            Tree::Atom(_) => &[],
            Tree::List(xs) => xs,
        }
    }

    pub fn members_mut(&mut self) -> Option<&mut Vec<Tree>> {
        match self {
            Tree::Atom(_) => None,
            Tree::List(xs) => Some(xs),
        }
    }

    pub fn is(&self, word: &str) -> bool {
        matches!(self, Tree::Atom(a) if a == word.as_bytes())
    }

    pub fn is_atom(&self) -> bool {
        matches!(self, Tree::Atom(_))
    }

    /// The bytes of an atom; a list has none of its own.
    pub fn bytes(&self) -> &[u8] {
        match self {
            Tree::Atom(a) => a,
            Tree::List(_) => &[],
        }
    }

    pub fn variable(&self) -> bool {
        self.bytes().first() == Some(&b'?')
    }

    /// The head of a form, as in `step`.
    pub fn form(&self, word: &str) -> bool {
        self.members().first().is_some_and(|h| h.is(word))
    }
}

/// The node at a path that starts with the number of a form.
pub fn at<'a>(forms: &'a mut [Tree], path: &[usize]) -> &'a mut Tree {
    let (first, rest) = path.split_first().expect("a path names a form");
    let mut tree = &mut forms[*first];
    for &i in rest {
        tree = &mut tree.members_mut().expect("a path goes through lists")[i];
    }
    tree
}

pub fn get<'a>(forms: &'a [Tree], path: &[usize]) -> &'a Tree {
    path[1..].iter().fold(&forms[path[0]], |tree, &i| &tree.members()[i])
}

/// Paths of every node, forms included.
pub fn nodes(forms: &[Tree]) -> Vec<Path> {
    fn walk(tree: &Tree, path: &mut Path, out: &mut Vec<Path>) {
        out.push(path.clone());
        for (i, x) in tree.members().iter().enumerate() {
            path.push(i);
            walk(x, path, out);
            path.pop();
        }
    }
    let mut out = Vec::new();
    for (i, x) in forms.iter().enumerate() {
        walk(x, &mut vec![i], &mut out);
    }
    out
}

/// A token is its bytes: a bracket or an atom.
pub type Token = Vec<u8>;

pub fn tokens(forms: &[Tree]) -> Vec<Token> {
    fn walk(tree: &Tree, out: &mut Vec<Token>) {
        match tree {
            Tree::Atom(a) => out.push(a.clone()),
            Tree::List(xs) => {
                out.push(b"(".to_vec());
                xs.iter().for_each(|x| walk(x, out));
                out.push(b")".to_vec());
            }
        }
    }
    let mut out = Vec::new();
    forms.iter().for_each(|x| walk(x, &mut out));
    out
}

/// The forms of a text that the unchanged reader reads whole.
#[cfg(library)]
pub fn read(text: &[u8]) -> Vec<Tree> {
    use reference::sexp::{Sexp, parse};
    fn tree(form: &Sexp) -> Tree {
        match form {
            Sexp::Atom(a) => atom(a),
            Sexp::List(xs) => list(xs.iter().map(tree)),
        }
    }
    let text = std::str::from_utf8(text).expect("UTF-8");
    parse(text).expect("forms").iter().map(tree).collect()
}

#[derive(Clone, Copy)]
pub enum Style {
    /// A space only where two atoms meet.
    Tight,
    /// Single spaces.
    Plain,
    /// Single spaces, each form on a line.
    Lines,
    /// Any white space and comments.
    Wild,
}

pub fn style(rng: &mut Random) -> Style {
    match rng.below(100) {
        0..25 => Style::Tight,
        25..40 => Style::Plain,
        40..75 => Style::Lines,
        _ => Style::Wild,
    }
}

pub const WHITE: &[&str] = &[
    "\t", "\n", "\u{b}", "\u{c}", "\r", " ", "\u{85}", "\u{a0}", "\u{1680}", "\u{2000}", "\u{2001}", "\u{2002}",
    "\u{2003}", "\u{2004}", "\u{2005}", "\u{2006}", "\u{2007}", "\u{2008}", "\u{2009}", "\u{200a}", "\u{2028}",
    "\u{2029}", "\u{202f}", "\u{205f}", "\u{3000}",
];

pub fn comment(rng: &mut Random, out: &mut Vec<u8>) {
    out.push(b';');
    for _ in 0..rng.below(5) {
        out.extend(rng.pick(&["(", ")", ";", "a", " ", "é", "\u{2028}", "\u{85}", "\r", "\0", "😀"]).bytes());
    }
    out.push(b'\n');
}

fn gap(rng: &mut Random, needed: bool, out: &mut Vec<u8>) {
    let before = out.len();
    while rng.chance(40) {
        match rng.below(10) {
            0..5 => out.push(*rng.pick(b" \n")),
            5..9 => out.extend(rng.pick(WHITE).bytes()),
            _ => comment(rng, out),
        }
    }
    if needed && out.len() == before {
        out.extend(rng.pick(WHITE).bytes());
    }
}

pub fn write(tokens: &[Token], style: Style, rng: &mut Random) -> Vec<u8> {
    let mut out = Vec::new();
    let (mut depth, mut last): (usize, &[u8]) = (0, b"(");
    for t in tokens {
        let bracket = |t: &[u8]| t == b"(" || t == b")";
        let apart = !bracket(last) && !bracket(t);
        match style {
            Style::Tight if apart => out.push(b' '),
            Style::Tight => {}
            Style::Wild => gap(rng, apart, &mut out),
            Style::Plain | Style::Lines => {
                if last != b"(" && t != b")" && out.last() != Some(&b'\n') {
                    out.push(b' ');
                }
            }
        }
        out.extend(t);
        match &t[..] {
            b"(" => depth += 1,
            b")" => depth = depth.saturating_sub(1),
            _ => {}
        }
        if matches!(style, Style::Lines) && depth == 0 {
            out.push(b'\n');
        }
        last = t;
    }
    if matches!(style, Style::Wild) {
        gap(rng, false, &mut out);
    }
    out
}
