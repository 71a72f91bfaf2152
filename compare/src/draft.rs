//! A valid case before it is written, with its parts in reach, and what the damages share.
use crate::cases::Texts;
use crate::certificate::Maker;
use crate::random::Random;
use crate::rulebook::{Rulebook, Size};
use crate::tree::{self, Path, Style, Tree};

pub const R: usize = 0;
pub const G: usize = 1;
pub const C: usize = 2;

/// Whether an item of a step is a binding.
pub fn binds(item: &Tree) -> bool {
    item.members().first().is_some_and(Tree::variable)
}

pub struct Draft {
    pub book: Rulebook,
    /// The forms of rulebook, goals and certificate.
    pub forms: [Vec<Tree>; 3],
    pub styles: [Style; 3],
}

impl Draft {
    pub fn random(rng: &mut Random, size: Size) -> Self {
        loop {
            let book = Rulebook::random(rng, size);
            if let Some((goals, certificate)) = Maker::new(&book, rng, size).texts() {
                let forms = [book.trees(rng), goals, certificate];
                let styles = [(); 3].map(|()| tree::style(rng));
                return Self { book, forms, styles };
            }
        }
    }

    pub fn text(&self, which: usize, rng: &mut Random) -> Vec<u8> {
        tree::write(&tree::tokens(&self.forms[which]), self.styles[which], rng)
    }

    pub fn write(&self, rng: &mut Random) -> Texts {
        Texts { rulebook: self.text(R, rng), goals: self.text(G, rng), certificate: self.text(C, rng) }
    }

    pub fn at(&mut self, which: usize, path: &[usize]) -> &mut Tree {
        tree::at(&mut self.forms[which], path)
    }

    /// Numbers of the certificate's forms with this head.
    pub fn certificate(&self, head: &str) -> Vec<usize> {
        let forms = &self.forms[C];
        (0..forms.len()).filter(|&i| forms[i].form(head)).collect()
    }

    pub fn judgments(&self, which: usize) -> Vec<Path> {
        let mut out = Vec::new();
        for (i, form) in self.forms[which].iter().enumerate() {
            let xs = form.members();
            match which {
                R if form.form("rule") && xs.len() == 4 => {
                    out.extend((0..xs[2].members().len()).map(|k| vec![i, 2, k]));
                    out.push(vec![i, 3]);
                }
                G if xs.len() > 2 => out.push(vec![i, 2]),
                C if form.form("step") => {
                    out.extend((4..xs.len()).filter(|&k| !binds(&xs[k])).map(|k| vec![i, k]));
                }
                _ => {}
            }
        }
        out
    }

    /// Bindings `(?v T)` of the certificate.
    pub fn bindings(&self) -> Vec<Path> {
        let mut out = Vec::new();
        for i in self.certificate("step") {
            let xs = self.forms[C][i].members();
            out.extend((4..xs.len()).filter(|&k| binds(&xs[k])).map(|k| vec![i, k]));
        }
        out
    }

    /// Every term, at any depth.
    pub fn terms(&self, which: usize) -> Vec<Path> {
        let mut roots = Vec::new();
        for j in self.judgments(which) {
            let n = tree::get(&self.forms[which], &j).members().len();
            roots.extend((1..n).map(|k| [&j[..], &[k]].concat()));
        }
        if which == C {
            roots.extend(self.bindings().into_iter().map(|b| [&b[..], &[1]].concat()));
            roots.extend(self.certificate("def").into_iter().map(|i| vec![i, 2]));
            // A draft that is damaged twice may lack some of these.
            roots.retain(|path| {
                tree::get(&self.forms[C], &path[..path.len() - 1]).members().len() > path[path.len() - 1]
            });
        }
        let mut out = Vec::new();
        while let Some(path) = roots.pop() {
            let n = tree::get(&self.forms[which], &path).members().len();
            roots.extend((1..n).map(|k| [&path[..], &[k]].concat()));
            out.push(path);
        }
        out
    }

    /// Places of numbers in the certificate: of steps, references and results.
    pub fn indices(&self) -> [Vec<Path>; 3] {
        let mut out = [const { Vec::new() }; 3];
        for (i, form) in self.forms[C].iter().enumerate() {
            let n = form.members().len();
            if form.form("step") && n > 3 {
                out[0].push(vec![i, 1]);
                let refs = form.members()[3].members().len();
                out[1].extend((0..refs).map(|k| vec![i, 3, k]));
            } else if form.form("result") && n > 2 {
                out[2].push(vec![i, 2]);
            }
        }
        out
    }
}

pub const NUMBERS: &[&str] = &[
    "18446744073709551615",
    "18446744073709551614",
    "+18446744073709551615",
    "00018446744073709551615",
    "4294967295",
    "4294967296",
    "65535",
    "65536",
    "9223372036854775808",
    "9223372036854775807",
    "4294967297",
    "65537",
    "1000000",
    "256",
    "255",
];

pub const NO_NUMBERS: &[&str] = &[
    "18446744073709551616",
    "+18446744073709551616",
    "00018446744073709551616",
    "18446744073709551617",
    "36893488147419103232",
    "99999999999999999999",
    "184467440737095516150",
    "340282366920938463463374607431768211456",
    "+",
    "-0",
    "-1",
    "++0",
    "+-0",
    "0x0",
    "1_0",
    "1.0",
    "٣",
    "0\u{feff}",
    "\0",
    "0\0",
    "a",
    "?",
    "?0",
    "0+",
    "１",
    "0-",
    "'0",
    "0e0",
];

/// Sequences that are not UTF-8, of every kind of RFC 3629.
pub const BAD: &[&[u8]] = &[
    b"\x80",
    b"\xbf",
    b"\x80\x80",
    b"\xc0",
    b"\xc1",
    b"\xc0\x80",
    b"\xc0\xaf",
    b"\xc1\xbf",
    b"\xc2",
    b"\xc2(",
    b"\xc2\xc2",
    b"\xdf\x7f",
    b"\xdf\xc0",
    b"\xe0\x80\x80",
    b"\xe0\x9f\xbf",
    b"\xe0\xa0",
    b"\xe0\xa0(",
    b"\xe1",
    b"\xe1\x80",
    b"\xe1\x80\xc0",
    b"\xe2\x80 ",
    b"\xe2(\xa8",
    b"\xed\xa0\x80",
    b"\xed\xbf\xbf",
    b"\xed\x9f",
    b"\xef\xbb",
    b"\xef\xbf\xc0",
    b"\xf0\x80\x80\x80",
    b"\xf0\x8f\xbf\xbf",
    b"\xf0\x90",
    b"\xf0\x90\x80",
    b"\xf0\x90\x80(",
    b"\xf1\x80\x80\x7f",
    b"\xf3\x80\xc0\x80",
    b"\xf4\x90\x80\x80",
    b"\xf4\x8f\xbf",
    b"\xf4\x8f\xbf\xc0",
    b"\xf5\x80\x80\x80",
    b"\xf7\xbf\xbf\xbf",
    b"\xf8\x88\x80\x80\x80",
    b"\xf9",
    b"\xfb\x80",
    b"\xfc\x84\x80\x80\x80\x80",
    b"\xfd",
    b"\xfe",
    b"\xff",
    b"\xff\xfe",
    b"\xc3\xa9\xa9",
];
