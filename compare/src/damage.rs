//! Damage without an aim: tokens dropped, doubled, swapped; bytes changed; cuts; numbers; references; UTF-8.
use crate::aim;
use crate::cases::Texts;
use crate::draft::{BAD, C, Draft, G, R};
use crate::random::Random;
use crate::tree::{self, Token, Tree, atom, list};

fn text<'a>(texts: &'a mut Texts, which: usize) -> &'a mut Vec<u8> {
    match which {
        R => &mut texts.rulebook,
        G => &mut texts.goals,
        _ => &mut texts.certificate,
    }
}

/// One to three damages to a draft, and their names.
pub fn damage(mut d: Draft, rng: &mut Random) -> (Texts, String) {
    let mut kinds = Vec::new();
    while rng.chance(25) {
        kinds.push(forms(&mut d, rng));
    }
    let mut tokens = [R, G, C].map(|w| tree::tokens(&d.forms[w]));
    if kinds.is_empty() || rng.chance(30) {
        let which = rng.below(3);
        kinds.push(in_tokens(&mut tokens[which], &d, which, rng));
    }
    let [r, g, c] = [R, G, C].map(|w| tree::write(&tokens[w], d.styles[w], rng));
    let mut texts = Texts { rulebook: r, goals: g, certificate: c };
    if rng.chance(35) {
        let which = rng.below(3);
        kinds.push(in_bytes(text(&mut texts, which), which, rng));
    }
    (texts, kinds.join(" "))
}

/// Whole forms and single members of them.
fn forms(d: &mut Draft, rng: &mut Random) -> &'static str {
    let which = rng.below(3);
    let steps = d.certificate("step").len();
    let all = &mut d.forms[which];
    if all.is_empty() {
        return "nothing";
    }
    let (i, j) = (rng.below(all.len()), rng.below(all.len()));
    match rng.below(9) {
        0 => {
            all.remove(i);
            "form-dropped"
        }
        1 => {
            let copy = all[i].clone();
            all.insert(j, copy);
            "form-doubled"
        }
        2 => {
            all.swap(i, j);
            "forms-swapped"
        }
        3 | 4 => {
            // One argument more or fewer anywhere.
            let lists: Vec<_> = tree::nodes(all).into_iter().filter(|p| !tree::get(all, p).is_atom()).collect();
            if lists.is_empty() {
                return "nothing";
            }
            let path = rng.pick(&lists).clone();
            let Tree::List(xs) = tree::at(all, &path) else { return "nothing" };
            match xs.last().cloned() {
                Some(last) if rng.chance(50) => xs.push(last),
                _ => drop(xs.pop()),
            }
            "arity"
        }
        5 | 6 => {
            let [own, refs, results] = d.indices();
            let places = [own, refs, results].concat();
            if places.is_empty() {
                return "nothing";
            }
            let path = rng.pick(&places).clone();
            *d.at(C, &path) = Tree::Atom(aim::number(rng, steps));
            "number"
        }
        7 => {
            let terms = d.terms(which);
            if terms.is_empty() {
                return "nothing";
            }
            let (a, b) = (rng.pick(&terms).clone(), rng.pick(&terms).clone());
            let copy = d.at(which, &a).clone();
            *d.at(which, &b) = copy;
            "term-copied"
        }
        _ => {
            let paths = tree::nodes(all);
            let path = rng.pick(&paths).clone();
            let node = tree::at(all, &path);
            *node = if rng.chance(50) { list([node.clone()]) } else { atom("a") };
            "wrapped"
        }
    }
}

fn in_tokens(tokens: &mut Vec<Token>, d: &Draft, which: usize, rng: &mut Random) -> &'static str {
    if tokens.is_empty() {
        tokens.push(b"(".to_vec());
        return "token-added";
    }
    let i = rng.below(tokens.len());
    let kind = match rng.below(8) {
        0 => {
            tokens.remove(i);
            "token-dropped"
        }
        1 => {
            tokens.insert(i, tokens[i].clone());
            "token-doubled"
        }
        2 => {
            let j = (i + 1) % tokens.len();
            tokens.swap(i, j);
            "tokens-swapped"
        }
        3 => {
            let j = rng.below(tokens.len());
            tokens.swap(i, j);
            "tokens-exchanged"
        }
        4 => {
            tokens[i] = rng.pick(&tokens.clone()).clone();
            "token-replaced"
        }
        5 => {
            let other = tree::tokens(&d.forms[(which + 1) % 3]);
            tokens[i] = if other.is_empty() { b")".to_vec() } else { rng.pick(&other).clone() };
            "token-of-another-text"
        }
        6 => {
            let odd = *rng.pick(&["(", ")", "?", "?x", "\u{feff}", "\0", "[", "18446744073709551616", "sort", "()"]);
            match odd {
                "()" => drop(tokens.splice(i..i, [b"(".to_vec(), b")".to_vec()])),
                _ => tokens.insert(i, odd.as_bytes().to_vec()),
            }
            "token-added"
        }
        _ => {
            if !matches!(&tokens[i][..], b"(" | b")") {
                let t = &mut tokens[i];
                match rng.below(4) {
                    0 => t.insert(0, b'?'),
                    1 => t.extend("\u{feff}".bytes()),
                    2 => t.push(0),
                    _ => t.splice(0..0, "\u{feff}".bytes()).for_each(drop),
                }
            }
            "atom-changed"
        }
    };
    kind
}

fn in_bytes(text: &mut Vec<u8>, which: usize, rng: &mut Random) -> &'static str {
    let at = rng.below(text.len() + 1);
    let kind = match rng.below(8) {
        0 | 1 if at < text.len() => {
            text[at] = if rng.chance(80) { rng.below(128) as u8 } else { rng.below(256) as u8 };
            "byte-changed"
        }
        2 if at < text.len() => {
            text.remove(at);
            "byte-dropped"
        }
        3 => {
            text.insert(at, *rng.pick(b"()?; \n+0a\0"));
            "byte-added"
        }
        4 | 5 => {
            text.truncate(at);
            "cut"
        }
        6 => {
            text.splice(at..at, rng.pick(tree::WHITE).bytes());
            "white-added"
        }
        _ => {
            let mut bad = rng.pick(BAD).to_vec();
            if rng.chance(50) {
                bad.insert(0, b'\n');
            }
            text.splice(at..at, bad);
            "not-utf8"
        }
    };
    // Mostly back into the Rust's domain: only the certificate may hold other bytes there.
    if which != C && rng.chance(70) {
        *text = String::from_utf8_lossy(text).into_owned().into_bytes();
    }
    kind
}
