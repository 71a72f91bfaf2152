//! Damage aimed at one refusal, at a random place of a valid draft. What the Rust answers is another
//! matter: an aim only makes its number likely.
use crate::cases::Texts;
use crate::draft::{BAD, C, Draft, G, NO_NUMBERS, NUMBERS, R};
use crate::random::Random;
use crate::tree::{self, Path, Tree, atom, list};

pub const AIMS: &[u8] =
    &[3, 4, 5, 6, 7, 8, 9, 10, 11, 12, 13, 14, 15, 16, 17, 18, 19, 20, 21, 22, 23, 24, 25, 26, 27, 29];

fn any<T: Clone>(rng: &mut Random, xs: &[T]) -> Option<T> {
    (!xs.is_empty()).then(|| rng.pick(xs).clone())
}

/// The texts of a draft damaged towards `number`, or nothing where the draft has no place for it.
pub fn aim(number: u8, mut d: Draft, rng: &mut Random) -> Option<Texts> {
    match number {
        3 => return Some(bad_bytes(d, rng)),
        5 => return Some(cut(d, rng)),
        6 => return closing(d, rng),
        17 => {
            d.forms[G].clear();
            let mut texts = d.write(rng);
            for _ in 0..rng.below(6) {
                texts.goals.extend(rng.pick(&[" ", "\n", "; (goal\n", "\t", "\u{a0}", "\u{2003}"]).bytes());
            }
            return Some(texts);
        }
        4 => deep(&mut d, rng)?,
        7 => atom_or_list(&mut d, rng)?,
        8 => empty(&mut d, rng)?,
        9 => form(&mut d, rng)?,
        10 => excess(&mut d, rng)?,
        11 => question(&mut d, rng)?,
        12 => unknown(&mut d, rng)?,
        13 => duplicate(&mut d, rng)?,
        14 => two_sorts(&mut d, rng)?,
        15 => arity_or_sort(&mut d, rng)?,
        16 => bracketed(&mut d, rng)?,
        _ => crate::aim_steps::aim(number, &mut d, rng)?,
    }
    Some(d.write(rng))
}

fn bad_bytes(d: Draft, rng: &mut Random) -> Texts {
    let mut texts = d.write(rng);
    let mut bad = rng.pick(BAD).to_vec();
    if rng.chance(30) {
        bad.insert(0, b'\n');
    }
    if rng.chance(20) {
        bad.splice(0..0, *b" ; ");
    }
    let at = rng.below(texts.certificate.len() + 1);
    texts.certificate.splice(at..at, bad);
    texts
}

fn cut(d: Draft, rng: &mut Random) -> Texts {
    let mut texts = d.write(rng);
    let text = match rng.below(3) {
        R => &mut texts.rulebook,
        G => &mut texts.goals,
        _ => &mut texts.certificate,
    };
    text.truncate(rng.below(text.len() + 1));
    // Only a rulebook or goals text cut inside a character leaves the domain.
    while std::str::from_utf8(text).is_err() {
        text.pop();
    }
    texts
}

fn closing(mut d: Draft, rng: &mut Random) -> Option<Texts> {
    let which = rng.below(3);
    if which != R && rng.chance(50) {
        let forms = &mut d.forms[which];
        let i = rng.below(forms.len());
        let keep = rng.below(3);
        forms[i].members_mut()?.truncate(keep);
        return Some(d.write(rng));
    }
    let mut tokens = tree::tokens(&d.forms[which]);
    let mut ends = vec![0];
    let mut depth = 0i32;
    for (i, t) in tokens.iter().enumerate() {
        depth += (t == b"(") as i32 - (t == b")") as i32;
        if depth == 0 {
            ends.push(i + 1);
        }
    }
    let at = *rng.pick(&ends);
    tokens.insert(at, b")".to_vec());
    let text = tree::write(&tokens, d.styles[which], rng);
    let mut texts = d.write(rng);
    match which {
        R => texts.rulebook = text,
        G => texts.goals = text,
        _ => texts.certificate = text,
    }
    Some(texts)
}

/// `count` lists around a tree, each with this head where one is given.
pub fn nest(head: Option<&[u8]>, count: usize, inner: Tree) -> Tree {
    (0..count).fold(inner, |t, _| list(head.map(atom).into_iter().chain([t])))
}

fn deep(d: &mut Draft, rng: &mut Random) -> Option<()> {
    let which = rng.below(3);
    if which == R && rng.chance(50) {
        let at = rng.below(d.forms[R].len() + 1);
        let tree = nest(None, rng.from(255, 258), atom("a"));
        d.forms[R].insert(at, tree);
        return Some(());
    }
    let path = any(rng, &d.terms(which))?;
    let head = rng.pick(&d.book.ctors).name.clone();
    let node = d.at(which, &path);
    *node = nest(Some(&head), rng.from(251, 258), node.clone());
    Some(())
}

fn flip(node: &mut Tree, rng: &mut Random) {
    *node = match node {
        Tree::List(_) => atom("a"),
        Tree::Atom(a) if rng.chance(70) => list([atom(a)]),
        Tree::Atom(_) => list([]),
    };
}

fn atom_or_list(d: &mut Draft, rng: &mut Random) -> Option<()> {
    let which = rng.below(3);
    // Forms, their members, members of inputs, references and items, and every head.
    let due = |p: &Path| p.len() <= 2 || p.last() == Some(&0) || (p.len() == 3 && which == C);
    let places: Vec<Path> = tree::nodes(&d.forms[which]).into_iter().filter(due).collect();
    let path = any(rng, &places)?;
    flip(d.at(which, &path), rng);
    Some(())
}

fn empty(d: &mut Draft, rng: &mut Random) -> Option<()> {
    let path = match rng.below(3) {
        0 => {
            let at = rng.below(d.forms[R].len() + 1);
            d.forms[R].insert(at, list([]));
            return Some(());
        }
        1 => any(rng, &d.judgments(R))?,
        _ => any(rng, &d.terms(R))?,
    };
    *d.at(R, &path) = list([]);
    Some(())
}

fn form(d: &mut Draft, rng: &mut Random) -> Option<()> {
    let which = rng.below(3);
    let forms = &mut d.forms[which];
    let i = rng.below(forms.len());
    let xs = forms[i].members_mut()?;
    match rng.below(3) {
        0 if which == R => {
            xs.pop();
        }
        1 if which == R => xs.push(atom("t")),
        _ => {
            xs[0] = atom(rng.pick(&[
                "gaol",
                "sort",
                "ctor",
                "pred",
                "rule",
                "goal",
                "step",
                "def",
                "result",
                "Step",
                "?",
                "goals",
                "\u{feff}sort",
            ]))
        }
    }
    Some(())
}

/// An abbreviation of the certificate, put there where it has none.
fn abbreviation(d: &mut Draft, rng: &mut Random) -> Option<usize> {
    if let Some(i) = any(rng, &d.certificate("def")) {
        return Some(i);
    }
    let sort = rng.below(d.book.sorts.len());
    let term = crate::aim_steps::ground(d, rng, sort)?;
    let at = rng.below(d.forms[C].len() + 1);
    d.forms[C].insert(at, list([atom("def"), atom("?a"), term]));
    Some(at)
}

fn excess(d: &mut Draft, rng: &mut Random) -> Option<()> {
    let extra = if rng.chance(50) { atom("a") } else { list([]) };
    let (which, path) = match rng.below(4) {
        0 => (G, vec![rng.below(d.forms[G].len())]),
        1 => (C, any(rng, &d.bindings())?),
        2 => (C, vec![abbreviation(d, rng)?]),
        _ => (C, vec![any(rng, &d.certificate("result"))?]),
    };
    d.at(which, &path).members_mut()?.push(extra);
    Some(())
}

fn question(d: &mut Draft, rng: &mut Random) -> Option<()> {
    let (which, path) = match rng.below(9) {
        0..3 => (R, vec![rng.below(d.forms[R].len()), 1]),
        3 => {
            // A sort where it is used: inputs or output.
            let sorts = |p: &Path| p.len() == 3 && p[1] == 2 || p.len() == 2 && p[1] == 3;
            let uses: Vec<Path> = tree::nodes(&d.forms[R]).into_iter().filter(sorts).collect();
            let path = any(rng, &uses)?;
            if !d.at(R, &path).is_atom() {
                return None;
            }
            (R, path)
        }
        4 => {
            let path = any(rng, &d.terms(R))?;
            *d.at(R, &path) = atom("?");
            return Some(());
        }
        5 | 6 => (G, vec![rng.below(d.forms[G].len()), 1]),
        _ => {
            let path = vec![abbreviation(d, rng)?, 1];
            *d.at(C, &path) = atom(rng.pick(&["?", "a", "a?", "\u{feff}?a"]));
            return Some(());
        }
    };
    let Tree::Atom(name) = d.at(which, &path) else { return None };
    if rng.chance(20) {
        name.clear();
    }
    name.insert(0, b'?');
    Some(())
}

fn unknown(d: &mut Draft, rng: &mut Random) -> Option<()> {
    let which = rng.below(4).min(C);
    if which == R && rng.chance(30) {
        // A declaration before what it names.
        let i = rng.below(d.forms[R].len());
        let form = d.forms[R].remove(i);
        d.forms[R].insert(0, form);
        return Some(());
    }
    if which == C && rng.chance(30) {
        match rng.below(2) {
            0 => {
                let i = any(rng, &d.certificate("result"))?;
                let form = d.forms[C][i].clone();
                d.forms[C].push(form);
            }
            _ => {
                let i = any(rng, &d.certificate("def"))?;
                d.forms[C].remove(i);
            }
        }
        return Some(());
    }
    let mut places: Vec<Path> = Vec::new();
    for mut j in d.judgments(which) {
        j.push(0);
        places.push(j);
    }
    places.extend(d.terms(which));
    if which == C {
        places.extend(d.certificate("step").into_iter().map(|i| vec![i, 2]));
        places.extend(d.certificate("result").into_iter().map(|i| vec![i, 1]));
        places.extend(d.bindings().into_iter().map(|b| [&b[..], &[0]].concat()));
    }
    let path = any(rng, &places)?;
    let node = d.at(which, &path);
    let name = match node {
        Tree::Atom(a) => a,
        Tree::List(xs) => match xs.first_mut()? {
            Tree::Atom(a) => a,
            Tree::List(_) => return None,
        },
    };
    match rng.below(4) {
        0 => name.extend(b"\0"),
        1 => name.extend("\u{feff}".bytes()),
        2 => name.extend(b"!"),
        _ => *name = [&b"?"[..], name].concat(),
    }
    Some(())
}

fn duplicate(d: &mut Draft, rng: &mut Random) -> Option<()> {
    let which = rng.below(3);
    let i = match which {
        C => abbreviation(d, rng)?,
        _ => rng.below(d.forms[which].len()),
    };
    let forms = &mut d.forms[which];
    let form = forms[i].clone();
    let at = rng.from(i + 1, forms.len());
    forms.insert(at, form);
    Some(())
}

fn two_sorts(d: &mut Draft, rng: &mut Random) -> Option<()> {
    // One variable at two places of predicates, whose sorts differ.
    let mut places = Vec::new();
    for (p, pred) in d.book.preds.iter().enumerate() {
        places.extend(pred.inputs.iter().enumerate().map(|(i, &s)| (p, i, s)));
    }
    let (p, i, s) = any(rng, &places)?;
    places.retain(|&(_, _, t)| t != s);
    let (q, j, _) = any(rng, &places)?;
    let fill = |p: usize, tag: &str, places: &[usize]| {
        let args = (0..d.book.preds[p].inputs.len())
            .map(|k| if places.contains(&k) { atom("?x") } else { atom(format!("?{tag}{k}")) });
        list(std::iter::once(atom(&d.book.preds[p].name)).chain(args.collect::<Vec<_>>()))
    };
    let (premises, conclusion) =
        if p == q { (list([]), fill(p, "a", &[i, j])) } else { (list([fill(p, "a", &[i])]), fill(q, "b", &[j])) };
    let rule = list([atom("rule"), atom("clash"), premises, conclusion]);
    // Behind the predicates, which come before the first rule.
    let first = d.forms[R].iter().position(|f| f.form("rule")).unwrap_or(d.forms[R].len());
    let at = rng.from(first, d.forms[R].len());
    d.forms[R].insert(at, rule);
    Some(())
}

fn arity_or_sort(d: &mut Draft, rng: &mut Random) -> Option<()> {
    let which = rng.below(3);
    if rng.chance(50) {
        let path = any(rng, &d.terms(which))?;
        let sort = rng.below(d.book.sorts.len());
        let other = d.book.ground(rng, sort, 0)?;
        let c = &d.book.ctors[other.head];
        if c.inputs.is_empty() {
            *d.at(which, &path) = atom(c.name.clone());
            return Some(());
        }
    }
    let mut places = d.judgments(which);
    places.extend(d.terms(which));
    let path = any(rng, &places)?;
    match d.at(which, &path) {
        Tree::List(xs) if xs.len() > 2 && rng.chance(50) => {
            xs.pop();
        }
        Tree::List(xs) => {
            let last = xs.last()?.clone();
            xs.push(last);
        }
        node => *node = list([node.clone(), node.clone()]),
    }
    Some(())
}

fn bracketed(d: &mut Draft, rng: &mut Random) -> Option<()> {
    let which = rng.below(3);
    let path = any(rng, &d.terms(which))?;
    match d.at(which, &path) {
        Tree::List(xs) => xs.truncate(1),
        node if node.variable() => return None,
        node => *node = list([node.clone()]),
    }
    Some(())
}

/// A number of any kind, near the edges where it can go wrong.
pub fn number(rng: &mut Random, steps: usize) -> Vec<u8> {
    match rng.below(3) {
        0 => rng.pick(NUMBERS).as_bytes().to_vec(),
        1 => rng.pick(NO_NUMBERS).as_bytes().to_vec(),
        _ => rng.below(steps + 2).to_string().into_bytes(),
    }
}
