//! Aimed damage inside steps and results: numbers 18 to 27 and 29.
use crate::draft::{C, Draft, NO_NUMBERS, NUMBERS};
use crate::random::Random;
use crate::tree::{Path, Tree, atom, list};

fn any<T: Clone>(rng: &mut Random, xs: &[T]) -> Option<T> {
    (!xs.is_empty()).then(|| rng.pick(xs).clone())
}

pub fn aim(number: u8, d: &mut Draft, rng: &mut Random) -> Option<()> {
    let steps = d.certificate("step");
    let [own, refs, results] = d.indices();
    let good =
        |rng: &mut Random, n: usize| atom(if rng.chance(50) { rng.pick(NUMBERS).to_string() } else { n.to_string() });
    match number {
        18 => {
            let path = any(rng, &[own, refs, results].concat())?;
            *d.at(C, &path) = atom(rng.pick(NO_NUMBERS));
        }
        19 => {
            let path = any(rng, &own)?;
            let n = rng.below(steps.len() + 2);
            *d.at(C, &path) = good(rng, n);
        }
        20 => {
            let i = any(rng, &steps)?;
            let list = d.at(C, &[i, 3]).members_mut()?;
            if list.is_empty() || rng.chance(50) {
                let n = rng.below(steps.len() + 1);
                list.push(good(rng, n));
            } else {
                list.pop();
            }
        }
        21 => binding(d, rng)?,
        22 | 23 => state(d, rng, number)?,
        24 => {
            let path = any(rng, &[refs, results].concat())?;
            let n = steps.len() + rng.below(3);
            *d.at(C, &path) = good(rng, n);
        }
        25 if rng.chance(20) => {
            let path: Path = any(rng, &d.bindings())?;
            let v = d.at(C, &path).members()[0].clone();
            let value = value(d, rng, &v)?;
            d.at(C, &path).members_mut()?[1] = value;
        }
        25 => {
            // Another step before this one.
            let late: Vec<Path> = refs.into_iter().filter(|p| steps.len() > 1 && p[0] > steps[1]).collect();
            let path = any(rng, &late)?;
            let before = steps.iter().filter(|&&i| i < path[0]).count();
            *d.at(C, &path) = atom(rng.below(before).to_string());
        }
        26 => {
            let i = any(rng, &steps)?;
            let xs = d.at(C, &[i]).members_mut()?;
            if xs.len() == 4 {
                return None;
            }
            xs.truncate(4);
        }
        27 => {
            let path = any(rng, &results)?;
            let before = steps.iter().filter(|&&i| i < path[0]).count();
            if before < 2 {
                return None;
            }
            *d.at(C, &path) = atom(rng.below(before).to_string());
        }
        29 => {
            let forms = &mut d.forms[C];
            if rng.chance(30) {
                let keep = rng.below(forms.len());
                forms.truncate(keep);
            } else {
                let i = forms.iter().rposition(|f| f.form("result"))?;
                forms.remove(i);
            }
        }
        _ => return None,
    }
    Some(())
}

/// A ground term of the sort of a variable of this name in some rule, by its constructor names.
fn value(d: &Draft, rng: &mut Random, variable: &Tree) -> Option<Tree> {
    let Tree::Atom(name) = variable else { return None };
    let sorts: Vec<usize> = d.book.rules.iter().flat_map(|r| &r.vars).filter(|(n, _)| n == name).map(|v| v.1).collect();
    let sort = any(rng, &sorts)?;
    ground(d, rng, sort)
}

pub fn ground(d: &Draft, rng: &mut Random, sort: usize) -> Option<Tree> {
    fn tree(d: &Draft, t: &crate::rulebook::Term) -> Tree {
        let head = atom(&d.book.ctors[t.head].name);
        if t.args.is_empty() {
            return head;
        }
        list(std::iter::once(head).chain(t.args.iter().map(|a| tree(d, a))))
    }
    let fuel = rng.below(3);
    Some(tree(d, &d.book.ground(rng, sort, fuel)?))
}

/// The rule of a step.
fn rule(d: &Draft, step: usize) -> Option<&crate::rulebook::Rule> {
    let Tree::Atom(name) = &d.forms[C][step].members()[2] else { return None };
    d.book.rules.iter().find(|r| r.name == *name)
}

fn binding(d: &mut Draft, rng: &mut Random) -> Option<()> {
    let bindings = d.bindings();
    if !bindings.is_empty() && rng.chance(40) {
        let path = any(rng, &bindings)?;
        let copy = d.at(C, &path).clone();
        let xs = d.at(C, &path[..1]).members_mut()?;
        let at = rng.from(4, xs.len());
        xs.insert(at, copy);
        return Some(());
    }
    // A binding of any variable of the rule by a term of any sort, sometimes twice.
    let step = any(rng, &d.certificate("step"))?;
    let vars = &rule(d, step)?.vars;
    let (name, sort) = any(rng, vars)?;
    let sort = if rng.chance(50) { sort } else { rng.below(d.book.sorts.len()) };
    let item = list([atom(name), ground(d, rng, sort)?]);
    let twice = rng.chance(50);
    let xs = d.at(C, &[step]).members_mut()?;
    let at = rng.from(4, xs.len());
    xs.insert(at, item.clone());
    if twice {
        xs.push(item);
    }
    Some(())
}

/// A well-sorted judgment, not the step's own but by chance.
fn judgment(d: &Draft, rng: &mut Random) -> Option<Tree> {
    let p = rng.pick(&d.book.preds);
    let args = p.inputs.iter().map(|&s| ground(d, rng, s)).collect::<Option<Vec<_>>>()?;
    Some(list(std::iter::once(atom(&p.name)).chain(args)))
}

fn state(d: &mut Draft, rng: &mut Random, number: u8) -> Option<()> {
    let step = any(rng, &d.certificate("step"))?;
    let stated = d.judgments(C).into_iter().find(|p| p[0] == step);
    let judgment = judgment(d, rng)?;
    match (number, stated) {
        (23, Some(path)) => *d.at(C, &path) = judgment,
        (_, stated) => {
            let other = match stated {
                Some(path) if rng.chance(50) => d.at(C, &path).clone(),
                Some(_) => judgment,
                None => {
                    if number == 22 {
                        d.at(C, &[step]).members_mut()?.push(judgment.clone());
                    }
                    judgment
                }
            };
            d.at(C, &[step]).members_mut()?.push(other);
        }
    }
    Some(())
}
