//! Texts with two faults on purpose, so that the order of tests shows: forms written as slots, each with faults of its
//! own and faults that any place can have; every pair of them can be drawn, or all be tried one after the other.
use crate::cases::Texts;
use crate::random::Random;
use crate::special;
use crate::two_faults::{LAST, WRITTEN};
use std::sync::OnceLock;

const RULEBOOK: &str = "(sort t)(sort u)(ctor z()t)(ctor s(t)t)(ctor c(t t)t)(ctor k()u)(ctor m(t u)u)(pred p())(pred hold(t))\
(pred two(t u))(rule base()(hold z))(rule more((hold ?x))(hold(s ?x)))(rule any()(hold ?y))(rule both((hold ?x)(hold(s ?y)))(two ?x k))\
(rule wide()(two(c ?a ?b)(m ?d ?e)))(rule free((two ?x ?y))(p))(rule spare((two ?x ?y)(hold ?x))(hold ?x))\n";
const GOALS: &str = "(goal g(hold z))(goal h(hold(s z)))\n";
const CERTIFICATE: &str = "(def ?a z)(step 0 base())(step 1 more(0))\n";
const RESULTS: &str = "\n(result g 0)(result h 1)\n";

/// Slots of forms, by the text they stand in: first what is right, then faults. `_` is a space, `-` nothing, `D` a deep term.
const FORMS: &[(usize, &str)] = &[
    (0, "( sort|srt|(sort)|? n|?n|(n)|()|t|?|n_n|n?|z|hold|base )"),
    (0, "( ctor|pred|(ctor) n|?n|(n)|z|()|?|p|t ( t|?t|(t)|q|z u|?u|(u)|q|() ) t|?t|(t)|q|()|t_t )"),
    (0, "( pred|sort n|?n|(n)|hold|?|z|t ( t|?t|(t)|q|hold u|?u|(u)|q|() ) )"),
    (0, "( pred n|?n|hold|(n) t|()|(q) -|t )"),
    (0, "( ctor n|?n|z|(n) t|()|(q) t|q|?t|(t) )"),
    (
        0,
        "( rule|ruel r|?r|(r)|base|()|p ( ( hold|q|?hold|(hold)|p|two|z ?x|?|q|z|k|(z)|(q)|(k)|(s)|()|((z))|(s_z_z)|(s_q)|(?x_z)|z_z|(s_k)|(z_q)|(k_q)|(m_q_k)|(c_q)|D -|?x|q ) \
         ( two|q|hold ?x|?|q|(s_?w)|(q) ?w|?x|k|q|? ) ) ( two|q|hold|?two|() ?x|?w|z|q|?|(c_?x_k)|(c_q)|(s_q_q) k|?w|?x|q|(m_?x_?w) ) )",
    ),
    (0, "( rule r|?r|(r)|base q|()|((q))|(p)|((p)) ( p|q|hold|?p -|z ) )"),
    (0, "( sort a|t|?a ) ( ctor b|z|?b () t|q ) ( rule r|base|?r ( ) ( hold|q z|q|k ) )"),
    (0, "a|()|((sort)_a)|(a)|(sort_v) (sort_a)|b|()|(sort_?a)|(sort_t)|(rule_r()(q))"),
    (
        1,
        "( goal|gaol|(goal)|? n|?n|(n)|g|?|n? ( hold|q|?hold|(hold)|p|two|z \
         z|k|q|?a|?|(z)|(s)|(s_z)|(s_k)|(s_z_z)|(s_q)|(q_z)|(q)|(k_z)|()|((s)_z)|(c_k_q)|(c_z)|(s_(z))|(?a)|(?a_z)|s|D|z_z_q|k_q -|z|k|q|(s)|(q) -|q|z ) -|a|() )",
    ),
    (
        1,
        "( goal n|g|?n ( two (c_z_z)|(c_k_z)|(c_z_q)|(c_k_q)|k|(c_(s)_q) k|z|q|(m_z_k)|(m_k_q)|(m_q -|q|k ) ) ( goal n|g|w ( p|q -|z ) )",
    ),
    (
        2,
        "( def|dfe|(def)|step ?b|b|?|(b)|?a|a?|?? z|k|q|?a|?b|?|(z)|(s)|(s_z)|(s_k)|(s_z_z)|(s_q)|(q_z)|(q)|()|((s)_z)|(c_k_q)|(s_?a)|(?a)|(?a_z)|D -|z|() )",
    ),
    (
        2,
        "( result|reslt g|q|?g|(g)|h|? 0|1|2|9|x|+|-0|(0)|65536|4294967296|18446744073709551616|+0|00 -|a|() ) ( result g|h|q 0|1 )",
    ),
    (
        2,
        "( step|stp 2|1|3|x|(2)|-|18446744073709551616|18446744073709551615 both|more|q|?both|(both)|any|p ( 0|x|9|2|1|(0)|- 1|x|9|2|0|- -|0|x|9 ) \
         -|(?x_z)|(?x_k)|(?x_q)|(?q_z)|(?x_z_z)|(?x|(?x_(z))|(two_z_k)|(two_z_z)|(two_z)|(q)|(?_z)|a|()|((two)_z_k)|(?x_k_z)|(two_q)|(?y_z)|(?y_(s_z))|(two_(s_z)_k) \
         -|(?x_z)|(?x_k)|(?x_q)|(?x_z_z)|(two_z_k)|(two_z_z)|(two_k|(hold_z)|(q_z)|((?x)_z)|(?x_k_z)|(?x_q_z)|(two_(s_z)_k) -|a|(?x_q)|(two_z_k) )",
    ),
    (
        2,
        "( step 2 wide|any|free|base ( -|0|9|x ) -|(?a_z)|(?y_z)|(?y_k)|(wide)|(?a_k) -|(?b_z)|(?b_(s_z))|(hold_z)|(?y_z) -|(?d_z)|(?d_k) -|(?e_k)|(two_(c_z_z)_(m_z_k))|(two_(c_z_z)_k) )",
    ),
    (
        2,
        "( step 2 both ( 0|1|9|2 1|0|9|2 ) -|(?x_z)|(?x_(s_z))|(?y_z)|(?y_(s_z))|(two_z_k)|(two_(s_z)_k)|(hold_z) -|(?x_z)|(?y_z)|(two_z_k)|(two_(s_z)_k)|(two_z_(m_z_k)) ) \
         ( step 3 spare ( 2|9|0|3 0|1|9|2|3 ) -|(?x_z)|(?x_k)|(hold_z)|(hold_(s_z))|(?y_k) -|(hold_z)|(?y_z) )",
    ),
];

/// Faults that any place can have: what comes before a slot.
const BEFORE: &[&[u8]] = &[b")", b"(", b"()", b"a", b"?", b"\xff", b"\n\xff\n", b";\xff\n", b"(q", b"((", b"z"];

#[derive(Clone, Copy)]
enum Fault {
    Replaced(usize),
    Before(usize),
    Dropped,
    Doubled,
    /// The text ends here.
    Cut,
}

fn fault(n: usize, own: usize) -> Fault {
    match n {
        _ if n < own => Fault::Replaced(1 + n),
        _ if n < own + BEFORE.len() => Fault::Before(n - own),
        _ if n == own + BEFORE.len() => Fault::Dropped,
        _ if n == own + BEFORE.len() + 1 => Fault::Doubled,
        _ => Fault::Cut,
    }
}

pub struct Form {
    which: usize,
    slots: Vec<Vec<Vec<u8>>>,
}

fn written(alternative: &str) -> Vec<u8> {
    match alternative {
        "-" => Vec::new(),
        "D" => [b"(s ".repeat(256), b"z".to_vec(), b")".repeat(256)].concat(),
        other => other.replace('_', " ").into_bytes(),
    }
}

pub fn forms() -> &'static [Form] {
    static FORMED: OnceLock<Vec<Form>> = OnceLock::new();
    let slots = |s: &str| s.split_whitespace().map(|slot| slot.split('|').map(written).collect()).collect();
    FORMED.get_or_init(|| FORMS.iter().map(|&(which, s)| Form { which, slots: slots(s) }).collect())
}

impl Form {
    /// Every place with a fault.
    fn faults(&self) -> Vec<(usize, Fault)> {
        let all = |(i, slot): (usize, &Vec<Vec<u8>>)| {
            let own = slot.len() - 1;
            (0..own + BEFORE.len() + 3).map(move |n| (i, fault(n, own)))
        };
        self.slots.iter().enumerate().flat_map(all).collect()
    }

    fn text(&self, faults: &[(usize, Fault)], between: u8) -> (Vec<u8>, bool) {
        let mut out = Vec::new();
        for (i, slot) in self.slots.iter().enumerate() {
            let mut times = 1;
            let mut word = &slot[0];
            for (_, fault) in faults.iter().filter(|f| f.0 == i) {
                match fault {
                    Fault::Replaced(k) => word = &slot[*k],
                    Fault::Before(k) => {
                        out.extend(BEFORE[*k]);
                        out.push(between);
                    }
                    Fault::Dropped => times = 0,
                    Fault::Doubled => times = 2,
                    Fault::Cut => return (out, true),
                }
            }
            for _ in 0..times {
                out.extend(word);
                out.push(between);
            }
        }
        (out, false)
    }

    fn texts(&self, faults: &[(usize, Fault)], between: u8) -> Texts {
        let (form, cut) = self.text(faults, between);
        let [mut r, mut g, mut c] = [RULEBOOK, GOALS, CERTIFICATE].map(|s| s.as_bytes().to_vec());
        [&mut r, &mut g, &mut c][self.which].extend(&form);
        if self.which != 2 || !cut {
            c.extend(RESULTS.as_bytes());
        }
        Texts { rulebook: r, goals: g, certificate: c }
    }

    pub fn in_rulebook(&self) -> bool {
        self.which == 0
    }

    /// Every text of this form with one fault or two, each token on a line of its own.
    pub fn all(&self, mut each: impl FnMut(Texts)) {
        let faults = self.faults();
        for (n, a) in faults.iter().enumerate() {
            each(self.texts(&[*a], b'\n'));
            for b in &faults[n + 1..] {
                each(self.texts(&[*a, *b], b'\n'));
            }
        }
    }

    fn random(&self, rng: &mut Random) -> Texts {
        // Places first, so that those with few faults are drawn as often as others.
        let mut two = Vec::new();
        for _ in 0..if rng.chance(10) { 3 } else { 2 } {
            let place = rng.below(self.slots.len());
            let own = self.slots[place].len() - 1;
            let n = if own > 0 && rng.chance(80) { rng.below(own) } else { own + rng.below(BEFORE.len() + 3) };
            two.push((place, fault(n, own)));
        }
        self.texts(&two, if rng.chance(50) { b' ' } else { b'\n' })
    }
}

/// The texts with a form of the list in its place.
fn list(which: usize, form: &str, rng: &mut Random) -> Texts {
    let [mut r, mut g, mut c] = [RULEBOOK, GOALS, CERTIFICATE].map(|s| s.as_bytes().to_vec());
    [&mut r, &mut g, &mut c][which].extend(form.bytes());
    if which != 2 || rng.chance(50) {
        c.extend(RESULTS.as_bytes());
    }
    Texts { rulebook: r, goals: g, certificate: c }
}

/// A list too deep, in one of the texts, and something else refused next to it, some of it not UTF-8.
fn deep(rng: &mut Random, which: usize) -> Texts {
    let mut texts = special::bench();
    let end = *rng.pick(&[
        &b""[..],
        b")",
        b" a",
        b" z",
        b"(",
        b"(\n\xff",
        b"\n\xff",
        b"\xff",
        b" q",
        b"()",
        b"(a",
        b"(s z)",
        b"(q",
        b"\n)",
        b"\n",
    ]);
    // The depth of what follows the first part.
    let (first, again, depth): (&[u8], &[u8], usize) = match which {
        0 => *rng.pick::<(&[u8], &[u8], usize)>(&[
            (b"", b"(", 0),
            (b"a", b"(", 0),
            (b"(rule r()", b"(s ", 1),
            (b"(sort t)", b"(\n", 0),
        ]),
        1 => *rng.pick::<(&[u8], &[u8], usize)>(&[
            (b"(goal g(hold", b"(s ", 2),
            (b"(goal g(hold", b"(s\n", 2),
            (b"", b"(", 0),
            (b"(goal ?g(hold", b"(s ", 2),
        ]),
        _ => *rng.pick::<(&[u8], &[u8], usize)>(&[
            (b"(def ?a", b"(s ", 1),
            (b"(step 0 base()(hold", b"(s\n", 2),
            (b"(step 0 more()(?x", b"(s ", 2),
            (b"(step 0 base()", b"(", 1),
            (b"(step 0 more(0)(?x", b"(s\n", 2),
        ]),
    };
    // What ends it stands at a depth of 255 to 258, mostly at 256 or 257.
    let count = rng.from(256, 257) - depth + usize::from(rng.chance(20)) - usize::from(rng.chance(20));
    let mut text = [first, &again.repeat(count), end].concat();
    if rng.chance(60) {
        let closings = count + rng.below(3);
        text.extend(b")".repeat(closings));
    }
    *[&mut texts.rulebook, &mut texts.goals, &mut texts.certificate][which] = text;
    texts
}

/// The n-th name of so many blocks; all of them have one sum, so that they fall into one bucket.
fn alike(n: usize, blocks: usize) -> String {
    (0..blocks).map(|k| if n >> k & 1 == 1 { "Aa" } else { "BB" }).collect()
}

/// Names that share a bucket, in all tables; now and then one that was never declared, or comes twice.
fn buckets(rng: &mut Random) -> Texts {
    let blocks = rng.from(1, 5);
    let many = 1 << blocks;
    let declared = rng.from(1, many);
    let name = |rng: &mut Random| {
        let among = if rng.chance(10) { many } else { declared };
        alike(rng.below(among), blocks)
    };
    let mut rulebook = format!("(sort {})", alike(0, blocks));
    for n in 1..declared {
        rulebook += &format!("(sort {})", alike(n, blocks));
    }
    let sort = alike(rng.below(declared), blocks);
    for n in 0..declared {
        let inputs = if n > 0 && rng.chance(30) { sort.as_str() } else { "" };
        rulebook += &format!("(ctor {}({inputs}){sort})(pred {}({sort}))", alike(n, blocks), alike(n, blocks));
    }
    for n in 0..declared {
        rulebook += &format!("(rule {}()({} ?{}))", alike(n, blocks), name(rng), name(rng));
    }
    let (mut goals, mut certificate) = (String::new(), String::new());
    for n in 0..declared {
        goals += &format!("(goal {}({} {}))", alike(n, blocks), name(rng), alike(0, blocks));
        certificate += &format!(
            "(def ?{} {})",
            alike(n, blocks),
            if n == 0 { alike(0, blocks) } else { format!("?{}", alike(rng.below(n), blocks)) }
        );
    }
    for n in 0..rng.from(1, 2 * declared) {
        certificate += &format!("(step {n} {}()({} ?{}))", name(rng), name(rng), name(rng));
        if rng.chance(60) {
            certificate += &format!("(result {} {})", name(rng), rng.below(n + 1));
        }
    }
    Texts { rulebook: rulebook.into(), goals: goals.into(), certificate: certificate.into() }
}

/// A store with its last nodes or words free, and a form that fills it and has another fault, or none.
fn nearly_full(rng: &mut Random) -> Texts {
    let mut rulebook = RULEBOOK.to_string();
    let (mut certificate, mut next) = (String::new(), 1);
    // Small nodes: two of two words, then of three.
    let small = ["(s(s z))", "(s(s(s z)))", "(c z z)", "(c z(s z))", "(c(s z)z)", "(c(s z)(s z))"];
    let used: &[usize] = if rng.chance(50) {
        // 4 nodes of the goals, 2 of each step from the second on, and k: 2,045 with the last step. Steps hold the two of two words.
        certificate += &special::steps(1_021);
        next = 1_022;
        *rng.pick::<&[usize]>(&[&[2, 3, 4], &[2, 3], &[2], &[2, 3, 4, 5]])
    } else {
        // 7 words of the goals, k, and 908 nodes of nine words: 8,180.
        rulebook += "(ctor w(t t t t t t t t)t)";
        certificate += "(step 0 base())(def ?0 z)";
        for n in 1..=908 {
            certificate += &format!("(def ?{n}(w z z z z z z z ?{}))", n - 1);
        }
        *rng.pick::<&[usize]>(&[&[2, 3, 4, 5], &[0, 2, 3, 4], &[0, 1, 2, 3], &[2, 3, 4], &[0, 2, 3], &[0, 1, 2, 3, 4]])
    };
    certificate += "(def ?k k)";
    for (i, &n) in used.iter().enumerate() {
        certificate += &format!("(def ?n{i} {})", small[n]);
    }
    let end = rng.pick(LAST).replace('N', &next.to_string());
    certificate += &end;
    certificate += RESULTS;
    Texts { rulebook: rulebook.into(), goals: GOALS.into(), certificate: certificate.into() }
}

/// A case of the call with three texts.
pub fn texts(rng: &mut Random) -> Texts {
    match rng.below(100) {
        0..55 => rng.pick(forms()).random(rng),
        55..80 => {
            let (which, form) = *rng.pick(WRITTEN);
            list(which, form, rng)
        }
        80..92 => {
            let which = rng.below(3);
            deep(rng, which)
        }
        92..97 => buckets(rng),
        _ => nearly_full(rng),
    }
}

/// A case of the call with the rulebook alone.
pub fn rulebook(rng: &mut Random) -> Vec<u8> {
    match rng.below(100) {
        0..60 => {
            let forms: Vec<_> = forms().iter().filter(|f| f.in_rulebook()).collect();
            rng.pick(&forms).random(rng).rulebook
        }
        60..80 => {
            let forms: Vec<_> = WRITTEN.iter().filter(|w| w.0 == 0).collect();
            let (which, form) = **rng.pick(&forms);
            list(which, form, rng).rulebook
        }
        80..92 => deep(rng, 0).rulebook,
        _ => buckets(rng).rulebook,
    }
}
