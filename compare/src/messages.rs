//! 01's number for each message of kernel.rs, lex.rs and sexp.rs.
//! Names in a message are user text. They are atoms, so they hold no space, bracket or `;`, but a whole
//! form may be shown as well: a message is therefore known by how it begins, never by what it contains.

/// Messages without user text.
const WHOLE: &[(&str, u8)] = &[
    ("stream did not contain valid UTF-8", 3),
    ("S-expression nesting exceeds 256", 4),
    ("unexpected end of input", 5),
    ("unexpected closing parenthesis", 6),
    ("expected a list", 7),
    ("expected an atom", 7),
    ("empty declaration", 8),
    ("empty judgment", 8),
    ("empty term", 8),
    ("expected (goal name judgment)", 9),
    ("too many elements in list", 10),
    ("declaration names cannot be variables", 11),
    ("invalid ground variable ?", 11),
    ("duplicate sort", 13),
    ("duplicate ctor", 13),
    ("duplicate pred", 13),
    ("duplicate rule", 13),
    ("duplicate goal", 13),
    ("duplicate abbreviation", 13),
    ("sort or arity mismatch", 15),
    ("nullary constructors must be atoms", 16),
    ("no expected goals", 17),
    ("expected a nonnegative step index", 18),
    ("unknown result step", 24),
    ("result does not match the expected judgment", 27),
];

/// Messages that end in user text.
const BEGUN: &[(&str, u8)] = &[
    ("expected atom, got ", 7),
    ("expected list, got ", 7),
    ("invalid theory declaration: ", 9),
    ("invalid proof form: ", 9),
    ("invalid abbreviation name ", 11),
    ("unknown sort ", 12),
    ("unknown predicate ", 12),
    ("unknown constructor ", 12),
    ("unknown rule ", 12),
    ("unknown or repeated result ", 12),
    ("invalid ground variable or undefined abbreviation ", 12),
    ("sort or arity mismatch: ", 15),
    ("missing results: ", 29),
];

/// After `step N: `.
const STEP: &[(&str, u8)] =
    &[("wrong number of premises", 20), ("invalid binding", 21), ("more than one conclusion", 22)];

/// After `step N (RULE): `.
const STEP_OF_RULE: &[(&str, u8)] =
    &[("conclusion mismatch", 23), ("unbound conclusion variable", 26), (STORE_FULL, 28)];

/// Only the opened copy says this.
const STORE_FULL: &str = "store full";

fn whole(table: &[(&str, u8)], message: &str) -> Option<u8> {
    table.iter().find(|(m, _)| *m == message).map(|(_, n)| *n)
}

/// Takes decimal digits off the front.
fn digits(s: &str) -> Option<&str> {
    let rest = s.trim_start_matches(|c: char| c.is_ascii_digit());
    (rest.len() < s.len()).then_some(rest)
}

fn step(message: &str) -> Option<u8> {
    let rest = digits(message.strip_prefix("step ")?)?;
    if let Some(rest) = rest.strip_prefix(": ") {
        if let Some(n) = whole(STEP, rest) {
            return Some(n);
        }
        if rest.strip_prefix("expected next index ").and_then(digits) == Some("") {
            return Some(19);
        }
        if rest.starts_with("unknown variable ?") {
            return Some(12);
        }
        let after = digits(rest.strip_prefix("premise ")?)?;
        return (after == " is not an earlier step").then_some(24);
    }
    // A rule's name has no bracket, so the first closing ends it.
    let (_, rest) = rest.strip_prefix(" (")?.split_once("): ")?;
    if let Some(n) = whole(STEP_OF_RULE, rest) {
        return Some(n);
    }
    (digits(rest.strip_prefix("premise ")?)? == " mismatch").then_some(25)
}

/// The number of a message, or nothing for a message that this table does not know.
pub fn number(message: &str) -> Option<u8> {
    if message == STORE_FULL {
        return Some(28);
    }
    if let Some(n) = whole(WHOLE, message) {
        return Some(n);
    }
    if let Some((_, n)) = BEGUN.iter().find(|(m, _)| message.starts_with(m)) {
        return Some(*n);
    }
    let variable = message.strip_prefix("variable ?");
    if variable.is_some_and(|v| v.ends_with(" has conflicting sorts")) {
        return Some(14);
    }
    step(message)
}
