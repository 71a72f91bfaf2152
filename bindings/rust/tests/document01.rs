//! Document 01's bench set and its table of refusals, as a client sees them; and the deepest texts on a small thread.
use sambjoek::{Refusal, Report, RulebookReport, STACK_BYTES, WorkAreas};

const R: &str =
    "(sort t)(ctor z () t)(ctor s (t) t)(pred hold (t))(rule base () (hold z))(rule more ((hold ?x)) (hold (s ?x)))";
const G: &str = "(goal g (hold (s z)))";
const C: &str = "(step 0 base ())\n(step 1 more (0))\n(result g 1)\n";

fn released(r: &str, g: &str, c: &[u8]) -> Result<Report, Refusal> {
    WorkAreas::new().release(r.as_bytes(), g.as_bytes(), c)
}

/// The number that a call gives, 0 where it accepts.
fn number<T>(answer: Result<T, Refusal>) -> u32 {
    answer.err().map_or(0, Refusal::number)
}

#[test]
fn bench_set() {
    assert_eq!(released(R, G, C.as_bytes()), Ok(Report { steps: 2, goals: 1, terms: 4, bytes: 48, requested: 7 }));
    let declared = RulebookReport { sorts: 1, constructors: 2, predicates: 1, rules: 2 };
    assert_eq!(WorkAreas::new().rulebook(R.as_bytes()), Ok(declared));
}

/// Nodes requested: an abbreviation's definition counts, its use does not; a term that is written out counts each time.
#[test]
fn requests() {
    let counted = |c: &str| released(R, G, c.as_bytes()).map(|report| (report.terms, report.requested));
    let twice =
        |stated: &str| format!("(step 1 more (0) (hold {stated}))(step 2 more (0) (hold {stated}))(result g 1)");
    assert_eq!(counted(&format!("(step 0 base ()){}", twice("(s z)"))), Ok((4, 11)));
    assert_eq!(counted(&format!("(def ?a (s z))(step 0 base ()){}", twice("?a"))), Ok((4, 9)));
    assert_eq!(counted(&format!("{C}(def ?unused z)")), Ok((4, 8)));
    assert_eq!(counted(&C.replace("(0)", "(0) (?x z)")), Ok((4, 8)));
}

/// 71 conclusions of 923 nodes each, which are built, another of one node, and the goal: 65,535; and one and two more.
#[test]
fn requests_beyond_16_bits() {
    let (sorts, constants) = (" t".repeat(460), " c".repeat(460));
    let rulebook = format!(
        "(sort t)(ctor c()t)(ctor f({sorts})t)(pred q())(pred p(t t))(rule a()(q))(rule r()(p(f{constants})(f{constants})))"
    );
    let steps: String = (1..=71).map(|n| format!("(step {n} r())")).collect();
    for (defs, requested) in [("", 65_535), ("(def ?c c)", 65_536), ("(def ?c c)(def ?d c)", 65_537)] {
        let certificate = format!("(step 0 a()){steps}(result g 0){defs}");
        let report = released(&rulebook, "(goal g(q))", certificate.as_bytes()).unwrap();
        assert_eq!((report.steps, report.terms, report.requested), (72, 4, requested));
    }
}

#[test]
fn areas_serve_again() {
    let mut areas = WorkAreas::new();
    for _ in 0..3 {
        assert_eq!(number(areas.release(R.as_bytes(), G.as_bytes(), C.as_bytes())), 0);
        assert_eq!(areas.release(R.as_bytes(), G.as_bytes(), b""), Err(Refusal::GoalOpen));
    }
}

/// Row 1 cannot come: the areas are long enough.
#[test]
fn table_of_refusals() {
    let (long, deep) = (" ".repeat(8193), "(".repeat(257));
    let two_sorts = "(sort a)(sort b)(pred p (a b))(rule r () (p ?x ?x))";
    let rulebooks = [
        (2, long.as_str()),
        (4, &deep),
        (5, "(sort"),
        (6, ")"),
        (7, "a"),
        (8, "()"),
        (11, "(sort ?a)"),
        (12, "(ctor a () q)"),
        (13, "(sort a)(sort a)"),
        (14, two_sorts),
    ];
    for (n, r) in rulebooks {
        assert_eq!(number(WorkAreas::new().rulebook(r.as_bytes())), n, "{r}");
        assert_eq!(number(released(r, G, C.as_bytes())), n, "{r}");
    }
    for (n, g) in [(9, "(gaol)"), (15, "(goal g (hold))"), (16, "(goal g (hold (z)))"), (17, "")] {
        assert_eq!(number(released(R, g, C.as_bytes())), n, "{g}");
    }
    let chain: String = (1..=1024).map(|n| format!("(step {n} more ({}))", n - 1)).collect();
    let full = format!("(step 0 base ()){chain}");
    let certificates: [(u32, &[u8]); 14] = [
        (3, b"\xFF"),
        (10, b"(def ?a z z)"),
        (18, b"(step -0 base ())"),
        (19, b"(step 1 base ())"),
        (20, b"(step 0 base (0))"),
        (21, b"(step 0 more (0) (?x z) (?x z))"),
        (22, b"(step 0 base () (hold z) (hold z))"),
        (23, b"(step 0 base () (hold (s z)))"),
        (24, b"(step 0 more (0))"),
        (25, b"(step 0 base ())(step 1 more (0) (?x (s z)))"),
        (27, b"(step 0 base ())(result g 0)"),
        (28, full.as_bytes()),
        (29, b""),
        (0, C.as_bytes()),
    ];
    for (n, c) in certificates {
        assert_eq!(number(released(R, G, c)), n, "{}", String::from_utf8_lossy(c));
    }
    assert_eq!(number(released(&format!("{R}(rule any () (hold ?y))"), G, b"(step 0 any ())")), 26);
}

#[test]
fn a_refusal_is_told_in_a_sentence() {
    let told = released(R, "", C.as_bytes()).unwrap_err().to_string();
    assert_eq!(told, "refused, number 17: the goals text has no goal");
}

fn numeral(levels: usize, inner: &str) -> String {
    format!("{}{inner}{}", "(s ".repeat(levels), ")".repeat(levels))
}

/// Texts of 256 levels in all three places, on a thread with the stack that a call may take and 32 KiB for the thread itself.
#[test]
fn deepest_texts() {
    let rulebook = format!("{R}(rule deep () (hold {}))", numeral(254, "?x"));
    let goals = format!("(goal g (hold {}))", numeral(254, "z"));
    let certificate = format!(
        "(def ?a {})(step 0 deep () (hold {}))(step 1 deep () (?x z))(result g 0)",
        numeral(255, "z"),
        numeral(254, "z")
    );
    let too_deep = format!("(def ?a {})", numeral(256, "z"));
    let thread = std::thread::Builder::new().stack_size(STACK_BYTES + 32 * 1024);
    let calls = move || {
        let mut areas = WorkAreas::new();
        assert_eq!(number(areas.rulebook(rulebook.as_bytes())), 0);
        let report = areas.release(rulebook.as_bytes(), goals.as_bytes(), certificate.as_bytes());
        assert_eq!(report.unwrap().steps, 2);
        let page = areas.page_text(rulebook.as_bytes(), goals.as_bytes(), certificate.as_bytes());
        assert!(page.unwrap().contains("used  50%"));
        let refused = areas.release(rulebook.as_bytes(), goals.as_bytes(), too_deep.as_bytes());
        assert_eq!(refused, Err(Refusal::Nesting));
    };
    thread.spawn(calls).unwrap().join().unwrap();
}
