//! Document 02's release page, as a client sees it.
use sambjoek::{PAGE_BYTES, Refusal, WorkAreas, Written};

const R: &str =
    "(sort t)(ctor z () t)(ctor s (t) t)(pred hold (t))(rule base () (hold z))(rule more ((hold ?x)) (hold (s ?x)))";
const G: &str = "(goal g (hold (s z)))";
const C: &str = "(step 0 base ())\n(step 1 more (0))\n(result g 1)\n";
const PAGE: &str = "g                                       1 more                  \n\
                    used 100%                                                       \n";
/// What a buffer holds before a call.
const BEFORE: u8 = 0xA5;

fn text(r: &str, g: &str, c: &str) -> Result<String, Refusal> {
    WorkAreas::new().page_text(r.as_bytes(), g.as_bytes(), c.as_bytes())
}

/// The answer on a buffer of so many bytes, and the buffer afterwards.
fn written(g: &str, c: &str, room: usize) -> (Result<Written, Refusal>, Vec<u8>) {
    let mut out = vec![BEFORE; room];
    let answer = WorkAreas::new().page(R.as_bytes(), g.as_bytes(), c.as_bytes(), &mut out);
    (answer, out)
}

/// The lines of goals that all have the result 0, by one rule.
fn lines(rule: &str, names: &[&str]) -> Vec<String> {
    let goals: String = names.iter().map(|name| format!("(goal {name}(p))")).collect();
    let results: String = names.iter().map(|name| format!("(result {name} 0)")).collect();
    let page = text(&format!("(pred p())(rule {rule}()(p))"), &goals, &format!("(step 0 {rule}()){results}")).unwrap();
    page.lines().map(String::from).collect()
}

/// The percentage where the last `used` of some steps are a chain that leads to the result.
fn percentage(used: usize, steps: usize) -> String {
    let step =
        |n: usize| if n <= steps - used { format!("(step {n} b())") } else { format!("(step {n} n({}))", n - 1) };
    let certificate: String = (0..steps).map(step).collect();
    let rulebook = "(pred p())(rule b()(p))(rule n((p))(p))";
    let page = text(rulebook, "(goal g(p))", &format!("{certificate}(result g {})", steps - 1)).unwrap();
    page.lines().last().unwrap()[5..8].to_string()
}

#[test]
fn bench_set() {
    assert_eq!(text(R, G, C).as_deref(), Ok(PAGE));
}

/// A buffer that is as long as the page, longer, and one byte too short.
#[test]
fn buffers() {
    assert_eq!(written(G, C, 130), (Ok(Written { length: 130 }), PAGE.as_bytes().to_vec()));
    let (answer, out) = written(G, C, PAGE_BYTES);
    assert_eq!(answer, Ok(Written { length: 130 }));
    assert_eq!(&out[..130], PAGE.as_bytes());
    assert!(out[130..].iter().all(|&byte| byte == BEFORE));
    for room in [0, 1, 65, 129] {
        assert_eq!(written(G, C, room), (Err(Refusal::OutputLong), vec![BEFORE; room]));
    }
}

/// 31 comes behind the release's own refusals, which write nothing.
#[test]
fn refusals_of_the_release_come_first() {
    for room in [0, 129, 130, 200] {
        assert_eq!(written(G, "", room), (Err(Refusal::GoalOpen), vec![BEFORE; room]));
        assert_eq!(written("", C, room), (Err(Refusal::NoGoal), vec![BEFORE; room]));
        assert_eq!(written(&" ".repeat(8193), C, room), (Err(Refusal::TextLong), vec![BEFORE; room]));
    }
    let told = Refusal::OutputLong.to_string();
    assert_eq!(told, "refused, number 31: the text to be written is longer than the buffer");
}

/// Goals in their own order, whatever that of the results; each with its own step and that step's rule.
#[test]
fn goals_in_order() {
    let goals = "(goal late (hold (s z)))(goal soon (hold z))(goal late-again (hold (s z)))";
    let certificate =
        "(step 0 base ())(result soon +0)(step 1 also ())(step 2 more (0))(result late-again 2)(result late 1)";
    let page = text(&format!("{R}(rule also () (hold (s z)))"), goals, certificate).unwrap();
    let shown = [
        "late                                    1 also                  ",
        "soon                                    0 base                  ",
        "late-again                              2 more                  ",
        "used 100%                                                       ",
    ];
    assert_eq!(page.lines().collect::<Vec<_>>(), shown);
}

/// A long name is cut behind the last whole character that fits; the field keeps its bytes.
#[test]
fn names_are_cut() {
    let a = "a".repeat(32);
    let goals = [
        a[..31].to_string(),
        a.clone(),
        format!("{a}b"),
        format!("{}\u{E9}", &a[..31]),
        format!("{}\u{1F525}", &a[..29]),
    ];
    let shown = lines("b", &goals.each_ref().map(String::as_str));
    let cut: Vec<_> = shown.iter().map(|line| line.as_bytes()[..32].to_vec()).collect();
    let due = [31, 32, 32, 31, 29].map(|kept| format!("{:32}", &a[..kept]).into_bytes());
    assert_eq!(cut[..5], due);
    for (rule, kept) in [("a".repeat(22), 22), ("a".repeat(23), 22), (format!("{}\u{20AC}", &a[..20]), 20)] {
        assert_eq!(lines(&rule, &["g"])[0][42..], format!("{:22}", &a[..kept]));
    }
    // 16 characters of two bytes fill the field of the name.
    assert_eq!(
        lines("b", &["\u{E9}".repeat(17).as_str()])[0],
        format!("{}        0 b{}", "\u{E9}".repeat(16), " ".repeat(21))
    );
}

/// Halves go up.
#[test]
fn percentages() {
    let shares =
        [(1, 1, "100"), (1, 3, " 33"), (2, 3, " 67"), (1, 8, " 13"), (3, 8, " 38"), (1, 200, "  1"), (1, 201, "  0")];
    for (used, steps, due) in shares {
        assert_eq!(percentage(used, steps), due, "{used} of {steps}");
    }
}

/// As many goals as fit: the page fits the buffer that is said to be long enough.
#[test]
fn longest_page() {
    let names: Vec<String> = (0..1_000).map(|n| format!("{n:x}")).collect();
    let mut kept = 0;
    let mut bytes = 0;
    while bytes + 10 + names[kept].len() <= 8_192 {
        bytes += 10 + names[kept].len();
        kept += 1;
    }
    let shown = lines("b", &names[..kept].iter().map(String::as_str).collect::<Vec<_>>());
    assert_eq!(shown.len(), kept + 1);
    assert!(shown.iter().all(|line| line.len() == 64) && 65 * shown.len() <= PAGE_BYTES);
}
