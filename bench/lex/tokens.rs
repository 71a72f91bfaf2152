//! The listing of `token_listing` beside the Rust's lexer on the program's own texts.
use crate::lex;

/// The Rust's lexer on a text, in the words of `token_listing`: an atom by its bytes.
fn listed(text: &[u8]) -> Vec<String> {
    let mut lexer = lex::Lexer::new(text);
    let mut out = Vec::new();
    loop {
        match lexer.token() {
            Ok(Some(lex::Token::Open)) => out.push("(".into()),
            Ok(Some(lex::Token::Close)) => out.push(")".into()),
            Ok(Some(lex::Token::Atom(a))) => out.push(format!("{:?}", a.as_bytes())),
            Ok(None) => out.push("end".into()),
            Err(_) => out.push("3".into()),
        }
        if matches!(out.last().map(String::as_str), Some("end" | "3")) {
            return out;
        }
    }
}

/// Holds the program's listing to the Rust's lexer, text by text.
pub fn compare(folder: &str) {
    let input = std::fs::read_to_string(format!("{folder}/stdin")).unwrap();
    let output = std::fs::read_to_string(format!("{folder}/stdout")).unwrap();
    let mut lines = output.lines();
    let mut texts = 0;
    for line in input.lines() {
        if line.starts_with('#') {
            assert_eq!(lines.next(), Some(line));
            continue;
        }
        let text: Vec<u8> = (0..line.len() / 2).map(|i| u8::from_str_radix(&line[2 * i..2 * i + 2], 16).unwrap()).collect();
        for expected in listed(&text) {
            let given = lines.next().unwrap();
            let shown = match given.split_once(' ') {
                Some((a, b)) => format!("{:?}", &text[a.parse().unwrap()..b.parse().unwrap()]),
                None => given.into(),
            };
            assert_eq!(shown, expected, "{line}");
        }
        texts += 1;
    }
    assert_eq!(lines.next(), None);
    println!("{texts} texts: the listing is what the Rust's lexer gives");
}
