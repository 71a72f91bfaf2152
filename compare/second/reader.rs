//! Tokens and items of a text, by lines.
use crate::Outcome;

#[derive(Clone, Copy, PartialEq)]
pub enum Token<'a> {
    Open,
    Close,
    Atom(&'a [u8]),
}

/// White space.
pub const WHITE: [u32; 25] = [
    0x9, 0xa, 0xb, 0xc, 0xd, 0x20, 0x85, 0xa0, 0x1680, 0x2000, 0x2001, 0x2002, 0x2003, 0x2004, 0x2005, 0x2006, 0x2007,
    0x2008, 0x2009, 0x200a, 0x2028, 0x2029, 0x202f, 0x205f, 0x3000,
];

/// Characters that are none, for misreadings.
pub const NOT_WHITE: [u32; 24] = [
    0x0, 0x8, 0xe, 0x1c, 0x1f, 0x7f, 0x84, 0x86, 0xa1, 0x1681, 0x180e, 0x1fff, 0x200b, 0x2027, 0x202a, 0x202e, 0x2030,
    0x205e, 0x2060, 0x3001, 0xfeff, 0x167f, 0x10020, 0x12028,
];

fn white(c: u32) -> bool {
    match WHITE.iter().position(|&w| w == c) {
        Some(i) => !crate::misreadings::planted_white(i),
        None => NOT_WHITE.iter().position(|&w| w == c).is_some_and(crate::misreadings::planted_not_white),
    }
}

/// The sequences of RFC 3629: bounds of the first byte, bounds of the second, bytes in all.
const SEQUENCES: [(u8, u8, u8, u8, usize); 9] = [
    (0x00, 0x7f, 0, 0, 1),
    (0xc2, 0xdf, 0x80, 0xbf, 2),
    (0xe0, 0xe0, 0xa0, 0xbf, 3),
    (0xe1, 0xec, 0x80, 0xbf, 3),
    (0xed, 0xed, 0x80, 0x9f, 3),
    (0xee, 0xef, 0x80, 0xbf, 3),
    (0xf0, 0xf0, 0x90, 0xbf, 4),
    (0xf1, 0xf3, 0x80, 0xbf, 4),
    (0xf4, 0xf4, 0x80, 0x8f, 4),
];

/// The row with a misreading in it.
fn sequence(i: usize) -> (u8, u8, u8, u8, usize) {
    let (mut a, mut b, mut c, mut d, n) = SEQUENCES[i];
    match i {
        1 if misread!("C1 leads a character") => a = 0xc1,
        1 if misread!("C2 leads no character") => a = 0xc3,
        1 if misread!("DF leads no character") => b = 0xde,
        2 if misread!("E0 9F is allowed") => c = 0x9f,
        2 if misread!("E0 A0 is not allowed") => c = 0xa1,
        4 if misread!("ED A0 is allowed") => d = 0xa0,
        4 if misread!("ED 9F is not allowed") => d = 0x9e,
        5 if misread!("EF leads no character") => b = 0xee,
        6 if misread!("F0 8F is allowed") => c = 0x8f,
        6 if misread!("F0 90 is not allowed") => c = 0x91,
        8 if misread!("F4 90 is allowed") => d = 0x90,
        8 if misread!("F4 8F is not allowed") => d = 0x8e,
        8 if misread!("F5 leads a character") => b = 0xf5,
        _ => {}
    }
    (a, b, c, d, n)
}

/// Bytes of the first character, or nothing where it is not UTF-8.
pub fn character(text: &[u8]) -> Option<usize> {
    let first = *text.first()?;
    if first < 0x80 {
        return Some(1);
    }
    let (low, high) = match () {
        _ if misread!("7F may follow a lead") => (0x7f, 0xbf),
        _ if misread!("C0 may follow a lead") => (0x80, 0xc0),
        _ if misread!("80 may not follow a lead") => (0x81, 0xbf),
        _ if misread!("BF may not follow a lead") => (0x80, 0xbe),
        _ => (0x80, 0xbf),
    };
    for i in 1..SEQUENCES.len() {
        let (a, b, c, d, n) = sequence(i);
        if !(a..=b).contains(&first) {
            continue;
        }
        if text.len() < n && misread!("a character cut off by the end is allowed") {
            return Some(text.len());
        }
        let (c, d) = if (c, d) == (0x80, 0xbf) { (low, high) } else { (c, d) };
        let second = text.get(1).is_some_and(|b| (c..=d).contains(b));
        let rest = (2..n).all(|k| text.get(k).is_some_and(|b| (low..=high).contains(b)));
        if second && rest {
            return Some(n);
        }
    }
    None
}

fn utf8(line: &[u8]) -> bool {
    let mut at = 0;
    while at < line.len() {
        if line[at] == b';' && misread!("bytes of a comment are not tested") {
            return true;
        }
        match character(&line[at..]) {
            Some(n) => at += n,
            None => return false,
        }
    }
    true
}

/// The code of a character of so many bytes.
fn code(bytes: &[u8]) -> u32 {
    let lead = match bytes.len() {
        1 => return bytes[0].into(),
        2 => bytes[0] & 0x1f,
        3 => bytes[0] & 0x0f,
        _ => bytes[0] & 0x07,
    };
    bytes[1..].iter().fold(lead.into(), |c, b| c << 6 | u32::from(b & 0x3f))
}

#[derive(Clone)]
pub struct Reader<'a> {
    text: &'a [u8],
    at: usize,
    /// The end of the lines tested so far.
    tested: usize,
    ahead: Option<Option<Token<'a>>>,
}

impl<'a> Reader<'a> {
    pub fn new(text: &'a [u8]) -> Self {
        Self { text, at: 0, tested: 0, ahead: None }
    }

    pub fn length(&self) -> usize {
        match () {
            _ if misread!("bytes are counted as characters") => String::from_utf8_lossy(self.text).chars().count(),
            _ => self.text.len(),
        }
    }

    /// The character at the place, whole where its line was tested.
    fn here(&self) -> (u32, usize) {
        let rest = &self.text[self.at..self.tested];
        let n = character(rest).unwrap_or(1);
        (code(&rest[..n]), n)
    }

    fn line(&mut self) -> Outcome<()> {
        let rest = &self.text[self.at..];
        let mut end = rest.iter().position(|&b| b == b'\n').map_or(rest.len(), |i| i + 1);
        if misread!("a text is tested as UTF-8 whole") {
            end = rest.len();
        }
        if misread!("a line ends at 0D too") {
            end = rest.iter().position(|&b| b == b'\n' || b == b'\r').map_or(rest.len(), |i| i + 1);
        }
        if !utf8(&rest[..end]) && !misread!("lines are not tested") {
            return Err(3);
        }
        self.tested = self.at + end;
        Ok(())
    }

    fn skip_comment(&mut self) {
        let rest = &self.text[self.at..self.tested];
        let end = |b: &u8| *b == b'\n' || (*b == b'\r' && misread!("a comment ends at 0D too"));
        self.at += rest.iter().position(end).map_or(rest.len(), |i| i + 1);
    }

    fn fetch(&mut self) -> Outcome<Option<Token<'a>>> {
        loop {
            if self.at == self.tested {
                if self.at == self.text.len() {
                    return Ok(None);
                }
                self.line()?;
            }
            let (c, n) = self.here();
            if c == u32::from(b';') && !misread!("; is an atom character") {
                self.skip_comment();
            } else if white(c) {
                self.at += n;
            } else if c == u32::from(b'(') || (c == u32::from(b'[') && misread!("[ is an opening")) {
                self.at += n;
                return Ok(Some(Token::Open));
            } else if c == u32::from(b')') || (c == u32::from(b']') && misread!("] is a closing")) {
                self.at += n;
                return Ok(Some(Token::Close));
            } else {
                return Ok(Some(self.atom()));
            }
        }
    }

    fn atom(&mut self) -> Token<'a> {
        let from = self.at;
        while self.at < self.tested {
            let (c, n) = self.here();
            let ends = match u8::try_from(c) {
                Ok(b'(') => !misread!("( does not end an atom"),
                Ok(b')') => !misread!(") does not end an atom"),
                Ok(b';') => !misread!("; does not end an atom"),
                Ok(b'?') => misread!("? ends an atom"),
                _ => white(c),
            };
            if ends && self.at > from {
                break;
            }
            self.at += n;
        }
        Token::Atom(&self.text[from..self.at])
    }

    pub fn peek(&mut self) -> Outcome<Option<Token<'a>>> {
        if self.ahead.is_none() {
            self.ahead = Some(self.fetch()?);
        }
        Ok(self.ahead.expect("just looked"))
    }

    pub fn next(&mut self) -> Outcome<Option<Token<'a>>> {
        let token = self.peek()?;
        self.ahead = None;
        if misread!("a token is fetched early") {
            self.peek()?;
        }
        Ok(token)
    }

    /// An item is asked for: an opening or an atom.
    pub fn item(&mut self, depth: usize) -> Outcome<Token<'a>> {
        let deepest = match () {
            _ if misread!("depth 256 is refused") => 255,
            _ if misread!("depth 257 is allowed") => 257,
            _ => 256,
        };
        if depth > deepest && misread!("depth after the token") {
            return Err(match self.next()? {
                None => 5,
                Some(Token::Close) => 6,
                Some(_) => 4,
            });
        }
        if depth > deepest && misread!("depth after the end of text") && self.peek()?.is_none() {
            return Err(5);
        }
        if depth > deepest && !misread!("depth is not tested") {
            return Err(4);
        }
        match self.next()? {
            None => Err(5),
            Some(Token::Close) => Err(6),
            Some(token) => Ok(token),
        }
    }

    /// Looks whether a closing is next, and takes it.
    pub fn closes(&mut self) -> Outcome<bool> {
        let closes = self.peek()? == Some(Token::Close);
        if closes {
            self.next()?;
        }
        Ok(closes)
    }

    /// A closing is due.
    pub fn closing(&mut self) -> Outcome<()> {
        match self.next()? {
            Some(Token::Close) => Ok(()),
            None if misread!("text that ends where a closing is due is 10") => Err(10),
            None => Err(5),
            Some(Token::Open) if misread!("a list where a closing is due is 7") => Err(7),
            Some(Token::Atom(_)) if misread!("an atom where a closing is due is 7") => Err(7),
            Some(_) => Err(10),
        }
    }

    /// A head, asked for without the look ahead.
    pub fn head(&mut self, depth: usize) -> Outcome<&'a [u8]> {
        if misread!("a head is looked at ahead") {
            self.peek()?;
        }
        if misread!("an empty list is 8 everywhere") && depth <= 256 && self.peek()? == Some(Token::Close) {
            return Err(8);
        }
        self.atom_item(depth)
    }

    pub fn atom_item(&mut self, depth: usize) -> Outcome<&'a [u8]> {
        match self.item(depth)? {
            Token::Atom(a) => Ok(a),
            _ if misread!("a list where an atom is due is read first") => {
                self.skip(depth)?;
                Err(7)
            }
            _ => Err(7),
        }
    }

    pub fn list_item(&mut self, depth: usize) -> Outcome<()> {
        match self.item(depth)? {
            Token::Open => Ok(()),
            _ => Err(7),
        }
    }

    /// The members of a list at this depth, unread so far.
    fn skip(&mut self, depth: usize) -> Outcome<()> {
        while !self.closes()? {
            if self.item(depth + 1)? == Token::Open {
                self.skip(depth + 1)?;
            }
        }
        Ok(())
    }
}
