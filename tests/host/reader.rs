//! A second reader of JSON, written from RFC 8259 and document 01's spelling rules. The text is decoded and cut into tokens
//! first; then the tokens are judged one after the other by what may come next, the open brackets on a stack. It has no
//! recursion, and cuts before it judges, so it shares no mistake with code that reads parts at positions.

/// A member of the outermost object: its name without quotation marks, its value (each a start and a length), the value's
/// kind, and where the next member or the closing brace begins.
#[derive(Debug, PartialEq)]
pub struct Row {
    pub name: (usize, usize),
    pub value: (usize, usize),
    pub kind: usize,
    pub next: usize,
}

#[derive(Debug)]
pub struct Reading {
    /// The position after the object.
    pub end: usize,
    pub rows: Vec<Row>,
    /// How deep it is nested, the object itself being 1.
    pub levels: u32,
}

#[derive(Clone, Copy, PartialEq)]
enum What {
    Sign(u8),
    /// A string, number or word, by its kind.
    Scalar(usize),
}

struct Token {
    what: What,
    start: usize,
    end: usize,
}

const STRING: usize = 2;
const NUMBER: usize = 3;

/// The octets that a spelling (what stands between quotation marks) says, or None where section 7 or the rule on halves is
/// broken.
pub fn said(spelling: &str) -> Option<Vec<u8>> {
    let mut octets = Vec::new();
    // What \u escapes that directly follow one another say.
    let mut units: Vec<u16> = Vec::new();
    let mut rest = spelling.chars();
    loop {
        let c = rest.next();
        if c == Some('\\') && rest.as_str().starts_with('u') {
            let digits = rest.as_str().get(1..5)?;
            if !digits.chars().all(|d| d.is_ascii_hexdigit()) {
                return None;
            }
            units.push(u16::from_str_radix(digits, 16).ok()?);
            rest = rest.as_str()[5..].chars();
            continue;
        }
        // Halves that have no other half are an error here.
        octets.extend(String::from_utf16(&units).ok()?.into_bytes());
        units.clear();
        let mut say = |c: char| octets.extend(c.encode_utf8(&mut [0; 4]).bytes());
        match c {
            None => return Some(octets),
            Some('\\') => match rest.next()? {
                c @ ('"' | '\\' | '/') => say(c),
                'b' => say('\u{8}'),
                'f' => say('\u{c}'),
                'n' => say('\n'),
                'r' => say('\r'),
                't' => say('\t'),
                _ => return None,
            },
            Some('"' | '\0'..='\u{1f}') => return None,
            Some(c) => say(c),
        }
    }
}

fn all_digits(s: &str) -> bool {
    !s.is_empty() && s.bytes().all(|c| c.is_ascii_digit())
}

/// Section 6, from the back: the exponent is split off, then the fraction, then the minus.
fn is_number(s: &str) -> bool {
    let (rest, exponent) = s.split_once(['e', 'E']).unwrap_or((s, "0"));
    let (rest, fraction) = rest.split_once('.').unwrap_or((rest, "0"));
    let int = rest.strip_prefix('-').unwrap_or(rest);
    let exponent = exponent.strip_prefix(['+', '-']).unwrap_or(exponent);
    all_digits(exponent) && all_digits(fraction) && all_digits(int) && (int == "0" || !int.starts_with('0'))
}

/// The tokens of a text. Two values never stand side by side in JSON, so a number or a word goes as far as its characters
/// go and is right as a whole or not at all.
fn tokens(text: &str) -> Option<Vec<Token>> {
    let octets = text.as_bytes();
    let mut tokens = Vec::new();
    let mut start = 0;
    while start < octets.len() {
        let run = |class: &dyn Fn(u8) -> bool| {
            start + octets[start..].iter().position(|&c| !class(c)).unwrap_or(octets.len() - start)
        };
        let (what, end) = match octets[start] {
            b' ' | b'\t' | b'\n' | b'\r' => {
                start += 1;
                continue;
            }
            sign @ (b'{' | b'}' | b'[' | b']' | b':' | b',') => (What::Sign(sign), start + 1),
            b'"' => {
                // An octet after a backslash never closes.
                let mut end = start + 1;
                while *octets.get(end)? != b'"' {
                    end += if octets[end] == b'\\' { 2 } else { 1 };
                }
                said(text.get(start + 1..end)?)?;
                (What::Scalar(STRING), end + 1)
            }
            b'-' | b'0'..=b'9' => {
                let end = run(&|c| c.is_ascii_digit() || b"+-.eE".contains(&c));
                if !is_number(&text[start..end]) {
                    return None;
                }
                (What::Scalar(NUMBER), end)
            }
            b'a'..=b'z' => {
                let end = run(&|c| c.is_ascii_alphabetic());
                let kind = match &text[start..end] {
                    "true" => 4,
                    "false" => 5,
                    "null" => 6,
                    _ => return None,
                };
                (What::Scalar(kind), end)
            }
            _ => return None,
        };
        tokens.push(Token { what, start, end });
        start = end;
    }
    Some(tokens)
}

/// What may come next.
#[derive(Clone, Copy, PartialEq)]
enum Next {
    Value,
    Name,
    Colon,
    /// A comma or the closing bracket.
    More,
    Nothing,
}

/// The reading of a text as one object of at most so many levels.
pub fn read(octets: &[u8], levels: u32) -> Option<Reading> {
    let text = std::str::from_utf8(octets).ok()?;
    let tokens = tokens(text)?;
    if tokens.first()?.what != What::Sign(b'{') {
        return None;
    }
    let mut reading = Reading { end: 0, rows: Vec::new(), levels: 0 };
    let mut open: Vec<u8> = Vec::new();
    let mut next = Next::Value;
    // Whether a bracket was just opened, so that it may close at once.
    let mut fresh = false;
    let (mut name, mut value) = ((0, 0), 0);
    for (i, token) in tokens.iter().enumerate() {
        // A value that ends with this token: its kind.
        let mut done = None;
        match (next, token.what) {
            (Next::Value, What::Sign(b @ (b'{' | b'['))) => {
                if open.len() == 1 {
                    value = token.start;
                }
                open.push(b);
                reading.levels = reading.levels.max(open.len() as u32);
                next = if b == b'{' { Next::Name } else { Next::Value };
                fresh = true;
                continue;
            }
            (Next::Value, What::Scalar(kind)) => {
                if open.len() == 1 {
                    value = token.start;
                }
                done = Some(kind);
            }
            (Next::Name, What::Scalar(STRING)) => {
                if open.len() == 1 {
                    name = (token.start + 1, token.end - token.start - 2);
                }
                next = Next::Colon;
            }
            (Next::Colon, What::Sign(b':')) => next = Next::Value,
            (Next::More, What::Sign(b',')) => {
                next = if *open.last()? == b'{' { Next::Name } else { Next::Value };
            }
            (_, What::Sign(b'}')) if (next == Next::More || fresh) && *open.last()? == b'{' => {
                open.pop();
                done = Some(0);
            }
            (_, What::Sign(b']')) if (next == Next::More || fresh) && *open.last()? == b'[' => {
                open.pop();
                done = Some(1);
            }
            _ => return None,
        }
        fresh = false;
        let Some(kind) = done else { continue };
        next = if open.is_empty() { Next::Nothing } else { Next::More };
        reading.end = token.end;
        if open.len() == 1 {
            let after = tokens.get(i + 1)?;
            let next = if after.what == What::Sign(b',') { tokens.get(i + 2)? } else { after };
            reading.rows.push(Row { name, value: (value, token.end - value), kind, next: next.start });
        }
    }
    (next == Next::Nothing && reading.levels <= levels).then_some(reading)
}

/// This code itself, on what RFC 8259 sections 7 and 13 and document 01 print.
pub fn keeps_to_print() {
    let image = br#"{
        "Image": {
            "Width":  800,
            "Height": 600,
            "Title":  "View from 15th Floor",
            "Thumbnail": {
                "Url":    "http://www.example.com/image/481989943",
                "Height": 125,
                "Width":  100
            },
            "Animated" : false,
            "IDs": [116, 943, 234, 38793]
          }
      }"#;
    let reading = read(image, 3).expect("section 13's object");
    assert_eq!((reading.end, reading.levels, reading.rows.len()), (image.len(), 3, 1));
    assert!(read(image, 2).is_none());
    // Document 01, T6: 0 2 3 7 5 2, 0 14 3 19 9 2.
    let header = read(br#"{"alg":"dir","enc":"A128GCM"}"#, 1).expect("T4's header");
    let row = |name, value, next| Row { name, value, kind: 2, next };
    assert_eq!(header.rows, [row((2, 3), (7, 5), 13), row((14, 3), (19, 9), 28)]);
    // Section 7: the G clef, and the reverse solidus in three spellings.
    assert_eq!(said(r"\uD834\uDD1E").as_deref(), Some("\u{1d11e}".as_bytes()));
    assert_eq!(said(r"\u005C"), said(r"\\"));
    assert_eq!(said(r"\u005c"), said(r"\\"));
    // Section 8.2: a lone half.
    assert_eq!(said(r"\uDEAD"), None);
    for text in ["", "[]", "\"Hello world!\"", "42", "{", "{}}", "{\"a\":01}", "{\"a\":1,}", "{'a':1}", "{\"a\":[}"] {
        assert!(read(text.as_bytes(), 12).is_none(), "{text}");
    }
}
