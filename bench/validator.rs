//! The peer for JSON: what one writes in safe Rust. UTF-8 is checked by the standard library first; then a recursive
//! descent over the octets, that builds nothing. It gives the same answers as ours: the position after the object.

pub fn judge(text: &[u8], levels: u32) -> Option<usize> {
    std::str::from_utf8(text).ok()?;
    let start = space(text, 0);
    if text.get(start) != Some(&b'{') {
        return None;
    }
    let end = value(text, start, levels)?;
    (space(text, end) == text.len()).then_some(end)
}

fn space(s: &[u8], mut at: usize) -> usize {
    while let Some(b' ' | b'\t' | b'\n' | b'\r') = s.get(at) {
        at += 1;
    }
    at
}

fn value(s: &[u8], at: usize, levels: u32) -> Option<usize> {
    match s.get(at)? {
        b'{' => object(s, at + 1, levels.checked_sub(1)?),
        b'[' => array(s, at + 1, levels.checked_sub(1)?),
        b'"' => string(s, at + 1),
        b't' => word(s, at, b"true"),
        b'f' => word(s, at, b"false"),
        b'n' => word(s, at, b"null"),
        _ => number(s, at),
    }
}

fn object(s: &[u8], at: usize, levels: u32) -> Option<usize> {
    let mut at = space(s, at);
    if s.get(at) == Some(&b'}') {
        return Some(at + 1);
    }
    loop {
        if *s.get(at)? != b'"' {
            return None;
        }
        at = space(s, string(s, at + 1)?);
        if *s.get(at)? != b':' {
            return None;
        }
        at = space(s, value(s, space(s, at + 1), levels)?);
        match s.get(at)? {
            b'}' => return Some(at + 1),
            b',' => at = space(s, at + 1),
            _ => return None,
        }
    }
}

fn array(s: &[u8], at: usize, levels: u32) -> Option<usize> {
    let mut at = space(s, at);
    if s.get(at) == Some(&b']') {
        return Some(at + 1);
    }
    loop {
        at = space(s, value(s, at, levels)?);
        match s.get(at)? {
            b']' => return Some(at + 1),
            b',' => at = space(s, at + 1),
            _ => return None,
        }
    }
}

fn word(s: &[u8], at: usize, w: &[u8]) -> Option<usize> {
    s[at..].starts_with(w).then_some(at + w.len())
}

/// A string, past its quotation mark.
fn string(s: &[u8], mut at: usize) -> Option<usize> {
    loop {
        match *s.get(at)? {
            b'"' => return Some(at + 1),
            b'\\' => match *s.get(at + 1)? {
                b'"' | b'\\' | b'/' | b'b' | b'f' | b'n' | b'r' | b't' => at += 2,
                b'u' => {
                    let first = unit(s, at + 2)?;
                    at += 6;
                    match first {
                        0xd800..=0xdbff => {
                            if s.get(at..at + 2)? != b"\\u" || !(0xdc00..=0xdfff).contains(&unit(s, at + 2)?) {
                                return None;
                            }
                            at += 6;
                        }
                        0xdc00..=0xdfff => return None,
                        _ => {}
                    }
                }
                _ => return None,
            },
            0..=0x1f => return None,
            _ => at += 1,
        }
    }
}

fn unit(s: &[u8], at: usize) -> Option<u32> {
    let mut unit = 0;
    for &c in s.get(at..at + 4)? {
        unit = unit << 4 | (c as char).to_digit(16)?;
    }
    Some(unit)
}

fn digits(s: &[u8], mut at: usize) -> Option<usize> {
    if !s.get(at)?.is_ascii_digit() {
        return None;
    }
    while s.get(at).is_some_and(u8::is_ascii_digit) {
        at += 1;
    }
    Some(at)
}

fn number(s: &[u8], mut at: usize) -> Option<usize> {
    if s.get(at) == Some(&b'-') {
        at += 1;
    }
    at = if s.get(at) == Some(&b'0') { at + 1 } else { digits(s, at)? };
    if s.get(at) == Some(&b'.') {
        at = digits(s, at + 1)?;
    }
    if let Some(b'e' | b'E') = s.get(at) {
        at += 1;
        if let Some(b'+' | b'-') = s.get(at) {
            at += 1;
        }
        at = digits(s, at)?;
    }
    Some(at)
}
