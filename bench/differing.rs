//! What differs between two messages: 16 MiB that are the same, that differ in one octet, and objects of many members, in their
//! order and in another; beside a plain Rust reading of both into owned trees, with maps for objects, and a comparison of those.
//! The peer judges no rule of document 01 and lists nothing: it says whether the two are the same.

use crate::jwe::{encoded, letters, protected, rate, second, second_differences, DIR};
use crate::{line_with, repeated, speed, FEW, SIZE};
use std::collections::HashMap;
use std::hint::black_box;

extern "C" {
    fn jwe_differences(
        left: *const u8,
        left_len: usize,
        right: *const u8,
        right_len: usize,
        known: *const u8,
        known_len: usize,
        list: *mut u32,
        list_len: usize,
        left_refusal: *mut u32,
        right_refusal: *mut u32,
        lines: *mut usize,
    ) -> u32;
}

/// How many lines there are, where both are accepted.
fn lines(left: &[u8], right: &[u8], list: &mut [u32]) -> Option<usize> {
    let (mut refusals, mut lines) = ([1; 2], 0);
    let [one, other] = &mut refusals;
    // SAFETY: the pointers and lengths are those of slices.
    let own = unsafe {
        jwe_differences(
            left.as_ptr(),
            left.len(),
            right.as_ptr(),
            right.len(),
            [0u8].as_ptr(),
            1,
            list.as_mut_ptr(),
            list.len(),
            one,
            other,
            &mut lines,
        )
    };
    (own == 0 && refusals == [0, 0]).then_some(lines)
}

// The peer

#[derive(PartialEq)]
enum Tree<'a> {
    Object(HashMap<String, Tree<'a>>),
    /// An object that has a name twice.
    Repeating(&'a str),
    Array(Vec<Tree<'a>>),
    String(String),
    /// A number or a literal.
    Word(&'a str),
}

struct Text<'a> {
    text: &'a str,
    at: usize,
}

impl<'a> Text<'a> {
    fn next(&mut self) -> Option<u8> {
        while matches!(self.text.as_bytes().get(self.at), Some(b' ' | b'\t' | b'\n' | b'\r')) {
            self.at += 1;
        }
        self.text.as_bytes().get(self.at).copied()
    }

    fn take(&mut self, sign: u8) -> Option<()> {
        let found = self.next()? == sign;
        self.at += 1;
        found.then_some(())
    }

    fn unit(&mut self) -> Option<u16> {
        let digits = self.text.get(self.at..self.at + 4)?;
        self.at += 4;
        u16::from_str_radix(digits, 16).ok()
    }

    fn string(&mut self) -> Option<String> {
        self.take(b'"')?;
        let mut said = String::new();
        loop {
            let rest = &self.text.as_bytes()[self.at..];
            let plain = rest.iter().position(|&c| c == b'"' || c == b'\\')?;
            said.push_str(&self.text[self.at..self.at + plain]);
            self.at += plain + 1;
            if rest[plain] == b'"' {
                return Some(said);
            }
            let escape = *self.text.as_bytes().get(self.at)?;
            self.at += 1;
            let c = match escape {
                b'u' => {
                    let first = self.unit()?;
                    let mut units = vec![first];
                    if (0xd800..0xdc00).contains(&first) {
                        self.at += 2;
                        units.push(self.unit()?);
                    }
                    char::decode_utf16(units).next()?.ok()?
                }
                b'b' => '\x08',
                b'f' => '\x0c',
                b'n' => '\n',
                b'r' => '\r',
                b't' => '\t',
                c => c as char,
            };
            said.push(c);
        }
    }

    fn tree(&mut self) -> Option<Tree<'a>> {
        let first = self.next()?;
        let start = self.at;
        match first {
            b'{' => {
                let (mut members, mut count) = (HashMap::new(), 0);
                self.at += 1;
                while self.next()? != b'}' {
                    if count > 0 {
                        self.take(b',')?;
                        self.next()?;
                    }
                    let name = self.string()?;
                    self.take(b':')?;
                    members.insert(name, self.tree()?);
                    count += 1;
                }
                self.at += 1;
                let repeats = members.len() < count;
                Some(if repeats { Tree::Repeating(&self.text[start..self.at]) } else { Tree::Object(members) })
            }
            b'[' => {
                let mut elements = Vec::new();
                self.at += 1;
                while self.next()? != b']' {
                    if !elements.is_empty() {
                        self.take(b',')?;
                    }
                    elements.push(self.tree()?);
                }
                self.at += 1;
                Some(Tree::Array(elements))
            }
            b'"' => self.string().map(Tree::String),
            _ => {
                let rest = &self.text.as_bytes()[start..];
                self.at += rest.iter().position(|c| b" \t\n\r,]}".contains(c)).unwrap_or(rest.len());
                Some(Tree::Word(&self.text[start..self.at]))
            }
        }
    }
}

#[inline(never)]
fn peer_same(left: &[u8], right: &[u8]) -> bool {
    let tree = |octets| Text { text: std::str::from_utf8(octets).ok()?, at: 0 }.tree();
    let (one, other) = (tree(left), tree(right));
    one.is_some() && one == other
}

// Messages

/// A message with an own parameter that is an object of members, from texts.
fn of_members(members: impl Iterator<Item = String>) -> Vec<u8> {
    let members = members.collect::<Vec<_>>().join(",");
    format!(r#"{{{},"header":{{"x":{{{members}}}}},"ciphertext":"AQID"}}"#, protected()).into_bytes()
}

fn numbered(i: usize) -> String {
    format!(r#""member {i}":{i}"#)
}

type Pair = (&'static str, Vec<u8>, Vec<u8>);

/// Of 16 MiB each.
fn long_pairs() -> Vec<Pair> {
    let flattened = format!(r#"{{{},"iv":"AA","tag":"Ag","ciphertext":""#, protected());
    let value = format!(r#"{{{},"ciphertext":"AQID","header":{{"x":""#, protected());
    let objects = format!(r#"{{{},"ciphertext":"AQID","header":{{"x":["#, protected());
    let members = format!(r#"{{{},"ciphertext":"AQID","header":{{"x":{{"#, protected());
    let ciphertext = repeated(flattened.as_bytes(), letters, b"\"}");
    let text = repeated(value.as_bytes(), letters, b"\"}}");
    let mut other = text.clone();
    let last = text.iter().rposition(|&c| c == b'"').expect("a string") - 1;
    other[last] = if text[last] == b'A' { b'B' } else { b'A' };
    let listed = |part: &dyn Fn(usize) -> String, i: usize| {
        [if i > 0 { "," } else { "" }, &part(i)].concat().into_bytes()
    };
    let object = |i: usize| format!(r#"{{"a":{},"b":true}}"#, i % 1000);
    let turned = |i: usize| format!(r#"{{"b":true,"a":{}}}"#, i % 1000);
    let one = repeated(objects.as_bytes(), |i| listed(&object, i), b"]}}");
    let two = repeated(objects.as_bytes(), |i| listed(&turned, i), b"]}}");
    let short = |i: usize| format!(r#""{i}":0"#);
    let many = repeated(members.as_bytes(), |i| listed(&short, i), b"}}}");
    // A space more before the last brace, so that the octets are others.
    let mut spaced = many.clone();
    let end = many.iter().rposition(|&c| c == b'}').expect("an object");
    spaced.splice(end - 2..end - 2, *b" ");
    spaced.truncate(SIZE);
    vec![
        ("the same octets", ciphertext.clone(), ciphertext),
        ("a value's last octet", text, other),
        ("small objects turned", one, two),
        ("members in one order", many, spaced),
    ]
}

/// Smaller ones.
fn pairs() -> Vec<Pair> {
    let n = 100_000;
    let plain = of_members((0..n).map(numbered));
    let m = format!("{}..AA.AQID.Ag", encoded(format!("{{{DIR}}}").as_bytes()));
    let flat = |kid: &str| {
        let key = encoded(&[5; 40]);
        let own = format!(r#""header":{{"alg":"A128KW","kid":"{kid}"}}"#);
        let protected = encoded(br#"{"enc":"A128GCM"}"#);
        format!(r#"{{"protected":"{protected}",{own},"encrypted_key":"{key}","ciphertext":"AQID"}}"#).into_bytes()
    };
    vec![
        ("100,000 members", plain.clone(), plain.clone()),
        ("100,000, reversed", plain.clone(), of_members((0..n).rev().map(numbered))),
        // 7919 is prime to 100,000, so that each member comes once.
        ("100,000, mixed", plain, of_members((0..n).map(|i| numbered(i * 7919 % n)))),
        ("300 members, mixed", of_members((0..300).map(numbered)), of_members((0..300).map(|i| numbered(i * 7 % 300)))),
        ("flat, another kid", flat("plant"), flat("firm")),
        ("M and itself", m.clone().into_bytes(), m.into_bytes()),
    ]
}

/// Ours lists what the second implementation of the host tests does, and the peer agrees where both are JSON.
fn compare(name: &str, left: &[u8], right: &[u8], list: &mut [u32]) {
    assert_eq!(second::read(left, &[0], 0, 4096, 576).refusal, 0, "{name}");
    let expected = second_differences::differences(left, right, &[0]);
    assert_eq!(lines(left, right, list), Some(expected.lines.len()), "{name}");
    assert_eq!(list[..8 * expected.lines.len()], expected.lines.concat(), "{name}");
    if left[0] == b'{' {
        assert_eq!(peer_same(left, right), expected.lines.is_empty(), "{name}");
    }
}

pub fn measure() {
    let mut list = vec![1; 12_408];
    println!();
    println!("What differs between two messages of 16 MiB, in MB of one of them. Peer: both into owned trees, and these compared.");
    println!();
    println!("{:<20} {:>9} {:>19} {:>19}", "MB/s", "ours", "peer", "ours/peer");
    println!("{:<20}{}", "(MB = 10^6)", "      best    median".repeat(3));
    for (name, left, right) in &long_pairs() {
        assert_eq!((left.len(), right.len()), (SIZE, SIZE), "{name}");
        compare(name, left, right, &mut list);
        let same = peer_same(left, right);
        line_with(
            name,
            FEW,
            || speed(|| lines(black_box(left), black_box(right), &mut list).is_some()),
            || speed(|| peer_same(black_box(left), black_box(right)) == same),
            "",
        );
    }
    println!();
    println!("Smaller ones, in comparisons per second; the peer takes M as the JSON string of its text.");
    println!();
    for (name, left, right) in &pairs() {
        compare(name, left, right, &mut list);
        let count = (4 << 20) / (left.len() + 100) + 1;
        let quoted = |message: &[u8]| if message[0] == b'{' { message.to_vec() } else { [b"\"", message, b"\""].concat() };
        let (one, other) = (quoted(left), quoted(right));
        let same = peer_same(&one, &other);
        line_with(
            name,
            FEW,
            || rate(count, || lines(black_box(left), black_box(right), &mut list).is_some()),
            || rate(count, || peer_same(black_box(&one), black_box(&other)) == same),
            "",
        );
    }
}
