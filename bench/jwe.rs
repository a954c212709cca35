//! Reading messages: those of 16 MiB that are usual, and the worst ones, beside one plain Rust pass over the same octets; and
//! small ones, in messages per second. The peer only validates: JSON by the validator, a compact message by its dots, its
//! characters and its header's JSON. Ours judges all of document 01 and hands out the list.

use crate::peers::Peer;
use crate::validator;
use crate::{encode, line, listed, peer_check, peer_decode, processor_time, repeated, speed, value, ALPHABET, BAD, SIZE};
use std::hint::black_box;

#[path = "../tests/host/second.rs"]
pub mod second;
#[allow(dead_code)]
#[path = "../tests/host/second_differences.rs"]
pub mod second_differences;

extern "C" {
    fn jwe_read(
        message: *const u8,
        message_len: usize,
        known: *const u8,
        known_len: usize,
        recipient: u32,
        header: *mut u8,
        header_len: usize,
        list: *mut u32,
        list_len: usize,
        result: *mut u32,
        result_len: usize,
    ) -> u32;
}

/// Our reader, and what is lent to it.
pub struct Reader {
    header: Vec<u8>,
    list: Vec<u32>,
    result: [u32; 18],
}

impl Reader {
    /// No known names. Answers whether the message is accepted.
    pub fn read(&mut self, message: &[u8], recipient: u32) -> bool {
        self.refusal(message, recipient) == 0
    }

    pub fn refusal(&mut self, message: &[u8], recipient: u32) -> u32 {
        // SAFETY: the pointers and lengths are those of slices.
        unsafe {
            jwe_read(
                message.as_ptr(),
                message.len(),
                [0u8].as_ptr(),
                1,
                recipient,
                self.header.as_mut_ptr(),
                self.header.len(),
                self.list.as_mut_ptr(),
                self.list.len(),
                self.result.as_mut_ptr(),
                self.result.len(),
            )
        }
    }

    /// Ours hands out what the second reader of the host tests does.
    pub fn compare(&mut self, name: &str, message: &[u8]) {
        let answer = second::read(message, &[0], 0, self.header.len(), self.list.len());
        assert_eq!(answer.refusal, 0, "{name}");
        assert!(self.read(message, 0), "{name}");
        assert_eq!(self.result[..4], [0, answer.form, answer.recipients, answer.mode], "{name}");
        assert_eq!(self.result[4..16], answer.places.concat(), "{name}");
        assert_eq!(self.result[16..], [answer.header.len() as u32, answer.list.len() as u32 / 6], "{name}");
        assert_eq!(self.header[..answer.header.len()], answer.header, "{name}");
        assert_eq!(self.list[..answer.list.len()], answer.list, "{name}");
    }
}

// The peer: one pass

#[inline(never)]
fn peer_read(message: &[u8]) -> bool {
    if message.first() == Some(&b'{') {
        return validator::judge(message, 12).is_some();
    }
    peer_compact(message).is_some()
}

fn peer_compact(message: &[u8]) -> Option<()> {
    let mut octets = [0; 4096];
    let (mut at, n) = decoded_part(message, &mut octets)?;
    validator::judge(&octets[..n], 12)?;
    for _ in 0..4 {
        if *message.get(at)? != b'.' {
            return None;
        }
        at += 1 + part(&message[at + 1..])?;
    }
    (at == message.len()).then_some(())
}

/// What stands before the next dot, of the last characters that are no whole group.
fn tail(text: &[u8]) -> &[u8] {
    &text[..text.iter().take(4).take_while(|&&c| c != b'.').count()]
}

/// How many characters a text has before its first dot or its end, if they are base64url.
fn part(text: &[u8]) -> Option<usize> {
    let bad = |g: &[u8]| (value(g[0]) | value(g[1]) | value(g[2]) | value(g[3])) & BAD != 0;
    let whole = text.chunks_exact(4).position(bad).unwrap_or(text.len() / 4) * 4;
    let tail = tail(&text[whole..]);
    peer_check(tail).then_some(whole + tail.len())
}

/// The same, decoded: the characters and the octets.
fn decoded_part(text: &[u8], out: &mut [u8]) -> Option<(usize, usize)> {
    let mut groups = 0;
    for (g, place) in text.chunks_exact(4).zip(out.chunks_exact_mut(3)) {
        let (a, b, c, d) = (value(g[0]), value(g[1]), value(g[2]), value(g[3]));
        if (a | b | c | d) & BAD != 0 {
            break;
        }
        place[0] = a << 2 | b >> 4;
        place[1] = b << 4 | c >> 2;
        place[2] = c << 6 | d;
        groups += 1;
    }
    let tail = tail(&text[groups * 4..]);
    let n = peer_decode(tail, &mut out[groups * 3..])?;
    Some((groups * 4 + tail.len(), groups * 3 + n))
}

// Messages

pub const DIR: &str = r#""alg":"dir","enc":"A128GCM""#;

pub fn encoded(octets: &[u8]) -> String {
    let mut text = vec![0; octets.len() * 2];
    let end = encode(octets, &mut text).expect("room");
    text.truncate(end);
    String::from_utf8(text).expect("the alphabet is ASCII")
}

pub fn protected() -> String {
    format!(r#""protected":"{}""#, encoded(format!("{{{DIR}}}").as_bytes()))
}

/// Four characters of base64url.
pub fn letters(i: usize) -> Vec<u8> {
    (0..4).map(|j| ALPHABET[(i * 4 + j) * 7 % 64]).collect()
}

/// SIZE octets: a beginning, eight elements with a long parameter of their own each, an end.
fn eight(open: &str, part: impl Fn(usize) -> Vec<u8>, close: &str) -> Vec<u8> {
    let mut text = br#"{"unprotected":{"enc":"A128GCM"},"ciphertext":"AQID","recipients":["#.to_vec();
    let most = (SIZE - 1000) / 8;
    for recipient in 0..8 {
        let mut element = format!(r#"{{"header":{{"alg":"dir","x":{open}"#).into_bytes();
        for i in 0.. {
            let part = part(i);
            if element.len() + part.len() + 10 > most {
                break;
            }
            element.extend(part);
        }
        element.extend(format!("{close}}}}}").into_bytes());
        if recipient > 0 {
            text.push(b',');
        }
        text.extend(element);
    }
    text.extend_from_slice(b"]}");
    text.resize(SIZE, b' ');
    text
}

/// Members with names that have the same length and the same beginning.
fn long_names(from: usize, count: usize, length: usize) -> String {
    let beginning = "n".repeat(length - 3);
    (from..from + count).map(|i| format!(r#""{beginning}{i:03}":0"#)).collect::<Vec<_>>().join(",")
}

/// SIZE octets, the rest of them spaces.
fn filled(text: String) -> Vec<u8> {
    assert!(text.len() <= SIZE);
    let mut text = text.into_bytes();
    text.resize(SIZE, b' ');
    text
}

fn long_messages() -> Vec<(&'static str, Vec<u8>)> {
    let header = encoded(format!("{{{DIR}}}").as_bytes());
    let flattened = format!(r#"{{{},"iv":"AA","tag":"Ag","ciphertext":""#, protected());
    let shared_value = format!(r#"{{{},"ciphertext":"AQID","unprotected":{{"x":""#, protected());
    let mut compact = format!("{header}..AA.").into_bytes();
    while compact.len() + 8 <= SIZE {
        compact.extend(letters(compact.len()));
    }
    compact.extend_from_slice(b".AgA");
    let number = |i: usize| listed(i, &(i % 100).to_string());
    let own_names = |i: usize| format!(r#"{{"header":{{{}}}}}"#, long_names(100 + 2 * i, 2, 500_000));
    vec![
        ("compact, ciphertext", compact),
        ("flat, ciphertext", repeated(flattened.as_bytes(), letters, b"\"}")),
        ("8 own strings", eight("\"", letters, "\"")),
        ("8 own arrays", eight("[", number, "]")),
        ("32 names, shared", filled(format!(
            r#"{{{},"unprotected":{{{}}},"ciphertext":"AQID"}}"#, protected(), long_names(0, 32, 500_000)
        ))),
        ("30 names, top level", filled(format!(
            r#"{{{},{},"ciphertext":"AQID"}}"#, protected(), long_names(0, 30, 500_000)
        ))),
        ("16 names and 8 by 2", filled(format!(
            r#"{{{},"unprotected":{{{}}},"ciphertext":"AQID","recipients":[{}]}}"#,
            protected(),
            long_names(0, 16, 500_000),
            (0..8).map(own_names).collect::<Vec<_>>().join(","),
        ))),
        ("one shared value", repeated(shared_value.as_bytes(), letters, b"\"}}")),
    ]
}

fn small_messages() -> Vec<(&'static str, Vec<u8>)> {
    let deep = "[[[[[[[[[[[]]]]]]]]]]]";
    let mut header = format!(r#"{{{DIR},"x":[[]"#);
    while header.len() + 1 + deep.len() + 2 <= 4096 {
        header.push(',');
        header += &deep[1..deep.len() - 1];
    }
    header += &" ".repeat(4096 - 2 - header.len());
    header += "]}";
    assert_eq!(header.len(), 4096);
    // `enc` in the protected header, where there is nothing to compare; or in each own one, where each is compared.
    let general = |start: String, enc: &str| {
        let element = |i: usize| {
            let key = encoded(&[i as u8; 24]);
            format!(r#"{{"header":{{"alg":"A128KW",{enc}"kid":"recipient {i}"}},"encrypted_key":"{key}"}}"#)
        };
        format!(
            r#"{{{start}"recipients":[{}],"iv":"{}","ciphertext":"{}","tag":"{}"}}"#,
            (0..8).map(element).collect::<Vec<_>>().join(","),
            encoded(&[5; 12]),
            encoded(&[6; 60]),
            encoded(&[7; 16]),
        )
    };
    let protected_enc = format!(r#""protected":"{}","#, encoded(br#"{"enc":"A128GCM"}"#));
    vec![
        ("M, 51 octets", format!("{}..AA.AQID.Ag", encoded(format!("{{{DIR}}}").as_bytes())).into_bytes()),
        ("1 KB, 8 recipients", general(protected_enc, "").into_bytes()),
        ("1 KB, 8 recipients, own enc", general(String::new(), r#""enc":"A128GCM","#).into_bytes()),
        ("header of arrays", format!("{}..AA.AQID.Ag", encoded(header.as_bytes())).into_bytes()),
    ]
}

/// Messages per second.
pub fn rate(count: usize, mut work: impl FnMut() -> bool) -> f64 {
    let start = processor_time();
    let good = (0..count).all(|_| work());
    let seconds = processor_time() - start;
    assert!(good);
    count as f64 / seconds
}

impl Reader {
    pub fn new() -> Self {
        Reader { header: vec![1; 4096], list: vec![1; 576], result: [1; 18] }
    }
}

/// The peer gives the second reader's answer on compact messages with one octet otherwise, where that is 5 or not.
fn compare_peer() {
    let (_, message) = small_messages().swap_remove(0);
    for at in 0..message.len() {
        for c in *b".=A_B" {
            let mut damaged = message.clone();
            damaged[at] = c;
            let refusal = second::read(&damaged, &[0], 0, 4096, 576).refusal;
            assert_eq!(peer_read(&damaged), ![4, 5, 6, 7].contains(&refusal), "{}", damaged.escape_ascii());
        }
    }
}

pub fn measure(reader: &mut Reader, peers: &[Peer]) {
    compare_peer();
    println!();
    println!("Messages of 16 MiB. Peer: from_utf8 and a plain Rust recursive descent; for compact ones a table loop, one pass.");
    println!("Named peers as they come: cjose takes messages apart, serde_json and simdjson read the JSON alone.");
    println!();
    println!("{:<20} {:>9} {:>19} {:>19}", "MB/s", "ours", "peer", "ours/peer");
    println!("{:<20}{}", "(MB = 10^6)", "      best    median".repeat(3));
    for (name, message) in &long_messages() {
        assert_eq!(message.len(), SIZE, "{name}");
        reader.compare(name, message);
        line(
            name,
            || speed(|| reader.read(black_box(message), 0)),
            || speed(|| peer_read(black_box(message))),
        );
        for peer in peers {
            peer.judge(message, true, || speed(|| reader.read(black_box(message), 0)), |work| speed(work));
        }
    }
    println!();
    println!("Small messages, in messages per second.");
    println!();
    for (name, message) in &small_messages() {
        reader.compare(name, message);
        let count = (8 << 20) / (message.len() + 100);
        line(
            name,
            || rate(count, || reader.read(black_box(message), 0)),
            || rate(count, || peer_read(black_box(message))),
        );
        for peer in peers {
            peer.judge(message, true, || rate(count, || reader.read(black_box(message), 0)), |work| rate(count, work));
        }
    }
}
