//! Messages of a sender who wants to cost time: names made to have one fingerprint, beside names of the same lengths with
//! fingerprints of their own; and messages that are refused, late and at their end.

use crate::jwe::{encoded, letters, protected, second, Reader, DIR};
use crate::{processor_time, FEW, SIZE};
use std::hint::black_box;

#[allow(dead_code)]
#[path = "../tests/host/colliding.rs"]
mod colliding;

/// How many characters of a name, from its first on, are spelled as escapes.
#[derive(Clone, Copy)]
enum Escapes {
    None,
    First,
    All,
}

fn spelled(name: &str, escapes: Escapes) -> String {
    let (escaped, rest) = name.split_at(match escapes {
        Escapes::None => 0,
        Escapes::First => 1,
        Escapes::All => name.len(),
    });
    escaped.bytes().map(|c| format!("\\u{c:04x}")).collect::<String>() + rest
}

fn members(names: &[String], escapes: Escapes) -> String {
    names.iter().map(|name| format!(r#""{}":0"#, spelled(name, escapes))).collect::<Vec<_>>().join(",")
}

fn compact(names: &[String], escapes: Escapes) -> Vec<u8> {
    let header = format!("{{{DIR},{}}}", members(names, escapes));
    assert!((4000..=4096).contains(&header.len()));
    format!("{}..AA.AQID.Ag", encoded(header.as_bytes())).into_bytes()
}

fn shared(names: &[String], escapes: Escapes) -> Vec<u8> {
    format!(r#"{{{},"unprotected":{{{}}},"ciphertext":"AQID"}}"#, protected(), members(names, escapes)).into_bytes()
}

/// Eight recipients with 32 names each, and perhaps others in the shared header.
fn eight(own: &[String], shared: &[String]) -> Vec<u8> {
    let element = format!(r#"{{"header":{{{}}}}}"#, members(own, Escapes::None));
    let shared = if shared.is_empty() { String::new() } else { format!(r#""unprotected":{{{}}},"#, members(shared, Escapes::None)) };
    let elements = vec![element; 8].join(",");
    format!(r#"{{{},{shared}"ciphertext":"AQID","recipients":[{elements}]}}"#, protected()).into_bytes()
}

/// Seconds for one reading, in which a message is read so often that the clock can tell.
fn seconds(reader: &mut Reader, message: &[u8], recipient: u32) -> f64 {
    let times = (1 << 20) / message.len() + 1;
    let start = processor_time();
    for _ in 0..times {
        black_box(reader.read(black_box(message), recipient));
    }
    (processor_time() - start) / times as f64
}

/// One line: a message and its plain twin, in turn.
fn beside(reader: &mut Reader, name: &str, hostile: &[u8], plain: &[u8]) {
    assert_eq!(hostile.len(), plain.len(), "{name}");
    reader.compare(name, hostile);
    reader.compare(name, plain);
    let rounds = (0..=FEW).map(|_| (seconds(reader, hostile, 0), seconds(reader, plain, 0))).skip(1);
    let (mut hostiles, mut plains): (Vec<f64>, Vec<f64>) = rounds.unzip();
    hostiles.sort_by(f64::total_cmp);
    plains.sort_by(f64::total_cmp);
    println!(
        "{name:<30} {:>11} {:>11.1} {:>11.1} {:>9.2} {:>9.2}",
        hostile.len(),
        hostiles[0] * 1e6,
        plains[0] * 1e6,
        hostiles[0] / plains[0],
        hostiles[FEW / 2] / plains[FEW / 2]
    );
}

type Names = fn(usize, usize) -> Vec<String>;

pub fn measure(reader: &mut Reader) {
    println!();
    println!("Names with one fingerprint, beside names of the same lengths that have fingerprints of their own.");
    println!();
    println!("{:<30} {:>11} {:>11} {:>11} {:>19}", "", "octets", "one, us", "own, us", "one/own");
    println!("{:<30} {:>11} {:>11} {:>11} {:>9} {:>9}", "", "", "best", "best", "best", "median");
    let messages: [(&str, &dyn Fn(Names) -> Vec<u8>); 8] = [
        ("30, header of 4,096 octets", &|names| compact(&names(30, 130), Escapes::None)),
        ("the same, an escape in each", &|names| compact(&names(30, 125), Escapes::First)),
        ("32 of 100 octets, shared", &|names| shared(&names(32, 100), Escapes::None)),
        ("32 of 500,000 octets, shared", &|names| shared(&names(32, 500_000), Escapes::None)),
        ("the same, an escape in each", &|names| shared(&names(32, 500_000), Escapes::First)),
        ("32 of 80,000 escapes, shared", &|names| shared(&names(32, 80_000), Escapes::All)),
        ("8 recipients of 32", &|names| eight(&names(32, 60_000), &[])),
        ("8 of 32, and 32 shared", &|names| {
            let all = names(64, 50_000);
            eight(&all[..32], &all[32..])
        }),
    ];
    for (name, message) in messages {
        beside(reader, name, &message(colliding::names), &message(colliding::plain));
    }
    refused(reader);
}

/// Refused messages of 16 MiB, each with its number by the second reader.
fn refused(reader: &mut Reader) {
    let ciphertext = |start: String, end: &str| {
        let mut text = start.into_bytes();
        while text.len() + 4 + end.len() <= SIZE {
            text.extend(letters(text.len()));
        }
        text.extend_from_slice(end.as_bytes());
        text
    };
    let header = encoded(format!("{{{DIR}}}").as_bytes());
    let flat = |end: &str| ciphertext(format!(r#"{{{},"iv":"AA","tag":"Ag","ciphertext":""#, protected()), end);
    let messages = [
        ("compact, accepted", ciphertext(format!("{header}..AA."), ".AgA"), 0),
        ("compact, a key in mode 5", ciphertext(format!("{header}.AA.AA."), ".AgA"), 0),
        ("compact, recipient 1", ciphertext(format!("{header}..AA."), ".AgA"), 1),
        ("compact, wrong last octet", ciphertext(format!("{header}..AA."), ".AA="), 0),
        ("compact, no dots", ciphertext(String::new(), ""), 0),
        ("compact, dots alone", vec![b'.'; SIZE], 0),
        ("flat, accepted", flat("\"}"), 0),
        ("flat, recipient 1", flat("\"}"), 1),
        ("flat, no closing brace", flat("\""), 0),
        ("flat, wrong last octet", flat("=\"}"), 0),
    ];
    println!();
    println!("Messages of 16 MiB that are refused, beside accepted ones.");
    println!();
    println!("{:<30} {:>11} {:>11} {:>11}", "microseconds", "refusal", "best", "median");
    for (name, message, recipient) in messages {
        let expected = second::read(&message, &[0], recipient, 4096, 576).refusal;
        assert_eq!(reader.refusal(&message, recipient), expected, "{name}");
        let mut times: Vec<f64> = (0..=FEW).map(|_| seconds(reader, &message, recipient) * 1e6).skip(1).collect();
        times.sort_by(f64::total_cmp);
        println!("{name:<30} {expected:>11} {:>11.1} {:>11.1}", times[0], times[FEW / 2]);
    }
}
