//! Runs the program `inspect` on the published messages and on messages made by chance, and holds what it writes to the text
//! that follows from the second reader's answer.
//!
//!     compare PROGRAM COUNT SEED MESSAGE..
//!
//! Exits 1 at the first difference, which it shows.
#![allow(dead_code)]

#[path = "../host/jwe.rs"]
mod jwe;
#[path = "../host/lent.rs"]
mod lent;
#[path = "../host/random.rs"]
mod random;
#[path = "../host/reference.rs"]
mod reference;
#[path = "../host/writer.rs"]
mod writer;

use jwe::messages::made;
use jwe::{second, NUMBERS};
use random::Random;
use reference::Reference;
use std::io::{Read, Write};
use std::process::{exit, Command, Stdio};

/// The longest message that the program reads.
const LONGEST: usize = 61_440;

const FORMS: [&str; 3] = ["compact", "flattened", "general"];
const MODES: [&str; 5] =
    ["key-encryption", "key-wrapping", "direct-agreement", "agreement-with-wrapping", "direct-encryption"];
const COMPONENTS: [&str; 6] = ["protected", "key", "iv", "aad", "ciphertext", "tag"];
const ORIGINS: [&str; 3] = ["p", "u", "r"];
const KINDS: [&str; 7] = ["object", "array", "string", "number", "true", "false", "null"];

/// The lines of document 01's program: no known names, recipient 0.
fn text(message: &[u8]) -> String {
    if message.len() > LONGEST {
        return "too long\n".into();
    }
    let answer = second::read(message, &[0], 0, 4096, 576);
    if answer.refusal != 0 {
        return format!("refused {}\n", answer.refusal);
    }
    let (form, mode) = (FORMS[answer.form as usize], MODES[answer.mode as usize - 1]);
    let mut text = format!("accepted {form} {} {mode}\n", answer.recipients);
    for (component, [start, length]) in COMPONENTS.iter().zip(answer.places) {
        text += &format!("{component} {start} {length}\n");
    }
    for row in answer.list.chunks_exact(6) {
        let (origin, kind) = (ORIGINS[row[0] as usize], KINDS[row[5] as usize]);
        text += &format!("{origin} {} {} {} {} {kind}\n", row[1], row[2], row[3], row[4]);
    }
    text
}

/// What the program writes on a message, and to standard error.
fn written(program: &str, message: &[u8]) -> std::io::Result<(String, String)> {
    let mut child =
        Command::new(program).stdin(Stdio::piped()).stdout(Stdio::piped()).stderr(Stdio::piped()).spawn()?;
    // A pipe holds 65,536 octets, so that this waits for nobody. What the program does not read is not wanted.
    drop(child.stdin.take().expect("a pipe").write_all(message));
    let (mut out, mut err) = (String::new(), String::new());
    child.stdout.take().expect("a pipe").read_to_string(&mut out)?;
    child.stderr.take().expect("a pipe").read_to_string(&mut err)?;
    let status = child.wait()?;
    if !status.success() {
        err += &format!("{status}");
    }
    Ok((out, err))
}

struct Comparer {
    program: String,
    /// How often each refusal was expected, and 0, and 'too long' as 2.
    counts: [u64; NUMBERS],
}

impl Comparer {
    fn compare(&mut self, name: &str, message: &[u8]) {
        let expected = text(message);
        let (out, err) = written(&self.program, message).unwrap_or_else(|trouble| {
            println!("FAILED inspect: {} cannot be run: {trouble}", self.program);
            exit(2)
        });
        if out != expected || !err.is_empty() {
            println!("MISMATCH in inspect, {name}\n message {}", message.escape_ascii());
            println!("expected\n{expected}     got\n{out}{err}");
            exit(1);
        }
        let number = match expected.split(' ').next() {
            Some("refused") => expected["refused ".len()..].trim_end().parse().expect("a number"),
            Some("too") => 2,
            _ => 0,
        };
        self.counts[number] += 1;
    }
}

fn main() {
    let arguments: Vec<String> = std::env::args().collect();
    let [_, program, count, seed, paths @ ..] = &arguments[..] else { panic!("usage: compare PROGRAM COUNT SEED MESSAGE..") };
    let count: usize = count.parse().expect("the count is a number");
    let mut random = Random(seed.parse().expect("the seed is a number"));
    let reference = Reference::new();
    let mut comparer = Comparer { program: program.clone(), counts: [0; NUMBERS] };
    println!("inspect beside the second reader: seed {seed}");
    for path in paths {
        comparer.compare(path, &std::fs::read(path).expect(path));
    }
    let mut made_ones = 0;
    while made_ones < count {
        let (_, mut call) = made(&mut random, &reference);
        // The maker's messages are short: some are filled up to the longest one and over.
        if made_ones % 100 == 0 {
            let padding = if call.message.first() == Some(&b'{') { b' ' } else { b'A' };
            call.message.resize(LONGEST - 2 + random.below(4), padding);
        }
        comparer.compare("made by chance", &call.message);
        made_ones += 1;
    }
    let numbers: Vec<String> = (0..NUMBERS).filter(|&n| comparer.counts[n] > 0).map(|n| format!("{n}: {}", comparer.counts[n])).collect();
    println!("inspect: {} published messages and {made_ones} made: no difference; answers {}", paths.len(), numbers.join(", "));
    // The program's buffers are long enough, its known list is sound and recipient 0 there: 1, 3 and 19 do not come, nor does 20,
    // which is a writer's.
    if let Some(number) = (0..NUMBERS).find(|&n| comparer.counts[n] == 0 && ![1, 3, 19, 20].contains(&n)) {
        println!("FAILED inspect: no message had the answer {number}");
        exit(1);
    }
}
