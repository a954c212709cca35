//! A fuzzer: changes messages, keeps those that make a block of the archive run for the first time or that reach an answer of
//! a new kind, and goes on from them. Now and then a message of the host tests' maker is the one that is changed. Every answer
//! is compared with the second reader's, by the comparer of the host tests, which looks at all lent memory too; a difference is
//! shown, its message cut down, and ends the program with status 1. The other functions are compared besides, jwe_differences on
//! the message and the one that it was made of.
//!
//!     fuzz SECONDS SEED BLOCKS MESSAGE..
//!
//! BLOCKS is what tests/fuzz/blocks lists; those that did not run are written beside it. With the same seed the same inputs
//! come in the same order, however fast.
#![allow(dead_code)]

mod cover;
#[path = "../host/differences.rs"]
mod differences;
#[path = "../host/json_writer.rs"]
mod json_writer;
mod json_writers;
#[path = "../host/jwe.rs"]
mod jwe;
#[path = "../host/lent.rs"]
mod lent;
#[path = "../host/library.rs"]
mod library;
mod mutate;
#[path = "../host/random.rs"]
mod random;
#[path = "../host/reader.rs"]
mod reader;
#[path = "../host/reference.rs"]
mod reference;
#[path = "../host/writer.rs"]
mod writer;

use differences::Differ;
use json_writers::json_writers_agree;
use jwe::difference_cases;
use jwe::messages::made;
use jwe::second::Answer;
use jwe::{cases, Call, Comparer, NUMBERS};
use mutate::Mutator;
use reference::Reference;
use std::collections::{BTreeMap, BTreeSet, HashSet};
use std::time::{Duration, Instant};

extern "C" {
    fn jwe_decode(text: *const u8, text_len: usize, out: *mut u8, out_len: usize, octets: *mut usize) -> u32;
}

/// What makes two answers of one kind: JSON or not, the refusal, whether a recipient but the first is asked for; accepted, also
/// form, recipients, mode and either the rows or which components there are, empty or not.
type Kind = (bool, u32, bool, [u32; 3], Result<u32, u32>);

fn kinds_of(call: &Call, answer: &Answer) -> [Kind; 2] {
    let json = call.message.iter().find(|c| !b" \t\n\r".contains(c)) == Some(&b'{');
    let rows = answer.list.len() as u32 / 6;
    let components = answer.places.iter().fold(0, |seen, place| seen * 3 + (place[0] > 0) as u32 + (place[1] > 0) as u32);
    let numbers = [answer.form, answer.recipients, answer.mode];
    [Ok(rows), Err(components)].map(|last| (json, answer.refusal, call.recipient > 0, numbers, last))
}

/// The other functions give what follows from the second reader's answer: judging its number, each component its octets, and
/// what was read of a compact message, written again, the message or the same refusal.
fn others_agree(call: &Call, answer: &Answer, reference: &Reference) -> bool {
    let Call { message, known, recipient, .. } = call;
    let mut out = vec![0; message.len()];
    let mut octets = usize::MAX;
    if library::judge(message, known, *recipient) != answer.refusal {
        return false;
    }
    if answer.refusal != 0 {
        let refusal = library::component(message, known, *recipient, 4, &mut out, &mut octets);
        return refusal == answer.refusal && octets == 0 && writer_agrees(call, answer.refusal, reference);
    }
    for (component, [start, length]) in answer.places.iter().enumerate() {
        let encoded = &message[*start as usize..][..*length as usize];
        let Some(decoded) = reference.decode(encoded) else { return false };
        let refusal = library::component(message, known, *recipient, component as u32, &mut out, &mut octets);
        if refusal != 0 || octets != decoded.len() || out[..octets] != decoded {
            return false;
        }
        if let Some(short) = decoded.len().checked_sub(1) {
            let refusal = library::component(message, known, *recipient, component as u32, &mut out[..short], &mut octets);
            if refusal != 1 || octets != 0 {
                return false;
            }
        }
    }
    writer_agrees(call, 0, reference)
}

/// Compact: the parts, decoded and written again, give the message, or the reader's refusal if that is one of the writer's.
fn writer_agrees(call: &Call, refusal: u32, reference: &Reference) -> bool {
    let parts = call.message.split(|&c| c == b'.').map(|part| reference.decode(part)).collect::<Option<Vec<Vec<u8>>>>();
    let Some([header, key, iv, ciphertext, tag]) = parts.as_deref() else { return true };
    // The writer is asked for no recipient.
    let expected = if refusal == 19 { 0 } else { refusal };
    let mut out = vec![0; call.message.len()];
    let mut octets = usize::MAX;
    let inputs = [&header[..], key, iv, ciphertext, tag, &call.known];
    let answer = library::write_compact(inputs, &mut out, &mut octets);
    if expected != 0 {
        return answer == expected && octets == 0 && out.iter().all(|&c| c == 0);
    }
    let written = answer == 0 && octets == call.message.len() && out == call.message;
    let short = out.len() - 1;
    written && library::write_compact(inputs, &mut out[..short], &mut octets) == 1 && octets == 0
}

/// The host tests' messages by hand that are short. Some have names with one fingerprint, which chance does not make.
fn by_hand() -> impl Iterator<Item = Call> {
    let pairs = difference_cases::all().into_iter().flat_map(|case| [case.left, case.right]);
    let compared: BTreeSet<Vec<u8>> = pairs.chain([many_members(false), many_members(true)]).collect();
    let calls = cases::all().into_iter().map(|case| case.call).chain(compared.into_iter().map(Call::new));
    calls.filter(|call| call.message.len() <= mutate::LONGEST)
}

/// A value of more members than are compared by pairs, in their order or reversed.
fn many_members(reversed: bool) -> Vec<u8> {
    let mut members: Vec<String> = (0..100).map(|i| format!(r#""m{i}":{i}"#)).collect();
    if reversed {
        members.reverse();
    }
    let header = r#"{"unprotected":{"alg":"dir","enc":"A128GCM","x":{"#;
    [header, &members.join(","), r#"}},"ciphertext":""}"#].concat().into_bytes()
}

fn main() {
    let arguments: Vec<String> = std::env::args().collect();
    let [_, seconds, seed, path, messages @ ..] = &arguments[..] else { panic!("usage: fuzz SECONDS SEED BLOCKS MESSAGE..") };
    let seconds = seconds.parse().expect("the seconds are a number");
    let seed = seed.parse().expect("the seed is a number");
    let listed = std::fs::read_to_string(path).expect("the list of blocks");
    let named: BTreeMap<usize, &str> = listed
        .lines()
        .map(|line| {
            let (address, name) = line.split_once(' ').expect("an address and a name");
            (usize::from_str_radix(address, 16).expect("an address"), name)
        })
        .collect();
    let blocks: Vec<usize> = named.keys().copied().collect();

    let reference = Reference::new();
    let mut mutator = Mutator::new(seed);
    let mut comparer = Comparer::new(&jwe::ours, &mut mutator.random);
    let mut differ = Differ::new(&mut mutator.random);
    let mut corpus: Vec<Call> = messages.iter().map(|path| Call::new(std::fs::read(path).expect(path))).collect();
    corpus.extend(by_hand());
    let mut leading: Vec<usize> = Vec::new();
    let (mut kinds, mut numbers) = (HashSet::new(), [0u64; NUMBERS]);
    cover::watch(&blocks);

    let start = Instant::now();
    let (mut executions, mut told) = (0u64, Duration::ZERO);
    let given = corpus.len();
    while start.elapsed() < Duration::from_secs(seconds) {
        let first = executions < given as u64;
        // What it is made of, and the message.
        let (from, call) = if first {
            let at = executions as usize;
            (corpus[at.saturating_sub(1)].clone(), corpus[at].clone())
        } else {
            let n = corpus.len();
            let other = mutator.random.below(n);
            match mutator.random.below(16) {
                0 => {
                    let (_, made) = made(&mut mutator.random, &reference);
                    let call = Call { known: made.known, recipient: made.recipient, ..Call::new(made.message) };
                    let mutated = mutator.mutated(&call, &corpus[other]);
                    (call, mutated)
                }
                // Those that made a block run lead further more often.
                1..=8 if !leading.is_empty() => {
                    let one = leading[mutator.random.below(leading.len())];
                    (corpus[one].clone(), mutator.mutated(&corpus[one], &corpus[other]))
                }
                _ => {
                    let one = mutator.random.below(n);
                    (corpus[one].clone(), mutator.mutated(&corpus[one], &corpus[other]))
                }
            }
        };
        executions += 1;
        let before = cover::count();
        let answer = comparer.compare("fuzzed", &call);
        let agree = || others_agree(&call, &answer, &reference) && json_writers_agree(&call, &answer, &reference);
        if answer.refusal != 1 && !agree() {
            println!("MISMATCH in the other functions, seed {seed}, execution {executions}");
            println!(" message {}", call.message.escape_ascii());
            println!("   known {}", call.known.escape_ascii());
            println!("   asked recipient {}\nexpected {answer:?}", call.recipient);
            std::process::exit(1);
        }
        differ.pair("fuzzed", [&from.message, &call.message, &call.known]);
        numbers[answer.refusal as usize] += 1;
        let new_kind = kinds_of(&call, &answer).map(|kind| kinds.insert(kind)).contains(&true);
        let new_block = cover::count() > before;
        if new_block {
            leading.push(if first { executions as usize - 1 } else { corpus.len() });
        }
        if !first && (new_kind || new_block) {
            corpus.push(call);
        }
        if start.elapsed() >= told + Duration::from_secs(60) {
            told = start.elapsed();
            println!(
                "{:>5} s: {executions} executions, {} of {} blocks, {} kinds of answers",
                told.as_secs(),
                cover::count(),
                blocks.len(),
                kinds.len()
            );
        }
    }

    let unreached = cover::unreached(&blocks);
    let mut missing: BTreeMap<&str, usize> = BTreeMap::new();
    unreached.iter().for_each(|block| *missing.entry(named[block]).or_default() += 1);
    let missing: Vec<String> = missing.iter().map(|(function, count)| format!("{function} {count}")).collect();
    println!("blocks not reached: {}", missing.join(", "));
    let lines: String = unreached.iter().map(|block| format!("{block:x} {}\n", named[block])).collect();
    std::fs::write(format!("{path}.unreached"), lines).expect("the list of blocks not reached");
    let given_numbers: Vec<String> = (0..NUMBERS).filter(|&n| numbers[n] > 0).map(|n| format!("{n}: {}", numbers[n])).collect();
    println!("answers by number: {}", given_numbers.join(", "));
    println!(
        "fuzz: no difference in {executions} executions, {} s, {} of {} blocks, {} kinds of answers, {given} messages given, {} \
         kept, seed {seed}",
        start.elapsed().as_secs(),
        cover::count(),
        blocks.len(),
        kinds.len(),
        corpus.len() - given
    );
    // Messages are short, so that 2 does not come, and 20 is a writer's; every other number has to.
    if let Some(number) = (0..NUMBERS).find(|&n| numbers[n] == 0 && ![2, 20].contains(&n)) {
        println!("FAILED fuzz: no message had the answer {number}");
        std::process::exit(1);
    }
}
