//! Compares the other functions for C with the second reader, the second base64url and a second writer, which stands
//! here and is written from document 01: messages made by chance judged, and their components decoded; compact messages
//! written of parts made by chance; what was written read again, and what was read written again; and the AAD. Those that write
//! JSON have a file of their own.
//!
//! Every call is judged by its answer, its out-parameter and the whole of its memory: the buffer, the octets beside it,
//! and what was lent to be read only.

mod json_exports;

use crate::jwe::messages::{made, made_compact};
use crate::jwe::{ours, second, Call};
use crate::lent::Lent;
use crate::random::Random;
use crate::reference::Reference;
use crate::writer::damage;
use crate::{library, TOO_SHORT};
use std::path::Path;
use std::process::exit;

const LONGEST: usize = 16_777_216;
const HEADER: usize = 4096;
/// How many octets a written message may by chance be longer than the longest one.
const OVER: usize = 1 << 16;
/// The canary is taken from this many places.
const OFFSETS: usize = 4096;
const MESSAGE_TOO_LONG: u32 = 2;
/// All that the writer can refuse by, as document 01 lists it.
const WRITER_REFUSALS: [u32; 12] = [3, 6, 7, 8, 9, 13, 14, 15, 17, 18, MESSAGE_TOO_LONG, TOO_SHORT];

/// The parts of a compact message before they are encoded: header, key, iv, ciphertext, tag.
type Parts = [Vec<u8>; 5];

fn encoded(reference: &Reference, parts: &Parts) -> Vec<u8> {
    parts.each_ref().map(|part| reference.encode(part)).join(&b'.')
}

/// The second writer: 3; 6; 7, 8, 9; 13, 14, 15, 17, 18; 2; 1. All but the last two are the reader's numbers, in its
/// order, on a message that differs in nothing they ask for: it has no more of a too long header than shows its fault,
/// of the key whether it is empty, and of the others nothing.
fn write(reference: &Reference, parts: &Parts, known: &[u8], room: usize) -> Result<Vec<u8>, u32> {
    let [header, key, ..] = parts;
    let short = [&header[..header.len().min(HEADER + 1)], &key[..key.len().min(1)], &[], &[], &[]];
    let judged = second::read(&encoded(reference, &short.map(<[u8]>::to_vec)), known, 0, HEADER, 576);
    if judged.refusal != 0 {
        return Err(judged.refusal);
    }
    let message = encoded(reference, parts);
    if message.len() > LONGEST {
        return Err(MESSAGE_TOO_LONG);
    }
    if room < message.len() {
        return Err(TOO_SHORT);
    }
    Ok(message)
}

fn aad(header: &[u8], aad: &[u8]) -> Vec<u8> {
    if aad.is_empty() {
        header.to_vec()
    } else {
        [header, b".", aad].concat()
    }
}

/// A buffer's length, where so many octets are to be written: just enough, one too few, some too few, some more.
fn room(random: &mut Random, n: usize) -> usize {
    match random.below(8) {
        0 | 1 => n,
        2 => n.saturating_sub(1),
        3 => random.below(n + 1),
        4 => n + 1,
        _ => n + random.below(80),
    }
}

fn mismatch(what: &str, inputs: &[&[u8]], expected: String, got: String) -> ! {
    println!("MISMATCH in {what}");
    for input in inputs {
        println!("   input {} ({} octets)", input[..input.len().min(8000)].escape_ascii(), input.len());
    }
    println!("expected {expected}\n     got {got}");
    exit(1)
}

/// How often each number was answered.
#[derive(Default)]
struct Counts([u64; 22]);

impl Counts {
    fn report(&self, name: &str) {
        let all: u64 = self.0.iter().sum();
        let numbers = (1..self.0.len()).filter(|n| self.0[*n] > 0).map(|n| format!("{n}: {}", self.0[n])).collect::<Vec<_>>();
        println!("{name:<19} {all:>7} random calls: {:>6} accepted, refused by {}", self.0[0], numbers.join(", "));
    }
}

struct Exports<'a> {
    reference: &'a Reference,
    inputs: [Lent; 8],
    out: Lent,
    /// Random octets, from which buffers get what they hold before a call.
    canary: Vec<u8>,
    calls: usize,
    judge: Counts,
    component: Counts,
    write: Counts,
    /// Flattened and general.
    write_json: [Counts; 2],
    aad: Counts,
    /// Compact messages written and then read, and read and then written; recipients of JSON messages written and then read.
    round_trips: [u64; 3],
}

impl Exports<'_> {
    /// Makes one call with inputs and a buffer of `room` octets, and compares all that there is afterwards. Answers the
    /// refusal.
    fn call<const N: usize>(
        &mut self,
        what: &str,
        inputs: [&[u8]; N],
        room: usize,
        expected: Result<&[u8], u32>,
        function: impl Fn([&[u8]; N], &mut [u8], &mut usize) -> u32,
    ) -> u32 {
        self.calls += 1;
        let at_end = self.calls % 4 > 0;
        for (lent, input) in self.inputs.iter_mut().zip(inputs) {
            lent.lend(input, at_end, self.calls as u8);
        }
        self.out.lend(&self.canary[self.calls % OFFSETS..][..room], at_end, self.calls as u8);
        let written = expected.unwrap_or(&[]);
        self.out.expect(0, written);
        let answer = (expected.err().unwrap_or(0), written.len());
        let mut octets = !answer.1;
        let mut lents = self.inputs.iter_mut();
        let lent = inputs.map(|_| &*lents.next().expect("at most eight inputs").buffer());
        let refusal = function(lent, self.out.buffer(), &mut octets);
        if (refusal, octets) != answer {
            let what = format!("{what}, buffer of {room}: refusal and octets");
            mismatch(&what, &inputs, format!("{answer:?}"), format!("{:?}", (refusal, octets)));
        }
        for memory in self.inputs.iter().take(N).chain([&self.out]) {
            let (expected, got) = memory.compared();
            if expected != got {
                let what = format!("{what}, buffer of {room}: lent memory with its margin");
                mismatch(&what, &inputs, crate::show(expected), crate::show(got));
            }
        }
        refusal
    }

    fn judge(&mut self, call: &Call, refusal: u32) {
        let expected = if refusal == 0 { Ok(&[][..]) } else { Err(refusal) };
        self.call("jwe_judge", [&call.message, &call.known], 0, expected, |[message, known], _, octets| {
            *octets = 0;
            library::judge(message, known, call.recipient)
        });
        self.judge.0[refusal as usize] += 1;
    }

    fn component(&mut self, random: &mut Random, call: &Call, answer: &second::Answer, component: u32) {
        let place = answer.places.get(component as usize).copied().unwrap_or([0, 0]).map(|n| n as usize);
        let octets = self.reference.decode(&call.message[place[0]..][..place[1]]).expect("base64url");
        let room = room(random, octets.len());
        let expected = match answer.refusal {
            0 if room < octets.len() => Err(TOO_SHORT),
            0 => Ok(&octets[..]),
            refusal => Err(refusal),
        };
        let what = format!("jwe_component {component} for recipient {}", call.recipient);
        let inputs = [&call.message[..], &call.known];
        let refusal = self.call(&what, inputs, room, expected, |[message, known], out, octets| {
            library::component(message, known, call.recipient, component, out, octets)
        });
        self.component.0[refusal as usize] += 1;
    }

    /// Judges a message, as `jwe_read` does with enough room, and decodes these components, or the first of them where
    /// it is refused. What is compact and accepted is taken apart by the library and written again.
    fn message(&mut self, random: &mut Random, call: &Call, components: &[u32]) {
        let answer = second::read(&call.message, &call.known, call.recipient, HEADER, 576);
        self.judge(call, answer.refusal);
        let read = Reading::of(&call.message, &call.known, call.recipient);
        if read.refusal != answer.refusal {
            let (expected, got) = (answer.refusal.to_string(), read.refusal.to_string());
            mismatch("jwe_read", &[&call.message, &call.known], expected, got);
        }
        let count = if answer.refusal == 0 { components.len() } else { 1 };
        components[..count].iter().for_each(|component| self.component(random, call, &answer, *component));
        if answer.refusal == 0 && answer.form == 0 {
            let parts = read.parts(&call.message);
            self.written(&parts, &call.known, call.message.len(), Ok(&call.message));
            self.round_trips[1] += 1;
        }
    }

    /// Writes a message and compares it with the one expected.
    fn written(&mut self, parts: &Parts, known: &[u8], room: usize, expected: Result<&[u8], u32>) -> u32 {
        let [header, key, iv, ciphertext, tag] = parts.each_ref().map(|part| &part[..]);
        let inputs = [header, key, iv, ciphertext, tag, known];
        self.call("jwe_write_compact", inputs, room, expected, library::write_compact)
    }

    /// Writes parts as the second writer does; and what is accepted, the library reads back to the same parts.
    fn write(&mut self, random: &mut Random, parts: &Parts, known: &[u8]) {
        let length = parts.iter().map(|part| self.reference.encoded_length(part.len())).sum::<usize>() + 4;
        let room = room(random, length).min(LONGEST + OVER);
        let expected = write(self.reference, parts, known, room);
        let refusal = self.written(parts, known, room, expected.as_deref().map_err(|refusal| *refusal));
        self.write.0[refusal as usize] += 1;
        assert!(refusal == 0 || WRITER_REFUSALS.contains(&refusal), "no number of the writer's: {refusal}");
        if let Ok(message) = expected {
            let read = Reading::of(&message, known, 0);
            if read.refusal != 0 || read.parts(&message) != *parts {
                let (what, inputs) = ("what was written and read again", [&message[..], known]);
                mismatch(what, &inputs, format!("{parts:?}"), format!("{} {:?}", read.refusal, read.result));
            }
            self.round_trips[0] += 1;
        }
    }

    fn joined(&mut self, random: &mut Random) {
        let mut text = || {
            let n = [0, random.below(8), random.below(8), random.below(100)][random.below(4)];
            random.octets(n)
        };
        let (header, own) = (text(), text());
        let joined = aad(&header, &own);
        let room = room(random, joined.len());
        let expected = if room < joined.len() { Err(TOO_SHORT) } else { Ok(&joined[..]) };
        let refusal = self.call("jwe_aad", [&header, &own], room, expected, |[header, own], out, octets| {
            library::aad(header, own, out, octets)
        });
        self.aad.0[refusal as usize] += 1;
    }
}

/// What the library's reader says, in plain memory.
struct Reading {
    refusal: u32,
    header: Vec<u8>,
    list: [u32; 576],
    result: [u32; 18],
}

impl Reading {
    fn of(message: &[u8], known: &[u8], recipient: u32) -> Self {
        let (mut header, mut list, mut result) = (vec![0; HEADER], [0; 576], [0; 18]);
        let refusal = ours(message, known, recipient, &mut header, &mut list, &mut result);
        Reading { refusal, header, list, result }
    }

    /// A component of an accepted message, decoded by the library.
    fn decoded(&self, message: &[u8], component: usize) -> Vec<u8> {
        let [start, length] = [0, 1].map(|i| self.result[4 + 2 * component + i] as usize);
        let (mut octets, mut n) = (vec![0; length / 4 * 3 + 2], 0);
        let refusal = library::decode(&message[start..][..length], &mut octets, &mut n);
        assert_eq!(refusal, 0, "a component of an accepted message is base64url");
        octets.truncate(n);
        octets
    }

    /// The parts of an accepted compact message.
    fn parts(&self, message: &[u8]) -> Parts {
        let decoded = |component| self.decoded(message, component);
        [self.header[..self.result[16] as usize].to_vec(), decoded(1), decoded(2), decoded(4), decoded(5)]
    }
}

/// Parts made by chance: those of a compact message, with its faults. A part that is no base64url is taken as it is.
fn made_parts(random: &mut Random, reference: &Reference) -> (Parts, Vec<u8>) {
    let Call { message, known, .. } = made_compact(random, reference);
    let mut texts = message.split(|&c| c == b'.');
    let mut parts = [(); 5].map(|_| {
        let text = texts.next().unwrap_or(&[]);
        reference.decode(text).unwrap_or_else(|| text.to_vec())
    });
    if random.below(16) == 0 {
        damage(random, &mut parts[0]);
    }
    (parts, known)
}

/// Parts of which a message of about 16 MiB comes, a few characters shorter or longer; in most cases without a fault,
/// as another refusal comes before 2.
fn made_long_parts(random: &mut Random, reference: &Reference) -> (Parts, Vec<u8>) {
    let faulty = random.below(4) == 0;
    let (mut parts, known) = loop {
        let (parts, known) = made_parts(random, reference);
        if faulty || write(reference, &parts, &known, LONGEST).is_ok() {
            break (parts, known);
        }
    };
    let first = if parts[1].is_empty() { 2 } else { 1 };
    let which = if faulty { random.below(5) } else { first + random.below(5 - first) };
    parts[which].clear();
    let missing = LONGEST - encoded(reference, &parts).len();
    let n = missing / 4 * 3 - 3 + random.below(9);
    parts[which] = random.octets(n);
    (parts, known)
}

/// All of it. Answers whether each number was met that is possible.
pub fn compare(random: &mut Random) -> bool {
    const MESSAGES: usize = 100_000;
    const WRITTEN: usize = 100_000;
    const LONG: usize = 16;
    const JOINED: usize = 100_000;

    let reference = Reference::new();
    let mut exports = Exports {
        reference: &reference,
        inputs: [(); 8].map(|_| Lent::new(LONGEST + OVER)),
        out: Lent::new(LONGEST + OVER),
        canary: (0..LONGEST + OVER + OFFSETS).map(|_| random.next() as u8).collect(),
        calls: 0,
        judge: Counts::default(),
        component: Counts::default(),
        write: Counts::default(),
        write_json: Default::default(),
        aad: Counts::default(),
        round_trips: [0; 3],
    };

    let vectors = Path::new(file!()).parent().expect("a directory").join("../vectors");
    for entry in std::fs::read_dir(vectors).expect("the published messages") {
        let path = entry.expect("a published message").path();
        if path.extension().is_some_and(|extension| extension == "jwe") {
            let call = Call::new(std::fs::read(&path).expect("a published message"));
            for recipient in 0..4 {
                exports.message(random, &Call { recipient, ..call.clone() }, &[0, 1, 2, 3, 4, 5, 6, 7, u32::MAX]);
            }
        }
    }
    for _ in 0..MESSAGES {
        let (_, mut call) = made(random, &reference);
        if random.below(4) == 0 {
            damage(random, &mut call.message);
        }
        let components = [(); 3].map(|_| match random.below(8) {
            0 => [256, 1 << 16, u32::MAX][random.below(3)],
            _ => random.below(8) as u32,
        });
        exports.message(random, &call, &components);
    }
    for _ in 0..WRITTEN {
        let (parts, known) = made_parts(random, &reference);
        exports.write(random, &parts, &known);
    }
    for _ in 0..LONG {
        let (parts, known) = made_long_parts(random, &reference);
        exports.write(random, &parts, &known);
    }
    for _ in 0..JOINED {
        exports.joined(random);
    }

    exports.judge.report("jwe_judge");
    exports.component.report("jwe_component");
    exports.write.report("jwe_write_compact");
    exports.aad.report("jwe_aad");
    let [written, read, _] = exports.round_trips;
    println!("round trips: {written} compact messages written and read, {read} read and written");
    let met = |counts: &Counts, numbers: &[u32]| numbers.iter().all(|number| counts.0[*number as usize] > 0);
    let from_3: Vec<u32> = (3..20).chain([21]).collect();
    let json = json_exports::compare(&mut exports, random);
    json && met(&exports.judge, &from_3) && met(&exports.component, &from_3) && met(&exports.write, &WRITER_REFUSALS)
}
