//! Compares the library's reader of messages with the second one: on messages written by hand, whose answers are set down
//! with them; on the published ones and single damages to each; on messages of 16 MiB and on messages made by chance.
//!
//! Every call is judged by its answer and the whole of its memory: the numbers, the header, the list, the octets beside
//! each of them, and what was lent to be read only.

pub mod cases;
pub mod colliding;
mod colliding_cases;
mod content_cases;
pub mod difference_cases;
mod json_cases;
pub mod messages;
pub mod pairs;
mod parameters;
pub mod pieces;
pub mod second;
pub mod second_differences;

use crate::lent::Lent;
use crate::random::Random;
use crate::reference::Reference;
use cases::{Case, Expected};
use messages::made;
use second::Answer;
use std::path::Path;
use std::process::exit;
use std::slice::from_raw_parts_mut;

extern "C" {
    fn jwe_read(
        message: *const u8,
        message_len: usize,
        known: *const u8,
        known_len: usize,
        recipient: u32,
        header: *mut u8,
        header_len: usize,
        list: *mut u32,
        list_len: usize,
        result: *mut u32,
        result_len: usize,
    ) -> u32;
}

/// Message, known names, recipient number; the header, list and result that are lent. Answers the refusal; where that is
/// 0 the result has its 18 numbers, else it is as it was.
pub type Read<'a> = &'a dyn Fn(&[u8], &[u8], u32, &mut [u8], &mut [u32], &mut [u32]) -> u32;

pub fn ours(message: &[u8], known: &[u8], recipient: u32, header: &mut [u8], list: &mut [u32], result: &mut [u32]) -> u32 {
    // SAFETY: the pointers and lengths are those of slices.
    unsafe {
        jwe_read(
            message.as_ptr(),
            message.len(),
            known.as_ptr(),
            known.len(),
            recipient,
            header.as_mut_ptr(),
            header.len(),
            list.as_mut_ptr(),
            list.len(),
            result.as_mut_ptr(),
            result.len(),
        )
    }
}

const LONGEST: usize = 16 << 20;
/// A message is at times some octets longer than the longest one.
const OVER: usize = 1000;
const RESULT: usize = 18;
/// The answers are 0 and the refusals up to 21.
pub const NUMBERS: usize = 22;
const FORMS: [&str; 3] = ["compact", "flattened", "general"];

/// What is lent for one reading.
#[derive(Clone)]
pub struct Call {
    pub message: Vec<u8>,
    pub known: Vec<u8>,
    pub recipient: u32,
    pub header_room: usize,
    pub list_room: usize,
}

impl Call {
    /// No known names, recipient 0 and just enough room.
    pub fn new(message: impl Into<Vec<u8>>) -> Self {
        Call { message: message.into(), known: vec![0], recipient: 0, header_room: 4096, list_room: 576 }
    }

    fn answer(&self) -> Answer {
        second::read(&self.message, &self.known, self.recipient, self.header_room, self.list_room)
    }
}

pub fn octets(numbers: &[u32]) -> Vec<u8> {
    numbers.iter().flat_map(|n| n.to_ne_bytes()).collect()
}

pub fn numbers(octets: &[u8]) -> Vec<u32> {
    octets.chunks_exact(4).map(|four| u32::from_ne_bytes([four[0], four[1], four[2], four[3]])).collect()
}

/// The 18 numbers of an answer: refusal, form, recipients, mode, six places, header length, parameter count.
pub fn result(answer: &Answer) -> Vec<u32> {
    let mut numbers = vec![answer.refusal, answer.form, answer.recipients, answer.mode];
    numbers.extend(answer.places.concat());
    numbers.extend([answer.header.len() as u32, answer.list.len() as u32 / 6]);
    numbers
}

/// A buffer of numbers, which stand at a multiple of four.
pub fn as_numbers(lent: &mut Lent) -> &mut [u32] {
    let octets = lent.buffer();
    assert!(octets.as_ptr() as usize % 4 == 0 && octets.len() % 4 == 0);
    // SAFETY: the same memory, and any four octets are a number.
    unsafe { from_raw_parts_mut(octets.as_mut_ptr().cast(), octets.len() / 4) }
}

pub struct Comparer<'a> {
    read: Read<'a>,
    message: Lent,
    known: Lent,
    header: Lent,
    list: Lent,
    result: Lent,
    /// Random octets, from which buffers get what they hold before a call.
    canary: Vec<u8>,
    calls: usize,
    /// Messages made by chance, by refusal and form.
    counts: [[u64; 3]; NUMBERS],
}

impl<'a> Comparer<'a> {
    pub fn new(read: Read<'a>, random: &mut Random) -> Self {
        const ROOM: usize = 1 << 14;
        Comparer {
            read,
            message: Lent::new(LONGEST + OVER),
            known: Lent::new(ROOM),
            header: Lent::new(ROOM),
            list: Lent::new(ROOM),
            result: Lent::new(ROOM),
            canary: (0..3 * ROOM).map(|_| random.next() as u8).collect(),
            calls: 0,
            counts: [[0; 3]; NUMBERS],
        }
    }

    /// Makes a call and says what differs from an answer.
    fn difference(&mut self, call: &Call, answer: &Answer) -> Option<String> {
        self.calls += 1;
        let at_end = self.calls % 4 > 0;
        let canary = &self.canary[self.calls % 4096..];
        self.message.lend(&call.message, at_end, 0);
        self.known.lend(&call.known, at_end, 0);
        self.header.lend(&canary[..call.header_room], at_end, self.calls as u8);
        self.list.lend(&canary[4096..][..4 * call.list_room], at_end, self.calls as u8);
        self.result.lend(&canary[8192..][..4 * RESULT], at_end, self.calls as u8);
        if answer.refusal == 0 {
            self.header.expect(0, &answer.header);
            self.list.expect(0, &octets(&answer.list));
            self.result.expect(0, &octets(&result(answer)));
        }
        let refusal = (self.read)(
            self.message.buffer(),
            self.known.buffer(),
            call.recipient,
            self.header.buffer(),
            as_numbers(&mut self.list),
            as_numbers(&mut self.result),
        );
        if refusal != answer.refusal {
            return Some(format!("refusal\nexpected {}\n     got {refusal}", answer.refusal));
        }
        let show_octets = |octets: &[u8]| octets.escape_ascii().to_string();
        let show_numbers = |octets: &[u8]| format!("{:?}", numbers(octets));
        let lents: [(&str, &Lent, &dyn Fn(&[u8]) -> String); 5] = [
            ("result", &self.result, &show_numbers),
            ("list", &self.list, &show_numbers),
            ("header", &self.header, &show_octets),
            ("known list", &self.known, &show_octets),
            ("message", &self.message, &show_octets),
        ];
        for (name, lent, show) in lents {
            let (expected, got) = lent.compared();
            if expected != got {
                return Some(format!("{name} with its margin\nexpected {}\n     got {}", show(expected), show(got)));
            }
        }
        None
    }

    /// Where our reader does not give the second one's answer, the message is made as short as it can be, shown, and the
    /// program ends.
    pub fn compare(&mut self, name: &str, call: &Call) -> Answer {
        let answer = call.answer();
        if self.difference(call, &answer).is_none() {
            return answer;
        }
        let mut call = call.clone();
        let mut length = call.message.len() / 2;
        // One octet after the other only where there are few.
        while length > call.message.len() / 5000 {
            let mut at = 0;
            while at + length <= call.message.len() {
                let mut shorter = call.clone();
                shorter.message.drain(at..at + length);
                if self.difference(&shorter, &shorter.answer()).is_some() {
                    call = shorter;
                } else {
                    at += length;
                }
            }
            length /= 2;
        }
        let answer = call.answer();
        let difference = self.difference(&call, &answer).unwrap_or_default();
        println!("MISMATCH in messages, {name}, cut down to {} octets", call.message.len());
        println!(" message {}", call.message[..call.message.len().min(20_000)].escape_ascii());
        println!("  header {}", answer.header.escape_ascii());
        println!("   known {}", call.known.escape_ascii());
        println!("   asked recipient {}, rooms {} and {}", call.recipient, call.header_room, call.list_room);
        println!("  differ {difference}");
        exit(1)
    }

    /// Messages written by hand: the second reader gives the answer set down, and ours the second's.
    fn by_hand(&mut self) -> usize {
        let cases = cases::all();
        for Case { name, call, expected } in &cases {
            let answer = self.compare(name, call);
            let met = match expected {
                Expected::Refused(number) => answer.refusal == *number,
                Expected::Accepted(form, recipients, mode) => {
                    (answer.refusal, answer.form, answer.recipients, answer.mode) == (0, *form, *recipients, *mode)
                }
                Expected::Exactly(expected) => answer == *expected,
            };
            if !met {
                println!("MISMATCH in messages by hand, {name}\nexpected {expected:?}\n     got {answer:?}");
                exit(1);
            }
        }
        cases.len()
    }

    /// The published messages, each as the index has it; and every place in them and in their headers damaged. Answers
    /// how many there are.
    fn published(&mut self, reference: &Reference, random: &mut Random) -> usize {
        let vectors = Path::new(file!()).parent().expect("a directory").join("../vectors");
        let index = std::fs::read_to_string(vectors.join("INDEX.md")).expect("the index of the published messages");
        let mut count = 0;
        for row in index.lines().filter(|line| line.contains(".jwe |")) {
            let columns: Vec<&str> = row.split('|').map(str::trim).collect();
            let [_, name, _, form, algs, enc, recipients, length, _] = columns[..] else { panic!("{row}") };
            let message = std::fs::read(vectors.join(name)).expect(name);
            assert_eq!(message.len().to_string(), length, "{name}");
            let algs: Vec<&str> = algs.split(", ").collect();
            assert_eq!(algs.len().to_string(), recipients, "{name}");
            for (recipient, alg) in algs.iter().enumerate() {
                let call = Call { recipient: recipient as u32, ..Call::new(message.clone()) };
                let answer = self.compare(name, &call);
                assert_eq!((answer.refusal, answer.recipients), (0, algs.len() as u32), "{name}");
                assert_eq!(FORMS[answer.form as usize], form, "{name}");
                assert_eq!(parameter(&call, &answer, "alg"), format!("\"{alg}\""), "{name}");
                assert_eq!(parameter(&call, &answer, "enc"), format!("\"{enc}\""), "{name}");
                self.damaged(name, &call, &answer, reference, random);
            }
            let beyond = Call { recipient: algs.len() as u32, ..Call::new(message) };
            assert_eq!(self.compare(name, &beyond).refusal, 19, "{name}");
            count += 1;
        }
        let files = std::fs::read_dir(&vectors).expect("the published messages").count();
        assert_eq!(count + 1, files, "each published message is in the index");
        count
    }

    /// Every place of a message, and every place of its decoded header.
    fn damaged(&mut self, name: &str, call: &Call, answer: &Answer, reference: &Reference, random: &mut Random) {
        let [start, length] = answer.places[0].map(|n| n as usize);
        for kind in 0..5 {
            for at in 0..call.message.len() {
                let mut damaged = call.clone();
                damage_at(random, &mut damaged.message, at, kind);
                self.compare(name, &damaged);
            }
            for at in 0..answer.header.len() {
                let mut header = answer.header.clone();
                damage_at(random, &mut header, at, kind);
                let mut damaged = call.clone();
                damaged.message.splice(start..start + length, reference.encode(&header));
                self.compare(name, &damaged);
            }
        }
    }

    /// A message made by chance and counted.
    fn by_chance(&mut self, reference: &Reference, random: &mut Random) {
        let (form, call) = made(random, reference);
        let answer = self.compare("made by chance", &call);
        self.counts[answer.refusal as usize][form] += 1;
    }

    /// Messages by chance that are made as long as a message may be, and longer.
    fn long(&mut self, reference: &Reference, random: &mut Random, over: usize) {
        let (form, mut call) = made(random, reference);
        let padding = if form == 0 { b'A' } else { b' ' };
        call.message.resize(LONGEST + over, padding);
        let answer = self.compare("made by chance and long", &call);
        self.counts[answer.refusal as usize][form] += 1;
    }

    /// Prints how often each number was given for each form. Answers whether each was that is possible, and no other.
    fn report(&self) -> bool {
        println!("{:>7} {:>10} {:>10} {:>10}", "refusal", FORMS[0], FORMS[1], FORMS[2]);
        let mut all = true;
        for (refusal, row) in self.counts.iter().enumerate() {
            println!("{refusal:>7} {:>10} {:>10} {:>10}", row[0], row[1], row[2]);
            for (form, count) in row.iter().enumerate() {
                // What no message of the form can get: 20 is a writer's, and for 21 there have to be two recipients.
                let never: &[usize] = match form {
                    0 => &[10, 11, 12, 16, 20, 21],
                    1 => &[4, 11, 20, 21],
                    _ => &[4, 20],
                };
                all &= never.contains(&refusal) != (*count > 0);
            }
        }
        all
    }
}

/// The parameters of a list: origin, name, value and kind.
pub fn parameter_rows<'a>(message: &'a [u8], header: &'a [u8], list: &[u32]) -> Vec<(u32, &'a [u8], &'a [u8], u32)> {
    let row = |row: &[u32]| {
        let text = if row[0] == 0 { header } else { message };
        let part = |start: u32, length: u32| &text[start as usize..][..length as usize];
        (row[0], part(row[1], row[2]), part(row[3], row[4]), row[5])
    };
    list.chunks_exact(6).map(row).collect()
}

/// The text of a parameter's value, found in the list by its name's spelling.
fn parameter(call: &Call, answer: &Answer, name: &str) -> String {
    let rows = parameter_rows(&call.message, &answer.header, &answer.list);
    let found = rows.iter().find(|(_, spelling, ..)| *spelling == name.as_bytes());
    found.map_or(String::new(), |(_, _, value, _)| String::from_utf8_lossy(value).into_owned())
}

/// One octet otherwise, one too few or one too many.
fn damage_at(random: &mut Random, text: &mut Vec<u8>, at: usize, kind: usize) {
    const NEAR: &[u8] = b"{}[]:,\".\\ aA0-_=\x80";
    match kind {
        0 => text[at] ^= 1 << random.below(8),
        1 => text[at] = NEAR[random.below(NEAR.len())],
        2 => text[at] = random.next() as u8,
        3 => drop(text.remove(at)),
        _ => text.insert(at, NEAR[random.below(NEAR.len())]),
    }
}

/// All of it. Answers whether every refusal and every form was met.
pub fn compare(read: Read, random: &mut Random) -> bool {
    const MESSAGES: usize = 250_000;
    const TOO_LONG: usize = 30;
    const LONG: usize = 6;

    let reference = Reference::new();
    let mut comparer = Comparer::new(read, random);
    let cases = comparer.by_hand();
    println!("messages: {cases} by hand");
    let before = comparer.calls;
    let published = comparer.published(&reference, random);
    println!("messages: {published} published, each with damage to every octet: {} calls", comparer.calls - before);
    for _ in 0..MESSAGES {
        comparer.by_chance(&reference, random);
    }
    for _ in 0..LONG {
        comparer.long(&reference, random, 0);
    }
    for _ in 0..TOO_LONG {
        let over = [1, 1 + random.below(OVER)][random.below(2)];
        comparer.long(&reference, random, over);
    }
    println!("messages: {} made by chance, {} of them of 16 MiB or more", MESSAGES + LONG + TOO_LONG, LONG + TOO_LONG);
    comparer.report()
}
