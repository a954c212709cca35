//! Compares the library with a second base64url, a second reader of JSON, a second reader and writers of messages, and a
//! second comparison of two messages, on millions of random and damaged texts and messages, and on all short ones.
//! Deterministic by seed: `harness [SEED]`. With a seed, all short texts and groups, which need no chance, are left out. Exits 1 at
//! the first difference.
//!
//! Every call is judged by its answer, its out-parameter and the whole of its memory: the buffer, the octets beside it
//! and the input. A stray read or write beyond either stops the program.

mod differences;
#[path = "exports.rs"]
mod exports;
#[path = "jwe.rs"]
mod jwe;
mod json;
mod json_write_cases;
mod json_writer;
mod lent;
mod library;
mod random;
mod reader;
mod reference;
mod writer;

use lent::{Lent, MARGIN};
use random::Random;
use reference::Reference;
use std::process::exit;

extern "C" {
    fn jwe_decode(text: *const u8, text_len: usize, out: *mut u8, out_len: usize, octets: *mut usize) -> u32;
    fn probe_check(text: *const u8, text_len: usize) -> u32;
    fn probe_encoded_length(n: usize) -> usize;
    fn probe_encode(octets: *const u8, len: usize, out: *mut u8, out_len: usize, at: usize, end: *mut usize) -> u32;
}

const TOO_SHORT: u32 = 1;
const NOT_BASE64URL: u32 = 5;

/// How many calls ended how.
#[derive(Default)]
struct Counts {
    accepted: u64,
    misspelled: u64,
    short: u64,
}

impl Counts {
    fn count(&mut self, refusal: u32) {
        match refusal {
            0 => self.accepted += 1,
            NOT_BASE64URL => self.misspelled += 1,
            _ => self.short += 1,
        }
    }

    /// Prints the counts. Answers whether both kinds are at least a third: a test of one kind alone would show little.
    fn report(&self, name: &str) -> bool {
        let refused = self.misspelled + self.short;
        let all = self.accepted + refused;
        println!(
            "{name:<7} {all:>9} random calls: {:>8} accepted, {refused:>8} refused ({} by 5, {} by 1)",
            self.accepted, self.misspelled, self.short
        );
        3 * self.accepted >= all && 3 * refused >= all
    }
}

fn show(octets: &[u8]) -> String {
    let shown = octets[..octets.len().min(400)].escape_ascii();
    let rest = if octets.len() > 400 { ".." } else { "" };
    format!("\"{shown}{rest}\" ({} octets)", octets.len())
}

fn fail(what: &str, input: &[u8], expected: String, got: String) -> ! {
    println!("MISMATCH in {what}\n   input {}\nexpected {expected}\n     got {got}", show(input));
    exit(1)
}

/// The canary is taken from this many places, few enough to stay in the cache.
const OFFSETS: usize = 4096;

struct Tester {
    reference: Reference,
    input: Lent,
    output: Lent,
    /// Random octets, from which buffers get what they hold before a call.
    canary: Vec<u8>,
    calls: usize,
    decode: Counts,
    check: Counts,
    encode: Counts,
    judged: json::Verdicts,
    alike: json::Verdicts,
    has: json::Verdicts,
    members: u64,
}

impl Tester {
    /// Makes one call with an input and a buffer of `room` octets, and compares all that there is afterwards: the
    /// refusal with the number that belongs to it, and the buffer, where `written` should stand from `at` on.
    fn call(
        &mut self,
        what: &str,
        input: &[u8],
        room: usize,
        expected: (u32, usize),
        (at, written): (usize, &[u8]),
        function: impl Fn(&[u8], &mut [u8], &mut usize) -> u32,
    ) {
        self.calls += 1;
        let at_end = self.calls % 4 > 0;
        self.input.lend(input, at_end, 0);
        self.output.lend(&self.canary[self.calls % OFFSETS..][..room], at_end, self.calls as u8);
        self.output.expect(at, written);
        let mut number = !expected.1;
        let refusal = function(self.input.buffer(), self.output.buffer(), &mut number);
        if (refusal, number) != expected {
            let what = format!("{what}, buffer of {room}: refusal and number");
            fail(&what, input, format!("{expected:?}"), format!("{:?}", (refusal, number)));
        }
        for (name, memory) in [("input", &self.input), ("buffer", &self.output)] {
            let (expected, got) = memory.compared();
            if expected != got {
                let what = format!("{what}, buffer of {room}: the {name} with its margin of {MARGIN}");
                fail(&what, input, show(expected), show(got));
            }
        }
    }

    /// Decodes a text into a buffer of `room` octets. Answers the refusal.
    fn decode(&mut self, text: &[u8], octets: Option<&[u8]>, room: usize) -> u32 {
        let (refusal, octets) = match octets {
            None => (NOT_BASE64URL, &[][..]),
            Some(octets) if room < octets.len() => (TOO_SHORT, &[][..]),
            Some(octets) => (0, octets),
        };
        self.call("jwe_decode", text, room, (refusal, octets.len()), (0, octets), |text, out, number| {
            // SAFETY: the pointers and lengths are those of slices, here and below.
            unsafe { jwe_decode(text.as_ptr(), text.len(), out.as_mut_ptr(), out.len(), number) }
        });
        refusal
    }

    fn check(&mut self, text: &[u8], sound: bool) -> u32 {
        let refusal = if sound { 0 } else { NOT_BASE64URL };
        self.call("probe_check", text, 0, (refusal, 0), (0, &[]), |text, _, number| {
            *number = 0;
            unsafe { probe_check(text.as_ptr(), text.len()) }
        });
        refusal
    }

    /// Encodes octets from position `at` of a buffer of `room` octets on.
    fn encode(&mut self, octets: &[u8], text: &[u8], at: usize, room: usize) -> u32 {
        let fits = at as u128 + text.len() as u128 <= room as u128;
        let (refusal, end, from, written) =
            if fits { (0, at + text.len(), at, text) } else { (TOO_SHORT, 0, 0, &[][..]) };
        self.call("probe_encode", octets, room, (refusal, end), (from, written), |octets, out, number| unsafe {
            probe_encode(octets.as_ptr(), octets.len(), out.as_mut_ptr(), out.len(), at, number)
        });
        refusal
    }

    /// Encoded and decoded by the library alone, the octets come back.
    fn round_trip(&mut self, octets: &[u8]) {
        let (mut text, mut back) = (vec![0; octets.len() * 2], vec![0; octets.len()]);
        let (mut end, mut n) = (0, 0);
        let answers = unsafe {
            let encoded = probe_encode(octets.as_ptr(), octets.len(), text.as_mut_ptr(), text.len(), 0, &mut end);
            (encoded, jwe_decode(text.as_ptr(), end, back.as_mut_ptr(), back.len(), &mut n))
        };
        if answers != (0, 0) || n != octets.len() || back != octets {
            fail("round trip", octets, show(octets), format!("{answers:?} {n} {}", show(&back)));
        }
    }

    fn length(&self, n: usize) {
        let (expected, got) = (self.reference.encoded_length(n), unsafe { probe_encoded_length(n) });
        if expected != got {
            fail(&format!("probe_encoded_length of {n}"), &[], expected.to_string(), got.to_string());
        }
    }

    // By chance: texts of at most `longest` characters

    fn random_text(&mut self, random: &mut Random, longest: usize) {
        let n = random.below(longest / 4 * 3 + 1);
        let mut text = match random.below(16) {
            0 => random.octets(n),
            1 => (0..random.below(longest + 1)).map(|_| random.character()).collect(),
            _ => self.reference.encode(&random.octets(n)),
        };
        if random.below(5) < 2 {
            for _ in 0..1 + random.below(2) {
                random.damage(&mut text);
            }
        }
        let octets = self.reference.decode(&text);
        let refusal = self.check(&text, octets.is_some());
        self.check.count(refusal);

        let n = octets.as_ref().map_or(text.len() / 4 * 3, Vec::len);
        let room = match random.below(8) {
            0 | 1 => n,
            2 => n.saturating_sub(1),
            3 => random.below(n + 1),
            4 => text.len() / 4 * 3 + 2,
            _ => n + 1 + random.below(80),
        };
        let refusal = self.decode(&text, octets.as_deref(), room);
        self.decode.count(refusal);
    }

    fn random_octets(&mut self, random: &mut Random, longest: usize) {
        let n = random.below(longest / 4 * 3 + 1);
        let octets = random.octets(n);
        let text = self.reference.encode(&octets);
        let at = random.below(100) * random.below(2);
        let end = at + text.len();
        let (at, room) = match random.below(10) {
            0..=2 => (at, end),
            3..=4 => (at, end + 1 + random.below(80)),
            5..=6 => (at, end.saturating_sub(1)),
            7 => (at, at + random.below(text.len() + 1)),
            8 => (at + 1 + random.below(80), at),
            _ => (usize::MAX - random.below(300), end),
        };
        let refusal = self.encode(&octets, &text, at, room);
        self.encode.count(refusal);
        self.round_trip(&octets);
    }

    // Everything of a kind

    /// Every text of at most three octets.
    fn all_short_texts(&mut self) {
        for n in 0..=3 {
            for number in 0..1u32 << (8 * n) {
                let text = &number.to_le_bytes()[..n];
                let octets = self.reference.decode(text);
                self.check(text, octets.is_some());
                self.decode(text, octets.as_deref(), 3);
            }
        }
    }

    /// Every list of at most three octets: all that a whole group or a short one can stand for.
    fn all_groups(&mut self) {
        for n in 0..=3 {
            for number in 0..1u32 << (8 * n) {
                let octets = &number.to_le_bytes()[..n];
                let text = self.reference.encode(octets);
                self.encode(octets, &text, 1, 6);
                self.decode(&text, Some(octets), 4);
            }
        }
    }

    /// Every length to 1,100, and every place in it of a wrong character.
    fn all_places(&mut self, random: &mut Random) {
        for length in 0..=1100 {
            let mut text: Vec<u8> = (0..length).map(|_| random.character()).collect();
            if let Some(last) = text.last_mut() {
                *last = b'A'; // no spare bits
            }
            let octets = self.reference.decode(&text);
            self.check(&text, length % 4 != 1);
            self.decode(&text, octets.as_deref(), length);
            for place in 0..length {
                let kept = std::mem::replace(&mut text[place], random.bad_character());
                self.check(&text, false);
                self.decode(&text, None, length % 256);
                text[place] = kept;
            }
        }
    }

    /// Small and huge numbers, and those at which the length comes to 2^64. Answers how many.
    fn lengths(&self, random: &mut Random) -> u64 {
        let mut count = 0;
        let mut about = |middle: usize, reach: usize| {
            for d in 0..=reach {
                self.length(middle.wrapping_add(d));
                self.length(middle.wrapping_sub(d));
                count += 2;
            }
        };
        about(0, 100_000);
        about(3 << 62, 100_000);
        (0..64).for_each(|bit| about(1 << bit, 100));
        (0..1_000_000).for_each(|_| about((random.next() >> random.below(64)) as usize, 0));
        count
    }
}

fn main() {
    const SHORT_CASES: u64 = 1_000_000;
    const LONG_CASES: u64 = 400;
    const LONGEST: usize = 1 << 20;
    const ROOM: usize = LONGEST + 1000;

    let given = std::env::args().nth(1);
    let everything = given.is_none();
    let seed = given.map_or(7516, |seed| seed.parse().expect("the seed is a number"));
    println!("harness: seed {seed}");
    let mut random = Random(seed);
    let mut tester = Tester {
        reference: Reference::new(),
        input: Lent::new(ROOM),
        output: Lent::new(ROOM),
        canary: (0..ROOM + OFFSETS).map(|_| random.next() as u8).collect(),
        calls: 0,
        decode: Counts::default(),
        check: Counts::default(),
        encode: Counts::default(),
        judged: json::Verdicts::default(),
        alike: json::Verdicts::default(),
        has: json::Verdicts::default(),
        members: 0,
    };

    let lengths = tester.lengths(&mut random);
    if everything {
        tester.all_short_texts();
        tester.all_groups();
    }
    tester.all_places(&mut random);
    let exhaustive = tester.calls;
    for _ in 0..SHORT_CASES {
        tester.random_text(&mut random, 200);
        tester.random_octets(&mut random, 200);
    }
    for _ in 0..LONG_CASES {
        let longest = LONGEST >> random.below(12);
        tester.random_text(&mut random, longest);
        tester.random_octets(&mut random, longest);
    }

    let short = if everything { "all texts and octets of length 0 to 3, " } else { "" };
    println!("{short}a wrong character in every place: {exhaustive} calls");
    println!("encoded_length: {lengths} numbers");
    let reports = [tester.check.report("check"), tester.decode.report("decode"), tester.encode.report("encode")];
    let json = json::compare(&mut tester, &mut random);
    if reports.contains(&false) || !json {
        println!("FAILED harness: accepted or refused calls are less than a third");
        exit(1);
    }
    // Each refusal has to be met with the fixed seed; with another, a rare one may by chance not come.
    if !jwe::compare(&jwe::ours, &mut random) && everything {
        println!("FAILED harness: a refusal was never met");
        exit(1);
    }
    if !exports::compare(&mut random) && everything {
        println!("FAILED harness: a refusal was never met by the other functions");
        exit(1);
    }
    if !differences::compare(&mut random) && everything {
        println!("FAILED harness: a kind of difference was never met");
        exit(1);
    }
    println!("harness: no difference, seed {seed}");
}
