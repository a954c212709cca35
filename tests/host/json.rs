//! Compares the library's reader of JSON with a second one on random and damaged texts, on all short texts of JSON's own
//! characters and on all of UTF-8; and its comparison of spellings with a second decoder.

use crate::random::Random;
use crate::reader::{keeps_to_print, read, said, Reading};
use crate::writer::{damage, Writer};
use crate::{fail, Tester};

extern "C" {
    fn probe_judge(text: *const u8, text_len: usize, levels: u32, end: *mut usize) -> u32;
    fn probe_value(text: *const u8, text_len: usize, at: usize, levels: u32, end: *mut usize) -> u32;
    fn probe_alike(a: *const u8, a_len: usize, b: *const u8, b_len: usize) -> u32;
    fn probe_has(a: *const u8, a_len: usize, w: *const u8, w_len: usize) -> u32;
}

const NO_OBJECT: u32 = 7;

/// How many calls answered yes and how many no.
#[derive(Default)]
pub struct Verdicts {
    yes: u64,
    no: u64,
}

impl Verdicts {
    fn count(&mut self, yes: bool) {
        *(if yes { &mut self.yes } else { &mut self.no }) += 1;
    }

    /// Prints the counts. Answers whether both are at least a third.
    fn report(&self, name: &str, yes: &str, no: &str) -> bool {
        let all = self.yes + self.no;
        println!("{name:<7} {all:>9} random calls: {:>8} {yes}, {:>8} {no}", self.yes, self.no);
        3 * self.yes >= all && 3 * self.no >= all
    }
}

// Texts by chance

/// A text by RFC 8259 that is an object, nested 1 to 14 levels deep.
fn text(random: &mut Random) -> Vec<u8> {
    let levels = match random.below(4) {
        0 => 11 + random.below(4),
        _ => 1 + random.below(5),
    };
    let spaces = [0, 0, 1, 6][random.below(4)];
    let mut writer = Writer { random, text: Vec::new(), spaces };
    writer.nested(true, levels);
    writer.text
}

// The comparison

impl Tester {
    /// Judges a text. Answers its reading.
    fn judge(&mut self, text: &[u8], levels: u32) -> Option<Reading> {
        let reading = read(text, levels);
        let expected = reading.as_ref().map_or((NO_OBJECT, 0), |r| (0, r.end));
        self.call(&format!("probe_judge, {levels} levels"), text, 0, expected, (0, &[]), |text, _, end| {
            // SAFETY: the pointers and lengths are those of slices, here and below.
            unsafe { probe_judge(text.as_ptr(), text.len(), levels, end) }
        });
        reading
    }

    /// The values of the outermost members, each read where it begins.
    fn values(&mut self, text: &[u8], levels: u32, reading: &Reading) {
        for row in &reading.rows {
            let (at, length) = row.value;
            let expected = (row.kind as u32, at + length);
            self.call(&format!("probe_value at {at}"), text, 0, expected, (0, &[]), |text, _, end| unsafe {
                probe_value(text.as_ptr(), text.len(), at, levels - 1, end)
            });
        }
    }

    /// A text by chance, and with some chance a damaged one.
    fn random_json(&mut self, random: &mut Random) {
        let mut text = text(random);
        if random.below(16) < 9 {
            for _ in 0..1 + random.below(2) {
                damage(random, &mut text);
            }
        }
        let levels = match random.below(4) {
            0 => random.below(16) as u32,
            _ => 12,
        };
        let reading = self.judge(&text, levels);
        self.judged.count(reading.is_some());
        if let Some(reading) = reading {
            self.members += reading.rows.len() as u64;
            self.values(&text, levels, &reading);
        }
    }

    /// Two spellings of code points that are equal, or nearly, and what the first one says.
    fn random_spellings(&mut self, random: &mut Random) {
        let mut writer = Writer { random, text: Vec::new(), spaces: 0 };
        let n = writer.random.below(24);
        let one: Vec<char> = (0..n).map(|_| writer.code_point()).collect();
        let mut other = one.clone();
        match writer.random.below(8) {
            0 => drop(other.pop()),
            1 => other.push(writer.code_point()),
            2 | 3 if n > 0 => {
                let at = writer.random.below(n);
                other[at] = writer.code_point();
            }
            _ => {}
        }
        let mut spelled = |code_points: &[char]| {
            let escapes = [0, 2, 8, 16][writer.random.below(4)];
            writer.text.clear();
            for &c in code_points {
                writer.spell(c, escapes);
            }
            String::from_utf8(writer.text.clone()).expect("spelled in UTF-8")
        };
        let (a, b) = (spelled(&one), spelled(&other));
        let (says, also) = (said(&a).expect("a spelling"), said(&b).expect("a spelling"));
        if says != one.iter().collect::<String>().as_bytes() {
            fail("the second decoder itself", a.as_bytes(), format!("{one:?}"), format!("{says:?}"));
        }
        let alike = says == also;
        self.alike.count(alike);
        self.two("probe_alike", a.as_bytes(), b.as_bytes(), alike, probe_alike);
        self.two("probe_alike", b.as_bytes(), a.as_bytes(), alike, probe_alike);
        self.has.count(alike);
        self.two("probe_has", a.as_bytes(), &also, alike, probe_has);
        self.two("probe_has", b.as_bytes(), &says, alike, probe_has);
    }

    /// One call on two slices, both lent.
    fn two(
        &mut self,
        what: &str,
        a: &[u8],
        b: &[u8],
        yes: bool,
        function: unsafe extern "C" fn(*const u8, usize, *const u8, usize) -> u32,
    ) {
        self.calls += 1;
        self.input.lend(a, self.calls % 4 > 0, 0);
        self.output.lend(b, self.calls % 3 > 0, 0);
        let (lent_a, lent_b) = (self.input.buffer(), self.output.buffer());
        let got = unsafe { function(lent_a.as_ptr(), lent_a.len(), lent_b.as_ptr(), lent_b.len()) };
        let unchanged = [&self.input, &self.output].iter().all(|lent| lent.compared().0 == lent.compared().1);
        if got != yes as u32 || !unchanged {
            let both = [a, b"  |  ", b].concat();
            fail(what, &both, format!("{}, both unchanged", yes as u32), format!("{got}, both unchanged: {unchanged}"));
        }
    }

    // Everything of a kind

    /// Every text of at most five of JSON's own characters, as the value of a member.
    fn all_short_values(&mut self) {
        const CHARACTERS: &[u8; 16] = b"{}[]:,\"\\ 01-.eu+";
        for n in 0..=5 {
            for number in 0..1u32 << (4 * n) {
                let mut text = b"{\"\":".to_vec();
                text.extend((0..n).map(|i| CHARACTERS[(number >> (4 * i) & 15) as usize]));
                text.push(b'}');
                self.judge(&text, 3);
            }
        }
    }

    /// Every octet and every two octets in a string and outside of one; in a string every three that begin as UTF-8 of
    /// more than one octet does, and the borders of four.
    fn all_octets(&mut self) {
        for number in 0..1u32 << 16 {
            let [a, b, ..] = number.to_le_bytes();
            self.judge(&[b'{', b'"', a, b, b'"', b':', b'1', b'}'], 1);
            self.judge(&[b'{', b'"', b'"', b':', b'1', a, b, b'}'], 1);
            if b == 0 {
                self.judge(&[b'{', b'"', a, b'"', b':', b'1', b'}'], 1);
                self.judge(&[a, b'{', b'"', b'"', b':', b'1', b'}'], 1);
                self.judge(&[b'{', b'"', b'\\', a, b'"', b':', b'1', b'}'], 1);
            }
        }
        for number in 0xc0_0000..0x100_0000u32 {
            let [c, b, a, _] = number.to_le_bytes();
            self.judge(&[b'{', b'"', a, b, c, b'"', b':', b'1', b'}'], 1);
        }
        const ENDS: [u8; 8] = [0, 0x22, 0x7f, 0x80, 0x8f, 0x90, 0xbf, 0xc0];
        for a in 0xe0..=0xff {
            for b in 0..=0xff {
                for c in ENDS {
                    for d in ENDS {
                        self.judge(&[b'{', b'"', a, b, c, d, b'"', b':', b'1', b'}'], 1);
                    }
                }
            }
        }
    }

    /// Every place in a long string of something else than a letter.
    fn all_places_in_a_string(&mut self) {
        const PARTS: [&[u8]; 10] = [
            b"\"", b"\\", b"\\n", b"\x1f", b"\x7f", "\u{80}".as_bytes(), b"\xc3", b"\xed\xa0\x80", b"\\ud800",
            b"\\ud834\\udd1e",
        ];
        for length in [0, 1, 7, 8, 15, 16, 31, 32, 33, 63, 64, 65, 100, 130, 200] {
            for place in 0..=length {
                for part in PARTS {
                    let text = [b"{\"a\":\"", &b"x".repeat(place)[..], part, &b"y".repeat(length - place), b"\"}"].concat();
                    self.judge(&text, 1);
                }
            }
        }
    }
}

/// All of it. Answers whether enough texts were accepted and refused.
pub fn compare(tester: &mut Tester, random: &mut Random) -> bool {
    const TEXTS: u64 = 500_000;
    const SPELLINGS: u64 = 500_000;

    keeps_to_print();
    let before = tester.calls;
    tester.all_short_values();
    tester.all_octets();
    tester.all_places_in_a_string();
    let exhaustive = tester.calls - before;
    for _ in 0..TEXTS {
        tester.random_json(random);
    }
    for _ in 0..SPELLINGS {
        tester.random_spellings(random);
    }
    println!("JSON: all short values and all of UTF-8's octets in a string: {exhaustive} calls");
    println!("JSON: {} values of members read where they begin", tester.members);
    let reports = [
        tester.judged.report("judge", "accepted", "refused"),
        tester.alike.report("alike", "alike", "different"),
        tester.has.report("has", "had", "not had"),
    ];
    !reports.contains(&false)
}
