//! Compares jwe_write_flattened and jwe_write_general with the second writer: on what is set down by hand with its answer, on
//! the published messages taken apart, on messages about as long as a message may be, and by chance. Whatever is written, the
//! library reads back for each recipient.

use super::{mismatch, room, Exports, Reading, LONGEST, OVER};
use crate::json_write_cases::{self, Case};
use crate::json_writer;
use crate::jwe::pieces::{made_pieces, table, Pieces};
use crate::jwe::second::{self, Answer};
use crate::jwe::{parameter_rows, result};
use crate::library;
use crate::random::Random;
use crate::reader;
use crate::reference::Reference;
use std::path::Path;

/// All that the writers can refuse by: the table is the caller's, so 11 does not come, nor does what is encoded get 5.
const REFUSALS: [u32; 18] = [3, 20, 6, 7, 2, 8, 9, 10, 12, 13, 14, 15, 16, 17, 18, 21, 1, 0];
const NAMES: [&str; 2] = ["jwe_write_flattened", "jwe_write_general"];
const CIPHERTEXT: usize = 4;

/// Whether a form can get a number: for 21 there have to be two recipients, whom only the general form has.
fn possible(general: bool, number: u32) -> bool {
    REFUSALS.contains(&number) && (general || number != 21)
}

/// A parameter: origin, name, value and kind.
type Row<'a> = (u32, &'a [u8], &'a [u8], u32);

/// The parameters that a header's text has by itself.
fn rows(origin: u32, text: &[u8]) -> Vec<Row<'_>> {
    let rows = if text.is_empty() { Vec::new() } else { reader::read(text, 12).expect("an object").rows };
    let part = |(start, length): (usize, usize)| &text[start..][..length];
    rows.iter().map(|row| (origin, part(row.name), part(row.value), row.kind as u32)).collect()
}

impl Exports<'_> {
    /// Writes as the second writer does. What is accepted is read back for these recipients, of those that there are.
    fn write_json(&mut self, name: &str, pieces: &Pieces, room: usize, recipients: &[usize]) -> Result<Vec<u8>, u32> {
        let expected = json_writer::write(self.reference, pieces, room);
        let what = format!("{}, {name}", NAMES[pieces.general as usize]);
        let expects = expected.as_deref().map_err(|refusal| *refusal);
        let refusal = self.call(&what, pieces.inputs(), room, expects, |inputs, out, octets| {
            library::write_json(pieces.general, inputs, out, octets)
        });
        assert!(possible(pieces.general, refusal), "no number of this writer: {refusal}");
        if let Ok(message) = &expected {
            let given = json_writer::recipients(&pieces.recipients).expect("a sound table");
            for &recipient in recipients.iter().filter(|number| **number < given.len()) {
                self.reads_back(pieces, &given, message, recipient);
            }
        }
        expected
    }

    /// The library reads a message as the second reader does, and has of it what was given.
    fn reads_back(&mut self, pieces: &Pieces, given: &[json_writer::Recipient], message: &[u8], recipient: usize) {
        let fail = |what: &str, expected: String, got: String| {
            let what = format!("what {} wrote, read for recipient {recipient}: {what}", NAMES[pieces.general as usize]);
            mismatch(&what, &[message, &pieces.known], expected, got)
        };
        let read = Reading::of(message, &pieces.known, recipient as u32);
        let second = second::read(message, &pieces.known, recipient as u32, 4096, 576);
        let numbers = (&read.result[..], &read.list[..second.list.len()]);
        if read.refusal != 0 || numbers != (&result(&second)[..], &second.list[..]) {
            fail("the numbers", format!("{second:?}"), format!("{} {numbers:?}", read.refusal));
        }
        let head = [read.result[1], read.result[2], read.result[16]].map(|n| n as usize);
        let expected = [1 + pieces.general as usize, given.len(), pieces.protected.len()];
        if head != expected || read.header[..expected[2]] != pieces.protected {
            fail("form, recipients and header", format!("{expected:?}"), format!("{head:?}"));
        }

        let [own, key] = given[recipient];
        let components = [&pieces.protected[..], key, &pieces.iv, &pieces.aad, &pieces.ciphertext, &pieces.tag];
        for (component, octets) in components.into_iter().enumerate() {
            let [start, length] = [0, 1].map(|i| read.result[4 + 2 * component + i] as usize);
            let absent = octets.is_empty() && component != CIPHERTEXT;
            if absent != (start == 0) || read.decoded(message, component) != octets {
                fail(&format!("component {component}"), crate::show(octets), format!("at {start}, {length} characters"));
            }
        }
        let expected = [rows(0, &pieces.protected), rows(1, &pieces.shared), rows(2, own)].concat();
        let parameters: Vec<Row> = parameter_rows(message, &read.header, &read.list[..second.list.len()]);
        if parameters != expected {
            fail("the parameters", format!("{expected:?}"), format!("{parameters:?}"));
        }
        self.round_trips[2] += 1;
    }

    /// The second writer gives the answer set down, and ours the second's: where it is written, in a buffer just long enough,
    /// longer, one octet short and empty; where it is refused, with and without room, as 1 comes last.
    fn json_by_hand(&mut self) -> usize {
        let cases = json_write_cases::all();
        for Case { name, pieces, expected } in &cases {
            let n = expected.as_ref().map_or(100, String::len);
            for room in [n, n + 100, n - 1, 0] {
                let expected = match expected {
                    Ok(_) if room < n => Err(1),
                    Ok(text) => Ok(text.clone().into_bytes()),
                    Err(refusal) => Err(*refusal),
                };
                let got = self.write_json(name, pieces, room, &[0, 1, 2, 3, 4, 5, 6, 7]);
                if got != expected {
                    let shown = |answer: Result<Vec<u8>, u32>| answer.map(|text| crate::show(&text));
                    let (expected, got) = (format!("{:?}", shown(expected)), format!("{:?}", shown(got)));
                    mismatch(&format!("the second writer, {name}"), &pieces.inputs(), expected, got);
                }
            }
        }
        cases.len()
    }

    /// About as long as a message may be: by hand, and by chance.
    fn json_long(&mut self, random: &mut Random) {
        const BY_CHANCE: usize = 8;
        let reference = self.reference;
        for (name, pieces, refusal) in json_write_cases::long(|pieces| length(reference, pieces)) {
            let rooms = if refusal == 0 { vec![LONGEST, LONGEST - 1] } else { vec![LONGEST + OVER] };
            for room in rooms {
                let expected = if refusal == 0 && room < LONGEST { 1 } else { refusal };
                let got = self.write_json(name, &pieces, room, &[0, 1]).err().unwrap_or(0);
                assert_eq!(got, expected, "the second writer, {name}");
            }
        }
        for i in 0..BY_CHANCE {
            let (general, over) = (i % 2 == 1, i / 2 % 2 == 1);
            let mut pieces = loop {
                let pieces = made_pieces(random, reference);
                if pieces.general == general && json_writer::write(reference, &pieces, LONGEST).is_ok() {
                    break pieces;
                }
            };
            pieces.ciphertext.clear();
            let left = LONGEST - length(reference, &pieces);
            let most = left / 4 * 3 + [0, 0, 1, 2][left % 4];
            let n = if over { most + 1 + random.below(3) } else { most - random.below(3) };
            pieces.ciphertext = random.octets(n);
            let room = room(random, length(reference, &pieces)).min(LONGEST + OVER);
            let refusal = self.write_json("long, by chance", &pieces, room, &[0, 7]).err().unwrap_or(0);
            assert_eq!(refusal == 2, over, "the second writer, long by chance");
            self.write_json[general as usize].0[refusal as usize] += 1;
        }
    }

    /// The published messages and samples in JSON, taken apart by the second reader and written again: the same up to space and
    /// the order of members. Those of one recipient also in the other form. Answers how many.
    fn json_published(&mut self) -> usize {
        let here = Path::new(file!()).parent().expect("a directory");
        let folders = [here.join("../vectors"), here.join("../../samples")];
        let files = folders.iter().flat_map(|folder| std::fs::read_dir(folder).expect("messages"));
        let mut count = 0;
        for path in files.map(|file| file.expect("a message").path()) {
            let message = std::fs::read(&path).expect("a message");
            let first = second::read(&message, &[0], 0, 4096, 576);
            if path.extension().map_or(true, |extension| extension != "jwe") || first.refusal != 0 || first.form == 0 {
                continue;
            }
            let pieces = taken_apart(self.reference, &message, &first);
            let name = path.display().to_string();
            let written = self.write_json(&name, &pieces, message.len(), &[0, 1, 2, 3, 4, 5, 6, 7]).expect("written");
            let (expected, got) = (ordered(&message), ordered(&written));
            if expected != got {
                mismatch(&name, &[&message], crate::show(&expected), crate::show(&got));
            }
            if first.recipients == 1 {
                let other = Pieces { general: !pieces.general, ..pieces };
                self.write_json(&name, &other, LONGEST, &[0]).expect("written in the other form");
            }
            count += 1;
        }
        count
    }
}

/// How long the message is.
fn length(reference: &Reference, pieces: &Pieces) -> usize {
    let recipients = json_writer::recipients(&pieces.recipients).unwrap_or_default();
    json_writer::text(reference, pieces, &recipients).len()
}

/// What a message without space is written of. The text of a shared or own header goes from the brace before its first name
/// to the one behind its last value.
fn taken_apart(reference: &Reference, message: &[u8], first: &Answer) -> Pieces {
    let read = |recipient| second::read(message, &[0], recipient, 4096, 576);
    let component = |answer: &Answer, n: usize| {
        let [start, length] = answer.places[n].map(|n| n as usize);
        reference.decode(&message[start..][..length]).expect("base64url")
    };
    let header = |answer: &Answer, origin: u32| {
        let mut rows = answer.list.chunks_exact(6).filter(|row| row[0] == origin).peekable();
        let Some(start) = rows.peek().map(|row| row[1] - 2) else { return Vec::new() };
        let end = rows.last().map_or(start, |row| row[3] + row[4] + 1);
        let text = message[start as usize..end as usize].to_vec();
        assert!(text[0] == b'{' && text.ends_with(b"}"), "a message without space");
        text
    };
    let recipients: Vec<[Vec<u8>; 2]> =
        (0..first.recipients).map(read).map(|answer| [header(&answer, 2), component(&answer, 1)]).collect();
    Pieces {
        general: first.form == 2,
        protected: first.header.clone(),
        shared: header(first, 1),
        aad: component(first, 3),
        iv: component(first, 2),
        ciphertext: component(first, CIPHERTEXT),
        tag: component(first, 5),
        known: vec![0],
        recipients: table(&recipients),
    }
}

/// A JSON text without space, the members of its objects ordered by their names.
fn ordered(text: &[u8]) -> Vec<u8> {
    let text = text.trim_ascii();
    let [open @ (b'{' | b'['), inner @ .., _] = text else { return text.to_vec() };
    // The members or elements: what stands between commas that are in no bracket and no string.
    let (mut parts, mut level, mut quoted, mut escaped) = (vec![Vec::new()], 0, false, false);
    for &c in inner {
        match c {
            b'"' if !escaped => quoted = !quoted,
            b'{' | b'[' if !quoted => level += 1,
            b'}' | b']' if !quoted => level -= 1,
            _ => {}
        }
        escaped = c == b'\\' && !escaped;
        if c == b',' && !quoted && level == 0 {
            parts.push(Vec::new());
        } else {
            parts.last_mut().expect("a part").push(c);
        }
    }
    if *open == b'[' {
        return [b"[", &parts.iter().map(|part| ordered(part)).collect::<Vec<_>>().join(&b',')[..], b"]"].concat();
    }
    // A name ends before the first colon; the published names have none.
    let mut members: Vec<Vec<u8>> = parts
        .iter()
        .map(|part| match part.iter().position(|&c| c == b':') {
            Some(colon) => [part[..colon].trim_ascii(), b":", &ordered(&part[colon + 1..])].concat(),
            None => part.trim_ascii().to_vec(),
        })
        .collect();
    members.sort();
    [b"{", &members.join(&b',')[..], b"}"].concat()
}

/// All of it. Answers whether each number was met that is possible.
pub fn compare(exports: &mut Exports, random: &mut Random) -> bool {
    const WRITTEN: usize = 60_000;

    let cases = exports.json_by_hand();
    let published = exports.json_published();
    println!("JSON writing: {cases} by hand, {published} published messages written again");
    for _ in 0..WRITTEN {
        let pieces = made_pieces(random, exports.reference);
        let room = room(random, length(exports.reference, &pieces));
        let answer = exports.write_json("by chance", &pieces, room, &[0, 1, 2, 3, 4, 5, 6, 7]);
        exports.write_json[pieces.general as usize].0[answer.err().unwrap_or(0) as usize] += 1;
    }
    exports.json_long(random);
    for (name, counts) in NAMES.iter().zip(&exports.write_json) {
        counts.report(name);
    }
    println!("round trips: JSON messages written and read for {} recipients", exports.round_trips[2]);
    let met = |general: bool| {
        let counts = &exports.write_json[general as usize].0;
        REFUSALS.iter().all(|&number| possible(general, number) == (counts[number as usize] > 0))
    };
    met(false) && met(true)
}
