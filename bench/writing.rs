//! Writing JSON messages of 16 MiB: a long ciphertext beside our encoding alone; a long shared or own text beside one validation of
//! it and one copy; and a text that is too deep where it stands beside one that is not. What is written is what is expected here,
//! and is read back.

use crate::jwe::{encoded, letters, protected, Reader, DIR};
use crate::{encode, judge, line, listed, octets, processor_time, repeated, speed, FEW, SIZE};
use std::hint::black_box;

extern "C" {
    fn jwe_write_flattened(
        protected: *const u8,
        protected_len: usize,
        shared: *const u8,
        shared_len: usize,
        aad: *const u8,
        aad_len: usize,
        iv: *const u8,
        iv_len: usize,
        ciphertext: *const u8,
        ciphertext_len: usize,
        tag: *const u8,
        tag_len: usize,
        known: *const u8,
        known_len: usize,
        recipients: *const u8,
        recipients_len: usize,
        out: *mut u8,
        out_len: usize,
        octets: *mut usize,
    ) -> u32;
    fn jwe_write_general(
        protected: *const u8,
        protected_len: usize,
        shared: *const u8,
        shared_len: usize,
        aad: *const u8,
        aad_len: usize,
        iv: *const u8,
        iv_len: usize,
        ciphertext: *const u8,
        ciphertext_len: usize,
        tag: *const u8,
        tag_len: usize,
        known: *const u8,
        known_len: usize,
        recipients: *const u8,
        recipients_len: usize,
        out: *mut u8,
        out_len: usize,
        octets: *mut usize,
    ) -> u32;
}

/// What a message is written of; all else is M's.
struct Pieces {
    general: bool,
    shared: Vec<u8>,
    ciphertext: Vec<u8>,
    recipients: Vec<u8>,
}

/// One recipient, with a header's text and no key.
fn alone(own: &[u8]) -> Vec<u8> {
    [&[1][..], &(own.len() as u32).to_be_bytes(), &[0; 4], own].concat()
}

impl Pieces {
    /// Answers the refusal and the octets written.
    fn write(&self, out: &mut [u8]) -> (u32, usize) {
        let Pieces { general, shared, ciphertext, recipients } = self;
        let header = format!("{{{DIR}}}");
        let write = if *general { jwe_write_general } else { jwe_write_flattened };
        let mut n = 0;
        // SAFETY: the pointers and lengths are those of slices.
        let refusal = unsafe {
            write(
                header.as_ptr(),
                header.len(),
                shared.as_ptr(),
                shared.len(),
                [0u8; 0].as_ptr(),
                0,
                [0u8].as_ptr(),
                1,
                ciphertext.as_ptr(),
                ciphertext.len(),
                [2u8].as_ptr(),
                1,
                [0u8].as_ptr(),
                1,
                recipients.as_ptr(),
                recipients.len(),
                out.as_mut_ptr(),
                out.len(),
                &mut n,
            )
        };
        (refusal, n)
    }

    /// What is written, is this message, and is read back.
    fn compare(&self, name: &str, message: &[u8], reader: &mut Reader, out: &mut [u8]) {
        assert_eq!(self.write(out), (0, message.len()), "{name}");
        assert!(out[..message.len()] == *message, "{name}");
        reader.compare(name, message);
    }
}

/// What stands behind the headers.
const REST: &str = r#""iv":"AA","ciphertext":"AQID","tag":"Ag"}"#;

/// A message of at most SIZE octets whose shared text, or own one in an element, is long; the text, and what it is written of.
fn long_text(general: bool, start: &str, part: impl Fn(usize) -> Vec<u8>, end: &str) -> (Vec<u8>, Vec<u8>, Pieces) {
    let before = format!("{{{},{}", protected(), if general { r#""recipients":[{"header":"# } else { r#""unprotected":"# });
    let after = format!("{}{REST}", if general { "}]," } else { "," });
    let message = repeated(format!("{before}{start}").as_bytes(), part, format!("{end}{after}").as_bytes());
    let message = message.trim_ascii_end().to_vec();
    let text = message[before.len()..message.len() - after.len()].to_vec();
    let (shared, own) = if general { (&[][..], &text[..]) } else { (&text[..], &[][..]) };
    let pieces = Pieces { general, shared: shared.to_vec(), ciphertext: vec![1, 2, 3], recipients: alone(own) };
    (message, text, pieces)
}

/// A member that is nested so deep, the object around it being level 1.
fn deep(levels: usize) -> String {
    format!(r#"],"deep":{}{}}}"#, "[".repeat(levels - 1), "]".repeat(levels - 1))
}

/// Seconds for one call, whose answer is this.
fn seconds(pieces: &Pieces, out: &mut [u8], refusal: u32) -> f64 {
    let start = processor_time();
    let answer = black_box(pieces).write(black_box(out)).0;
    let seconds = processor_time() - start;
    assert_eq!(answer, refusal);
    seconds
}

pub fn measure(reader: &mut Reader) {
    let (mut out, mut other) = (vec![1; SIZE], vec![1; SIZE]);
    let element = |i: usize| listed(i, &format!(r#"{{"m":{},"n":[true,null]}}"#, i % 1000));

    println!();
    println!("JSON messages of 16 MiB, written. Ciphertext: beside our encoding of it alone, to be at least 0.9. Texts: beside one");
    println!("validation of the text and one copy (memcpy), to be at least 0.5.");
    println!();
    println!("{:<20} {:>9} {:>19} {:>19}", "MB/s", "ours", "parts", "ours/parts");
    println!("{:<20}{}", "(MB = 10^6)", "      best    median".repeat(3));
    let characters = (SIZE - protected().len() - REST.len()) / 4 * 4;
    let ciphertext = octets(characters / 4 * 3, 7516);
    let message = format!(r#"{{{},"iv":"AA","ciphertext":"{}","tag":"Ag"}}"#, protected(), encoded(&ciphertext));
    let pieces = Pieces { general: false, shared: Vec::new(), ciphertext, recipients: alone(b"") };
    pieces.compare("ciphertext", message.as_bytes(), reader, &mut out);
    line(
        "ciphertext",
        || speed(|| black_box(&pieces).write(black_box(&mut out)).0 == 0),
        || speed(|| encode(black_box(&pieces.ciphertext), black_box(&mut other)).is_some()),
    );
    let texts = [
        ("shared string", 11, long_text(false, r#"{"x":""#, letters, r#""}"#)),
        ("shared objects", 11, long_text(false, r#"{"x":["#, element, "]}")),
        ("own string, general", 9, long_text(true, r#"{"x":""#, letters, r#""}"#)),
        ("own objects, general", 9, long_text(true, r#"{"x":["#, element, "]}")),
    ];
    for (name, levels, (message, text, pieces)) in &texts {
        pieces.compare(name, message, reader, &mut out);
        let mut parts = || {
            other[..text.len()].copy_from_slice(black_box(text));
            judge(black_box(text), *levels).is_some()
        };
        line(name, || speed(|| black_box(pieces).write(black_box(&mut out)).0 == 0), || speed(&mut parts));
    }

    println!();
    println!("A text that is too deep where it stands beside one that is not: to be at most 2.2 times as long.");
    println!();
    println!("{:<20} {:>9} {:>19} {:>19}", "milliseconds", "too deep", "not", "too deep/not");
    println!("{:<20}{}", "", "      best    median".repeat(3));
    for (name, general, levels) in [("shared, 12 and 11", false, 11), ("own, 10 and 9", true, 9)] {
        let (message, _, sound) = long_text(general, r#"{"x":["#, element, &deep(levels));
        let (_, _, too_deep) = long_text(general, r#"{"x":["#, element, &deep(levels + 1));
        sound.compare(name, &message, reader, &mut out);
        let rounds = (0..=FEW).map(|_| (seconds(&too_deep, &mut out, 7), seconds(&sound, &mut out, 0))).skip(1);
        let (mut deeps, mut sounds): (Vec<f64>, Vec<f64>) = rounds.unzip();
        deeps.sort_by(f64::total_cmp);
        sounds.sort_by(f64::total_cmp);
        let [best, median] = [0, FEW / 2].map(|at| (deeps[at] * 1e3, sounds[at] * 1e3));
        println!(
            "{name:<20} {:>9.2} {:>9.2} {:>9.2} {:>9.2} {:>9.2} {:>9.2}",
            best.0,
            median.0,
            best.1,
            median.1,
            best.0 / best.1,
            median.0 / median.1
        );
    }
}
