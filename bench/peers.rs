//! Peers from Debian's packages: shared objects that bench/peers/build has made of what is there. Each has some of four functions;
//! a peer that is absent, and a text that a peer refuses, are left out with a message.

use crate::{line_with, speed, FEW};
use std::ffi::CString;
use std::hint::black_box;
use std::path::Path;

extern "C" {
    fn dlopen(path: *const i8, flags: i32) -> *mut u8;
    fn dlsym(object: *mut u8, name: *const i8) -> *mut u8;
}

/// Octets and their length, a buffer and its length. Answers the octets written, or usize::MAX.
type Spell = unsafe extern "C" fn(*const u8, usize, *mut u8, usize) -> usize;
/// A text and its length. Answers 1 where it is accepted.
type Judge = unsafe extern "C" fn(*const u8, usize) -> i32;

pub struct Peer {
    name: String,
    decode: Option<Spell>,
    encode: Option<Spell>,
    json: Option<Judge>,
    read: Option<Judge>,
}

/// simdjson reads some octets behind a text.
const BEHIND: usize = 64;

/// The peers in a directory.
pub fn all(directory: &str) -> Vec<Peer> {
    let names = ["base64", "modp_b64", "cjose", "serde_json", "simdjson"];
    names.iter().filter_map(|name| load(&Path::new(directory).join(format!("{name}.so")), name)).collect()
}

fn load(path: &Path, name: &str) -> Option<Peer> {
    const NOW: i32 = 2;
    let path = CString::new(path.to_str()?).ok()?;
    // SAFETY: the names are C strings; a symbol of each name has the type that bench/peers gives it.
    unsafe {
        let object = dlopen(path.as_ptr(), NOW);
        if object.is_null() {
            println!("{name}: skipped, it is absent (bench/peers/fetch gets it)");
            return None;
        }
        let find = |name: &str| {
            let symbol = dlsym(object, CString::new(name).expect("no NUL").as_ptr());
            (!symbol.is_null()).then_some(symbol)
        };
        Some(Peer {
            name: format!("- {name}"),
            decode: find("peer_decode").map(|symbol| std::mem::transmute::<*mut u8, Spell>(symbol)),
            encode: find("peer_encode").map(|symbol| std::mem::transmute::<*mut u8, Spell>(symbol)),
            json: find("peer_json").map(|symbol| std::mem::transmute::<*mut u8, Judge>(symbol)),
            read: find("peer_read").map(|symbol| std::mem::transmute::<*mut u8, Judge>(symbol)),
        })
    }
}

fn call(function: Spell, input: &[u8], out: &mut [u8]) -> usize {
    // SAFETY: the pointers and lengths are those of slices.
    unsafe { function(input.as_ptr(), input.len(), out.as_mut_ptr(), out.len()) }
}

impl Peer {
    pub fn decode(&self, text: &[u8], octets: &[u8], mut ours: impl FnMut() -> f64) {
        self.spell(self.decode, text, octets, &mut ours);
    }

    pub fn encode(&self, octets: &[u8], text: &[u8], mut ours: impl FnMut() -> f64) {
        self.spell(self.encode, octets, text, &mut ours);
    }

    /// A line, if the peer has the function and gives the right length and end.
    fn spell(&self, function: Option<Spell>, input: &[u8], expected: &[u8], ours: &mut impl FnMut() -> f64) {
        let Some(function) = function else { return };
        let mut out = vec![1; expected.len() + 8];
        if call(function, input, &mut out) != expected.len() || out[expected.len() - 1] != expected[expected.len() - 1] {
            println!("{:<20} gives another answer", self.name);
            return;
        }
        let work = || speed(|| call(function, black_box(input), black_box(&mut out)) == expected.len());
        line_with(&self.name, FEW, ours, work, "");
    }

    /// A line for a JSON text or a message. A peer with both functions has its own reader of messages measured.
    pub fn judge(&self, text: &[u8], message: bool, ours: impl FnMut() -> f64, measured: impl Fn(&mut dyn FnMut() -> bool) -> f64) {
        let json = text.iter().find(|c| !b" \t\n\r".contains(c)) == Some(&b'{');
        let Some(function) = self.read.filter(|_| message).or(self.json.filter(|_| json)) else { return };
        let padded = [text, &[b' '; BEHIND]].concat();
        // SAFETY: the length is that of the text, with some octets behind it.
        let mut accepts = || unsafe { function(black_box(padded.as_ptr()), text.len()) == 1 };
        if !accepts() {
            println!("{:<20} refuses it", self.name);
            return;
        }
        line_with(&self.name, FEW, ours, || measured(&mut accepts), "");
    }
}
