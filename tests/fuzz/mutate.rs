//! Inputs made of kept ones: octets, pieces and words changed in the message's text or in its decoded protected header.

use crate::jwe::Call;
use crate::random::Random;
use crate::reference::Reference;

/// Messages grow no longer than this, so that many can be tried.
pub const LONGEST: usize = 6_000;

/// What means something in a message or in a header.
const WORDS: [&str; 103] = [
    "protected", "unprotected", "header", "encrypted_key", "recipients", "iv", "aad", "ciphertext", "tag", "alg", "enc", "zip",
    "kid", "typ", "cty", "jku", "jwk", "x5u", "x5c", "x5t", "x5t#S256", "crit", "epk", "apu", "apv", "p2s", "p2c", "x", "exp",
    "RSA1_5", "RSA-OAEP", "RSA-OAEP-256", "A128KW", "A192KW", "A256KW", "A128GCMKW", "A192GCMKW", "A256GCMKW",
    "PBES2-HS256+A128KW", "PBES2-HS384+A192KW", "PBES2-HS512+A256KW", "ECDH-ES", "ECDH-ES+A128KW", "ECDH-ES+A192KW",
    "ECDH-ES+A256KW", "dir", "A128CBC-HS256", "A192CBC-HS384", "A256CBC-HS512", "A128GCM", "A192GCM", "A256GCM", "DEF",
    "\"alg\":\"dir\"", "\"enc\":\"A128GCM\"", "\"crit\":[\"x\"]", "\"x\":1", "\"zip\":\"DEF\"", "\"recipients\":[{},{}]",
    "\"enc\":\"A256GCM\"", "{\"header\":{\"alg\":\"dir\",\"enc\":\"A128GCM\"}}", "{\"header\":{\"alg\":\"dir\",\"enc\":\"A256GCM\"}}",
    "\"header\":{\"kid\":\"1\"}", "\"unprotected\":{\"alg\":\"dir\"}", "\"encrypted_key\":\"AA\"", "\"iv\":\"AA\"", "\"tag\":\"AAA\"",
    "{}", "[]", "{\"a\":0}", "[[[[[[", "]]]]]]", "\"\"", "\"", ",", ":", ".", "true", "false", "null", "0", "-1.5e+3", "1E", "-",
    "\\u0061", "\\u00e9", "\\u20ac", "\\ud834\\udd1e", "\\ud834", "\\udd1e", "\\\"", "\\\\", "\\n", "\\/", "\u{e9}", "\u{20ac}", "\u{1d11e}", " ", "\t\r\n",
    "AA", "AB", "A", "\u{7f}",
];

/// Names for the known list.
const KNOWN: [&str; 6] = ["x", "exp", "alg", "kid", "\u{e9}", "a"];

pub struct Mutator {
    pub random: Random,
    reference: Reference,
}

impl Mutator {
    pub fn new(seed: u64) -> Self {
        Mutator { random: Random(seed), reference: Reference::new() }
    }

    fn range(&mut self, length: usize) -> std::ops::Range<usize> {
        let start = self.random.below(length + 1);
        let most = [1, 4, 32, length][self.random.below(4)].min(length - start);
        start..start + self.random.below(most + 1)
    }

    /// The places between which a member or an element stands, often: behind a sign and before the next one.
    fn piece(&mut self, text: &[u8]) -> std::ops::Range<usize> {
        let signs: Vec<usize> = (0..text.len()).filter(|&i| b",{}[].".contains(&text[i])).collect();
        if signs.len() < 2 {
            return self.range(text.len());
        }
        let one = self.random.below(signs.len() - 1);
        let other = one + 1 + self.random.below((signs.len() - one - 1).min(6));
        signs[one]..signs[other]
    }

    fn word(&mut self) -> Vec<u8> {
        let word = WORDS[self.random.below(WORDS.len())].as_bytes();
        if self.random.below(4) == 0 {
            return [b"\"", word, b"\""].concat();
        }
        word.to_vec()
    }

    /// One change to a text, of which another one may lend a piece.
    fn change(&mut self, text: &mut Vec<u8>, other: &[u8]) {
        let n = text.len();
        match self.random.below(12) {
            0 if n > 0 => text[self.random.below(n)] ^= 1 << self.random.below(8),
            1 if n > 0 => text[self.random.below(n)] = self.random.next() as u8,
            2 => drop(text.drain(self.range(n))),
            3 => drop(text.drain(self.piece(text))),
            4 => {
                let (from, word) = (self.range(n), self.word());
                drop(text.splice(from, word));
            }
            5 => {
                let (at, word) = (self.random.below(n + 1), self.word());
                drop(text.splice(at..at, word));
            }
            6 | 7 => {
                // A piece again, at times so often that a size is passed.
                let piece = text[self.piece(text)].to_vec();
                let times = [1, 1, 1, 2, 8, 33][self.random.below(6)];
                let at = self.piece(text).start;
                drop(text.splice(at..at, piece.repeat(times)));
            }
            8 => {
                let piece = other[self.piece(other)].to_vec();
                let at = self.piece(text).start;
                drop(text.splice(at..at, piece));
            }
            9 => {
                let piece = other[self.piece(other)].to_vec();
                let from = self.piece(text);
                drop(text.splice(from, piece));
            }
            10 => {
                // One string for another word.
                let quotes: Vec<usize> = (0..n).filter(|&i| text[i] == b'"').collect();
                if quotes.len() > 1 {
                    let one = self.random.below(quotes.len() - 1);
                    let word = WORDS[self.random.below(WORDS.len())].as_bytes().to_vec();
                    drop(text.splice(quotes[one] + 1..quotes[one + 1], word));
                }
            }
            _ => {
                // An escape for an octet.
                if n > 0 {
                    let at = self.random.below(n);
                    let escape = format!("\\u{:04x}", text[at]);
                    drop(text.splice(at..at + 1, escape.into_bytes()));
                }
            }
        }
    }

    /// Where the encoded protected header stands: before the first dot, or as the string after that name.
    fn protected(text: &[u8]) -> Option<std::ops::Range<usize>> {
        if text.first() != Some(&b'{') {
            return Some(0..text.iter().position(|&c| c == b'.')?);
        }
        const NAME: &[u8] = b"\"protected\":\"";
        let start = text.windows(NAME.len()).position(|window| window == NAME)? + NAME.len();
        Some(start..start + text[start..].iter().position(|&c| c == b'"')?)
    }

    fn change_header(&mut self, text: &mut Vec<u8>, other: &[u8]) -> Option<()> {
        let place = Self::protected(text)?;
        let mut header = self.reference.decode(&text[place.clone()])?;
        let lent = Self::protected(other).and_then(|place| self.reference.decode(&other[place])).unwrap_or_default();
        self.change(&mut header, &lent);
        text.splice(place, self.reference.encode(&header));
        Some(())
    }

    /// A new input out of one, with pieces of another.
    pub fn mutated(&mut self, call: &Call, other: &Call) -> Call {
        let mut call = call.clone();
        for _ in 0..[1, 1, 1, 2, 4][self.random.below(5)] {
            if self.random.below(2) == 0 || self.change_header(&mut call.message, &other.message).is_none() {
                self.change(&mut call.message, &other.message);
            }
        }
        call.message.truncate(LONGEST);
        match self.random.below(32) {
            0 => self.change(&mut call.known, &other.known),
            1 => call.known = other.known.clone(),
            2 | 3 => {
                let names: Vec<&str> = (0..self.random.below(4)).map(|_| KNOWN[self.random.below(KNOWN.len())]).collect();
                call.known = vec![names.len() as u8];
                call.known.extend(names.iter().map(|name| name.len() as u8));
                call.known.extend(names.concat().bytes());
            }
            _ => {}
        }
        call.known.truncate(2000);
        // Buffers that are too short, which only this one call keeps.
        (call.header_room, call.list_room) = match self.random.below(256) {
            0 => (4095, 576),
            1 => (4096, 575),
            _ => (4096, 576),
        };
        if self.random.below(16) == 0 {
            call.recipient = [0, 1, 2, 7, 8, u32::MAX][self.random.below(6)];
        }
        call
    }
}
