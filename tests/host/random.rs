//! Chance that comes again with its seed: numbers, octets and damage to texts.

use crate::reference::ALPHABET;

/// splitmix64
pub struct Random(pub u64);

impl Random {
    pub fn next(&mut self) -> u64 {
        self.0 = self.0.wrapping_add(0x9e3779b97f4a7c15);
        let z = (self.0 ^ (self.0 >> 30)).wrapping_mul(0xbf58476d1ce4e5b9);
        let z = (z ^ (z >> 27)).wrapping_mul(0x94d049bb133111eb);
        z ^ (z >> 31)
    }

    pub fn below(&mut self, n: usize) -> usize {
        ((self.next() as u128 * n as u128) >> 64) as usize
    }

    /// Octets by chance; at times all alike, for the two ends of the alphabet.
    pub fn octets(&mut self, n: usize) -> Vec<u8> {
        if self.below(8) == 0 {
            return vec![[0, 0xff][self.below(2)]; n];
        }
        let mut octets = Vec::with_capacity(n + 7);
        while octets.len() < n {
            octets.extend_from_slice(&self.next().to_le_bytes());
        }
        octets.truncate(n);
        octets
    }

    pub fn character(&mut self) -> u8 {
        ALPHABET[self.below(64)]
    }

    /// A character that is wrong, though nearly right.
    pub fn bad_character(&mut self) -> u8 {
        const NEAR: &[u8] = b"+/= .,\t\r\n\0@[`{:^\x7f\x80\xad\xb0\xc1\xda\xdf\xe1\xfa\xff";
        NEAR[self.below(NEAR.len())]
    }

    /// Damages a text, which may by chance be sound afterwards.
    pub fn damage(&mut self, text: &mut Vec<u8>) {
        let n = text.len();
        match self.below(9) {
            0 if n > 0 => text[self.below(n)] = self.next() as u8,
            1 if n > 0 => text[self.below(n)] ^= 1 << self.below(8),
            2 if n > 0 => text[self.below(n)] = self.bad_character(),
            3 if n > 0 => text[n - 1] = self.character(),
            4 => text.insert(self.below(n + 1), self.bad_character()),
            5 => text.truncate(self.below(n + 1)),
            6 => text.push(self.character()),
            7 => text.push(b'='),
            _ => text.extend_from_slice(b"=="),
        }
    }
}
