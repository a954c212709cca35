//! JSON written by chance: values in any spelling with spaces where they may stand, and damage to a text.

use crate::random::Random;

/// Code points at the borders of RFC 3629's table and of sections 7 and 2 of RFC 8259.
const BORDERS: [char; 16] = [
    ' ', '!', '#', '[', ']', '/', '\u{7f}', '\u{80}', '\u{7ff}', '\u{800}', '\u{d7ff}', '\u{e000}', '\u{feff}', '\u{ffff}',
    '\u{10000}', '\u{10ffff}',
];

/// Octets that mean something in JSON or in UTF-8, or nearly do.
const NEAR: &[u8] = b"{}[]:,\"\\/0123456789-+.eEtfnulrabsxX' \t\n\r\0\x0b\x0c\x1f\x7f\x80\xa0\xbf\xc0\xc1\xc2\xdf\xe0\xed\xef\xf0\xf4\xf5\xff";

pub struct Writer<'a> {
    pub random: &'a mut Random,
    pub text: Vec<u8>,
    /// Of 16 places where space may stand, in how many it does.
    pub spaces: usize,
}

impl Writer<'_> {
    pub fn put(&mut self, s: &[u8]) {
        self.text.extend_from_slice(s);
    }

    pub fn chance(&mut self, of_16: usize) -> bool {
        self.random.below(16) < of_16
    }

    pub fn pick(&mut self, from: &[u8]) -> u8 {
        from[self.random.below(from.len())]
    }

    pub fn space(&mut self) {
        while self.chance(self.spaces) {
            let c = self.pick(b" \t\n\r");
            self.text.push(c);
        }
    }

    pub fn sign(&mut self, c: u8) {
        self.space();
        self.text.push(c);
        self.space();
    }

    fn unit(&mut self, u: u32) {
        self.put(b"\\u");
        for shift in [12, 8, 4, 0] {
            let digits = if self.chance(8) { b"0123456789abcdef" } else { b"0123456789ABCDEF" };
            self.text.push(digits[(u >> shift & 15) as usize]);
        }
    }

    /// A code point in one of its spellings.
    pub fn spell(&mut self, c: char, escapes_of_16: usize) {
        const SHORT: &[(char, u8)] =
            &[('"', b'"'), ('\\', b'\\'), ('/', b'/'), ('\x08', b'b'), ('\x0c', b'f'), ('\n', b'n'), ('\r', b'r'), ('\t', b't')];
        let must = c < ' ' || c == '"' || c == '\\';
        if !must && !self.chance(escapes_of_16) {
            self.put(c.encode_utf8(&mut [0; 4]).as_bytes());
            return;
        }
        let short = SHORT.iter().find(|s| s.0 == c);
        match short {
            Some(s) if self.chance(8) => self.put(&[b'\\', s.1]),
            _ => {
                let mut units = [0; 2];
                for u in c.encode_utf16(&mut units) {
                    self.unit(*u as u32);
                }
            }
        }
    }

    pub fn code_point(&mut self) -> char {
        match self.random.below(8) {
            0 => BORDERS[self.random.below(BORDERS.len())],
            1 => self.random.below(0x80) as u8 as char,
            2 => char::from_u32(self.random.below(0x11_0000) as u32).unwrap_or('\u{fffd}'),
            3 => self.pick(b"\"\\/\x08\x0c\n\r\t") as char,
            _ => (0x20 + self.random.below(0x5f) as u8) as char,
        }
    }

    pub fn string(&mut self) {
        self.text.push(b'"');
        // Long runs of letters too, which are read by blocks.
        let run = if self.chance(1) { self.random.below(150) } else { self.random.below(10) };
        for _ in 0..run {
            let c = self.pick(b"abcdefghijklmnopqrstuvwxyzABCDEFGHIJKLMNOPQRSTUVWXYZ0123456789-_");
            self.text.push(c);
        }
        if self.chance(8) {
            for _ in 0..self.random.below(6) {
                let c = self.code_point();
                self.spell(c, 4);
            }
        }
        self.text.push(b'"');
    }

    fn digits(&mut self) {
        for _ in 0..1 + self.random.below(4) {
            let c = self.pick(b"0123456789");
            self.text.push(c);
        }
    }

    pub fn number(&mut self) {
        if self.chance(5) {
            self.text.push(b'-');
        }
        if self.chance(4) {
            self.text.push(b'0');
        } else {
            let c = self.pick(b"123456789");
            self.text.push(c);
            if self.chance(8) {
                self.digits();
            }
        }
        if self.chance(5) {
            self.text.push(b'.');
            self.digits();
        }
        if self.chance(5) {
            let e = self.pick(b"eE");
            self.text.push(e);
            if self.chance(8) {
                let sign = self.pick(b"+-");
                self.text.push(sign);
            }
            self.digits();
        }
    }

    /// A value that is nested exactly so deep.
    pub fn value(&mut self, levels: usize) {
        if levels > 0 {
            let object = self.chance(8);
            return self.nested(object, levels);
        }
        match self.random.below(8) {
            0 => self.put(b"true"),
            1 => self.put(b"false"),
            2 => self.put(b"null"),
            3 | 4 => self.number(),
            _ => self.string(),
        }
    }

    pub fn nested(&mut self, object: bool, levels: usize) {
        self.sign(if object { b'{' } else { b'[' });
        // One entry has all the levels that are left, the others few of them.
        let count = if levels == 1 { self.random.below(4) } else { 1 + self.random.below(3) };
        let deepest = self.random.below(count.max(1));
        for i in 0..count {
            if i > 0 {
                self.sign(b',');
            }
            if object {
                self.string();
                self.sign(b':');
            }
            let inner = if i == deepest { levels - 1 } else { self.random.below(levels.min(2)) };
            self.value(inner);
        }
        self.sign(if object { b'}' } else { b']' });
    }
}

/// Damages a text, which may by chance be sound afterwards.
pub fn damage(random: &mut Random, text: &mut Vec<u8>) {
    let n = text.len();
    let at = random.below(n + 1);
    match random.below(8) {
        0 if at < n => text[at] = random.next() as u8,
        1 if at < n => text[at] ^= 1 << random.below(8),
        2 if at < n => text[at] = NEAR[random.below(NEAR.len())],
        3 if at < n => drop(text.remove(at)),
        4 if at + 1 < n => text.swap(at, at + 1),
        5 if at < n => {
            let part = text[at..n.min(at + 1 + random.below(8))].to_vec();
            let to = random.below(n + 1);
            text.splice(to..to, part);
        }
        6 => text.truncate(at),
        _ => text.insert(at, NEAR[random.below(NEAR.len())]),
    }
}
