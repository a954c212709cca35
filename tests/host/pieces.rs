//! What JSON messages are written of, by chance: the headers of the message maker as texts, raw components, and the table of
//! recipients; with faults of chosen numbers, and texts that would be something else where they stand.

use super::messages::{maker, Maker, Object};
use crate::random::Random;
use crate::reference::Reference;
use crate::writer::damage;

/// What a message is written of. A text or component of length 0 is absent.
#[derive(Clone, Debug, Default)]
pub struct Pieces {
    pub general: bool,
    pub protected: Vec<u8>,
    pub shared: Vec<u8>,
    pub aad: Vec<u8>,
    pub iv: Vec<u8>,
    pub ciphertext: Vec<u8>,
    pub tag: Vec<u8>,
    pub known: Vec<u8>,
    /// The table.
    pub recipients: Vec<u8>,
}

impl Pieces {
    /// In the order in which the functions for C take them.
    pub fn inputs(&self) -> [&[u8]; 8] {
        let Pieces { protected, shared, aad, iv, ciphertext, tag, known, recipients, .. } = self;
        [protected, shared, aad, iv, ciphertext, tag, known, recipients]
    }
}

/// The table of recipients, each its header's text and its raw key: contents first, lengths with the highest octet first.
pub fn table<T: AsRef<[u8]>>(recipients: &[[T; 2]]) -> Vec<u8> {
    let bodies = || recipients.iter().flatten().map(AsRef::as_ref);
    let mut table = vec![recipients.len() as u8];
    bodies().for_each(|body| table.extend((body.len() as u32).to_be_bytes()));
    bodies().for_each(|body| table.extend(body));
    table
}

/// Refusals of which a fault can be put in, in the writer's order.
const FAULTS: [u32; 15] = [3, 20, 6, 7, 8, 9, 10, 12, 13, 14, 15, 16, 17, 18, 21];

/// What comes behind an object, or around it, and would go on where the text stands.
const GOING_ON: [&[u8]; 8] = [
    br#","iv":{}"#, br#","x":{"y":1}"#, b"}", br#"},"x":{"#, b",", br#"},{"header":{"x":1}"#, br#"}],"x":[{"y":{}"#, b"\0",
];

impl Maker<'_> {
    /// A header's text; none where it has no member.
    fn text_of(&mut self, members: &Object) -> Vec<u8> {
        let mut text = if !members.is_empty() {
            self.object(members)
        } else if self.wants(10) && self.chance(6) {
            self.pick(&[&b"{}"[..], b"{ }", b"\n{\t}\r", b" {}"]).to_vec()
        } else {
            Vec::new()
        };
        if self.wants(7) && self.chance(5) {
            self.spoil_text(&mut text);
        }
        text
    }

    /// A text that is no object by itself, and may be where it stands; or one that is nested about as deep as it may be.
    fn spoil_text(&mut self, text: &mut Vec<u8>) {
        match self.random.below(8) {
            0 => *text = self.pick(&[&b" "[..], b"\n", b" \t\r\n", b"[]", b"1", b"null", br#""x""#, b"[{}]"]).to_vec(),
            1 | 2 => text.extend_from_slice(self.pick(&GOING_ON)),
            3 => drop(text.splice(0..0, self.pick(&[&b"{},"[..], b"1,", br#"{},"x":"#, b"[", b"\xef\xbb\xbf"]).to_vec())),
            4 | 5 => {
                // By itself 12 levels are enough, and where it stands 11 or 9.
                let levels = 7 + self.random.below(7);
                let value = self.nested(levels);
                let end = text.iter().rposition(|&c| c == b'}').unwrap_or(0);
                let comma = if text[..end].iter().any(|c| b":".contains(c)) { "," } else { "" };
                *text = [if end == 0 { b"{" } else { &text[..end] }, comma.as_bytes(), br#""deep":"#, &value, b"}"].concat();
            }
            _ => damage(self.random, text),
        }
    }

    /// A table that is malformed, or by chance another sound one.
    fn spoil_table(&mut self, table: &mut Vec<u8>) {
        let n = table[0] as usize;
        let recipient = self.random.below(n.max(1));
        let length_at = 1 + 8 * recipient + self.pick(&[0, 4]);
        match self.random.below(12) {
            0 => table[0] = self.pick(&[0, 1, n as u8 - 1, n as u8 + 1, 8, 9, 255]),
            1 => table.push(self.random.next() as u8),
            2 => drop(table.pop()),
            3 => table.truncate(self.random.below(1 + 8 * n)),
            4 => table[length_at + self.random.below(4)] ^= 1 << self.random.below(8),
            5 => table[length_at..][..4].copy_from_slice(&[0xff; 4]),
            6 => table[length_at..][..4].reverse(),
            7 => {
                // Two lengths whose sum is the same modulo 2^32.
                table[1 + 8 * recipient] ^= 0x80;
                table[5 + 8 * recipient] ^= 0x80;
            }
            8 => {
                // An octet of one body belongs to the next.
                let [one, other] = self.pick(&[[4, 8], [8, 4]]).map(|at| at + 8 * recipient);
                table[one] = table[one].wrapping_add(1);
                table[other] = table[other].wrapping_sub(1);
            }
            9 => *table = self.pick(&[&[][..], &[0], &[1], &[1, 0, 0, 0, 0, 0, 0, 0, 0], &[0; 9]]).to_vec(),
            10 => {
                // One more, who has neither.
                table[0] += 1;
                table.splice(1..1, [0; 8]);
            }
            _ => {
                let at = self.random.below(table.len());
                table[at] = self.random.next() as u8;
            }
        }
    }

    fn pieces(&mut self) -> Pieces {
        let known = self.known_list();
        let absent = self.protected.is_empty() && !(self.wants(10) && self.chance(6));
        let mut protected = if absent { Vec::new() } else { self.header_text() };
        if self.wants(7) && self.chance(3) {
            self.spoil_text(&mut protected);
        }
        let shared = std::mem::take(&mut self.shared);
        let shared = self.text_of(&shared);
        let mut recipients = Vec::new();
        for (own, key) in std::mem::take(&mut self.owns).into_iter().zip(std::mem::take(&mut self.keys)) {
            let key = self.reference.decode(&key).expect("an encoded key");
            recipients.push([self.text_of(&own), key]);
        }
        let mut recipients = table(&recipients);
        if self.wants(20) && self.chance(12) {
            self.spoil_table(&mut recipients);
        }
        let [aad, iv, tag] = [(); 3].map(|_| if self.chance(10) { self.octets() } else { Vec::new() });
        let ciphertext = if self.chance(2) { Vec::new() } else { self.octets() };
        Pieces { general: self.form == 2, protected, shared, aad, iv, ciphertext, tag, known, recipients }
    }
}

pub fn made_pieces(random: &mut Random, reference: &Reference) -> Pieces {
    // Of two faults the second is often one of the next, so that their order shows.
    let (mut faults, mut last) = (0u32, FAULTS.len());
    for _ in 0..[0, 0, 0, 1, 1, 2, 2, 3][random.below(8)] {
        let near = last < FAULTS.len() && random.below(2) == 0;
        last = if near { (last + random.below(4)).min(FAULTS.len() - 1) } else { random.below(FAULTS.len()) };
        faults |= 1 << FAULTS[last];
    }
    let form = 1 + random.below(2);
    let mut some = [1, 1, 2, 2, 3, 1 + random.below(9)][random.below(6)];
    // Only where there are two can they differ.
    if faults >> 21 & 1 == 1 && some == 1 {
        some = 2;
    }
    let recipients = if faults >> 20 & 1 == 1 || form == 2 && some < 9 { some } else { 1 };
    maker(form, faults, recipients, random, reference).pieces()
}
