//! A second base64url, written from RFC 4648 and document 01's spelling rules. Bits go through one accumulator, so that
//! it has no groups and no tails, and shares no mistake with code that goes by groups.

pub const ALPHABET: &[u8; 64] = b"ABCDEFGHIJKLMNOPQRSTUVWXYZabcdefghijklmnopqrstuvwxyz0123456789-_";

pub struct Reference {
    values: [Option<u8>; 256],
}

impl Reference {
    pub fn new() -> Self {
        let mut values = [None; 256];
        for (value, &c) in ALPHABET.iter().enumerate() {
            values[c as usize] = Some(value as u8);
        }
        let reference = Reference { values };
        reference.keeps_to_print();
        reference
    }

    /// The octets of a text, or None where it is not base64url: at its end fewer than six bits are left over, and they
    /// are zero.
    pub fn decode(&self, text: &[u8]) -> Option<Vec<u8>> {
        let mut octets = Vec::with_capacity(text.len());
        let (mut kept, mut count) = (0u32, 0);
        for &c in text {
            kept = kept << 6 | self.values[c as usize]? as u32;
            count += 6;
            if count >= 8 {
                count -= 8;
                octets.push((kept >> count) as u8);
                kept &= (1 << count) - 1;
            }
        }
        (count < 6 && kept == 0).then_some(octets)
    }

    pub fn encode(&self, octets: &[u8]) -> Vec<u8> {
        let mut text = Vec::with_capacity(octets.len() * 2);
        let (mut kept, mut count) = (0u32, 0);
        for &o in octets {
            kept = kept << 8 | o as u32;
            count += 8;
            while count >= 6 {
                count -= 6;
                text.push(ALPHABET[(kept >> count) as usize]);
                kept &= (1 << count) - 1;
            }
        }
        if count > 0 {
            text.push(ALPHABET[(kept << (6 - count)) as usize]);
        }
        text
    }

    /// floor((4n+2)/3), or the largest number.
    pub fn encoded_length(&self, n: usize) -> usize {
        let length = (4 * n as u128 + 2) / 3;
        usize::try_from(length).unwrap_or(usize::MAX)
    }

    /// This code itself, on what RFC 4648 section 10, RFC 7515 appendix C and document 01 print.
    fn keeps_to_print(&self) {
        let rows: [(&[u8], &[u8]); 10] = [
            (b"", b""),
            (b"f", b"Zg"),
            (b"fo", b"Zm8"),
            (b"foo", b"Zm9v"),
            (b"foob", b"Zm9vYg"),
            (b"fooba", b"Zm9vYmE"),
            (b"foobar", b"Zm9vYmFy"),
            (b"\0", b"AA"),
            (b"\x03\xec\xff\xe0\xc1", b"A-z_4ME"),
            (br#"{"alg":"dir","enc":"A128GCM"}"#, b"eyJhbGciOiJkaXIiLCJlbmMiOiJBMTI4R0NNIn0"),
        ];
        for (octets, text) in rows {
            assert_eq!(self.encode(octets), text);
            assert_eq!(self.decode(text).as_deref(), Some(octets));
            assert_eq!(self.encoded_length(octets.len()), text.len());
        }
        for text in ["A", "AB", "AAB", "AAAAA", "Zg==", "Zm9v ", "A+", "A/"] {
            assert_eq!(self.decode(text.as_bytes()), None);
        }
    }
}
