//! The list of cases, and texts that many of them are made of.

use crate::reference::Reference;

pub struct Case {
    /// The number that the papers give: 0 is accepted.
    pub number: u32,
    /// 0 compact, 1 flattened, 2 general.
    pub form: usize,
    /// What is tested, and by which paper.
    pub what: String,
    /// The recipient asked for: a digit, or `m` for the largest number.
    pub recipient: char,
    /// What is lent: `-` just enough, `h` a header buffer that is an octet short, `l` a list that is a number short.
    pub room: char,
    pub known: Vec<u8>,
    pub message: Vec<u8>,
    /// Where they were counted by hand: the 18 numbers and the list.
    pub numbers: Option<Vec<u32>>,
    /// Where it is known by a table of the papers: the recipient count and the mode.
    pub mode: Option<(u32, u32)>,
}

impl Case {
    pub fn name(&self) -> String {
        format!("{} {}: {}", self.number, crate::FORMS[self.form], self.what)
    }

    pub fn asking(&mut self, recipient: char) -> &mut Self {
        self.recipient = recipient;
        self
    }

    pub fn room(&mut self, room: char) -> &mut Self {
        self.room = room;
        self
    }

    pub fn knowing(&mut self, names: &[&str]) -> &mut Self {
        self.lending(known(names))
    }

    pub fn lending(&mut self, known: impl Into<Vec<u8>>) -> &mut Self {
        self.known = known.into();
        self
    }

    pub fn handing(&mut self, numbers: &[u32]) -> &mut Self {
        self.numbers = Some(numbers.to_vec());
        self
    }

    pub fn in_mode(&mut self, recipients: u32, mode: u32) -> &mut Self {
        self.mode = Some((recipients, mode)).filter(|_| self.number == 0);
        self
    }
}

#[derive(Default)]
pub struct Cases {
    pub list: Vec<Case>,
    /// Each group with the case that it begins at.
    begins: Vec<(&'static str, usize)>,
}

impl Cases {
    pub fn all() -> Self {
        let mut cases = Cases::default();
        cases.group("sizes", Cases::sizes);
        cases.group("published", Cases::published);
        cases.group("samples", Cases::samples);
        cases.group("lent", Cases::lent);
        cases.group("orders", Cases::orders);
        cases.group("spelling", Cases::spelling);
        cases.group("escapes", Cases::escapes);
        cases.group("shapes", Cases::shapes);
        cases.group("headers", Cases::headers);
        cases.group("contents", Cases::contents);
        cases
    }

    fn group(&mut self, name: &'static str, add: fn(&mut Self)) {
        self.begins.push((name, self.list.len()));
        add(self);
    }

    /// How many cases each group has.
    pub fn groups(&self) -> Vec<(&'static str, usize)> {
        let ends = self.begins.iter().skip(1).map(|(_, begin)| *begin).chain([self.list.len()]);
        self.begins.iter().zip(ends).map(|((name, begin), end)| (*name, end - begin)).collect()
    }

    fn add(&mut self, number: u32, form: usize, what: impl Into<String>, message: impl Into<Vec<u8>>) -> &mut Case {
        let (what, message) = (what.into(), message.into());
        let (recipient, room, known) = ('0', '-', vec![0]);
        self.list.push(Case { number, form, what, recipient, room, known, message, numbers: None, mode: None });
        self.list.last_mut().expect("a case")
    }

    pub fn compact(&mut self, number: u32, what: impl Into<String>, message: impl Into<Vec<u8>>) -> &mut Case {
        self.add(number, 0, what, message)
    }

    pub fn flattened(&mut self, number: u32, what: impl Into<String>, message: impl Into<Vec<u8>>) -> &mut Case {
        self.add(number, 1, what, message)
    }

    pub fn general(&mut self, number: u32, what: impl Into<String>, message: impl Into<Vec<u8>>) -> &mut Case {
        self.add(number, 2, what, message)
    }

    pub fn of_form(
        &mut self,
        form: usize,
        number: u32,
        what: impl Into<String>,
        message: impl Into<Vec<u8>>,
    ) -> &mut Case {
        self.add(number, form, what, message)
    }

    /// A protected header in each form, with nothing else that could be refused.
    pub fn each(&mut self, number: u32, what: &str, header: &str) {
        self.compact(number, what, compact(header));
        self.flattened(number, what, json(&protected(header)));
        self.general(number, what, json(&format!(r#"{},"recipients":[{{}}]"#, protected(header))));
    }
}

/// Document 01's H, M and T10.
pub const H: &str = "eyJhbGciOiJkaXIiLCJlbmMiOiJBMTI4R0NNIn0";
pub const M: &str = "eyJhbGciOiJkaXIiLCJlbmMiOiJBMTI4R0NNIn0..AA.AQID.Ag";
pub const T10: &str = r#"{"unprotected":{"alg":"dir","enc":"A128GCM"},"aad":"AA","ciphertext":""}"#;
/// The members that a header needs, for mode 5.
pub const DIR: &str = r#""alg":"dir","enc":"A128GCM""#;

pub fn encoded(octets: impl AsRef<[u8]>) -> String {
    String::from_utf8(Reference::new().encode(octets.as_ref())).expect("the alphabet is ASCII")
}

/// A compact message of this header, without a key.
pub fn compact(header: impl AsRef<[u8]>) -> String {
    encoded(header) + "..AA.AQID.Ag"
}

/// A compact message of this header, with a key.
pub fn keyed(header: impl AsRef<[u8]>) -> String {
    encoded(header) + ".AA.AA.AQID.Ag"
}

/// A compact message with DIR and these members in its header.
pub fn with(members: &str) -> String {
    compact(format!("{{{DIR},{members}}}"))
}

/// A `protected` member.
pub fn protected(header: impl AsRef<[u8]>) -> String {
    format!(r#""protected":"{}""#, encoded(header))
}

/// A JSON message with these members and a ciphertext.
pub fn json(members: &str) -> String {
    format!(r#"{{{members},"ciphertext":"AQID"}}"#)
}

/// A flattened message with H and these members.
pub fn flat(members: &str) -> String {
    json(&format!(r#""protected":"{H}",{members}"#))
}

/// A general message with H and these elements.
pub fn general(elements: &str) -> String {
    flat(&format!(r#""recipients":[{elements}]"#))
}

/// So many members, with names that begin so.
pub fn members(prefix: &str, count: usize) -> String {
    (0..count).map(|i| format!(r#""{prefix}{i}":0"#)).collect::<Vec<_>>().join(",")
}

/// A text for a case's name: what is not printable ASCII by its code point.
pub fn shown(text: &str) -> String {
    let character = |c: char| match c {
        ' '..='~' => c.to_string(),
        _ => format!("<U+{:04X}>", c as u32),
    };
    text.chars().map(character).collect()
}

/// Document 01's table of modes.
pub const ALGS: [(u32, &str); 17] = [
    (1, "RSA1_5"), (1, "RSA-OAEP"), (1, "RSA-OAEP-256"), (2, "A128KW"), (2, "A192KW"), (2, "A256KW"), (2, "A128GCMKW"),
    (2, "A192GCMKW"), (2, "A256GCMKW"), (2, "PBES2-HS256+A128KW"), (2, "PBES2-HS384+A192KW"), (2, "PBES2-HS512+A256KW"),
    (3, "ECDH-ES"), (4, "ECDH-ES+A128KW"), (4, "ECDH-ES+A192KW"), (4, "ECDH-ES+A256KW"), (5, "dir"),
];

/// A list of known names.
pub fn known(names: &[&str]) -> Vec<u8> {
    let mut list = vec![names.len() as u8];
    list.extend(names.iter().map(|name| name.len() as u8));
    list.extend(names.concat().bytes());
    list
}
