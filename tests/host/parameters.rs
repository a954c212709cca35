//! The parameters of messages by chance: headers that are sound, and faults in them.

use super::messages::{Maker, Object, VALUES};

const KEYED: [&str; 15] = [
    "RSA1_5", "RSA-OAEP", "RSA-OAEP-256", "A128KW", "A192KW", "A256KW", "A128GCMKW", "A192GCMKW", "A256GCMKW",
    "PBES2-HS256+A128KW", "PBES2-HS384+A192KW", "PBES2-HS512+A256KW", "ECDH-ES+A128KW", "ECDH-ES+A192KW",
    "ECDH-ES+A256KW",
];
const KEYLESS: [&str; 2] = ["ECDH-ES", "dir"];
const ENCS: [&str; 6] = ["A128CBC-HS256", "A192CBC-HS384", "A256CBC-HS512", "A128GCM", "A192GCM", "A256GCM"];
const STRINGS: [&str; 7] = ["kid", "typ", "cty", "jku", "x5u", "x5t", "x5t#S256"];
const ANY_KIND: [&str; 7] = ["epk", "apu", "apv", "iv", "tag", "p2s", "p2c"];
/// Names that are not registered, many nearly.
const UNKNOWN: [&str; 26] = [
    "exp", "b64", "http://example.com/x", "a", "A", "ab", "ba", "Alg", "alg ", "al", "algo", "x5t#s256", "x5t#", "crit2",
    "\u{e9}", "\u{1d11e}", "\u{10000}", "e\n", "\"", "header", "recipients", "ciphertext", "a/b", "\u{0}", "\u{8}", "\u{c}",
];

impl Maker<'_> {
    /// The headers with their faults, and the known names.
    pub fn make_headers(&mut self) {
        self.sound_headers();
        self.crit();
        self.spoil_headers();
        if self.wants(7) && self.chance(6) {
            self.deep_parameter();
        }
        let mut headers = vec![std::mem::take(&mut self.protected), std::mem::take(&mut self.shared)];
        headers.append(&mut self.owns);
        for header in &mut headers {
            if self.chance(8) {
                self.shuffle(header);
            }
        }
        self.owns = headers.split_off(2);
        self.shared = headers.pop().expect("the shared header");
        self.protected = headers.pop().expect("the protected header");
    }

    /// A value of the kind that a name asks for.
    pub fn value(&mut self, name: &str) -> Vec<u8> {
        match name {
            "jwk" => self.written(|writer| {
                let levels = 1 + writer.random.below(2);
                writer.nested(true, levels);
            }),
            "x5c" => self.written(|writer| {
                let levels = 1 + writer.random.below(2);
                writer.nested(false, levels);
            }),
            name if STRINGS.contains(&name) => self.written(|writer| writer.string()),
            _ => {
                let levels = self.pick(&[0, 0, 0, 1, 2]);
                self.nested(levels)
            }
        }
    }

    /// A header of one recipient: 0 protected, 1 shared, 2 own.
    fn header(&mut self, origin: usize) -> &mut Object {
        let recipient = self.random.below(self.owns.len());
        match origin {
            0 => &mut self.protected,
            1 => &mut self.shared,
            _ => &mut self.owns[recipient],
        }
    }

    fn any_origin(&mut self) -> usize {
        if self.form == 0 {
            0
        } else {
            self.random.below(3)
        }
    }

    fn sound_headers(&mut self) {
        let recipients = self.owns.len();
        let (for_alg, mut for_enc) = (self.any_origin(), self.any_origin());
        if self.wants(21) && self.form == 2 && self.chance(14) {
            for_enc = 2;
        }
        let encs = self.encs(recipients);
        let shared_alg = if self.chance(8) { self.pick(&KEYLESS) } else { self.pick(&KEYED) };
        for i in 0..recipients {
            let own_alg = if self.chance(8) { self.pick(&KEYLESS) } else { self.pick(&KEYED) };
            let alg = if for_alg == 2 { own_alg } else { shared_alg };
            if for_alg == 2 {
                let value = self.quoted(alg);
                self.owns[i].push(("alg".into(), value));
            }
            if for_enc == 2 {
                let value = self.quoted(encs[i]);
                self.owns[i].push(("enc".into(), value));
            }
            self.keys[i] = if KEYLESS.contains(&alg) { Vec::new() } else { self.component() };
        }
        if for_alg < 2 {
            let value = self.quoted(shared_alg);
            self.header(for_alg).push(("alg".into(), value));
        }
        if for_enc < 2 {
            let value = self.quoted(encs[0]);
            self.header(for_enc).push(("enc".into(), value));
        }
        self.more_parameters();
        if self.chance(3) {
            let value = self.quoted("DEF");
            self.protected.push(("zip".into(), value));
        }
    }

    /// The recipients' content algorithms: one for all; or, as a fault, another for one of them, or any for each.
    fn encs(&mut self, recipients: usize) -> Vec<&'static str> {
        let mut encs = vec![self.pick(&ENCS); recipients];
        if self.wants(21) {
            let odd = self.random.below(recipients);
            let all = self.chance(4);
            for i in 0..recipients {
                if all || i == odd {
                    encs[i] = self.pick(&ENCS);
                }
            }
        }
        encs
    }

    /// Names of which a recipient has each once, and which two recipients may both have.
    fn more_parameters(&mut self) {
        let mut names: Vec<&str> = [&STRINGS[..], &["jwk", "x5c"], &ANY_KIND, &UNKNOWN].concat();
        self.shuffle(&mut names);
        let most = if self.chance(1) { 13 } else { 4 };
        for origin in 0..if self.form == 0 { 1 } else { 2 } {
            for _ in 0..self.random.below(most) {
                let Some(name) = names.pop() else { break };
                let value = self.value(name);
                self.header(origin).push((name.into(), value));
            }
        }
        for i in 0..if self.form == 0 { 0 } else { self.owns.len() } {
            self.shuffle(&mut names);
            for j in 0..self.random.below(most).min(names.len()) {
                let value = self.value(names[j]);
                self.owns[i].push((names[j].into(), value));
            }
        }
    }

    /// `crit`, and what is known.
    fn crit(&mut self) {
        if self.chance(5) || self.wants(17) {
            let mut names: Vec<String> = Vec::new();
            let alone = if self.owns.len() == 1 { &self.owns[0][..] } else { &[] };
            for (name, _) in self.protected.iter().chain(&self.shared).chain(alone) {
                if UNKNOWN.contains(&&**name) && names.len() < 3 {
                    names.push(name.clone());
                }
            }
            if names.is_empty() {
                names.push("critical".into());
                self.protected.push(("critical".into(), b"[0]".to_vec()));
            }
            self.known.extend(names.iter().map(|name| name.clone().into_bytes()));
            if self.wants(17) {
                self.wrong_crit(&mut names);
            }
            let mut elements: Vec<Vec<u8>> = names.iter().map(|name| self.quoted(name)).collect();
            if self.wants(17) && self.chance(3) {
                let at = self.random.below(elements.len() + 1);
                let value = self.pick(&VALUES).to_vec();
                elements.insert(at, value);
            }
            self.shuffle(&mut elements);
            let value = self.array(&elements);
            self.protected.push(("crit".into(), value));
        }
        for _ in 0..self.pick(&[0, 0, 1, 3, 13]) {
            let name = match self.random.below(4) {
                0 => "n".repeat(1 + self.random.below(64)),
                1 => self.pick(&["alg", "crit", "epk", "zip"]).into(),
                _ => self.pick(&UNKNOWN).to_string(),
            };
            self.known.push(name.into_bytes());
        }
        let mut known = std::mem::take(&mut self.known);
        known.truncate(16);
        self.shuffle(&mut known);
        self.known = known;
    }

    fn wrong_crit(&mut self, names: &mut Vec<String>) {
        match self.random.below(7) {
            0 => names.clear(),
            1 => names.push(names[0].clone()),
            2 => drop(self.known.pop()),
            3 => {
                self.known.push(b"absent".to_vec());
                names.push("absent".into());
            }
            4 => {
                let name = self.pick(&[&STRINGS[..], &["alg", "enc", "zip", "jwk", "x5c", "crit"], &ANY_KIND].concat());
                let all = [&self.protected, &self.shared, &self.owns[0]];
                let absent = all.iter().all(|header| header.iter().all(|member| member.0 != name));
                if absent && !["zip", "crit"].contains(&name) {
                    let value = self.value(name);
                    self.protected.push((name.into(), value));
                }
                self.known.push(name.into());
                names.push(name.into());
            }
            5 => names.push(self.pick(&UNKNOWN).into()),
            _ => {
                let name = names[0].clone();
                self.protected.retain(|member| member.0 != name);
            }
        }
    }

    /// A listed value with one character otherwise, too few or too many; or one of another list.
    fn unlisted(&mut self, listed: &[&str]) -> Vec<u8> {
        let mut value = self.pick(listed).as_bytes().to_vec();
        let at = self.random.below(value.len());
        match self.random.below(6) {
            0 => value[at] ^= 0x20,
            1 => drop(value.remove(at)),
            2 => value.insert(at, b'A'),
            3 => value.truncate(at),
            4 => value.push(b' '),
            _ => value = self.pick(&["none", "A128GCMKW", "A128GCM", "dir", "DEF", "RSA-OAEP-512", ""]).into(),
        }
        let says: String = value.into_iter().map(|c| if c == b'"' || c < b' ' { 'x' } else { c as char }).collect();
        self.quoted(&says)
    }

    /// Faults 12 to 16, and 8 and 9 in headers.
    fn spoil_headers(&mut self) {
        if self.wants(12) && self.form > 0 {
            let from = self.any_origin();
            let to = (from + 1 + self.random.below(2)) % 3;
            let names: Vec<String> = self.header(from).iter().map(|(name, _)| name.clone()).collect();
            let name = if names.is_empty() { "enc".into() } else { names[self.random.below(names.len())].clone() };
            let value = self.value(&name);
            self.header(to).push((name, value));
        }
        if self.wants(13) {
            let name = self.pick(&["alg", "enc"]);
            let all = self.chance(1);
            for origin in 0..3 {
                self.header(origin).retain(|member| member.0 != name && !all);
            }
        }
        if self.wants(14) {
            let name = self.pick(&[&STRINGS[..], &["alg", "enc", "zip", "jwk", "x5c", "crit"]].concat());
            let value = self.pick(&VALUES).to_vec();
            self.put_parameter(name, value);
        }
        if self.wants(15) {
            let name = self.pick(&["alg", "enc", "zip"]);
            let value = match name {
                "alg" => self.unlisted(&[&KEYED[..], &KEYLESS].concat()),
                "enc" => self.unlisted(&ENCS),
                _ => self.unlisted(&["DEF"]),
            };
            self.put_parameter(name, value);
        }
        if self.wants(16) && self.form > 0 {
            let name = self.pick(&["zip", "crit"]);
            let value = if name == "zip" { self.quoted("DEF") } else { b"[\"a\"]".to_vec() };
            if self.chance(12) {
                self.protected.retain(|member| member.0 != name);
            }
            let origin = 1 + self.random.below(2);
            self.header(origin).push((name.into(), value));
        }
        for number in [8, 9] {
            while self.wants(number) && self.chance(7) {
                let mut headers = vec![&mut self.protected];
                if self.form > 0 {
                    headers.push(&mut self.shared);
                    headers.extend(&mut self.owns);
                }
                let which = self.random.below(headers.len());
                let mut header = std::mem::take(headers[which]);
                self.spoil_names(&mut header, number);
                match which {
                    0 => self.protected = header,
                    1 => self.shared = header,
                    own => self.owns[own - 2] = header,
                }
            }
        }
    }

    /// Gives a parameter another value, or adds it where it is absent.
    fn put_parameter(&mut self, name: &str, value: Vec<u8>) {
        for origin in 0..3 {
            if let Some(member) = self.header(origin).iter_mut().find(|member| member.0 == name) {
                member.1 = value;
                return;
            }
        }
        let origin = self.any_origin();
        self.header(origin).push((name.into(), value));
    }

    /// 8: about 32 members, whose names begin or end alike or have the same characters. 9: one of the names again.
    pub fn spoil_names(&mut self, members: &mut Object, number: u32) {
        if number == 9 && !members.is_empty() {
            let name = members[self.random.below(members.len())].0.clone();
            let value = self.value(&name);
            let at = self.random.below(members.len() + 1);
            members.insert(at, (name, value));
        }
        if number == 8 {
            let count = 30 + self.random.below(5);
            let kind = self.random.below(4);
            let most = self.pick(&[120, 120, 120, 1000]);
            let long = "x".repeat(self.random.below(most));
            for i in 0..count.saturating_sub(members.len()) {
                let name = match kind {
                    0 => format!("m{i}"),
                    1 => format!("{long}{i:02}"),
                    2 => format!("{i:02}{long}"),
                    _ => format!("{:06b}", i).replace('1', "ab").replace('0', "ba"),
                };
                members.push((name, b"0".to_vec()));
            }
            if self.chance(4) {
                self.spoil_names(members, 9);
            }
        }
    }

    /// A parameter by which the message, or the protected header, has 11 to 13 levels.
    fn deep_parameter(&mut self) {
        let origin = self.any_origin();
        let level = match (origin, self.form) {
            (0, _) => 1,
            (2, 2) => 4,
            _ => 2,
        };
        let levels = 11 + self.random.below(3) - level;
        let value = self.nested(levels);
        self.header(origin).push(("deep".into(), value));
    }
}
