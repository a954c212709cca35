//! Messages by chance: sound ones of the three forms, into which faults of chosen numbers are put, and which may be damaged
//! after that. Whether a message has its faults is not known here: at the borders of sizes half of them have none.

use super::Call;
use crate::random::Random;
use crate::reference::Reference;
use crate::writer::{damage, Writer};

/// Members: what a name says, and the text of its value.
pub type Object = Vec<(String, Vec<u8>)>;

/// Refusals of which a fault can be put in, in the reader's order.
const FAULTS: [u32; 20] = [1, 2, 3, 4, 5, 6, 7, 8, 9, 10, 11, 12, 13, 14, 15, 16, 17, 18, 21, 19];
const IGNORED: [&str; 8] = ["x", "alg", "enc", "Protected", "protected ", "", "key", "recipient"];
/// Names that the top level knows, and names in an element, of which it knows the first two.
const TOP: [&str; 9] =
    ["protected", "iv", "aad", "ciphertext", "tag", "encrypted_key", "unprotected", "header", "recipients"];
const ELEMENT: [&str; 3] = ["header", "encrypted_key", "ciphertext"];
/// Values of each kind.
pub const VALUES: [&[u8]; 11] =
    [b"1", b"-0.5", b"true", b"false", b"null", b"\"\"", b"\"x\"", b"{}", b"[]", b"{\"alg\":\"dir\"}", b"[\"x\"]"];

pub struct Maker<'a> {
    pub random: &'a mut Random,
    pub reference: &'a Reference,
    /// One bit for each number of which a fault is put in.
    faults: u32,
    /// Of 16 places for a space, and of 16 characters for an escape, how many are used.
    spaces: usize,
    escapes: usize,
    pub form: usize,
    pub protected: Object,
    pub shared: Object,
    pub owns: Vec<Object>,
    pub keys: Vec<Vec<u8>>,
    pub known: Vec<Vec<u8>>,
}

impl Maker<'_> {
    pub fn wants(&self, number: u32) -> bool {
        self.faults >> number & 1 == 1
    }

    pub fn chance(&mut self, of_16: usize) -> bool {
        self.random.below(16) < of_16
    }

    pub fn pick<T: Copy>(&mut self, from: &[T]) -> T {
        from[self.random.below(from.len())]
    }

    pub fn shuffle<T>(&mut self, all: &mut [T]) {
        for i in (1..all.len()).rev() {
            all.swap(i, self.random.below(i + 1));
        }
    }

    // Texts

    pub fn written(&mut self, write: impl FnOnce(&mut Writer)) -> Vec<u8> {
        let mut writer = Writer { random: self.random, text: Vec::new(), spaces: self.spaces };
        write(&mut writer);
        writer.text
    }

    pub fn quoted(&mut self, says: &str) -> Vec<u8> {
        let escapes = self.escapes;
        self.written(|writer| {
            writer.put(b"\"");
            says.chars().for_each(|c| writer.spell(c, escapes));
            writer.put(b"\"");
        })
    }

    pub fn object(&mut self, members: &Object) -> Vec<u8> {
        let names: Vec<Vec<u8>> = members.iter().map(|(name, _)| self.quoted(name)).collect();
        self.written(|writer| {
            writer.sign(b'{');
            for (i, (name, (_, value))) in names.iter().zip(members).enumerate() {
                if i > 0 {
                    writer.sign(b',');
                }
                writer.put(name);
                writer.sign(b':');
                writer.put(value);
            }
            writer.sign(b'}');
        })
    }

    pub fn array(&mut self, values: &[Vec<u8>]) -> Vec<u8> {
        self.written(|writer| {
            writer.sign(b'[');
            for (i, value) in values.iter().enumerate() {
                if i > 0 {
                    writer.sign(b',');
                }
                writer.put(value);
            }
            writer.sign(b']');
        })
    }

    pub fn nested(&mut self, levels: usize) -> Vec<u8> {
        self.written(|writer| writer.value(levels))
    }

    /// The octets of a component that is not empty.
    pub fn octets(&mut self) -> Vec<u8> {
        let most = self.pick(&[24, 24, 24, 24, 24, 24, 24, 1000]);
        let n = 1 + self.random.below(most);
        self.random.octets(n)
    }

    pub fn component(&mut self) -> Vec<u8> {
        let octets = self.octets();
        self.reference.encode(&octets)
    }

    // The message

    /// The octets of the protected header.
    pub fn header_text(&mut self) -> Vec<u8> {
        let protected = std::mem::take(&mut self.protected);
        let mut text = self.object(&protected);
        if self.wants(6) {
            let length = 4095 + self.random.below(3);
            let room = length.saturating_sub(text.len());
            if room > 100 && !protected.is_empty() && self.chance(8) {
                let end = text.iter().rposition(|&c| c == b'}').expect("an object");
                let filled = format!(r#","":"{}""#, "x".repeat(room - 6));
                text.splice(end..end, filled.into_bytes());
            } else {
                let at = self.pick(&[0, text.len()]);
                text.splice(at..at, vec![b' '; room]);
            }
        }
        if self.wants(7) && self.chance(6) || self.chance(1) {
            damage(self.random, &mut text);
        }
        text
    }

    fn misspelled(&mut self, components: &mut [&mut Vec<u8>]) {
        if self.wants(5) {
            let which = self.random.below(components.len());
            self.random.damage(components[which]);
        }
    }

    fn compact(&mut self) -> Vec<u8> {
        let header = self.header_text();
        let mut parts = [self.reference.encode(&header), self.keys[0].clone(), Vec::new(), Vec::new(), Vec::new()];
        for part in &mut parts[2..] {
            if self.random.below(8) > 0 {
                *part = self.component();
            }
        }
        self.misspelled(&mut parts.iter_mut().collect::<Vec<_>>());
        let mut message = parts.join(&b'.');
        if self.wants(4) {
            let at = self.random.below(message.len() + 1);
            match message.iter().rposition(|&c| c == b'.') {
                Some(dot) if self.chance(8) => drop(message.remove(dot)),
                _ => message.insert(at, b'.'),
            }
        }
        message
    }

    fn json(&mut self) -> Vec<u8> {
        let mut top: Object = Vec::new();
        if !self.protected.is_empty() || self.chance(1) {
            let header = self.header_text();
            top.push(("protected".into(), self.reference.encode(&header)));
        }
        for name in ["iv", "aad", "tag"] {
            if self.chance(10) {
                top.push((name.into(), self.component()));
            }
        }
        let ciphertext = if self.chance(2) { Vec::new() } else { self.component() };
        top.push(("ciphertext".into(), ciphertext));
        let mut keys = std::mem::take(&mut self.keys);
        self.misspelled(&mut top.iter_mut().map(|member| &mut member.1).chain(&mut keys).collect::<Vec<_>>());
        // A component's text stays as it is, between quotation marks.
        let string = |component: &[u8]| [b"\"", component, b"\""].concat();
        for (_, value) in &mut top {
            *value = string(value);
        }
        if !self.shared.is_empty() {
            let shared = std::mem::take(&mut self.shared);
            top.push(("unprotected".into(), self.object(&shared)));
        }
        let mut elements = Vec::new();
        for (own, key) in std::mem::take(&mut self.owns).into_iter().zip(keys) {
            let mut element = Object::new();
            if !own.is_empty() {
                element.push(("header".into(), self.object(&own)));
            }
            if !key.is_empty() {
                element.push(("encrypted_key".into(), string(&key)));
            }
            elements.push(element);
        }
        if self.form == 1 {
            top.append(&mut elements[0]);
        } else {
            let elements = self.elements(elements);
            top.push(("recipients".into(), elements));
        }
        self.ignored(&mut top, 1);
        if self.wants(10) && self.chance(10) {
            self.misshape(&mut top, &TOP);
        }
        if self.wants(10) && self.form == 2 && self.chance(2) {
            let member = self.pick(&[("header", &b"{\"q\":1}"[..]), ("encrypted_key", b"\"AA\"")]);
            top.push((member.0.into(), member.1.to_vec()));
        }
        for number in [8, 9] {
            if self.wants(number) && self.chance(4) {
                self.spoil_names(&mut top, number);
            }
        }
        self.shuffle(&mut top);
        self.object(&top)
    }

    fn elements(&mut self, mut elements: Vec<Object>) -> Vec<u8> {
        for element in &mut elements {
            self.ignored(element, 3);
            self.shuffle(element);
        }
        for number in [8, 9] {
            while self.wants(number) && self.chance(7) {
                let which = self.random.below(elements.len());
                self.spoil_names(&mut elements[which], number);
            }
        }
        while self.wants(10) && self.chance(8) {
            let which = self.random.below(elements.len());
            self.misshape(&mut elements[which], &ELEMENT);
        }
        let mut texts: Vec<Vec<u8>> = elements.iter().map(|element| self.object(element)).collect();
        if self.wants(10) && self.chance(4) {
            let which = self.random.below(texts.len());
            texts[which] = self.pick(&VALUES).to_vec();
        }
        if self.wants(10) && self.chance(1) {
            texts.clear();
        }
        self.array(&texts)
    }

    /// Members that are ignored, the object being so deep.
    fn ignored(&mut self, members: &mut Object, level: usize) {
        while self.chance(3) {
            let name = self.pick(&IGNORED);
            if members.iter().all(|member| member.0 != name) {
                let deepest = 11 + self.random.below(3);
                let levels = if self.wants(7) && self.chance(4) { deepest - level } else { self.random.below(3) };
                members.push((name.into(), self.nested(levels)));
            }
        }
    }

    /// A wrong shape, on the top level or in an element: a member too few, or one of these with another value.
    fn misshape(&mut self, members: &mut Object, names: &[&str]) {
        if !members.is_empty() && self.chance(4) {
            let at = self.random.below(members.len());
            members.swap_remove(at);
            return;
        }
        let name = self.pick(names);
        let value: Vec<u8> = match self.random.below(5) {
            0 => self.pick(&VALUES).to_vec(),
            1 => b"\"\"".to_vec(),
            2 => self.pick(&[&b"{}"[..], b"{ }", b"[]", b"[{}]", b"{\"q\":1}"]).to_vec(),
            3 => self.pick(&[&b"\"A\\/\""[..], b"\"\\u0041A\"", b"\"\\\\\"", b"\"AA\\n\""]).to_vec(),
            _ => [b"\"", &self.component()[..], b"\""].concat(),
        };
        match members.iter_mut().find(|member| member.0 == name) {
            Some(member) => member.1 = value,
            None => members.push((name.into(), value)),
        }
    }

    pub fn known_list(&mut self) -> Vec<u8> {
        let mut list = vec![self.known.len() as u8];
        list.extend(self.known.iter().map(|name| name.len() as u8));
        list.extend(self.known.concat());
        if self.wants(3) {
            let at = self.random.below(list.len());
            match self.random.below(6) {
                0 => list[at] = self.random.next() as u8,
                1 => list.truncate(at),
                2 => list.insert(at, 1),
                3 => list[0] = list[0].wrapping_add(1),
                4 => list = [&[17][..], &[1; 17], &[b'n'; 17]].concat(),
                _ => list = [&[2, 1, 65][..], &[b'n'; 66]].concat(),
            }
        }
        list
    }
}

/// A message with its form, and what is lent for it.
pub fn made(random: &mut Random, reference: &Reference) -> (usize, Call) {
    let form = random.below(3);
    made_in(form, random, reference)
}

/// A compact message, unless damage has made it another.
pub fn made_compact(random: &mut Random, reference: &Reference) -> Call {
    made_in(0, random, reference).1
}

/// A maker of so many recipients, with headers and keys that have their faults.
pub fn maker<'a>(
    form: usize,
    faults: u32,
    recipients: usize,
    random: &'a mut Random,
    reference: &'a Reference,
) -> Maker<'a> {
    let (spaces, escapes) = ([0, 0, 0, 1, 1, 6, 6, 13][random.below(8)], [0, 0, 1, 8][random.below(4)]);
    let mut maker = Maker {
        random,
        reference,
        faults,
        spaces,
        escapes,
        form,
        protected: Vec::new(),
        shared: Vec::new(),
        owns: vec![Vec::new(); recipients],
        keys: vec![Vec::new(); recipients],
        known: Vec::new(),
    };
    maker.make_headers();
    if maker.wants(18) {
        let which = maker.random.below(recipients);
        maker.keys[which] = if maker.keys[which].is_empty() { maker.component() } else { Vec::new() };
    }
    maker
}

fn made_in(form: usize, random: &mut Random, reference: &Reference) -> (usize, Call) {
    // Of two faults the second is often one of the next, so that their order shows.
    let (mut faults, mut last) = (0u32, FAULTS.len());
    for _ in 0..[0, 0, 1, 1, 2, 2, 2, 3][random.below(8)] {
        let near = last < FAULTS.len() && random.below(2) == 0;
        last = if near { (last + random.below(4)).min(FAULTS.len() - 1) } else { random.below(FAULTS.len()) };
        faults |= 1 << FAULTS[last];
    }
    let recipients = match form {
        2 if faults >> 11 & 1 == 1 => 8 + random.below(4),
        // Only where there are two can they differ.
        2 if faults >> 21 & 1 == 1 => [2, 2, 3, 2 + random.below(7)][random.below(4)],
        2 => [1, 1, 2, 2, 3, 1 + random.below(8)][random.below(6)],
        _ => 1,
    };
    let mut maker = maker(form, faults, recipients, random, reference);
    let known = maker.known_list();
    let mut message = if form == 0 { maker.compact() } else { maker.json() };
    if maker.wants(7) && maker.chance(4) || maker.chance(2) {
        damage(maker.random, &mut message);
    }
    let first = message.iter().find(|c| !b" \t\n\r".contains(c));
    let form = if first == Some(&b'{') { form.max(1) } else { 0 };

    let mut call = Call { known, ..Call::new(message) };
    call.recipient = match random.below(8) {
        0 => random.below(10) as u32,
        _ => random.below(recipients) as u32,
    };
    if faults >> 19 & 1 == 1 {
        call.recipient = [recipients as u32, recipients as u32 + 1, 9, 1 << 16, 1 << 31, u32::MAX][random.below(6)];
    }
    call.header_room += random.below(2) * random.below(64);
    call.list_room += random.below(2) * random.below(64);
    if faults >> 1 & 1 == 1 {
        match random.below(4) {
            0 => call.header_room = 4095,
            1 => call.list_room = 575,
            2 => call.header_room = random.below(4096),
            _ => call.list_room = random.below(576),
        }
    }
    (form, call)
}
