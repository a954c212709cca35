//! Pairs of messages by chance: what a message is made of, and the same after some small edits, each then written in a
//! spelling of its own. Whether the two differ is not known here.

use super::messages::maker;
use super::second::{self, What};
use crate::random::Random;
use crate::reference::Reference;
use crate::writer::{damage, Writer};

/// A value as a tree that can be changed. Members stand in an order, and a name may be there twice.
#[derive(Clone, Debug)]
pub enum Json {
    Object(Vec<(String, Json)>),
    Array(Vec<Json>),
    String(String),
    Number(String),
    Word(&'static str),
}

type Header = Vec<(String, Json)>;

/// What a message is made of. Components are raw octets; one without any is absent, or empty.
#[derive(Clone)]
struct Model {
    /// 0 compact, 1 flattened, 2 general.
    form: usize,
    protected: Header,
    shared: Header,
    /// The recipients' own headers and keys.
    owns: Vec<(Header, Vec<u8>)>,
    /// iv, aad, ciphertext, tag.
    parts: [Vec<u8>; 4],
}

/// Of 16 places for a space, of 16 characters for an escape, and of 16 objects for another order, how many are used.
#[derive(Clone, Copy)]
struct Spelling {
    spaces: usize,
    escapes: usize,
    orders: usize,
}

const NAMES: [&str; 12] = ["a", "b", "c", "aa", "ab", "kty", "\u{e9}", "\u{1d11e}", "", "\"", "/", "x\n"];
const NUMBERS: [&str; 10] = ["0", "-0", "1", "1.0", "1e0", "1E0", "10", "1e1", "-1.5e+3", "12345678901234567890"];
const STRINGS: [&str; 10] = ["", "1", "true", "a", "A", "\u{e9}", "e\u{301}", "\u{1d11e}", "a/b\\\"", "\u{0}"];
const ENCS: [&str; 6] = ["A128CBC-HS256", "A192CBC-HS384", "A256CBC-HS512", "A128GCM", "A192GCM", "A256GCM"];
/// Names whose values the rules look at.
const RULED: [&str; 4] = ["alg", "enc", "zip", "crit"];

fn pick<T: Copy>(random: &mut Random, from: &[T]) -> T {
    from[random.below(from.len())]
}

fn shuffle<T>(random: &mut Random, all: &mut [T]) {
    for i in (1..all.len()).rev() {
        all.swap(i, random.below(i + 1));
    }
}

// Values

fn from_second(text: &[u8], value: &second::Value) -> Json {
    match &value.what {
        What::Object(members) => {
            Json::Object(members.iter().map(|m| (m.name.clone(), from_second(text, &m.value))).collect())
        }
        What::Array(elements) => Json::Array(elements.iter().map(|element| from_second(text, element)).collect()),
        What::String(said) => Json::String(said.clone()),
        What::Number => Json::Number(String::from_utf8_lossy(&text[value.start..value.end]).into_owned()),
        What::True => Json::Word("true"),
        What::False => Json::Word("false"),
        What::Null => Json::Word("null"),
    }
}

/// What a value says, from its text.
fn read(value: &[u8]) -> Json {
    let text = [b"{\"\":", value, b"}"].concat();
    let object = second::object(&text).expect("a value");
    from_second(&text, &object.members().expect("an object")[0].value)
}

fn grown(random: &mut Random, levels: usize) -> Json {
    match random.below(if levels == 0 { 5 } else { 11 }) {
        0 | 1 => Json::String(pick(random, &STRINGS).into()),
        2 | 3 => Json::Number(pick(random, &NUMBERS).into()),
        4 => Json::Word(pick(random, &["true", "false", "null"])),
        5 | 6 => Json::Array((0..random.below(4)).map(|_| grown(random, levels - 1)).collect()),
        _ => {
            // Few names, so that one is at times there twice.
            let few = pick(random, &[3, 12, 12]);
            let count = random.below(5);
            let mut members: Header =
                (0..count).map(|_| (NAMES[random.below(few)].to_string(), grown(random, levels - 1))).collect();
            if random.below(4) > 0 {
                let mut seen = Vec::new();
                members.retain(|(name, _)| !seen.contains(name) && { seen.push(name.clone()); true });
            }
            Json::Object(members)
        }
    }
}

/// A number that has the same value, or nearly, in other characters.
fn respelled(random: &mut Random, number: &str) -> String {
    match random.below(4) {
        0 if !number.contains(['.', 'e', 'E']) => format!("{number}.0"),
        1 if !number.contains(['e', 'E']) => format!("{number}e0"),
        2 => number.replace('e', "E"),
        _ => pick(random, &NUMBERS).into(),
    }
}

/// Another value in one place, or by chance the same again.
fn altered(random: &mut Random, json: &mut Json) {
    let deeper = random.below(3) > 0;
    match json {
        Json::Object(members) if !members.is_empty() && deeper => {
            let at = random.below(members.len());
            altered(random, &mut members[at].1);
        }
        Json::Array(elements) if !elements.is_empty() && deeper => {
            let at = random.below(elements.len());
            altered(random, &mut elements[at]);
        }
        Json::Object(members) => alter_members(random, members),
        Json::Array(elements) => match random.below(4) {
            0 => elements.push(grown(random, 1)),
            1 => drop(elements.pop()),
            2 => shuffle(random, elements),
            _ => *json = grown(random, 2),
        },
        Json::Number(number) if random.below(2) == 0 => *number = respelled(random, number),
        Json::Number(number) if random.below(2) == 0 => *json = Json::String(number.clone()),
        Json::String(said) if random.below(2) == 0 => said.push(pick(random, &['a', '\u{e9}', '\u{0}'])),
        Json::String(said) if random.below(2) == 0 => drop(said.pop()),
        _ => *json = grown(random, 1),
    }
}

fn alter_members(random: &mut Random, members: &mut Header) {
    match random.below(7) {
        0 => members.push((pick(random, &NAMES).into(), grown(random, 1))),
        1 => drop(members.pop()),
        2 => shuffle(random, members),
        // A name again, with its value or another.
        3 | 4 if !members.is_empty() => {
            let (name, value) = members[random.below(members.len())].clone();
            let value = if random.below(2) == 0 { value } else { grown(random, 1) };
            members.insert(random.below(members.len() + 1), (name, value));
        }
        5 if !members.is_empty() => {
            let at = random.below(members.len());
            members[at].0 = pick(random, &NAMES).into();
        }
        6 if members.len() > 1 => {
            // Two members exchange their values.
            let (one, other) = (random.below(members.len()), random.below(members.len()));
            let value = members[one].1.clone();
            members[one].1 = std::mem::replace(&mut members[other].1, value);
        }
        _ => {}
    }
}

// Messages

fn model(random: &mut Random, reference: &Reference) -> (Model, Vec<u8>) {
    let form = random.below(3);
    let recipients = if form == 2 { pick(random, &[1, 1, 2, 2, 3, 8]) } else { 1 };
    let mut made = maker(form, 0, recipients, random, reference);
    let known = made.known_list();
    let values = |header: &[(String, Vec<u8>)]| header.iter().map(|(name, value)| (name.clone(), read(value))).collect();
    let (protected, shared): (Header, Header) = (values(&made.protected), values(&made.shared));
    let keys = made.keys.iter().map(|key| reference.decode(key).expect("an encoded key"));
    let owns: Vec<(Header, Vec<u8>)> = made.owns.iter().map(|own| values(own)).zip(keys).collect();
    let mut part = || if random.below(3) == 0 { Vec::new() } else { short(random) };
    let parts = [part(), if form == 0 { Vec::new() } else { part() }, part(), part()];
    let mut model = Model { form, protected, shared, owns, parts };
    for i in 0..random.below(4) {
        let levels = pick(random, &[1, 2, 2, 3, 6]);
        let value = grown(random, levels);
        let origin = if form == 0 { 0 } else { random.below(3) };
        for header in model.headers(random, origin) {
            header.push((format!("t{i}"), value.clone()));
        }
    }
    (model, known)
}

fn short(random: &mut Random) -> Vec<u8> {
    let n = 1 + random.below(20);
    random.octets(n)
}

impl Model {
    /// The headers of an origin. Of own ones all, or one of them.
    fn headers(&mut self, random: &mut Random, origin: usize) -> Vec<&mut Header> {
        let one = if random.below(2) == 0 { Some(random.below(self.owns.len())) } else { None };
        match origin {
            0 => vec![&mut self.protected],
            1 => vec![&mut self.shared],
            _ => {
                let asked = |i: usize| one.map_or(true, |one| one == i);
                self.owns.iter_mut().enumerate().filter(|(i, _)| asked(*i)).map(|(_, own)| &mut own.0).collect()
            }
        }
    }

    fn all_headers(&mut self) -> impl Iterator<Item = &mut Header> {
        [&mut self.protected, &mut self.shared].into_iter().chain(self.owns.iter_mut().map(|own| &mut own.0))
    }

    /// One that has a member.
    fn some_header(&mut self, random: &mut Random) -> Option<&mut Header> {
        let mut all: Vec<&mut Header> = self.all_headers().filter(|header| !header.is_empty()).collect();
        let at = random.below(all.len().max(1));
        if at < all.len() { Some(all.swap_remove(at)) } else { None }
    }

    /// A member that no rule looks at.
    fn some_member(&mut self, random: &mut Random) -> Option<&mut (String, Json)> {
        let header = self.some_header(random)?;
        let mut free: Vec<&mut (String, Json)> = header.iter_mut().filter(|member| !RULED.contains(&&*member.0)).collect();
        let at = random.below(free.len().max(1));
        if at < free.len() { Some(free.swap_remove(at)) } else { None }
    }

    fn edit(&mut self, random: &mut Random) {
        match random.below(20) {
            0..=3 => {
                if let Some(member) = self.some_member(random) {
                    altered(random, &mut member.1);
                }
            }
            4..=6 => self.moved(random),
            7 => {
                if let Some(header) = self.some_header(random) {
                    shuffle(random, header);
                }
            }
            8 => {
                if let Some(member) = self.some_member(random) {
                    member.0.push(pick(random, &['x', '\u{e9}']));
                }
            }
            9 => {
                if let Some(header) = self.some_header(random) {
                    let at = random.below(header.len());
                    if !RULED.contains(&&*header[at].0) || random.below(8) == 0 {
                        header.remove(at);
                    }
                }
            }
            10 => {
                let origin = if self.form == 0 { 0 } else { random.below(3) };
                let (name, value) = (format!("n{}", random.below(3)), grown(random, 2));
                for header in self.headers(random, origin) {
                    header.push((name.clone(), value.clone()));
                }
            }
            11 => {
                let enc = pick(random, &ENCS);
                for (_, value) in self.all_headers().flatten().filter(|member| member.0 == "enc") {
                    *value = Json::String(enc.into());
                }
            }
            12 | 13 => {
                let which = random.below(4);
                if self.form > 0 || which != 1 {
                    change(random, &mut self.parts[which]);
                }
            }
            14 => {
                let which = random.below(self.owns.len());
                if !self.owns[which].1.is_empty() {
                    change(random, &mut self.owns[which].1);
                }
            }
            15 | 16 if self.form == 2 => self.other_recipients(random),
            _ => self.other_form(random),
        }
    }

    /// A parameter in another header; of own ones each that has the name, or one.
    fn moved(&mut self, random: &mut Random) {
        let (from, to) = (random.below(3), random.below(3));
        let Some((name, value)) = self.headers(random, from).first().and_then(|header| {
            (!header.is_empty()).then(|| header[random.below(header.len())].clone())
        }) else {
            return;
        };
        if self.form == 0 || from == to || name == "zip" || name == "crit" {
            return;
        }
        if from == 2 {
            self.owns.iter_mut().for_each(|own| own.0.retain(|member| member.0 != name));
        } else {
            self.headers(random, from).into_iter().for_each(|header| header.retain(|member| member.0 != name));
        }
        match to {
            2 => self.owns.iter_mut().for_each(|own| own.0.push((name.clone(), value.clone()))),
            _ => self.headers(random, to).into_iter().for_each(|header| header.insert(0, (name.clone(), value.clone()))),
        }
    }

    fn other_recipients(&mut self, random: &mut Random) {
        match random.below(3) {
            0 if self.owns.len() > 1 => drop(self.owns.remove(random.below(self.owns.len()))),
            1 => {
                let again = self.owns[random.below(self.owns.len())].clone();
                self.owns.insert(random.below(self.owns.len() + 1), again);
            }
            _ => shuffle(random, &mut self.owns),
        }
    }

    /// Flattened and general alone differ in nothing but form; what is made compact has all in its protected header.
    fn other_form(&mut self, random: &mut Random) {
        self.form = random.below(3);
        if self.form < 2 {
            self.owns.truncate(1);
        }
        if self.form == 0 {
            let more: Header = self.shared.drain(..).chain(self.owns[0].0.drain(..)).collect();
            self.protected.extend(more);
            self.parts[1].clear();
        }
    }
}

fn change(random: &mut Random, octets: &mut Vec<u8>) {
    match random.below(4) {
        0 => octets.push(random.next() as u8),
        1 => drop(octets.pop()),
        2 if !octets.is_empty() => {
            let at = random.below(octets.len());
            octets[at] ^= 1 << random.below(8);
        }
        _ => *octets = short(random),
    }
}

// Spelling

fn put_string(writer: &mut Writer, said: &str, spelling: Spelling) {
    writer.put(b"\"");
    said.chars().for_each(|c| writer.spell(c, spelling.escapes));
    writer.put(b"\"");
}

fn put(writer: &mut Writer, json: &Json, spelling: Spelling) {
    match json {
        Json::Object(members) => {
            let mut order: Vec<&(String, Json)> = members.iter().collect();
            if writer.chance(spelling.orders) {
                shuffle(writer.random, &mut order);
            }
            writer.sign(b'{');
            for (i, (name, value)) in order.into_iter().enumerate() {
                if i > 0 {
                    writer.sign(b',');
                }
                put_string(writer, name, spelling);
                writer.sign(b':');
                put(writer, value, spelling);
            }
            writer.sign(b'}');
        }
        Json::Array(elements) => {
            writer.sign(b'[');
            for (i, element) in elements.iter().enumerate() {
                if i > 0 {
                    writer.sign(b',');
                }
                put(writer, element, spelling);
            }
            writer.sign(b']');
        }
        Json::String(said) => put_string(writer, said, spelling),
        Json::Number(number) => writer.put(number.as_bytes()),
        Json::Word(word) => writer.put(word.as_bytes()),
    }
}

/// A header's members stay in their order, as the list has them in it.
fn header_text(random: &mut Random, header: &Header, spelling: Spelling) -> Vec<u8> {
    let texts: Vec<Vec<u8>> = header
        .iter()
        .map(|(name, value)| {
            let mut writer = Writer { random, text: Vec::new(), spaces: spelling.spaces };
            put_string(&mut writer, name, spelling);
            writer.sign(b':');
            put(&mut writer, value, spelling);
            writer.text
        })
        .collect();
    [b"{", &texts.join(&b',')[..], b"}"].concat()
}

fn message(random: &mut Random, model: &Model, reference: &Reference, spelling: Spelling) -> Vec<u8> {
    let encode = |octets: &[u8]| reference.encode(octets);
    let protected = header_text(random, &model.protected, spelling);
    let [iv, aad, ciphertext, tag] = model.parts.each_ref().map(|part| encode(part));
    if model.form == 0 {
        return [encode(&protected), encode(&model.owns[0].1), iv, ciphertext, tag].join(&b'.');
    }
    let string = |text: Vec<u8>| [b"\"", &text[..], b"\""].concat();
    let mut top: Vec<(&str, Vec<u8>)> = vec![("ciphertext", string(ciphertext))];
    if !model.protected.is_empty() {
        top.push(("protected", string(encode(&protected))));
    }
    for (name, text) in [("iv", iv), ("aad", aad), ("tag", tag)] {
        if !text.is_empty() {
            top.push((name, string(text)));
        }
    }
    if !model.shared.is_empty() {
        top.push(("unprotected", header_text(random, &model.shared, spelling)));
    }
    let mut elements = Vec::new();
    for (own, key) in &model.owns {
        let mut members = Vec::new();
        if !own.is_empty() {
            members.push(("header", header_text(random, own, spelling)));
        }
        if !key.is_empty() {
            members.push(("encrypted_key", string(encode(key))));
        }
        elements.push(members);
    }
    if model.form == 1 {
        top.append(&mut elements[0]);
    } else {
        let texts: Vec<Vec<u8>> = elements.iter().map(|element| members_text(element)).collect();
        top.push(("recipients", [b"[", &texts.join(&b',')[..], b"]"].concat()));
    }
    if random.below(2) == 0 {
        shuffle(random, &mut top);
    }
    members_text(&top)
}

fn members_text(members: &[(&str, Vec<u8>)]) -> Vec<u8> {
    let texts: Vec<Vec<u8>> =
        members.iter().map(|(name, value)| [b"\"", name.as_bytes(), b"\":", value].concat()).collect();
    [b"{", &texts.join(&b',')[..], b"}"].concat()
}

/// Left, right and the known names.
pub fn made_pair(random: &mut Random, reference: &Reference) -> [Vec<u8>; 3] {
    let (left, mut known) = model(random, reference);
    let mut right = left.clone();
    for _ in 0..pick(random, &[0, 1, 1, 1, 2, 2, 3, 6]) {
        right.edit(random);
    }
    let plain = Spelling { spaces: 0, escapes: 0, orders: 0 };
    let mut texts = [&left, &right].map(|model| {
        let other = Spelling { spaces: random.below(3), escapes: pick(random, &[0, 1, 4]), orders: pick(random, &[0, 8, 16]) };
        let spelling = if random.below(2) == 0 { plain } else { other };
        message(random, model, reference, spelling)
    });
    if random.below(12) == 0 {
        let which = random.below(2);
        damage(random, &mut texts[which]);
    }
    if random.below(100) == 0 {
        damage(random, &mut known);
    }
    let [left, right] = texts;
    [left, right, known]
}
