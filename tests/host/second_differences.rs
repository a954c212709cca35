//! What differs between two messages, a second time: written from request 4 of document 02 over the second reader. Each
//! parameter of a recipient has what its name says and a tree of its value, which owns all that counts; two values are
//! the same where their trees are equal.

use super::second::{self, Answer, What};
use std::collections::BTreeMap;

/// Eight numbers: kind, recipient, and on either side origin, value start and value length.
pub type Line = [u32; 8];

/// What is answered: the own number, the refusals of left and right, and the lines, none where any refuses.
#[derive(Clone, Debug, Default, PartialEq)]
pub struct Differences {
    pub own: u32,
    pub refusals: [u32; 2],
    pub lines: Vec<Line>,
}

/// A value that owns all that counts when it is compared. An object that has a name twice is its octets.
#[derive(Debug, PartialEq)]
pub enum Tree {
    Object(BTreeMap<String, Tree>),
    Repeating(Vec<u8>),
    Array(Vec<Tree>),
    String(String),
    Number(Vec<u8>),
    True,
    False,
    Null,
}

fn tree(text: &[u8], value: &second::Value) -> Tree {
    let octets = || text[value.start..value.end].to_vec();
    match &value.what {
        What::Object(members) => {
            let map: BTreeMap<String, Tree> =
                members.iter().map(|member| (member.name.clone(), tree(text, &member.value))).collect();
            if map.len() == members.len() { Tree::Object(map) } else { Tree::Repeating(octets()) }
        }
        What::Array(elements) => Tree::Array(elements.iter().map(|element| tree(text, element)).collect()),
        What::String(said) => Tree::String(said.clone()),
        What::Number => Tree::Number(octets()),
        What::True => Tree::True,
        What::False => Tree::False,
        What::Null => Tree::Null,
    }
}

/// The tree of a value by itself, which is read as the only member of an object.
pub fn tree_of(value: &[u8]) -> Tree {
    let text = [b"{\"\":", value, b"}"].concat();
    let object = second::object(&text).expect("a value of an accepted message");
    tree(&text, &object.members().expect("an object")[0].value)
}

/// A parameter: what its name says, its origin, the start and length of its value, and that value.
struct Parameter {
    name: String,
    place: [u32; 3],
    value: Tree,
}

/// The parameters of one recipient, in the order of its list.
fn parameters(message: &[u8], answer: &Answer) -> Vec<Parameter> {
    let parameter = |row: &[u32]| {
        let [origin, name_start, name_length, value_start, value_length, _] = row else { panic!("six numbers") };
        let text = if *origin == 0 { &answer.header[..] } else { message };
        let part = |start: &u32, length: &u32| &text[*start as usize..][..*length as usize];
        let spelling = std::str::from_utf8(part(name_start, name_length)).expect("UTF-8");
        Parameter {
            name: second::said(spelling).expect("a name of an accepted message"),
            place: [*origin, *value_start, *value_length],
            value: tree_of(part(value_start, value_length)),
        }
    };
    answer.list.chunks_exact(6).map(parameter).collect()
}

/// The octets of a component; an absent one has none.
fn component(message: &[u8], answer: &Answer, number: usize) -> Vec<u8> {
    let [start, length] = answer.places[number].map(|n| n as usize);
    second::decoded(&message[start..][..length]).expect("a component of an accepted message")
}

fn line(kind: u32, recipient: u32, left: [u32; 3], right: [u32; 3]) -> Line {
    let ([a, b, c], [d, e, f]) = (left, right);
    [kind, recipient, a, b, c, d, e, f]
}

const NONE: [u32; 3] = [0; 3];

fn by_name(parameters: &[Parameter]) -> BTreeMap<&str, &Parameter> {
    parameters.iter().map(|parameter| (&*parameter.name, parameter)).collect()
}

/// The lines on the parameters of one recipient number.
fn parameter_lines(recipient: u32, left: &[Parameter], right: &[Parameter], lines: &mut Vec<Line>) {
    let (in_left, in_right) = (by_name(left), by_name(right));
    for one in left {
        let Some(other) = in_right.get(&*one.name) else {
            lines.push(line(8, recipient, one.place, NONE));
            continue;
        };
        if one.place[0] != other.place[0] {
            lines.push(line(10, recipient, one.place, other.place));
        }
        if one.value != other.value {
            lines.push(line(11, recipient, one.place, other.place));
        }
    }
    for other in right.iter().filter(|other| !in_left.contains_key(&*other.name)) {
        lines.push(line(9, recipient, NONE, other.place));
    }
}

/// Two accepted messages, each read for recipient 0.
fn lines(messages: [&[u8]; 2], firsts: [&Answer; 2], known: &[u8]) -> Vec<Line> {
    let ([left, right], [one, other]) = (messages, firsts);
    let differ = |number| component(left, one, number) != component(right, other, number);
    // iv, aad, ciphertext and tag are the reader's components 2 to 5.
    let tests = [
        one.form != other.form,
        one.recipients != other.recipients,
        one.header != other.header,
        differ(2),
        differ(3),
        differ(4),
        differ(5),
    ];
    let mut lines: Vec<Line> =
        (0..).zip(tests).filter(|(_, differ)| *differ).map(|(kind, _)| line(kind, 0, NONE, NONE)).collect();
    let both = one.recipients.min(other.recipients);
    let read = |message, recipient| second::read(message, known, recipient, 4096, 576);
    let answers: Vec<[Answer; 2]> = (0..both).map(|number| messages.map(|message| read(message, number))).collect();
    for (number, [one, other]) in (0..).zip(&answers) {
        if component(left, one, 1) != component(right, other, 1) {
            lines.push(line(7, number, NONE, NONE));
        }
    }
    for (number, [one, other]) in (0..).zip(&answers) {
        parameter_lines(number, &parameters(left, one), &parameters(right, other), &mut lines);
    }
    lines
}

/// The differences, where there is room for them.
pub fn differences(left: &[u8], right: &[u8], known: &[u8]) -> Differences {
    let firsts = [left, right].map(|message| second::read(message, known, 0, 4096, 576));
    let refusals = firsts.each_ref().map(|answer| answer.refusal);
    if refusals != [0, 0] {
        return Differences { refusals, ..Differences::default() };
    }
    Differences { lines: lines([left, right], firsts.each_ref(), known), ..Differences::default() }
}

impl Differences {
    /// The answer where so many numbers are lent for the lines.
    pub fn with_room(self, room: usize) -> Differences {
        if 8 * self.lines.len() > room {
            return Differences { own: 1, ..Differences::default() };
        }
        self
    }
}
