//! The orders of document 01, 'Numbers of refusal, in order': a sound message of each form, each fault in it alone, and
//! two faults at once, of which the one that comes first in the order gives the number.

use crate::list::{encoded, known, members, Cases};

/// A message in parts, each of which a fault can change without touching the others.
#[derive(Clone)]
struct Parts {
    form: usize,
    room: char,
    known: Vec<u8>,
    recipient: char,
    /// Members of the protected, the shared and the own headers.
    protected: Vec<String>,
    shared: Vec<String>,
    owns: Vec<Vec<String>>,
    /// The text of each recipient's key.
    keys: Vec<Option<&'static str>>,
    /// Further members of the top level and of elements.
    top: Vec<String>,
    elements: Vec<Vec<String>>,
    /// Whether the protected header has its members.
    bare: bool,
    /// What stands behind the protected header, its length being at least so many octets, and behind the message.
    header_end: &'static str,
    header_length: usize,
    end: &'static str,
    tag: &'static str,
}

fn texts(all: &[&str]) -> Vec<String> {
    all.iter().map(|text| text.to_string()).collect()
}

fn object(members: &[String]) -> String {
    format!("{{{}}}", members.join(","))
}

impl Parts {
    /// Sound messages. `alg` and `enc` are each recipient's own, so that a fault in them is one recipient's.
    fn sound(form: usize) -> Self {
        let own = texts(&[r#""alg":"dir""#, r#""enc":"A128GCM""#]);
        let typ = texts(&[r#""typ":"t""#]);
        let recipients = [0, 1, 2][form];
        Parts {
            form,
            room: '-',
            known: known(&["x"]),
            recipient: '0',
            protected: if form == 0 { [typ, own.clone()].concat() } else { typ },
            shared: texts(&[r#""cty":"c""#]),
            owns: vec![own; recipients],
            keys: vec![None; recipients.max(1)],
            top: Vec::new(),
            elements: vec![Vec::new(); recipients],
            bare: false,
            header_end: "",
            header_length: 0,
            end: "",
            tag: "Ag",
        }
    }

    /// The header that has a recipient's `alg` and `enc`.
    fn ruled(&mut self, recipient: usize) -> &mut Vec<String> {
        match self.form {
            0 => &mut self.protected,
            _ => &mut self.owns[recipient],
        }
    }

    fn message(&self) -> String {
        let bare = if self.bare { "{}".to_string() } else { object(&self.protected) };
        let protected = encoded(format!("{:1$}", bare + self.header_end, self.header_length));
        if self.form == 0 {
            let key = self.keys[0].unwrap_or_default().replace('"', "");
            return format!("{protected}.{key}.AA.AQID.{}{}", self.tag, self.end);
        }
        let mut top = vec![
            format!(r#""protected":"{protected}""#),
            format!(r#""unprotected":{}"#, object(&self.shared)),
            format!(r#""ciphertext":"AQID","tag":"{}""#, self.tag),
        ];
        let mut elements = Vec::new();
        for ((own, key), others) in self.owns.iter().zip(&self.keys).zip(&self.elements) {
            let mut element = vec![format!(r#""header":{}"#, object(own))];
            element.extend(key.map(|key| format!(r#""encrypted_key":{key}"#)));
            element.extend_from_slice(others);
            elements.push(element);
        }
        if self.form == 1 {
            top.append(&mut elements[0]);
        } else {
            let elements: Vec<String> = elements.iter().map(|element| object(element)).collect();
            top.push(format!(r#""recipients":[{}]"#, elements.join(",")));
        }
        top.extend_from_slice(&self.top);
        object(&top) + self.end
    }
}

/// A fault: its number, its place in words, and how it is put in. The recipient's number is lent to it.
struct Fault {
    number: u32,
    place: String,
    of: usize,
    put: fn(&mut Parts, usize),
}

const TWICE: &str = r#""z":1,"z":2"#;

fn full() -> String {
    members("m", 33)
}

/// 12 to 18 of a recipient.
fn rules(form: usize, recipient: usize) -> Vec<Fault> {
    let all: [(u32, fn(&mut Parts, usize)); 7] = [
        (12, |parts, r| parts.owns[r].push(r#""cty":"c""#.into())),
        (13, |parts, r| parts.ruled(r).retain(|member| !member.starts_with(r#""enc""#))),
        (14, |parts, r| parts.ruled(r).push(r#""kid":1"#.into())),
        // `enc` is unlisted, or `alg` where there is no `enc`.
        (15, |parts, r| {
            let (alg, enc) = (r#""alg":"dir""#, r#""enc":"A128GCM""#);
            let wrong = if parts.ruled(r).iter().any(|member| member == enc) { enc } else { alg };
            parts.ruled(r).iter_mut().filter(|member| *member == wrong).for_each(|member| {
                *member = format!(r#"{}:"none""#, &member[..5]);
            });
        }),
        (16, |parts, r| parts.ruled(r).push(r#""zip":"DEF""#.into())),
        // The other recipient has what is critical.
        (17, |parts, r| {
            parts.protected.push(r#""crit":["x"]"#.into());
            for (i, own) in parts.owns.iter_mut().enumerate() {
                if i != r {
                    own.push(r#""x":1"#.into());
                }
            }
        }),
        (18, |parts, r| parts.keys[r] = Some(r#""AA""#)),
    ];
    let in_form = all.into_iter().filter(|(number, _)| form > 0 || ![12, 16].contains(number));
    let place = if form == 2 { format!(" of recipient {recipient}") } else { String::new() };
    in_form.map(|(number, put)| Fault { number, place: place.clone(), of: recipient, put }).collect()
}

/// The faults of a form, in the order of document 01.
fn faults(form: usize) -> Vec<Fault> {
    let mut all = Vec::new();
    let mut add = |number, place: &str, of, put| all.push(Fault { number, place: place.to_string(), of, put });
    add(1, "", 0, |parts: &mut Parts, _: usize| parts.room = 'h');
    add(3, "", 0, |parts, _| parts.known = vec![1]);
    if form == 0 {
        add(4, "", 0, |parts, _| parts.end = ".");
        add(5, "", 0, |parts, _| parts.tag = "A");
        add(6, "", 0, |parts, _| parts.header_length = 4097);
        add(7, "", 0, |parts, _| parts.header_end = "]");
        add(8, "", 0, |parts, _| parts.protected.push(full()));
        add(9, "", 0, |parts, _| parts.protected.push(TWICE.into()));
    } else {
        add(7, " in the message", 0, |parts, _| parts.end = "]");
        add(8, " in the top level", 0, |parts, _| parts.top.push(full()));
        add(9, " in the top level", 0, |parts, _| parts.top.push(TWICE.into()));
        add(10, " in the top level", 0, |parts, _| parts.top.push(r#""aad":"""#.into()));
        if form == 2 {
            add(11, "", 0, |parts, _| {
                parts.owns.resize(9, texts(&[r#""alg":"dir""#, r#""enc":"A128GCM""#]));
                parts.keys.resize(9, None);
                parts.elements.resize(9, Vec::new());
            });
            for (i, place) in [" in element 0", " in element 1"].into_iter().enumerate() {
                add(8, place, i, |parts, i| parts.elements[i].push(full()));
                add(9, place, i, |parts, i| parts.elements[i].push(TWICE.into()));
                add(10, place, i, |parts, i| parts.keys[i] = Some(r#""""#));
            }
        }
        add(5, "", 0, |parts, _| parts.tag = "A");
        add(6, "", 0, |parts, _| parts.header_length = 4097);
        add(7, " in the protected header", 0, |parts, _| parts.header_end = "]");
        add(10, " in the protected header", 0, |parts, _| parts.bare = true);
        add(8, " in the protected header", 0, |parts, _| parts.protected.push(full()));
        add(9, " in the protected header", 0, |parts, _| parts.protected.push(TWICE.into()));
        add(8, " in the shared header", 0, |parts, _| parts.shared.push(full()));
        add(9, " in the shared header", 0, |parts, _| parts.shared.push(TWICE.into()));
        for (i, place) in [" in own header 0", " in own header 1"].into_iter().enumerate().take(form) {
            add(8, place, i, |parts, i| parts.owns[i].push(full()));
            add(9, place, i, |parts, i| parts.owns[i].push(TWICE.into()));
        }
    }
    for recipient in 0..form.max(1) {
        all.extend(rules(form, recipient));
    }
    // One recipient more, so that two differ whatever is wrong with another's `enc`.
    if form == 2 {
        all.push(Fault {
            number: 21,
            place: String::new(),
            of: 0,
            put: |parts, _| {
                parts.owns.push(texts(&[r#""alg":"dir""#, r#""enc":"A256GCM""#]));
                parts.keys.push(None);
                parts.elements.push(Vec::new());
            },
        });
    }
    all.push(Fault { number: 19, place: String::new(), of: 0, put: |parts, _| parts.recipient = '9' });
    all
}

/// A protected header without members has none too many and none twice, and holds no `crit`.
fn exclude(first: &Fault, second: &Fault) -> bool {
    first.number == 10 && first.place.contains("protected") && (second.place == first.place || second.number == 17)
}

impl Cases {
    pub fn orders(&mut self) {
        for form in 0..3 {
            self.placed("the message of the orders without a fault", 0, Parts::sound(form), &[]);
            let faults = faults(form);
            for (i, first) in faults.iter().enumerate() {
                let name = format!("{}{} and no other fault", first.number, first.place);
                self.placed(&name, first.number, Parts::sound(form), &[first]);
                for (j, second) in faults.iter().enumerate().skip(i + 1) {
                    // Neighbours; a smaller number that comes later, once in each kind of place; 21 and 19 after every rule.
                    let near = j - i <= [2, 1, 2][form];
                    let once = first.of == 0 && (second.of == 0 || second.number >= 12);
                    let smaller = form == 2 && second.number < first.number && once;
                    let last = [19, 21].contains(&second.number) && first.number >= 12;
                    if first.number == second.number || exclude(first, second) || !(near || smaller || last) {
                        continue;
                    }
                    let name = format!("{}{} before {}{}", first.number, first.place, second.number, second.place);
                    self.placed(&name, first.number, Parts::sound(form), &[first, second]);
                }
            }
        }
    }

    fn placed(&mut self, name: &str, number: u32, mut parts: Parts, faults: &[&Fault]) {
        faults.iter().for_each(|fault| (fault.put)(&mut parts, fault.of));
        let case = self.of_form(parts.form, number, name, parts.message());
        case.room(parts.room).asking(parts.recipient).lending(parts.known);
    }
}
