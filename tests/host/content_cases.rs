//! Messages by hand for one content algorithm for all (request 2 of document 02): the `enc` values of all recipients are equal
//! strings after undoing escapes, else 21, which comes after 12 to 18 of all recipients and before 19.

use super::cases::{compact, encoded, json, known, members, protected, Cases, Expected, DIR};
use super::Call;
use Expected::{Accepted, Refused};

const ENCS: [&str; 6] = ["A128CBC-HS256", "A192CBC-HS384", "A256CBC-HS512", "A128GCM", "A192GCM", "A256GCM"];
/// In mode 5, so that no recipient has a key.
const ALG: &str = r#""alg":"dir""#;

fn enc(value: &str) -> String {
    format!(r#""enc":"{value}""#)
}

/// An element whose own header has these members.
fn element(members: &str) -> String {
    format!(r#"{{"header":{{{members}}}}}"#)
}

fn with_elements(top: &str, elements: &[String]) -> String {
    json(&format!(r#"{top}"recipients":[{}]"#, elements.join(",")))
}

/// A general message without a protected or shared header, of recipients with these `enc` values as they are spelled.
fn owns(values: &[&str]) -> String {
    let elements: Vec<String> = values.iter().map(|value| element(&format!("{ALG},{}", enc(value)))).collect();
    with_elements("", &elements)
}

/// So many recipients with A128GCM, one of whom has another.
fn odd(count: usize, at: usize, other: &str) -> String {
    let mut values = vec!["A128GCM"; count];
    values[at] = other;
    owns(&values)
}

/// A fault of one recipient: its number, the members of its own header, and its key.
struct Fault {
    number: u32,
    what: &'static str,
    own: &'static str,
    key: &'static str,
}

/// Faults 12 to 18, but 17, of a recipient in a message whose protected header has `typ` and whose shared one has `cty`.
const FAULTS: [Fault; 12] = [
    Fault { number: 12, what: "cty shared and own", own: r#""alg":"dir","enc":"A128GCM","cty":"c""#, key: "" },
    Fault { number: 12, what: "typ protected and own", own: r#""alg":"dir","enc":"A256GCM","\u0074yp":"t""#, key: "" },
    Fault { number: 13, what: "no enc", own: r#""alg":"dir""#, key: "" },
    Fault { number: 13, what: "no alg", own: r#""enc":"A128GCM""#, key: "" },
    Fault { number: 14, what: "enc no string", own: r#""alg":"dir","enc":["A128GCM"]"#, key: "" },
    Fault { number: 14, what: "kid no string", own: r#""alg":"dir","enc":"A256GCM","kid":1"#, key: "" },
    Fault { number: 15, what: "enc unlisted", own: r#""alg":"dir","enc":"A128GCN""#, key: "" },
    Fault { number: 15, what: "alg unlisted", own: r#""alg":"none","enc":"A256GCM""#, key: "" },
    Fault { number: 16, what: "zip own", own: r#""alg":"dir","enc":"A128GCM","zip":"DEF""#, key: "" },
    Fault { number: 16, what: "crit own", own: r#""alg":"dir","enc":"A256GCM","crit":["x"]"#, key: "" },
    Fault { number: 18, what: "a key in mode 5", own: r#""alg":"dir","enc":"A256GCM""#, key: r#","encrypted_key":"AA""# },
    Fault { number: 18, what: "no key in mode 2", own: r#""alg":"A128KW","enc":"A128GCM""#, key: "" },
];

impl Cases {
    pub fn contents(&mut self) {
        self.equal_contents();
        self.spelled_contents();
        self.different_contents();
        self.common_contents();
        self.contents_and_faults();
        self.contents_and_orders();
    }

    /// A message for each of several recipient numbers, in range or out of it.
    fn asking(&mut self, refusal: u32, name: &str, message: &str, recipients: &[u32]) {
        for &recipient in recipients {
            let name = format!("{name}, recipient {recipient}");
            self.call(Refused(refusal), &name, Call { recipient, ..Call::new(message) });
        }
    }

    /// Accepted for each of its recipients, and refused by 19 for the next.
    fn accepted_for_all(&mut self, count: u32, name: &str, message: &str) {
        for recipient in 0..count {
            let call = Call { recipient, ..Call::new(message) };
            self.call(Accepted(2, count, 5), &format!("{name}, recipient {recipient}"), call);
        }
        self.asking(19, name, message, &[count, u32::MAX]);
    }

    fn equal_contents(&mut self) {
        for count in 1..=8 {
            let name = format!("own enc, {count} recipients, all equal");
            self.accepted_for_all(count as u32, &name, &owns(&vec!["A128GCM"; count]));
        }
        for value in ENCS {
            self.accepted_for_all(3, &format!("own enc, {value} for all"), &owns(&[value; 3]));
        }
        // Where it stands in a header, and what else does, is nothing to the rule.
        let spread = [
            element(&format!("{},{ALG}", enc("A192GCM"))),
            element(&format!(r#""kid":"1",{},"x":[],{ALG}"#, enc("A192GCM"))),
            format!(r#"{{ "x":1, "header" : {{ {ALG} , "enc" : "A192GCM" }} }}"#),
            element(&format!("{ALG},{},{}", members(30), enc("A192GCM"))),
        ];
        self.accepted_for_all(4, "own enc at different places", &with_elements("", &spread));
        // What is named so elsewhere is no `enc` of a recipient.
        let (a, b) = (enc("A128GCM"), enc("A256GCM"));
        let elsewhere = [
            element(&format!(r#"{ALG},{a},"jwk":{{{b}}}"#)),
            format!(r#"{{"header":{{{ALG},{a}}},{b}}}"#),
            element(&format!(r#"{ALG},{a},"Enc":"A256GCM","enc ":"A256GCM","en":"A256GCM","enc\u0000":"A256GCM""#)),
            element(&format!(r#"{ALG},{a},"x":[{{{b}}}]"#)),
        ];
        self.accepted_for_all(4, "another enc where it is none", &with_elements(&format!("{b},"), &elsewhere));
        let keyed = r#"{"header":{"alg":"A128KW","enc":"A128GCM"},"encrypted_key":"AA"}"#;
        let modes = with_elements("", &[element(DIR), keyed.into(), element(DIR)]);
        for (recipient, mode) in [(0, 5), (1, 2), (2, 5)] {
            let call = Call { recipient, ..Call::new(&*modes) };
            self.call(Accepted(2, 3, mode), "alg may differ", call);
        }
    }

    /// Escapes are undone in the values, and in the name.
    fn spelled_contents(&mut self) {
        let spelled = [
            r"A128GCM", r"A128GC\u004d", r"A128GC\u004D", r"\u0041128GCM", r"A\u00312\u0038GCM",
            r"\u0041\u0031\u0032\u0038\u0047\u0043\u004d",
        ];
        for one in spelled {
            for other in spelled {
                self.accepted(2, 2, 5, &format!("{one} and {other}"), owns(&[one, other]));
                for (name, values) in [("first", [other, one, one]), ("last", [one, one, other])] {
                    self.accepted(2, 3, 5, &format!("two {one}, {name} {other}"), owns(&values));
                }
            }
            // The same spellings but for a digit: another algorithm.
            for other in [r"A192GCM", r"A19\u0032GCM", r"\u0041192GC\u004d"] {
                self.refused(21, &format!("{one} and {other}"), owns(&[one, other]));
                self.refused(21, &format!("{other} and {one}"), owns(&[other, one]));
                self.refused(21, &format!("two {one}, then {other}"), owns(&[one, one, other]));
            }
        }
        let hyphen = ["A256CBC-HS512", r"A256CBC\u002dHS512", r"A256CBC\u002DHS51\u0032", "A256CBC-HS512"];
        self.accepted_for_all(4, "a hyphen escaped", &owns(&hyphen));
        self.accepted_for_all(6, "six spellings", &owns(&spelled));
        // One escape says another letter: a listed one, or an unlisted one.
        for at in 0..8 {
            let (name, other) = ("an escape that says another letter", r"A1\u00392GCM");
            self.refused(21, &format!("{name}, recipient {at}"), odd(8, at, other));
            self.refused(15, &format!("{name}, unlisted, recipient {at}"), odd(8, at, r"A128GC\u004e"));
        }
        let names = ["enc", r"\u0065nc", r"e\u006ec", r"en\u0063", r"\u0065\u006E\u0063"];
        let named = |name: &str, value: &str| element(&format!(r#"{ALG},"{name}":"{value}""#));
        let all: Vec<String> = names.iter().map(|name| named(name, "A128GCM")).collect();
        self.accepted_for_all(5, "the name escaped", &with_elements("", &all));
        for (at, name) in names.iter().enumerate() {
            let mut elements = all.clone();
            elements[at] = named(name, "A256GCM");
            self.asking(21, &format!("{name} differs"), &with_elements("", &elements), &[0, 1, at as u32, 4, 5]);
        }
    }

    fn different_contents(&mut self) {
        for one in ENCS {
            for other in ENCS.into_iter().filter(|other| *other != one) {
                self.asking(21, &format!("{one} and {other}"), &owns(&[one, other]), &[0, 1, 2]);
            }
        }
        for at in 0..8 {
            let name = format!("8 recipients, the odd one {at}");
            self.asking(21, &name, &odd(8, at, "A256GCM"), &[0, 1, 2, 3, 4, 5, 6, 7, 8, 9, 1 << 16, u32::MAX]);
        }
        for count in 2..8 {
            for at in [0, count - 1] {
                let name = format!("{count} recipients, the odd one {at}");
                self.asking(21, &name, &odd(count, at, "A192GCM"), &[0, at as u32, count as u32, u32::MAX]);
            }
        }
        let pairs = ["A128GCM", "A256GCM", "A128GCM", "A256GCM"];
        self.asking(21, "two and two", &owns(&pairs), &[0, 1, 2, 3, 4]);
        self.asking(21, "six of six", &owns(&ENCS), &[0, 1, 5, 6]);
        // The wrapping modes, as a sealer would have them, with `alg` shared.
        let keyed = |value: &str| format!(r#"{{"header":{{{}}},"encrypted_key":"AQI"}}"#, enc(value));
        let shared = r#""unprotected":{"alg":"A128KW"},"#;
        let two = with_elements(shared, &[keyed("A128GCM"), keyed("A256GCM")]);
        self.asking(21, "key wrapping", &two, &[0, 1, 2]);
        let same = with_elements(shared, &[keyed("A256GCM"), keyed("A256GCM")]);
        self.accepted(2, 2, 2, "key wrapping, the same", same);
        let last = [element(&format!("{},{ALG}", enc("A128GCM"))), element(&format!("{ALG},{},{}", members(30), enc("A192GCM")))];
        self.refused(21, "the last of 32 members differs", with_elements("", &last));
    }

    /// `enc` in a header that all share, and messages of one recipient: there is nothing that could differ.
    fn common_contents(&mut self) {
        for (place, top) in [
            ("protected", format!("{},", protected(r#"{"enc":"A128GCM"}"#))),
            ("shared", r#""unprotected":{"enc":"A128GCM"},"#.to_string()),
        ] {
            let with = |last: &str| {
                let mut elements = vec![element(ALG); 8];
                elements[7] = element(&format!("{ALG}{last}"));
                with_elements(&top, &elements)
            };
            self.accepted_for_all(8, &format!("enc {place}, 8 recipients"), &with(""));
            // Again in an own header, the same or another: 12.
            for value in ["A128GCM", "A256GCM", r"A128GC\u004d"] {
                let again = with(&format!(",{}", enc(value)));
                self.asking(12, &format!("enc {place}, and {value} own"), &again, &[0, 7, 8]);
            }
            self.refused(12, &format!("enc {place}, and own by an escape"), with(r#","en\u0063":"A256GCM""#));
            let first = with_elements(&top, &[element(&format!("{ALG},{}", enc("A256GCM"))), element(ALG)]);
            self.refused(12, &format!("enc {place}, and own of the first"), first);
        }
        let both = format!(r#"{},"unprotected":{{{}}},"#, protected(r#"{"enc":"A128GCM"}"#), enc("A256GCM"));
        self.refused(12, "enc protected and another shared", with_elements(&both, &[element(ALG), element(ALG)]));
        for value in ENCS {
            let own = format!("{ALG},{}", enc(value));
            self.accepted(1, 1, 5, &format!("flattened, {value} own"), json(&format!(r#""header":{{{own}}}"#)));
            self.accepted(1, 1, 5, &format!("flattened, {value} shared"), json(&format!(r#""unprotected":{{{own}}}"#)));
            self.accepted(1, 1, 5, &format!("flattened, {value} protected"), json(&protected(&format!("{{{own}}}"))));
        }
        let flattened = json(&format!(r#""header":{{{DIR}}},"unprotected":{{"Enc":"A256GCM"}},{}"#, enc("A256GCM")));
        self.accepted(1, 1, 5, "flattened, another at the top level", &*flattened);
        self.asking(19, "flattened, enc own", &flattened, &[1, 8]);
        let two = json(&format!(r#"{},"header":{{{ALG},"enc":"A256GCM"}}"#, protected(r#"{"enc":"A128GCM"}"#)));
        self.refused(12, "flattened, enc protected and another own", two);
        self.asking(19, "compact, enc", &compact(&format!("{{{DIR}}}")), &[1, 8]);
    }

    /// Beside each of 12 to 18, wherever its recipient stands: that number, also where an earlier pair differs.
    fn contents_and_faults(&mut self) {
        let top = format!(r#"{},"unprotected":{{"cty":"c"}},"#, protected(r#"{"typ":"t"}"#));
        let other = |at: usize| if at % 2 == 0 { "A128GCM" } else { "A256GCM" };
        // Around the faulty one there are always two that differ.
        for Fault { number, what, own, key } in FAULTS {
            for at in 0..5 {
                let mut elements: Vec<String> = (0..5).map(|i| element(&format!("{ALG},{}", enc(other(i))))).collect();
                elements[at] = format!(r#"{{"header":{{{own}}}{key}}}"#);
                let name = format!("{number} before 21, {what}, recipient {at} of 5");
                self.asking(number, &name, &with_elements(&top, &elements), &[0, at as u32, 5]);
            }
        }
        // 17 needs a protected `crit`: its name is absent for one recipient.
        let critical = format!("{},", protected(r#"{"crit":["x"]}"#));
        for at in 0..5 {
            let x = |i: usize| if i == at { "" } else { r#","x":1"# };
            let elements: Vec<String> = (0..5).map(|i| element(&format!("{ALG},{}{}", enc(other(i)), x(i)))).collect();
            let call = Call { known: known(&["x"]), ..Call::new(with_elements(&critical, &elements)) };
            self.call(Refused(17), &format!("17 before 21, recipient {at} of 5"), call);
        }
        let elements: Vec<String> = (0..5).map(|i| element(&format!(r#"{ALG},{},"x":1"#, enc(other(i))))).collect();
        let call = Call { known: known(&["x"]), ..Call::new(with_elements(&critical, &elements)) };
        self.call(Refused(21), "21 with a crit that all have", call);
        // The faults of one recipient leave no others that differ.
        for (number, own) in [(13, ALG.to_string()), (14, format!(r#"{ALG},"enc":1"#)), (15, format!("{ALG},{}", enc("none")))] {
            for at in 0..2 {
                let mut elements = vec![element(DIR), element(DIR)];
                elements[at] = element(&own);
                self.asking(number, &format!("{number} of recipient {at} of 2"), &with_elements("", &elements), &[0, 1, 2]);
            }
        }
        self.refused(14, "enc null and a string", with_elements("", &[element(DIR), element(&format!(r#"{ALG},"enc":null"#))]));
        self.refused(15, "the same unlisted enc for all", owns(&["A128GCMKW", "A128GCMKW"]));
        self.refused(15, "two unlisted ones", owns(&["A128GCMKW", "A256GCMKW"]));
        self.refused(15, "enc empty for one", owns(&["A128GCM", ""]));
        self.refused(15, "one begins as the other", owns(&["A128GCM", "A128GCMKW"]));
    }

    /// What comes before 12 comes before 21 too, of a later recipient as well; 19 comes after it.
    fn contents_and_orders(&mut self) {
        let (one, other) = (element(&format!("{ALG},{}", enc("A128GCM"))), element(&format!("{ALG},{}", enc("A256GCM"))));
        let with = |last: &str| with_elements("", &[one.clone(), other.clone(), last.to_string()]);
        self.refused(21, "21 and nothing else", with(&one));
        self.refused(7, "7 before 21", with(&one) + "}");
        self.refused(8, "8 of the last own header before 21", with(&element(&format!("{DIR},{}", members(31)))));
        self.refused(8, "8 of the last element before 21", with(&format!("{{{}}}", members(33))));
        self.refused(9, "9 of the last own header before 21", with(&element(&format!("{DIR},{}", enc("A256GCM")))));
        self.refused(9, "9 of the last, by an escape", with(&element(&format!(r#"{DIR},"\u0065nc":"A256GCM""#))));
        self.refused(10, "10 of the last before 21", with(r#"{"header":{}}"#));
        self.refused(5, "5 of the last before 21", with(r#"{"encrypted_key":"A"}"#));
        let nine: Vec<String> = (0..9).map(|i| if i == 0 { other.clone() } else { one.clone() }).collect();
        self.refused(11, "11 before 21", with_elements("", &nine));
        let short = Call { list_room: 575, ..Call::new(with(&one)) };
        self.call(Refused(1), "1 before 21", short);
        let unknown = Call { known: vec![1], ..Call::new(with(&one)) };
        self.call(Refused(3), "3 before 21", unknown);
        let long = format!(r#""protected":"{}","#, encoded(format!(r#"{{"x":"{}"}}"#, "x".repeat(4089)).as_bytes()));
        self.refused(6, "6 before 21", with_elements(&long, &[one.clone(), other.clone()]));
        self.asking(21, "21 before 19", &with(&one), &[3, 8, 1 << 24, u32::MAX]);
    }
}
