//! One content algorithm for all, in what is written (request 2 of document 02): 21 where the `enc` values of two recipients are
//! different strings, after 12 to 18 of all recipients. Every refusal by hand is tried with and without room, so that 1 is
//! seen to come behind it.

use super::{deep, header, members, pieces, with_known, Cases, H, REST};
use crate::jwe::pieces::Pieces;

const ENCS: [&str; 6] = ["A128CBC-HS256", "A192CBC-HS384", "A256CBC-HS512", "A128GCM", "A192GCM", "A256GCM"];

/// An own header in mode 5, so that there is no key.
fn own(enc: &str) -> String {
    format!(r#"{{"alg":"dir","enc":"{enc}"}}"#)
}

/// A general message of these own headers, without keys.
fn general(protected: &str, shared: &str, owns: &[String]) -> Pieces {
    pieces(true, protected, shared, &owns.iter().map(|own| [&**own, ""]).collect::<Vec<_>>())
}

/// These `enc` values as they are spelled, one a recipient.
fn values(encs: &[&str]) -> Vec<String> {
    encs.iter().map(|enc| own(enc)).collect()
}

/// A128GCM and A256GCM in turn.
fn in_turn(count: usize) -> Vec<String> {
    (0..count).map(|i| own(if i % 2 == 0 { "A128GCM" } else { "A256GCM" })).collect()
}

/// The text of a message without a protected or shared header.
fn text(owns: &[String]) -> String {
    let elements: Vec<String> = owns.iter().map(|own| format!(r#"{{"header":{own}}}"#)).collect();
    format!(r#"{{"recipients":[{}],{REST}"#, elements.join(","))
}

impl Cases {
    pub fn contents(&mut self) {
        self.equal_contents();
        self.different_contents();
        self.common_contents();
        self.contents_and_faults();
        self.contents_and_orders();
    }

    fn writes_owns(&mut self, name: &'static str, owns: &[String]) {
        self.writes(name, general("", "", owns), text(owns));
    }

    fn refuses_owns(&mut self, refusal: u32, name: &'static str, owns: &[String]) {
        self.refuses(refusal, name, general("", "", owns));
    }

    fn equal_contents(&mut self) {
        for count in 1..=8 {
            self.writes_owns("own enc, all equal", &vec![own("A128GCM"); count]);
        }
        for enc in ENCS {
            self.writes_owns("own enc, each that is listed", &values(&[enc; 3]));
        }
        let spelled = [
            r"A128GCM", r"A128GC\u004d", r"A128GC\u004D", r"\u0041128GCM", r"A\u00312\u0038GCM",
            r"\u0041\u0031\u0032\u0038\u0047\u0043\u004d",
        ];
        self.writes_owns("own enc, six spellings", &values(&spelled));
        for enc in spelled {
            self.writes_owns("own enc, equal through escapes", &values(&["A128GCM", enc]));
            self.writes_owns("own enc, equal through escapes, the first", &values(&[enc, "A128GCM", "A128GCM"]));
            self.refuses_owns(21, "own enc, different, and escapes", &values(&[enc, r"A19\u0032GCM"]));
        }
        let named = |name: &str, enc: &str| format!(r#"{{"alg":"dir","{name}":"{enc}"}}"#);
        let names = ["enc", r"\u0065nc", r"e\u006ec", r"en\u0063"];
        let all: Vec<String> = names.iter().map(|name| named(name, "A128GCM")).collect();
        self.writes_owns("enc by an escape", &all);
        for (at, name) in names.iter().enumerate() {
            let mut owns = all.clone();
            owns[at] = named(name, "A256GCM");
            self.refuses_owns(21, "enc by an escape, different", &owns);
        }
        let elsewhere = [
            r#"{"alg":"dir","enc":"A128GCM","jwk":{"enc":"A256GCM"}}"#,
            "\t{ \"x\" : [ ] , \"enc\" : \"A128GCM\",\"alg\":\"dir\"}\n",
            r#"{"Enc":"A256GCM","alg":"dir","enc ":"A256GCM","enc":"A128GCM"}"#,
        ];
        self.writes_owns("another enc where it is none", &elsewhere.map(String::from));
    }

    fn different_contents(&mut self) {
        for one in ENCS {
            for other in ENCS.into_iter().filter(|other| *other != one) {
                self.refuses_owns(21, "two that differ", &values(&[one, other]));
            }
        }
        for at in 0..8 {
            let odd = |other| values(&(0..8).map(|i| if i == at { other } else { "A128GCM" }).collect::<Vec<_>>());
            self.refuses_owns(21, "8 recipients, one odd", &odd("A256GCM"));
            self.refuses_owns(21, "8 recipients, one odd by an escape", &odd(r"A1\u00392GCM"));
            self.refuses_owns(15, "8 recipients, one unlisted by an escape", &odd(r"A128GC\u004e"));
        }
        self.refuses_owns(21, "two and two", &in_turn(4));
        self.refuses_owns(21, "six of six", &values(&ENCS));
        let keyed = |one, other| pieces(true, "", r#"{"alg":"A128KW"}"#, &[[one, "\u{1}"], [other, "\u{2}"]]);
        let (one, other) = (r#"{"enc":"A128GCM"}"#, r#"{"enc":"A256GCM"}"#);
        self.refuses(21, "key wrapping", keyed(one, other));
        self.writes(
            "key wrapping, the same",
            keyed(other, other),
            format!(
                "{{\"unprotected\":{{\"alg\":\"A128KW\"}},\"recipients\":[{{\"header\":{other},\"encrypted_key\":\"AQ\"}},\
                 {{\"header\":{other},\"encrypted_key\":\"Ag\"}}],{REST}"
            ),
        );
    }

    /// `enc` in a header that all share, and flattened messages, which never get 21.
    fn common_contents(&mut self) {
        let (alg, enc) = (r#"{"alg":"dir"}"#, r#"{"enc":"A128GCM"}"#);
        let eight = vec![alg.to_string(); 8];
        let elements = vec![format!(r#"{{"header":{alg}}}"#); 8].join(",");
        let recipients = format!(r#""recipients":[{elements}]"#);
        let text = format!(r#"{{"protected":"eyJlbmMiOiJBMTI4R0NNIn0",{recipients},{REST}"#);
        self.writes("enc protected, 8 recipients", general(enc, "", &eight), text);
        let text = format!(r#"{{"unprotected":{enc},{recipients},{REST}"#);
        self.writes("enc shared, 8 recipients", general("", enc, &eight), text);
        for value in ["A128GCM", "A256GCM", r"A128GC\u004d"] {
            for at in [0, 7] {
                let mut owns = eight.clone();
                owns[at] = own(value);
                self.refuses(12, "enc protected and own", general(enc, "", &owns));
                self.refuses(12, "enc shared and own", general("", enc, &owns));
            }
        }
        self.refuses(12, "enc protected and another shared", general(enc, r#"{"enc":"A256GCM"}"#, &eight));
        for value in ENCS {
            let header = own(value);
            let text = format!(r#"{{"header":{header},{REST}"#);
            self.writes("flattened, enc own", pieces(false, "", "", &[[&header, ""]]), text);
            let text = format!(r#"{{"unprotected":{header},{REST}"#);
            self.writes("flattened, enc shared", pieces(false, "", &header, &[["", ""]]), text);
        }
        self.refuses(12, "flattened, enc protected and another own", pieces(false, enc, "", &[[&own("A256GCM"), ""]]));
        self.refuses(20, "flattened, two that differ", pieces(false, "", "", &[[&own("A128GCM"), ""], [&own("A256GCM"), ""]]));
        let text = format!(r#"{{"protected":"{H}","recipients":[{{}},{{}}],{REST}"#);
        self.writes("alg and enc protected", general(&header(), "", &[String::new(), String::new()]), text);
    }

    /// Beside each of 12 to 18, wherever its recipient stands among others that differ: that number.
    fn contents_and_faults(&mut self) {
        let (protected, shared) = (r#"{"typ":"t"}"#, r#"{"cty":"c"}"#);
        let faults = [
            (12, "12 before 21, shared and own", r#"{"alg":"dir","enc":"A128GCM","cty":"c"}"#, ""),
            (12, "12 before 21, protected and own", r#"{"alg":"dir","enc":"A256GCM","typ":"t"}"#, ""),
            (13, "13 before 21, no enc", r#"{"alg":"dir"}"#, ""),
            (13, "13 before 21, no alg", r#"{"enc":"A128GCM"}"#, ""),
            (13, "13 before 21, no own header", "", ""),
            (14, "14 before 21, enc", r#"{"alg":"dir","enc":["A128GCM"]}"#, ""),
            (14, "14 before 21, kid", r#"{"alg":"dir","enc":"A256GCM","kid":1}"#, ""),
            (15, "15 before 21, enc", r#"{"alg":"dir","enc":"A128GCN"}"#, ""),
            (15, "15 before 21, alg", r#"{"alg":"none","enc":"A256GCM"}"#, ""),
            (16, "16 before 21, zip", r#"{"alg":"dir","enc":"A128GCM","zip":"DEF"}"#, ""),
            (16, "16 before 21, crit", r#"{"alg":"dir","enc":"A256GCM","crit":["x"]}"#, ""),
            (18, "18 before 21, a key in mode 5", r#"{"alg":"dir","enc":"A256GCM"}"#, "\0"),
            (18, "18 before 21, no key in mode 2", r#"{"alg":"A128KW","enc":"A128GCM"}"#, ""),
        ];
        for (number, name, own, key) in faults {
            for at in 0..5 {
                let owns = in_turn(5);
                let mut recipients: Vec<[&str; 2]> = owns.iter().map(|own| [&**own, ""]).collect();
                recipients[at] = [own, key];
                self.refuses(number, name, pieces(true, protected, shared, &recipients));
            }
        }
        // A name that `crit` has is absent for one recipient, or for none.
        let (crit, known) = (r#"{"crit":["x"]}"#, [1, 1, b'x']);
        for at in 0..6 {
            let mut owns: Vec<String> = in_turn(5).iter().map(|own| own.replace('}', r#","x":1}"#)).collect();
            if at < 5 {
                owns[at] = in_turn(5)[at].clone();
            }
            let number = if at < 5 { 17 } else { 21 };
            self.refuses(number, "17 before 21", with_known(&known, general(crit, "", &owns)));
        }
        self.refuses_owns(15, "the same unlisted enc for all", &values(&["A128GCMKW", "A128GCMKW"]));
        self.refuses_owns(15, "one begins as the other", &values(&["A128GCM", "A128GCMKW"]));
    }

    /// What else comes before it; that 2 does is among the long ones.
    fn contents_and_orders(&mut self) {
        let (owns, long) = (in_turn(3), " ".repeat(4097));
        let last = |text: &str| [&in_turn(2)[..], &[text.to_string()]].concat();
        self.refuses(3, "3 before 21", with_known(b"", general("", "", &owns)));
        let mut wrong_table = general("", "", &owns);
        wrong_table.recipients.push(b'x');
        self.refuses(20, "20 before 21", wrong_table);
        self.refuses(6, "6 before 21", general(&long, "", &owns));
        self.refuses(7, "7 of the protected header before 21", general("[]", "", &owns));
        self.refuses(7, "7 of the shared header before 21", general("", "{", &owns));
        self.refuses_owns(7, "7 of the last before 21", &last(r#"{"alg":"dir","enc":"A128GCM"},"x":{}"#));
        self.refuses_owns(7, "7 where the last stands before 21", &last(&deep(10)));
        self.refuses(10, "10 of the protected header before 21", general("{}", "", &owns));
        self.refuses_owns(10, "10 of the last before 21", &last("{}"));
        self.refuses(8, "8 of the shared header before 21", general("", &members(33), &owns));
        self.refuses_owns(8, "8 of the last before 21", &last(&members(33)));
        self.refuses_owns(9, "9 of the last before 21", &last(r#"{"alg":"dir","enc":"A128GCM","\u0065nc":"A256GCM"}"#));
        self.refuses_owns(21, "21 and nothing else", &owns);
    }
}
