//! Request 2 of document 02, 'One content algorithm for all', after RFC 7516, 7.2.1: the `enc` values of all recipients are equal
//! strings after undoing escapes, else 21, after 12 to 18 of all recipients and before 19.

use crate::list::{compact, json, protected, Cases, DIR};

const ENCS: [&str; 6] = ["A128CBC-HS256", "A192CBC-HS384", "A256CBC-HS512", "A128GCM", "A192GCM", "A256GCM"];

/// An element whose own header has these members.
fn element(members: &str) -> String {
    format!(r#"{{"header":{{{members}}}}}"#)
}

/// An own header in mode 5 with this `enc`, as it is spelled.
fn sealed(enc: &str) -> String {
    element(&format!(r#""alg":"dir","enc":"{enc}""#))
}

/// A general message with these members before its elements.
fn with(top: &str, elements: &[String]) -> String {
    json(&format!(r#"{top}"recipients":[{}]"#, elements.join(",")))
}

/// Without a protected or shared header.
fn owns(encs: &[&str]) -> String {
    with("", &encs.iter().map(|enc| sealed(enc)).collect::<Vec<_>>())
}

impl Cases {
    pub fn contents(&mut self) {
        self.equal_contents();
        self.different_contents();
        self.common_contents();
        self.contents_and_rules();
    }

    fn equal_contents(&mut self) {
        for enc in ENCS {
            self.general(0, format!("own enc {enc} for both"), owns(&[enc; 2])).in_mode(2, 5).asking('1');
        }
        for recipient in ['0', '1', '7'] {
            let what = format!("own enc the same for 8, {recipient} asked for");
            self.general(0, what, owns(&["A128GCM"; 8])).in_mode(8, 5).asking(recipient);
        }
        for recipient in ['8', 'm'] {
            let what = format!("own enc the same for 8, {recipient} asked for");
            self.general(19, what, owns(&["A128GCM"; 8])).asking(recipient);
        }
        self.general(0, "own enc of one recipient", owns(&["A256GCM"])).in_mode(1, 5);
        for spelled in [r"A128GC\u004d", r"A128GC\u004D", r"\u0041128GCM", r"\u0041\u0031\u0032\u0038\u0047\u0043\u004d"] {
            self.general(0, format!("enc A128GCM and {spelled}"), owns(&["A128GCM", spelled]));
            self.general(0, format!("enc {spelled} and A128GCM"), owns(&[spelled, "A128GCM"])).asking('1');
            self.general(21, format!("enc A192GCM and {spelled}"), owns(&["A192GCM", spelled]));
            self.general(21, format!("enc {spelled} and A19\\u0032GCM"), owns(&[spelled, r"A19\u0032GCM"]));
        }
        // Places counted by hand.
        self.general(0, "enc equal through an escape, handed out", owns(&["A128GCM", r"A128GC\u004d"])).asking('1').handing(&[
            0, 2, 2, 5, 0, 0, 0, 0, 0, 0, 0, 0, 117, 4, 0, 0, 0, 2, 2, 68, 3, 73, 5, 2, 2, 80, 3, 85, 14, 2,
        ]);
        let hyphen = ["A256CBC-HS512", r"A256CBC\u002dHS512", r"A256CBC\u002DHS51\u0032"];
        self.general(0, "enc with a hyphen escaped", owns(&hyphen)).asking('2');
        let names = ["enc", r"\u0065nc", r"e\u006ec", r"en\u0063"];
        let named = |name: &str, enc: &str| element(&format!(r#""alg":"dir","{name}":"{enc}""#));
        let all: Vec<String> = names.iter().map(|name| named(name, "A128GCM")).collect();
        self.general(0, "the name enc with escapes, equal", with("", &all)).asking('3');
        for (at, name) in names.iter().enumerate().skip(1) {
            let mut elements = all.clone();
            elements[at] = named(name, "A256GCM");
            self.general(21, format!("the name enc as {name}, different"), with("", &elements));
        }
        let elsewhere = [
            element(&format!(r#"{DIR},"jwk":{{"enc":"A256GCM"}}"#)),
            format!(r#"{{"header":{{{DIR}}},"enc":"A256GCM"}}"#),
            element(&format!(r#"{DIR},"Enc":"A256GCM","enc ":"A256GCM""#)),
            element(r#" "enc" : "A128GCM" , "x":[], "alg":"dir" "#),
        ];
        let message = with(r#""enc":"A256GCM","#, &elsewhere);
        self.general(0, "another enc inside a value, in an element and at the top level", message).in_mode(4, 5);
        let keyed = r#"{"header":{"alg":"A128KW","enc":"A128GCM"},"encrypted_key":"AA"}"#;
        self.general(0, "alg may differ", with("", &[sealed("A128GCM"), keyed.into()])).asking('1').in_mode(2, 2);
    }

    fn different_contents(&mut self) {
        for (i, one) in ENCS.into_iter().enumerate() {
            for other in &ENCS[i + 1..] {
                self.general(21, format!("enc {one} and {other}"), owns(&[one, other]));
                self.general(21, format!("enc {other} and {one}, 1 asked for"), owns(&[other, one])).asking('1');
            }
        }
        let odd = |at: usize, other| owns(&(0..8).map(|i| if i == at { other } else { "A128GCM" }).collect::<Vec<_>>());
        for at in 0..8 {
            for recipient in ['0', '3', '7', '8', 'm'] {
                let what = format!("8 recipients, {at} has another enc, {recipient} asked for");
                self.general(21, what, odd(at, "A256GCM")).asking(recipient);
            }
            let what = format!("8 recipients, an escape says another digit for {at}");
            self.general(21, what, odd(at, r"A1\u00392GCM"));
            let what = format!("8 recipients, an escape says an unlisted letter for {at}");
            self.general(15, what, odd(at, r"A128GC\u004e"));
        }
        self.general(21, "two enc in turn", owns(&["A128GCM", "A256GCM", "A128GCM", "A256GCM"])).asking('2');
        self.general(21, "six enc", owns(&ENCS));
        let keyed = |enc| format!(r#"{{"header":{{"enc":"{enc}"}},"encrypted_key":"AA"}}"#);
        let message = with(r#""unprotected":{"alg":"A128KW"},"#, &[keyed("A128GCM"), keyed("A256GCM")]);
        self.general(21, "alg shared and two enc", message);
    }

    /// `enc` in a header that all share, and messages of one recipient.
    fn common_contents(&mut self) {
        let alg = r#""alg":"dir""#;
        let enc = |value: &str| format!(r#""enc":"{value}""#);
        let places = [
            ("protected", protected(r#"{"enc":"A128GCM"}"#)),
            ("shared", r#""unprotected":{"enc":"A128GCM"}"#.to_string()),
        ];
        for (place, top) in places {
            let again = |at: usize, members: &str| {
                let mut elements = vec![element(alg); 8];
                elements[at] = element(&format!("{alg}{members}"));
                with(&format!("{top},"), &elements)
            };
            self.general(0, format!("enc {place} for 8"), again(0, "")).asking('7').in_mode(8, 5);
            for (at, value) in [(0, "A128GCM"), (0, "A256GCM"), (7, "A128GCM"), (7, "A256GCM")] {
                let message = again(at, &format!(",{}", enc(value)));
                self.general(12, format!("enc {place}, and {value} own of {at}"), message);
            }
            let message = again(7, r#","\u0065nc":"A256GCM""#);
            self.general(12, format!("enc {place}, and another own with an escape"), message).asking('8');
        }
        let both = format!(r#"{},"unprotected":{{{}}},"#, protected(r#"{"enc":"A128GCM"}"#), enc("A256GCM"));
        self.general(12, "enc protected and another shared", with(&both, &[element(alg), element(alg)]));
        for (place, member) in [("own", "header"), ("shared", "unprotected")] {
            let message = json(&format!(r#""{member}":{{{alg},{}}}"#, enc("A256GCM")));
            self.flattened(0, format!("enc {place}"), &*message).in_mode(1, 5);
            self.flattened(19, format!("enc {place}, 1 asked for"), message).asking('1');
        }
        let two = json(&format!(r#"{},"header":{{{alg},{}}}"#, protected(r#"{"enc":"A128GCM"}"#), enc("A256GCM")));
        self.flattened(12, "enc protected and another own", two);
        self.compact(19, "enc, 1 asked for", compact(format!("{{{DIR}}}"))).asking('1');
    }

    /// 12 to 18 of any recipient come first, also of the last where an earlier pair differs.
    fn contents_and_rules(&mut self) {
        let top = format!(r#"{},"unprotected":{{"cty":"c"}},"#, protected(r#"{"typ":"t"}"#));
        let in_turn = |at: usize| sealed(if at % 2 == 0 { "A128GCM" } else { "A256GCM" });
        for (number, what, own, key) in [
            (12, "a name shared and own", r#""alg":"dir","enc":"A128GCM","cty":"c""#, ""),
            (13, "no enc", r#""alg":"dir""#, ""),
            (13, "no alg", r#""enc":"A128GCM""#, ""),
            (14, "enc no string", r#""alg":"dir","enc":["A128GCM"]"#, ""),
            (14, "kid no string", r#""alg":"dir","enc":"A128GCM","kid":1"#, ""),
            (15, "enc unlisted", r#""alg":"dir","enc":"A128GCMKW""#, ""),
            (15, "alg unlisted", r#""alg":"none","enc":"A128GCM""#, ""),
            (16, "zip own", r#""alg":"dir","enc":"A128GCM","zip":"DEF""#, ""),
            (16, "crit own", r#""alg":"dir","enc":"A128GCM","crit":["x"]"#, ""),
            (18, "a key in mode 5", r#""alg":"dir","enc":"A128GCM""#, r#","encrypted_key":"AA""#),
            (18, "no key in mode 2", r#""alg":"A128KW","enc":"A128GCM""#, ""),
        ] {
            for at in [0, 2, 4] {
                let mut elements: Vec<String> = (0..5).map(in_turn).collect();
                elements[at] = format!(r#"{{"header":{{{own}}}{key}}}"#);
                let case = self.general(number, format!("{what} of recipient {at}, and two enc"), with(&top, &elements));
                case.asking(['0', '1', '9'][at / 2]);
            }
        }
        let critical = format!("{},", protected(r#"{"crit":["x"]}"#));
        for at in [0, 2, 4, 5] {
            let x = |i: usize| if i == at { "" } else { r#","x":1"# };
            let own = |i: usize| in_turn(i).replace("}}", &format!("{}}}}}", x(i)));
            let message = with(&critical, &(0..5).map(own).collect::<Vec<_>>());
            let (number, what) = match at {
                5 => (21, "crit of a name that all have, and two enc".to_string()),
                _ => (17, format!("crit of a name that recipient {at} has not, and two enc")),
            };
            self.general(number, what, message).knowing(&["x"]);
        }
        for (number, what, own) in [
            (13, "no enc", r#""alg":"dir""#),
            (14, "enc no string", r#""alg":"dir","enc":null"#),
            (15, "enc unlisted", r#""alg":"dir","enc":"A128GC""#),
        ] {
            let (one, other) = (sealed("A128GCM"), element(own));
            self.general(number, format!("{what} of the second of two"), with("", &[one.clone(), other.clone()]));
            self.general(number, format!("{what} of the first of two"), with("", &[other, one])).asking('1');
        }
        self.general(15, "the same unlisted enc for both", owns(&["A128GCMKW", "A128GCMKW"]));
    }
}
