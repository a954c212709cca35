//! Document 01, 'Sizes' and 'By program': each size at its border and one beyond it, in each place that has it.

use crate::list::{compact, encoded, flat, general, json, members, protected, with, Cases, DIR, H};

/// A header of so many octets: a long value, or spaces behind the object.
fn long_value(length: usize) -> String {
    let rest = length - DIR.len() - r#"{,"x":""}"#.len();
    format!(r#"{{{DIR},"x":"{}"}}"#, "x".repeat(rest))
}

fn spaced(length: usize) -> String {
    format!("{:length$}", format!("{{{DIR}}}"))
}

/// Arrays, objects, or both in turn, nested so deep.
fn arrays(levels: usize) -> String {
    "[".repeat(levels) + &"]".repeat(levels)
}

fn objects(levels: usize) -> String {
    format!("{}{{}}{}", r#"{"a":"#.repeat(levels - 1), "}".repeat(levels - 1))
}

fn in_turn(levels: usize) -> String {
    (1..levels).fold("[]".to_string(), |inner, level| match level % 2 {
        0 => format!("[{inner}]"),
        _ => format!(r#"{{"a":{inner}}}"#),
    })
}

impl Cases {
    pub fn sizes(&mut self) {
        self.header_sizes();
        self.member_counts();
        self.recipient_counts();
        self.levels();
        self.ciphertexts();
    }

    /// 4,096 octets are 5,462 characters.
    fn header_sizes(&mut self) {
        assert_eq!((encoded(spaced(4096)).len(), encoded(long_value(4097)).len()), (5462, 5463));
        for (number, length, said) in [(0, 4096, "4,096"), (6, 4097, "4,097")] {
            self.each(number, &format!("a header of {said} octets, a long value"), &long_value(length));
            self.each(number, &format!("a header of {said} octets, spaces at its end"), &spaced(length));
        }
        self.each(6, "a header of 8,192 octets", &long_value(8192));
        self.each(7, "a header of 4,096 octets that is no JSON", &"x".repeat(4096));
    }

    /// 32 and 33 members in each kind of object. Ignored members count as others do.
    fn member_counts(&mut self) {
        for (number, count) in [(0, 32), (8, 33)] {
            let what = |kind: &str| format!("{count} members in {kind}");
            let [p, s, o, x] = ["p", "s", "o", "x"].map(|prefix| members(prefix, count));
            self.each(number, &what("the protected header"), &format!("{{{DIR},{}}}", members("p", count - 2)));
            self.flattened(number, what("the shared header"), flat(&format!(r#""unprotected":{{{s}}}"#)));
            self.flattened(number, what("the own header"), flat(&format!(r#""header":{{{o}}}"#)));
            self.flattened(number, what("the top level"), flat(&members("x", count - 2)));
            let shared = flat(&format!(r#""unprotected":{{{s}}},"recipients":[{{}}]"#));
            self.general(number, what("the shared header"), shared);
            let own = general(&format!(r#"{{"header":{{{o}}}}},{{}}"#));
            self.general(number, what("the own header of recipient 0"), own);
            let own = general(&format!(r#"{{}},{{"header":{{{o}}}}}"#));
            self.general(number, what("the own header of recipient 1"), own);
            let top = flat(&format!(r#"{},"recipients":[{{}}]"#, members("x", count - 3)));
            self.general(number, what("the top level"), top);
            self.general(number, what("element 0"), general(&format!("{{{x}}},{{}}")));
            self.general(number, what("element 1"), general(&format!("{{}},{{{x}}}")));
            let nested = flat(&format!(r#""x":{{{x}}},"unprotected":{{"y":{{{p}}}}}"#));
            self.flattened(0, format!("{count} members in objects whose names are not compared"), nested);
        }
        // 96 parameters are 576 numbers: all of the list.
        let headers = |prefix, rest: &str| {
            let header = format!("{{{DIR},{}}}", members("p", 30));
            json(&format!(r#"{},"unprotected":{{{}}},{rest}"#, protected(header), members(prefix, 32)))
        };
        let own = format!(r#""header":{{{}}}"#, members("o", 32));
        self.flattened(0, "32 members in each of three headers", headers("s", &own));
        let elements = format!(r#""recipients":[{{}},{{{own}}}]"#);
        self.general(0, "32 members in each of three headers, recipient 1", headers("s", &elements)).asking('1');
        self.general(0, "32 members in each of two headers, recipient 0", headers("s", &elements));
    }

    fn recipient_counts(&mut self) {
        let elements = |count: usize| {
            let element = |i| format!(r#"{{"header":{{"kid":"{i}"}}}}"#);
            (0..count).map(element).collect::<Vec<_>>().join(",")
        };
        for recipient in '0'..='7' {
            self.general(0, format!("recipient {recipient} of 8"), general(&elements(8))).asking(recipient);
        }
        self.general(19, "recipient 8 of 8", general(&elements(8))).asking('8');
        self.general(19, "recipient 9 of 8", general(&elements(8))).asking('9');
        self.general(11, "9 recipients", general(&elements(9)));
        self.general(11, "recipient 8 of 9", general(&elements(9))).asking('8');
        self.general(11, "recipient 9 of 9", general(&elements(9))).asking('9');
        self.general(11, "9 empty recipients", general(&["{}"; 9].join(",")));
        self.general(11, "257 recipients", general(&["{}"; 257].join(",")));
        self.general(0, "one recipient", general(&elements(1)));
        self.general(10, "no recipient", general(""));
    }

    /// The outermost object is level 1, in the message and in the decoded header apart.
    fn levels(&mut self) {
        for (number, levels) in [(0, 12), (7, 13)] {
            for (kind, nested) in [("arrays", arrays as fn(usize) -> String), ("arrays and objects", in_turn)] {
                let what = |place: &str| format!("{levels} levels in {place}, {kind}");
                // The value that is so deep stands in an object of the level that is said.
                let value = |level: usize| format!(r#""x":{}"#, nested(levels - level));
                self.each(number, &what("the protected header"), &format!("{{{DIR},{}}}", value(1)));
                self.flattened(number, what("an ignored member"), flat(&value(1)));
                self.flattened(number, what("the shared header"), flat(&format!(r#""unprotected":{{{}}}"#, value(2))));
                self.flattened(number, what("the own header"), flat(&format!(r#""header":{{{}}}"#, value(2))));
                let shared = flat(&format!(r#""unprotected":{{{}}},"recipients":[{{}}]"#, value(2)));
                self.general(number, what("the shared header"), shared);
                self.general(number, what("an ignored member"), flat(&format!(r#"{},"recipients":[{{}}]"#, value(1))));
                self.general(number, what("a member of an element"), general(&format!("{{}},{{{}}}", value(3))));
                let own = general(&format!(r#"{{"header":{{{}}}}}"#, value(4)));
                self.general(number, what("an own header"), own);
            }
        }
        let deep = format!(r#"{{{DIR},"x":{}}}"#, arrays(11));
        let both = json(&format!(r#"{},"y":{}"#, protected(deep), arrays(11)));
        self.flattened(0, "12 levels in the message and 12 in the header", both);
        self.compact(0, "12 levels, twice side by side", with(&format!(r#""x":{},"y":{}"#, arrays(11), objects(11))));
        self.compact(0, "brackets in a string are no levels", with(&format!(r#""x":"{}""#, "[{".repeat(20))));
        self.compact(7, "1,000 levels", with(&format!(r#""x":{}"#, arrays(999))));
        self.compact(7, "13 levels that are opened only", compact("[".repeat(13)));
        self.flattened(7, "100,000 levels that are opened only", format!(r#"{{"x":{}"#, "[".repeat(100_000)));
    }

    /// 65,535 octets are 87,380 characters, 65,536 are 87,382.
    fn ciphertexts(&mut self) {
        for (octets, characters, said) in [(65_535, 87_380, "65,535"), (65_536, 87_382, "65,536")] {
            let text = encoded(vec![0xa5; octets]);
            assert_eq!(text.len(), characters);
            let what = format!("a ciphertext of {said} octets");
            self.compact(0, &*what, format!("{H}..AA.{text}.Ag"));
            self.flattened(0, &*what, flat(r#""iv":"AA","tag":"Ag""#).replace("AQID", &text));
            self.general(0, &*what, general("{},{}").replace("AQID", &text)).asking('1');
        }
        let text = "paWl".repeat(21_845);
        for (what, end) in [("a length of 1 modulo 4", "A"), ("spare bits", "pR")] {
            let what = format!("a ciphertext of over 65,535 octets with {what}");
            self.compact(5, &*what, format!("{H}..AA.{text}{end}.Ag"));
            self.flattened(5, &*what, flat(r#""iv":"AA""#).replace("AQID", &(text.clone() + end)));
        }
    }
}
