//! The same for messages in JSON.

use super::cases::{flat, general, json, long_header, members, nested, protected};
use super::cases::{Cases, Expected, DIR, H, M, T10};
use super::second::Answer;
use super::Call;

impl Cases {
    pub fn json(&mut self) {
        self.top_level();
        self.elements();
        self.headers();
        self.recipients();
        self.listed();
    }

    /// 7 to 10 on the top level of JSON messages.
    fn top_level(&mut self) {
        self.refused(7, "a brace alone", "{");
        self.refused(7, "no closing brace", &T10[..T10.len() - 1]);
        self.refused(7, "two objects", format!("{T10}{T10}"));
        self.refused(7, "compact behind an object", format!("{{}}{M}"));
        self.refused(7, "not UTF-8 in an ignored member", [&b"{\"x\":\"\xff\","[..], &T10.as_bytes()[1..]].concat());
        self.refused(7, "half of a pair in an ignored name", T10.replace(r#""aad""#, r#""\udd1e":1,"aad""#));
        self.accepted(1, 1, 5, "12 levels in an ignored member", flat(&format!(r#""x":{}"#, nested(11))));
        self.refused(7, "13 levels in an ignored member", flat(&format!(r#""x":{}"#, nested(12))));
        let shared = |levels| flat(&format!(r#""unprotected":{{"x":{}}}"#, nested(levels)));
        self.accepted(1, 1, 5, "12 levels with the shared header", shared(10));
        self.refused(7, "13 levels with the shared header", shared(11));
        let own = |levels| general(&format!(r#"{{"header":{{"x":{}}}}}"#, nested(levels)));
        self.accepted(2, 1, 5, "12 levels with an own header", own(8));
        self.refused(7, "13 levels with an own header", own(9));
        self.accepted(1, 1, 5, "spaces", format!(" \t\r\n{} \t\r\n", T10.replace(':', " :\t").replace(',', "\r,\n")));
        self.refused(7, "7 before 8", json(&format!(r#"{},"x":{}"#, members(32), nested(12))));
        self.accepted(1, 1, 5, "32 members", flat(&members(30)));
        self.refused(8, "33 members", flat(&members(31)));
        self.refused(8, "8 before 9", flat(&format!(r#"{},"m0":0"#, members(30))));
        self.refused(8, "8 before 10", format!("{{{}}}", members(33)));
        self.refused(9, "an ignored name twice", flat(r#""x":1,"\u0078":1"#));
        self.refused(9, "ciphertext twice", flat(r#""ciphertex\u0074":"""#));
        self.refused(9, "9 before 10", r#"{"x":1,"x":2}"#);
        self.accepted(1, 1, 5, "a known name with an escape", T10.replace("ciphertext", "ciphertex\\u0074"));
        self.refused(10, "no member", "{}");
        self.refused(10, "no ciphertext", T10.replace("ciphertext", "Ciphertext"));
        for member in [
            r#""iv":null"#, r#""aad":true"#, r#""tag":["AA"]"#, r#""encrypted_key":0"#, r#""unprotected":"{}""#,
            r#""unprotected":[]"#, r#""header":[]"#, r#""header":null"#, r#""recipients":{}"#, r#""recipients":"""#,
            r#""iv":"\u0041A""#, r#""aad":"A\/""#, r#""tag":"\\""#, r#""encrypted_key":"\n""#, r#""iv":"""#, r#""aad":"""#,
            r#""tag":"""#, r#""encrypted_key":"""#, r#""unprotected":{}"#, r#""unprotected":{ }"#, r#""header":{}"#,
            r#""recipients":[]"#, r#""recipients":[ ]"#, r#""recipients":[1]"#, r#""recipients":[{},[]]"#,
            r#""recipients":[{}],"header":{"x":1}"#, r#""recipients":[{}],"encrypted_key":"AA""#, r#""\u0069v":"""#,
            r#""recipients":null"#, r#""recipients":[{},null,{}]"#,
        ] {
            self.refused(10, member, flat(member));
        }
        for member in [r#""protected":"""#, r#""protected":{}"#, r#""protected":1"#, r#""protected":"\u0065yJ9""#] {
            self.refused(10, member, json(&format!(r#"{member},"unprotected":{{{DIR}}}"#)));
        }
        for ciphertext in ["1", "{}", r#""\u0041A""#, "null"] {
            self.refused(10, ciphertext, format!(r#"{{"protected":"{H}","ciphertext":{ciphertext}}}"#));
        }
        self.refused(10, "10 before 5", flat(r#""iv":"A","tag":"""#));
        self.refused(13, "parameters at the top level are none", json(DIR));
        self.accepted(1, 1, 5, "ignored members of any kind", flat(r#""alg":1,"crit":[],"Recipients":[],"key":"\"""#));
    }

    /// 10, 11, and 8 to 10 on elements.
    fn elements(&mut self) {
        let of = |n: usize| vec!["{}"; n].join(",");
        self.refused(10, "10 before 11: a non-object", general(&format!("{},1", of(9))));
        self.refused(10, "10 before 11: no ciphertext", general(&of(9)).replace("ciphertext", "x"));
        for recipient in 0..8 {
            let call = Call { recipient, ..Call::new(general(&of(8))) };
            self.call(Expected::Accepted(2, 8, 5), "8 recipients", call);
        }
        self.refused(11, "9 recipients", general(&of(9)));
        let full = format!("{{{}}}", members(33));
        self.refused(11, "11 before 8", general(&format!("{full},{}", of(8))));
        self.refused(11, "11 before 5", general(&of(9)).replace("AQID", "A"));
        self.accepted(2, 2, 5, "an element of 32 members", general(&format!("{{}},{{{}}}", members(32))));
        self.refused(8, "an element of 33 members", general(&format!("{{}},{full}")));
        self.refused(8, "8 before 9 in an element", general(&format!(r#"{{{},"m0":1}}"#, members(32))));
        self.refused(9, "a name twice in an element", general(r#"{"x":1,"x":1}"#));
        self.refused(9, "9 before 10 in an element", general(r#"{"x":1,"x":1,"header":1}"#));
        self.refused(9, "9 of an element before 8 of the next", general(&format!(r#"{{"x":1,"x":1}},{full}"#)));
        self.refused(10, "10 of an element before 8 of the next", general(&format!(r#"{{"header":{{}}}},{full}"#)));
        self.refused(8, "8 of an element before 10 of the next", general(&format!(r#"{full},{{"header":{{}}}}"#)));
        for element in [
            r#"{"header":{}}"#, r#"{"header":"x"}"#, r#"{"encrypted_key":""}"#, r#"{"encrypted_key":{}}"#,
            r#"{"encrypted_key":"\u0041A"}"#, r#"{"h\u0065ader":null}"#,
        ] {
            self.refused(10, element, general(&format!("{{}},{element}")));
        }
        let ignored = r#"{"ciphertext":1,"iv":"","protected":null,"unprotected":[],"recipients":[],"alg":1}"#;
        self.accepted(2, 1, 5, "an element knows two names", general(ignored));
        self.refused(10, "10 of the last element before 5", general(r#"{},{"header":{}}"#).replace("AQID", "A"));
        let full = format!(r#"{{"header":{{{}}}}}"#, members(33));
        self.refused(10, "10 of an element before 8 of a header", general(&format!(r#"{full},{{"header":{{}}}}"#)));
    }

    /// 5 to 10 on the headers of JSON messages.
    fn headers(&mut self) {
        for component in ["iv", "aad", "tag", "encrypted_key"] {
            self.refused(5, component, flat(&format!(r#""{component}":"A""#)));
        }
        self.refused(5, "ciphertext", flat(r#""x":1"#).replace("AQID", "AQ D"));
        self.refused(5, "protected", flat(r#""x":1"#).replace(H, "e30="));
        self.refused(5, "the key of the last recipient", general(r#"{},{"encrypted_key":"AB"}"#));
        self.refused(5, "a backslash is 10, a slash 5", flat(r#""iv":"A/""#));
        self.refused(5, "5 before 6", json(&format!(r#"{},"tag":"A""#, protected(&long_header(4097)))));
        self.refused(5, "5 before 7", json(&format!(r#"{},"tag":"A""#, protected("x"))));
        self.accepted(1, 1, 5, "4,096 octets", json(&protected(&long_header(4096))));
        self.refused(6, "4,097 octets", json(&protected(&long_header(4097))));
        self.refused(6, "6 before 7", json(&protected(&"x".repeat(4097))));
        self.refused(7, "protected is no JSON", json(&protected("x")));
        self.refused(7, "protected is an array", json(&protected("[]")));
        self.accepted(1, 1, 5, "12 levels", json(&protected(&format!(r#"{{{DIR},"x":{}}}"#, nested(11)))));
        self.refused(7, "13 levels", json(&protected(&format!(r#"{{{DIR},"x":{}}}"#, nested(12)))));

        let two = |header: &str, shared: &str| json(&format!(r#"{},"unprotected":{shared}"#, protected(header)));
        let owns = |one: &str, other: &str| general(&format!(r#"{{"header":{one}}},{{"header":{other}}}"#));
        let (full, twice, dir) = (&*format!("{{{}}}", members(33)), r#"{"x":1,"x":1}"#, &*format!("{{{DIR}}}"));
        self.refused(7, "7 before 8", two("[]", full));
        self.refused(10, "protected has no member", two("{}", dir));
        self.refused(10, "protected has space alone", two(" { }\n", dir));
        self.refused(10, "10 before 8", two("{}", full));
        self.refused(10, "10 before 9", two("{}", twice));
        self.accepted(1, 1, 5, "32 in each header", json(&format!(
            r#"{},"unprotected":{{{}}},"header":{{{}}}"#,
            protected(&format!("{{{DIR},{}}}", members(30))),
            members(32).replace('m', "u"),
            members(32).replace('m', "r"),
        )));
        self.refused(8, "33 in the protected header", json(&protected(full)));
        self.refused(8, "33 in the shared header", flat(&format!(r#""unprotected":{full}"#)));
        self.refused(8, "33 in the own header", flat(&format!(r#""header":{full}"#)));
        self.refused(8, "33 in the own header of the last", general(&format!(r#"{{}},{{"header":{full}}}"#)));
        let both = format!(r#"{{{},"m0":0}}"#, members(32));
        self.refused(8, "8 before 9 in the protected header", json(&protected(&both)));
        self.refused(8, "8 before 9 in the shared header", flat(&format!(r#""unprotected":{both}"#)));
        self.refused(8, "8 of the protected before 9 of the shared header", two(full, twice));
        self.refused(9, "9 of the protected before 8 of the shared header", two(twice, full));
        let shared = format!(r#""header":{full},"unprotected":{twice}"#);
        self.refused(9, "9 of the shared before 8 of the own header", flat(&shared));
        self.refused(9, "9 of an own header before 8 of the next", owns(twice, full));
        self.refused(8, "8 of an own header before 9 of the next", owns(full, twice));
        self.refused(9, "twice in the shared header", flat(r#""unprotected":{"x":1,"\u0078":2}"#));
        self.refused(9, "9 of the last own header before 12", owns(r#"{"alg":"dir"}"#, twice));
        self.refused(8, "8 of the last own header before 12", owns(r#"{"alg":"dir"}"#, full));
        self.refused(8, "8 of the last own header before 13", json(&format!(r#""recipients":[{{}},{{"header":{full}}}]"#)));
    }

    /// 12 to 19 on JSON messages, and 21, of which `contents` has more.
    fn recipients(&mut self) {
        use Expected::{Accepted, Refused};
        self.refused(12, "protected and shared", flat(r#""unprotected":{"\u0061lg":"dir"}"#));
        self.refused(12, "protected and own", flat(r#""header":{"enc":"A128GCM"}"#));
        let last = flat(r#""unprotected":{"x":2},"recipients":[{},{"header":{"x":1}}]"#);
        self.refused(12, "shared and own of the last", last);
        self.accepted(2, 2, 5, "the same name for two recipients", general(r#"{"header":{"x":1}},{"header":{"x":2}}"#));
        self.refused(12, "12 before 13", json(r#""unprotected":{"x":1},"header":{"x":1}"#));
        self.refused(12, "12 before 14", flat(r#""unprotected":{"kid":1},"header":{"kid":1}"#));
        let first = json(r#""unprotected":{"enc":"A128GCM"},"recipients":[{"header":{"alg":"dir"}},{}]"#);
        self.refused(13, "alg is not the last one's", first);
        self.refused(13, "no header at all", json(r#""x":1"#));
        self.refused(13, "13 before 14", json(r#""unprotected":{"alg":1}"#));
        self.refused(14, "14 before 15", json(r#""unprotected":{"alg":"x","enc":1}"#));
        self.refused(14, "14 before 16", flat(r#""unprotected":{"zip":1}"#));
        self.refused(14, "crit outside that is no array", flat(r#""header":{"crit":"x"}"#));
        self.refused(15, "15 before 16: alg", json(r#""unprotected":{"alg":"x","enc":"A128GCM","crit":[]}"#));
        self.refused(15, "15 before 16: the compression itself", flat(r#""unprotected":{"zip":"x"}"#));
        self.refused(16, "compression in the shared header", flat(r#""unprotected":{"zip":"DEF"}"#));
        self.refused(16, "compression in an own header", flat(r#""header":{"z\u0069p":"DEF"}"#));
        self.knowing_x(Refused(16), "crit in the shared header", flat(r#""unprotected":{"crit":["x"],"x":1}"#));
        self.refused(16, "crit in the own header of the last", general(r#"{},{"header":{"crit":[1]}}"#));
        let crit = protected(&format!(r#"{{{DIR},"crit":["x"]}}"#));
        self.refused(16, "16 before 17", json(&format!(r#"{crit},"unprotected":{{"zip":"DEF"}}"#)));
        self.knowing_x(Accepted(1, 1, 5), "crit of a shared name", json(&format!(r#"{crit},"unprotected":{{"x":1}}"#)));
        self.knowing_x(Accepted(1, 1, 5), "crit of an own name", json(&format!(r#"{crit},"header":{{"x":1}}"#)));
        self.knowing_x(Refused(17), "crit of a top-level name", json(&format!(r#"{crit},"x":1"#)));
        let owns = |last: &str| {
            json(&format!(r#"{crit},"recipients":[{{"header":{{"x":1}}}},{{"header":{{"{last}":1}}}}]"#))
        };
        self.knowing_x(Accepted(2, 2, 5), "crit of a name that all have", owns("x"));
        self.knowing_x(Refused(17), "crit of a name that the last has not", owns("y"));
        self.refused(17, "17 before 18", json(&format!(r#"{crit},"encrypted_key":"AA""#)));
        self.refused(18, "a key in mode 5", flat(r#""encrypted_key":"AA""#));
        self.refused(18, "no key in mode 2", json(&protected(r#"{"alg":"A128KW","enc":"A128GCM"}"#)));
        let enc = protected(r#"{"enc":"A128GCM"}"#);
        let two = |one: &str, other: &str| json(&format!(r#"{enc},"recipients":[{one},{other}]"#));
        let (dir, keyless) = (r#"{"header":{"alg":"dir"}}"#, r#"{"header":{"alg":"RSA1_5"}}"#);
        let keyed = r#"{"header":{"alg":"RSA1_5"},"encrypted_key":"AA"}"#;
        self.refused(18, "18 of the last", two(dir, keyless));
        self.refused(18, "18 of a recipient before 12 of the next", two(keyless, r#"{"header":{"enc":"A128GCM"}}"#));
        self.refused(12, "12 of a recipient before 18 of the next", two(r#"{"header":{"enc":"A128GCM"}}"#, keyless));
        self.refused(18, "18 of a recipient before 13 of the next", two(keyless, "{}"));
        self.refused(13, "13 of the last, though not asked for", two(dir, "{}"));
        self.call(Refused(18), "18 of the last before 19", Call { recipient: 2, ..Call::new(two(dir, keyless)) });
        self.call(Refused(19), "recipient 2 of 2", Call { recipient: 2, ..Call::new(two(dir, keyed)) });
        self.call(Refused(19), "recipient 1 of a flattened message", Call { recipient: 1, ..Call::new(T10) });
        self.call(Refused(19), "recipient 8 of 8", Call { recipient: 8, ..Call::new(general(&["{}"; 8].join(","))) });
        self.call(Refused(19), "2^24", Call { recipient: 1 << 24, ..Call::new(T10) });
        self.refused(21, "enc differs", json(
            r#""recipients":[{"header":{"alg":"dir","enc":"A128GCM"}},{"header":{"alg":"dir","enc":"A256GCM"}}]"#,
        ));
    }

    /// What is handed out, counted by hand.
    fn listed(&mut self) {
        let text = concat!(
            r#"{"recipients":[{"header":{"alg":"dir"}}, { "encrypted_key" : "AAAA" , "header" : "#,
            r#"{ "alg" : "A128KW" , "k\u0069x" : [ 1 ] } } ],"#,
            r#""unprotected":{"enc":"A128GCM"},"ciphertext":"","tag":"AA","iv":"AAA"}"#,
        );
        let answer = |mode, key, own: &[u32]| Answer {
            refusal: 0,
            form: 2,
            recipients: 2,
            mode,
            places: [[0, 0], key, [192, 3], [0, 0], [173, 0], [182, 2]],
            header: Vec::new(),
            list: [&[1, 143, 3, 148, 9, 2], own].concat(),
        };
        let first = answer(5, [0, 0], &[2, 27, 3, 32, 5, 2]);
        self.call(Expected::Exactly(first), "the first of two", Call::new(text));
        let second = answer(2, [62, 4], &[2, 84, 3, 91, 8, 2, 2, 103, 8, 115, 5, 1]);
        self.call(Expected::Exactly(second), "the second of two", Call { recipient: 1, ..Call::new(text) });

        let text = concat!(
            r#"{"header":{"enc":"A128GCM","":null,"n":-0.5e1,"o":{ }},"encrypted_key":"AAA","#,
            r#""protected":"eyJhbGciOiJBMTI4S1cifQ","ciphertext":"AA"}"#,
        );
        let flattened = Answer {
            refusal: 0,
            form: 1,
            recipients: 1,
            mode: 2,
            places: [[90, 22], [72, 3], [0, 0], [0, 0], [128, 2], [0, 0]],
            header: br#"{"alg":"A128KW"}"#.to_vec(),
            list: vec![
                0, 2, 3, 7, 8, 2, 2, 12, 3, 17, 9, 2, 2, 28, 0, 30, 4, 6, 2, 36, 1, 39, 6, 3, 2, 47, 1, 50, 3, 0,
            ],
        };
        self.call(Expected::Exactly(flattened), "a protected and an own header", Call::new(text));
    }
}
