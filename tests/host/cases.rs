//! Messages written by hand, each with the answer that document 01 (docs/RULES.md) gives it: its samples, every number, the borders of
//! every size, and for each two numbers that follow one another in its orders a message with both faults.

use super::second::Answer;
use super::Call;
use crate::reference::Reference;

#[derive(Debug)]
pub enum Expected {
    Refused(u32),
    /// Form, recipient count, mode.
    Accepted(u32, u32, u32),
    Exactly(Answer),
}

pub struct Case {
    pub name: String,
    pub call: Call,
    pub expected: Expected,
}

/// Document 01's H and M.
pub const H: &str = "eyJhbGciOiJkaXIiLCJlbmMiOiJBMTI4R0NNIn0";
pub const M: &str = "eyJhbGciOiJkaXIiLCJlbmMiOiJBMTI4R0NNIn0..AA.AQID.Ag";
pub const T10: &str = r#"{"unprotected":{"alg":"dir","enc":"A128GCM"},"aad":"AA","ciphertext":""}"#;
/// The members that a header needs, for mode 5.
pub const DIR: &str = r#""alg":"dir","enc":"A128GCM""#;
const LONGEST: usize = 16_777_216;

pub fn encoded(text: &[u8]) -> String {
    String::from_utf8(Reference::new().encode(text)).expect("the alphabet is ASCII")
}

/// A compact message of this header, without a key.
pub fn compact(header: &str) -> String {
    encoded(header.as_bytes()) + "..AA.AQID.Ag"
}

/// A compact message with DIR and these members in its header.
fn with(members: &str) -> String {
    compact(&format!("{{{DIR},{members}}}"))
}

/// A `protected` member.
pub fn protected(header: &str) -> String {
    format!(r#""protected":"{}""#, encoded(header.as_bytes()))
}

/// A JSON message with these members and a ciphertext.
pub fn json(members: &str) -> String {
    format!(r#"{{{members},"ciphertext":"AQID"}}"#)
}

/// A flattened message with H and these members.
pub fn flat(members: &str) -> String {
    json(&format!(r#""protected":"{H}",{members}"#))
}

/// A general message with H and these elements.
pub fn general(elements: &str) -> String {
    flat(&format!(r#""recipients":[{elements}]"#))
}

/// So many members with names of their own.
pub fn members(count: usize) -> String {
    (0..count).map(|i| format!(r#""m{i}":{i}"#)).collect::<Vec<_>>().join(",")
}

/// An array nested so deep.
pub fn nested(levels: usize) -> String {
    "[".repeat(levels) + &"]".repeat(levels)
}

/// A header of so many octets.
pub fn long_header(length: usize) -> String {
    let rest = length - DIR.len() - r#"{,"x":""}"#.len();
    format!(r#"{{{DIR},"x":"{}"}}"#, "x".repeat(rest))
}

/// A list of known names.
pub fn known(names: &[&str]) -> Vec<u8> {
    let mut list = vec![names.len() as u8];
    list.extend(names.iter().map(|name| name.len() as u8));
    list.extend(names.concat().bytes());
    list
}

#[derive(Default)]
pub struct Cases(Vec<Case>);

impl Cases {
    pub fn call(&mut self, expected: Expected, name: &str, call: Call) {
        self.0.push(Case { name: name.to_string(), call, expected });
    }

    pub fn refused(&mut self, number: u32, name: &str, message: impl Into<Vec<u8>>) {
        self.call(Expected::Refused(number), name, Call::new(message));
    }

    pub fn accepted(&mut self, form: u32, recipients: u32, mode: u32, name: &str, message: impl Into<Vec<u8>>) {
        self.call(Expected::Accepted(form, recipients, mode), name, Call::new(message));
    }

    /// With `x` in the known list.
    pub fn knowing_x(&mut self, expected: Expected, name: &str, message: impl Into<Vec<u8>>) {
        self.call(expected, name, Call { known: known(&["x"]), ..Call::new(message) });
    }

    fn samples(&mut self) {
        let m = Answer {
            refusal: 0,
            form: 0,
            recipients: 1,
            mode: 5,
            places: [[0, 39], [40, 0], [41, 2], [0, 0], [44, 4], [49, 2]],
            header: br#"{"alg":"dir","enc":"A128GCM"}"#.to_vec(),
            list: vec![0, 2, 3, 7, 5, 2, 0, 14, 3, 19, 9, 2],
        };
        self.call(Expected::Exactly(m), "T6: M", Call::new(M));
        self.refused(4, "T7: M and a dot", format!("{M}."));
        self.refused(4, "T8: the empty message", "");
        self.refused(9, "T9: alg twice", compact(r#"{"alg":"dir","\u0061lg":"dir","enc":"A128GCM"}"#));
        let t10 = Answer {
            refusal: 0,
            form: 1,
            recipients: 1,
            mode: 5,
            places: [[0, 0], [0, 0], [0, 0], [52, 2], [70, 0], [0, 0]],
            header: Vec::new(),
            list: vec![1, 17, 3, 22, 5, 2, 1, 29, 3, 34, 9, 2],
        };
        self.call(Expected::Exactly(t10), "T10", Call::new(T10));
        self.refused(10, "T11: T10 with an empty iv", T10.replace(r#":""}"#, r#":"","iv":""}"#));
        self.refused(18, "T12: a key in mode 5", format!("{H}.AA.AA.AQID.Ag"));
    }

    /// 1, 2 and 3, and what comes after them.
    fn lent(&mut self) {
        let too_long = || [M.as_bytes(), &vec![b'A'; LONGEST]].concat();
        let m = || Call::new(M);
        self.call(Expected::Refused(1), "header one octet short", Call { header_room: 4095, ..m() });
        self.call(Expected::Refused(1), "list one number short", Call { list_room: 575, ..m() });
        self.call(Expected::Refused(1), "no room at all", Call { header_room: 0, list_room: 0, ..m() });
        self.call(Expected::Accepted(0, 1, 5), "more room", Call { header_room: 4097, list_room: 600, ..m() });
        let both = Call { header_room: 4095, ..Call::new(&too_long()[..LONGEST + 1]) };
        self.call(Expected::Refused(1), "1 before 2", both);
        self.refused(2, "one octet too long", &too_long()[..LONGEST + 1]);
        self.call(Expected::Refused(2), "2 before 3", Call { known: vec![], ..Call::new(&too_long()[..LONGEST + 1]) });
        self.refused(2, "2 before 4", "A".repeat(LONGEST + 1));
        self.refused(2, "2 before 7", "{".repeat(LONGEST + 1));

        // The longest: 44 octets, the ciphertext, a dot and a tag of 3 characters.
        let longest = format!("{H}..AA.{}.AgA", "A".repeat(LONGEST - 48));
        let answer = Answer {
            refusal: 0,
            form: 0,
            recipients: 1,
            mode: 5,
            places: [[0, 39], [40, 0], [41, 2], [0, 0], [44, 16_777_168], [16_777_213, 3]],
            header: br#"{"alg":"dir","enc":"A128GCM"}"#.to_vec(),
            list: vec![0, 2, 3, 7, 5, 2, 0, 14, 3, 19, 9, 2],
        };
        self.call(Expected::Exactly(answer), "16 MiB", Call::new(longest));
        for (octets, characters) in [(65_535, 87_380), (65_536, 87_382)] {
            let text = encoded(&vec![0xa5; octets]);
            assert_eq!(text.len(), characters);
            self.accepted(0, 1, 5, "a ciphertext about 65,535 octets long", format!("{H}..AA.{text}.Ag"));
        }

        let name = |n: usize| "n".repeat(n);
        let list = |names: &[&str]| Call { known: known(names), ..Call::new(M) };
        self.call(Expected::Accepted(0, 1, 5), "16 known names", list(&["n"; 16]));
        self.call(Expected::Refused(3), "17 known names", list(&["n"; 17]));
        self.call(Expected::Accepted(0, 1, 5), "a known name of 64 octets", list(&[&name(64)]));
        self.call(Expected::Refused(3), "a known name of 65 octets", list(&["n", &name(65)]));
        self.call(Expected::Refused(3), "an empty known name", list(&["n", ""]));
        let lists: [&[u8]; 6] = [b"", b"\x01", b"\x00n", b"\x01\x01", b"\x01\x01nn", b"\x02\x01\x02nn"];
        for known in lists {
            let call = Call { known: known.to_vec(), ..m() };
            self.call(Expected::Refused(3), "a known list of another length", call);
        }
        let no_text = Call { known: b"\x01\x02\xff\0".to_vec(), ..m() };
        self.call(Expected::Accepted(0, 1, 5), "a known name that is no text", no_text);
        self.call(Expected::Refused(3), "3 before 4", Call { known: vec![], ..Call::new("") });
        self.call(Expected::Refused(3), "3 before 7", Call { known: vec![], ..Call::new("{") });
    }

    /// 4 to 9 on compact messages.
    fn compact_texts(&mut self) {
        self.refused(4, "three dots", format!("{H}..AA.AQID"));
        self.refused(4, "4 before 5", format!("{H}..AA.AQID.A.="));
        self.refused(4, "space alone", " \t\n\r");
        self.refused(4, "a byte order mark is no space", format!("\u{feff}{T10}"));
        self.refused(4, "an array", "[]");
        self.refused(4, "a vertical tab is no space", format!("\x0b{T10}"));
        self.refused(5, "a space before", format!(" {M}"));
        self.refused(5, "a newline behind", format!("{M}\n"));
        self.refused(5, "four dots alone, and a brace", "....{");
        self.refused(5, "padding", format!("{H}..AA==.AQID.Ag"));
        self.refused(5, "spare bits", format!("{H}..AB.AQID.Ag"));
        self.refused(5, "a lone character", format!("{H}..AA.AQID.A"));
        self.refused(5, "another alphabet", format!("{H}..A+.AQID.Ag"));
        self.refused(5, "5 before 6", compact(&long_header(4097)) + "A==");
        self.accepted(0, 1, 5, "a header of 4,096 octets", compact(&long_header(4096)));
        self.refused(6, "a header of 4,097 octets", compact(&long_header(4097)));
        self.refused(6, "6 before 7", compact(&"x".repeat(4097)));
        self.refused(7, "no JSON in 4,096 octets", compact(&"x".repeat(4096)));
        self.refused(7, "no header", "..AA.AQID.Ag");
        self.refused(7, "only dots", "....");
        self.refused(7, "an array for a header", compact("[]"));
        self.refused(7, "something behind the header", compact(&format!("{{{DIR}}}}}")));
        self.refused(7, "a comma too many", compact(&format!("{{{DIR},}}")));
        self.refused(7, "half of a pair", with(r#""x":"\ud834""#));
        self.refused(7, "halves in the wrong order", with(r#""x":"\udd1e\ud834""#));
        self.accepted(0, 1, 5, "both halves", with(r#""x":"\uD834\udd1e""#));
        let not_utf8 = [&b"{\"x\":\"\xed\xa0\x80\","[..], DIR.as_bytes(), b"}"].concat();
        self.refused(7, "not UTF-8", encoded(&not_utf8) + "..AA.AQID.Ag");
        self.accepted(0, 1, 5, "12 levels", with(&format!(r#""x":{}"#, nested(11))));
        self.refused(7, "13 levels", with(&format!(r#""x":{}"#, nested(12))));
        self.refused(7, "7 before 8", with(&format!(r#"{},"x":{}"#, members(31), nested(12))));
        self.accepted(0, 1, 5, "32 members", with(&members(30)));
        self.refused(8, "33 members", with(&members(31)));
        self.refused(8, "8 before 9", with(&format!(r#"{},"m0":0"#, members(30))));
        self.refused(9, "9 before 13", compact(r#"{"enc":"A128GCM","\u0065nc":"A128GCM"}"#));
        self.refused(9, "two names of code points that need a pair", with(r#""𝄞":1,"\ud834\udd1e":2"#));
        self.refused(9, "twice with others between", with(r#""x":1,"y":2,"z":3,"x":4"#));
        for value in [
            "01", "+1", "1.", ".5", "1e", "-", "1e+", "0x1", "True", "nul", "'x'", "\"\u{1f}\"", "\"\\x\"", "[1,]", "{1:2}",
            "\x0c1", "",
        ] {
            self.refused(7, value, with(&format!(r#""x":{value}"#)));
        }
        for value in ["-0", "0.50", "1E+05", "-1e-0", "\"\u{7f}\"", r#""\b\f\n\r\t\/\\\"""#, "[[],{}]", "\t\n\r 1 "] {
            self.accepted(0, 1, 5, value, with(&format!(r#""x":{value}"#)));
        }
        self.accepted(0, 1, 5, "names that control characters tell apart", with(r#""\b":1,"\f":2,"\n":3,"\r":4,"\t":5"#));
        self.accepted(0, 1, 5, "names that differ in case, or are empty", with(r#""Alg":1,"":2,"ALG":3,"alg ":4"#));
        self.accepted(0, 1, 5, "a name twice inside a value", with(r#""x":{"a":1,"a":2,"alg":3}"#));
        self.accepted(0, 1, 5, "spaces about the header", compact(&format!(" \n{{\t{DIR} }}\r")));
    }

    /// 13 to 19 on compact messages.
    fn compact_headers(&mut self) {
        use Expected::{Accepted, Refused};
        self.refused(13, "an empty header", compact("{}"));
        self.refused(13, "no alg", compact(r#"{"enc":"A128GCM"}"#));
        self.refused(13, "no enc", compact(r#"{"alg":"dir"}"#));
        self.refused(13, "alg only inside a value", compact(r#"{"enc":"A128GCM","jwk":{"alg":"dir"}}"#));
        self.refused(13, "13 before 14", compact(r#"{"alg":1}"#));
        self.refused(13, "13 before 15", compact(r#"{"alg":"none"}"#));
        for member in [
            r#""kid":1"#, r#""typ":null"#, r#""cty":{}"#, r#""jku":[]"#, r#""x5u":true"#, r#""x5t":false"#,
            r#""x5t#S256":-1"#, r#""zip":["DEF"]"#, r#""jwk":"{}""#, r#""jwk":[]"#, r#""x5c":"x""#, r#""x5c":{}"#,
            r#""crit":"x""#, r#""crit":{"x":1}"#, r#""\u006bid":1"#, r#""crit":null"#,
        ] {
            self.refused(14, member, with(member));
        }
        self.refused(14, "alg is a number", compact(r#"{"alg":1,"enc":"A128GCM"}"#));
        self.refused(14, "enc is an array", compact(r#"{"alg":"dir","enc":["A128GCM"]}"#));
        self.refused(14, "14 before 15", compact(r#"{"alg":"none","enc":"A128GCM","kid":1}"#));
        self.refused(14, "14 before 17", with(r#""crit":[],"kid":1"#));
        let unjudged = r#""epk":1,"apu":2,"apv":[],"p2s":{},"p2c":"","iv":null,"tag":0"#;
        self.accepted(0, 1, 5, "kinds that are not judged", with(unjudged));
        self.accepted(0, 1, 5, "empty ones of the right kind", with(r#""kid":"","jwk":{},"x5c":[],"x5t#S256":"""#));
        for alg in ["none", "DIR", "dir ", "", "A128GCM", "RSA-OAEP-512", "ECDH-ES+", "A128KW\\u0000", "RSA1-5"] {
            self.refused(15, alg, compact(&format!(r#"{{"alg":"{alg}","enc":"A128GCM"}}"#)));
        }
        for enc in ["A128GCMKW", "a128gcm", "", "A128CBC-HS384", "dir"] {
            self.refused(15, enc, compact(&format!(r#"{{"alg":"dir","enc":"{enc}"}}"#)));
        }
        self.refused(15, "another compression", with(r#""zip":"def""#));
        self.refused(15, "no compression", with(r#""zip":"""#));
        self.accepted(0, 1, 5, "compression", with(r#""zip":"DEF""#));
        let escaped = r#"{"\u0061lg":"d\u0069r","enc":"A\u003128GCM","zip":"\u0044EF"}"#;
        self.accepted(0, 1, 5, "values after undoing escapes", compact(escaped));
        self.refused(15, "15 before 17", with(r#""zip":"GZIP","crit":[]"#));
        self.refused(15, "15 before 18", compact(r#"{"alg":"none","enc":"A128GCM"}"#).replace("..", ".AA."));

        self.knowing_x(Accepted(0, 1, 5), "crit", with(r#""crit":["x"],"x":1"#));
        self.knowing_x(Accepted(0, 1, 5), "crit in another spelling", with(r#""crit":["\u0078"],"x":1"#));
        self.knowing_x(Accepted(0, 1, 5), "crit of a name in another spelling", with(r#""crit":["x"],"\u0078":1"#));
        self.knowing_x(Refused(17), "crit without elements", with(r#""crit":[ ],"x":1"#));
        self.knowing_x(Refused(17), "crit of no string", with(r#""crit":["x",1],"x":1"#));
        self.knowing_x(Refused(17), "crit with an array inside", with(r#""crit":["x",["x"]],"x":1"#));
        self.knowing_x(Refused(17), "crit with one twice", with(r#""crit":["x","x"],"x":1"#));
        self.knowing_x(Refused(17), "crit with one in two spellings", with(r#""crit":["x","\u0078"],"x":1"#));
        self.knowing_x(Refused(17), "crit of a known name that is absent", with(r#""crit":["x"]"#));
        self.knowing_x(Refused(17), "crit of a name inside a value", with(r#""crit":["x"],"y":{"x":1}"#));
        self.knowing_x(Refused(17), "crit of an unknown name", with(r#""crit":["x","y"],"x":1,"y":1"#));
        self.knowing_x(Refused(17), "crit of the beginning of a name", with(r#""crit":["xy"],"xy":1"#));
        self.refused(17, "crit, nothing known", with(r#""crit":["x"],"x":1"#));
        for name in ["alg", "enc", "zip", "jku", "jwk", "kid", "x5u", "x5c", "x5t", "x5t#S256", "typ", "cty", "crit"] {
            let header = match name {
                "alg" | "enc" | "crit" => format!(r#""crit":["{name}"]"#),
                "zip" => r#""crit":["zip"],"zip":"DEF""#.to_string(),
                "jwk" => r#""crit":["jwk"],"jwk":{}"#.to_string(),
                "x5c" => r#""crit":["x5c"],"x5c":[]"#.to_string(),
                _ => format!(r#""crit":["{name}"],"{name}":"""#),
            };
            self.call(Refused(17), name, Call { known: known(&[name]), ..Call::new(with(&header)) });
        }
        for name in ["epk", "apu", "apv", "iv", "tag", "p2s", "p2c"] {
            let message = with(&format!(r#""crit":["{name}"],"{name}":"""#));
            self.call(Refused(17), name, Call { known: known(&[name]), ..Call::new(message) });
        }
        let b64 = Call { known: known(&["exp", "b64"]), ..Call::new(with(r#""b64":true,"crit":["b64"]"#)) };
        self.call(Accepted(0, 1, 5), "crit of the second known name", b64);
        self.refused(17, "17 before 18", with(r#""crit":[]"#).replace("..", ".AA."));

        let algs = [
            (1, "RSA1_5"), (1, "RSA-OAEP"), (1, "RSA-OAEP-256"), (2, "A128KW"), (2, "A192KW"), (2, "A256KW"),
            (2, "A128GCMKW"), (2, "A192GCMKW"), (2, "A256GCMKW"), (2, "PBES2-HS256+A128KW"), (2, "PBES2-HS384+A192KW"),
            (2, "PBES2-HS512+A256KW"), (3, "ECDH-ES"), (4, "ECDH-ES+A128KW"), (4, "ECDH-ES+A192KW"),
            (4, "ECDH-ES+A256KW"), (5, "dir"),
        ];
        for (mode, alg) in algs {
            let keyless = compact(&format!(r#"{{"alg":"{alg}","enc":"A256CBC-HS512"}}"#));
            let keyed = keyless.replace("..", ".AA.");
            let (sound, faulty) = if mode == 3 || mode == 5 { (keyless, keyed) } else { (keyed, keyless) };
            self.accepted(0, 1, mode, alg, sound);
            self.refused(18, alg, faulty);
        }
        for enc in ["A128CBC-HS256", "A192CBC-HS384", "A256CBC-HS512", "A128GCM", "A192GCM", "A256GCM"] {
            self.accepted(0, 1, 5, enc, compact(&format!(r#"{{"alg":"dir","enc":"{enc}"}}"#)));
        }
        self.call(Refused(18), "18 before 19", Call { recipient: 1, ..Call::new(format!("{H}.AA.AA.AQID.Ag")) });
        self.call(Refused(19), "recipient 1 of 1", Call { recipient: 1, ..Call::new(M) });
        self.call(Refused(19), "the largest recipient number", Call { recipient: u32::MAX, ..Call::new(M) });
        self.accepted(0, 1, 5, "all parts but the header empty", format!("{H}...."));
    }
}

impl Cases {
    /// Escapes for code points of one to four octets, in place of a listed value and at its start, its middle and its end.
    fn escaped_values(&mut self) {
        let escapes = [r"\u0061", r"\u00e9", r"\u20ac", r"\ud834\udd1e", r"\n"];
        let listed = [(15, "alg", "dir"), (15, "alg", "RSA-OAEP-256"), (15, "enc", "A128GCM"), (15, "enc", "A128CBC-HS256"), (15, "zip", "DEF")];
        for escape in escapes {
            for (number, name, value) in listed {
                for at in [0, 1, 2, value.len()] {
                    let (start, end) = value.split_at(at);
                    let others = DIR.split(',').filter(|member| !member.contains(name)).collect::<Vec<_>>().join(",");
                    let message = |value: &str| compact(&format!(r#"{{{others},"{name}":"{value}"}}"#));
                    self.refused(number, &format!("{name} with {escape} at {at}"), message(&format!("{start}{escape}{end}")));
                    self.refused(number, &format!("{name} cut at {at} by {escape}"), message(&format!("{start}{escape}")));
                }
            }
            let crit = |name: &str, member: &str| compact(&format!(r#"{{{DIR},"crit":["{name}"],"{member}":0}}"#));
            self.knowing_x(Expected::Refused(17), &format!("crit of {escape}"), crit(escape, "x"));
            self.knowing_x(Expected::Refused(17), &format!("crit of x and {escape}"), crit(&format!("x{escape}"), "x"));
            self.knowing_x(Expected::Accepted(0, 1, 5), &format!("crit beside {escape}"), crit(r"\u0078", &format!("{escape}\":1,\"x")));
        }
        for (said, escape) in [("a", r"\u0061"), ("\u{e9}", r"\u00E9"), ("\u{20ac}", r"\u20aC"), ("\u{1d11e}", r"\uD834\udd1E")] {
            let message = |critical: &str| compact(&format!(r#"{{{DIR},"crit":[{critical}],"{said}b":0,"b{said}":0}}"#));
            let (before, behind) = (format!("{said}b"), format!("b{said}"));
            let (first, last) = (format!(r#""{escape}b""#), format!(r#""b{escape}""#));
            let both = format!("{first},{last}");
            let knowing = |names: &[&str], critical: &str| Call { known: known(names), ..Call::new(message(critical)) };
            self.call(Expected::Accepted(0, 1, 5), &format!("crit of {escape}, known"), knowing(&["x", &before, &behind], &both));
            self.call(Expected::Refused(17), &format!("crit of {escape}, the last not known"), knowing(&["x", &before, "b"], &both));
            for other in ["x", "b", &before[..before.len() - 1], &format!("{before}c"), "\u{e9}b", "\u{20ad}b", "\u{1d11f}b"] {
                let name = format!("crit of {escape} first, known {other}");
                let expected = if *other == before { Expected::Accepted(0, 1, 5) } else { Expected::Refused(17) };
                self.call(expected, &name, knowing(&[other], &first));
            }
            let twice = format!(r#"{first},"{before}""#);
            self.call(Expected::Refused(17), &format!("crit of {escape} twice"), knowing(&[&before], &twice));
            let twice = format!("{last},{last}");
            self.call(Expected::Refused(17), &format!("crit of {escape} last, twice"), knowing(&[&behind], &twice));
        }
    }
}

pub fn all() -> Vec<Case> {
    let mut cases = Cases::default();
    cases.samples();
    cases.lent();
    cases.compact_texts();
    cases.compact_headers();
    cases.json();
    cases.contents();
    cases.colliding();
    cases.escaped_values();
    cases.0
}
