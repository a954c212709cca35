//! What JSON messages are written of, by hand, each with the text or the refusal that requests 1 and 2 of document 02 give it.

#[path = "content_write_cases.rs"]
mod content_write_cases;

use crate::jwe::colliding;
use crate::jwe::pieces::{table, Pieces};

pub struct Case {
    pub name: &'static str,
    pub pieces: Pieces,
    pub expected: Result<String, u32>,
}

const DIR: &str = r#""alg":"dir","enc":"A128GCM""#;
/// `{"alg":"dir","enc":"A128GCM"}` and `{"enc":"A128GCM"}`, encoded.
const H: &str = "eyJhbGciOiJkaXIiLCJlbmMiOiJBMTI4R0NNIn0";
const ENC: &str = "eyJlbmMiOiJBMTI4R0NNIn0";
/// What M has behind its header and key.
const REST: &str = r#""iv":"AA","ciphertext":"AQID","tag":"Ag"}"#;

fn header() -> String {
    format!("{{{DIR}}}")
}

/// With M's iv, ciphertext and tag, and no known names.
fn pieces(general: bool, protected: &str, shared: &str, recipients: &[[&str; 2]]) -> Pieces {
    Pieces {
        general,
        protected: protected.into(),
        shared: shared.into(),
        aad: Vec::new(),
        iv: vec![0],
        ciphertext: vec![1, 2, 3],
        tag: vec![2],
        known: vec![0],
        recipients: table(recipients),
    }
}

/// M's header in `protected`, these texts elsewhere, and no key.
fn flattened(shared: &str, own: &str) -> Pieces {
    pieces(false, &header(), shared, &[[own, ""]])
}

fn general(shared: &str, owns: &[&str]) -> Pieces {
    pieces(true, &header(), shared, &owns.iter().map(|own| [*own, ""]).collect::<Vec<_>>())
}

fn with_table(general: bool, table: &[u8]) -> Pieces {
    Pieces { recipients: table.to_vec(), ..pieces(general, &header(), "", &[["", ""]]) }
}

fn with_known(known: &[u8], pieces: Pieces) -> Pieces {
    Pieces { known: known.to_vec(), ..pieces }
}

/// An object of so many levels, itself the first.
fn deep(levels: usize) -> String {
    format!(r#"{{"deep":{}{}}}"#, "[".repeat(levels - 1), "]".repeat(levels - 1))
}

/// An object of so many members.
fn members(n: usize) -> String {
    format!("{{{}}}", (0..n).map(|i| format!(r#""m{i}":0"#)).collect::<Vec<_>>().join(","))
}

struct Cases(Vec<Case>);

impl Cases {
    fn writes(&mut self, name: &'static str, pieces: Pieces, text: impl Into<String>) {
        self.0.push(Case { name, pieces, expected: Ok(text.into()) });
    }

    fn refuses(&mut self, refusal: u32, name: &'static str, pieces: Pieces) {
        self.0.push(Case { name, pieces, expected: Err(refusal) });
    }

    /// A text, where it is given in each of the places that it can have.
    fn refuses_text(&mut self, refusal: u32, name: &'static str, text: &str) {
        self.refuses(refusal, name, pieces(false, text, &header(), &[["", ""]]));
        self.refuses(refusal, name, flattened(text, ""));
        self.refuses(refusal, name, flattened("", text));
        self.refuses(refusal, name, general(text, &[""]));
        self.refuses(refusal, name, general("", &[text]));
        self.refuses(refusal, name, general("", &["", r#"{"x":1}"#, text]));
    }

    fn written(&mut self) {
        self.writes("M's parts", flattened("", ""), format!(r#"{{"protected":"{H}",{REST}"#));
        // n = 1 has its member too, and a recipient with neither is an empty element.
        self.writes("M's parts, general", general("", &[""]), format!(r#"{{"protected":"{H}","recipients":[{{}}],{REST}"#));
        let t10 = Pieces { aad: vec![0], ..pieces(false, "", &header(), &[["", ""]]) };
        let t10 = Pieces { iv: Vec::new(), ciphertext: Vec::new(), tag: Vec::new(), ..t10 };
        let text = r#"{"unprotected":{"alg":"dir","enc":"A128GCM"},"aad":"AA","ciphertext":""}"#;
        self.writes("T10", t10, text);
        let whole = [[r#"{"alg":"A128KW"}"#, "\u{1}\u{2}"]];
        let text = |own: &str| {
            let start = format!(r#"{{"protected":"{ENC}","unprotected":{{"x":1}},{own},"aad":"AQ","#);
            format!("{start}{REST}")
        };
        let every = |form| Pieces { aad: vec![1], ..pieces(form, r#"{"enc":"A128GCM"}"#, r#"{"x":1}"#, &whole) };
        let own = r#""header":{"alg":"A128KW"},"encrypted_key":"AQI""#;
        self.writes("every member", every(false), text(own));
        self.writes("every member, general", every(true), text(&format!(r#""recipients":[{{{own}}}]"#)));
        let three = [["", "\u{1}\u{2}"], ["{\"x\":1}", "\u{1}"], ["\t{\"y\":[]}\n", "\u{0}"]];
        let alg = r#"{"alg":"A128KW"}"#;
        self.writes(
            "three recipients, space around a text",
            pieces(true, r#"{"enc":"A128GCM"}"#, alg, &three),
            format!(
                "{{\"protected\":\"{ENC}\",\"unprotected\":{alg},\"recipients\":[{{\"encrypted_key\":\"AQI\"}},\
                 {{\"header\":{{\"x\":1}},\"encrypted_key\":\"AQ\"}},\
                 {{\"header\":\t{{\"y\":[]}}\n,\"encrypted_key\":\"AA\"}}],{REST}"
            ),
        );
        let spaced = " \r\n{\t\"x\" : 1 } ";
        self.writes(
            "space around the shared text",
            flattened(spaced, ""),
            format!("{{\"protected\":\"{H}\",\"unprotected\":{spaced},{REST}"),
        );
        self.writes(
            "space around an own text",
            flattened("", spaced),
            format!("{{\"protected\":\"{H}\",\"header\":{spaced},{REST}"),
        );
        // Names of the message in a header, and of one recipient in another's, are no doubled names.
        let names = r#"{"ciphertext":"x","header":{},"protected":1}"#;
        self.writes(
            "names that stand elsewhere",
            general("", &[names, names]),
            format!(r#"{{"protected":"{H}","recipients":[{{"header":{names}}},{{"header":{names}}}],{REST}"#),
        );
        let crit = r#"{"alg":"dir","enc":"A128GCM","crit":["x"]}"#;
        self.writes(
            "crit of an own parameter",
            with_known(&[1, 1, b'x'], pieces(false, crit, "", &[[r#"{"x":1}"#, ""]])),
            format!(
                r#"{{"protected":"eyJhbGciOiJkaXIiLCJlbmMiOiJBMTI4R0NNIiwiY3JpdCI6WyJ4Il19","header":{{"x":1}},{REST}"#
            ),
        );
    }

    fn tables(&mut self) {
        let eight = vec![["", ""]; 8];
        let elements = vec!["{}"; 8].join(",");
        self.writes(
            "8 recipients",
            with_table(true, &table(&eight)),
            format!(r#"{{"protected":"{H}","recipients":[{elements}],{REST}"#),
        );
        for form in [false, true] {
            self.refuses(20, "no table", with_table(form, b""));
            self.refuses(20, "no recipients", with_table(form, b"\0"));
            self.refuses(20, "no recipients, and more", with_table(form, &[0; 9]));
            self.refuses(20, "9 recipients", with_table(form, &table(&vec![["", ""]; 9])));
            self.refuses(20, "255 recipients", with_table(form, &table(&vec![["", ""]; 255])));
            self.refuses(20, "contents cut off", with_table(form, &[1, 0, 0, 0, 0, 0, 0, 0]));
            self.refuses(20, "an octet too many", with_table(form, &[1, 0, 0, 0, 0, 0, 0, 0, 0, b'{']));
            self.refuses(20, "a header's octet too few", with_table(form, &[1, 0, 0, 0, 1, 0, 0, 0, 0]));
            self.refuses(20, "a key's octet too few", with_table(form, &[1, 0, 0, 0, 0, 0, 0, 0, 1]));
            self.refuses(20, "lengths of 2^32 - 1", with_table(form, &[[1; 1].as_slice(), &[255; 8]].concat()));
            // Lengths whose sum is 2^32, and that of 2 recipients 2^33.
            self.refuses(20, "2^31 twice", with_table(form, &[1, 128, 0, 0, 0, 128, 0, 0, 0]));
            self.refuses(20, "2^32 - 1 and 1", with_table(form, &[1, 255, 255, 255, 255, 0, 0, 0, 1]));
            self.refuses(20, "1 and 2^32 - 1", with_table(form, &[1, 0, 0, 0, 1, 255, 255, 255, 255]));
            self.refuses(20, "2^31 four times", with_table(form, &[&[2][..], &[128, 0, 0, 0].repeat(4)].concat()));
            // Eight octets, with the lowest first.
            self.refuses(20, "little-endian", with_table(form, &[&[1, 8, 0, 0, 0, 0, 0, 0, 0][..], br#"{"x": 1}"#].concat()));
        }
        self.refuses(20, "flattened, 2 recipients", with_table(false, &table(&[["", ""]; 2])));
        self.refuses(20, "flattened, 8 recipients", with_table(false, &table(&eight)));
    }

    /// 7 on each text by itself; and where it stands.
    fn texts(&mut self) {
        let spaces = [" ", "\n", " \t\r\n"];
        let others = ["[]", "1", "null", "\"x\"", "{", "}", "{}}", "{},", "{\"x\":1,}", "{\"x\":1}\0", "\u{feff}{\"x\":1}"];
        let going_on = [
            r#"{},"iv":{}"#,
            r#"{"x":1},"y":{"z":1}"#,
            r#"{"x":1}},{"header":{"y":1}"#,
            r#"{"x":1}}],"x":[{"y":{}"#,
            r#"{"x":1},"ciphertext":"","y":{}"#,
            r#"1,"x":{}"#,
        ];
        spaces.into_iter().for_each(|text| self.refuses_text(7, "space alone", text));
        others.into_iter().for_each(|text| self.refuses_text(7, "no object", text));
        going_on.into_iter().for_each(|text| self.refuses_text(7, "an object that goes on", text));
        for text in ["{}", " {}", "{\n} ", "\t{ }\r"] {
            self.refuses_text(10, "no member", text);
        }
        self.refuses_text(7, "13 levels", &deep(13));
        let protected = deep(12).replace('{', &format!("{{{DIR},"));
        let levels = pieces(false, &protected, "", &[["", ""]]);
        let encoded = crate::reference::Reference::new().encode(protected.as_bytes());
        let encoded = String::from_utf8(encoded).expect("base64url");
        self.writes("12 levels, protected", levels, format!(r#"{{"protected":"{encoded}",{REST}"#));
        let start = format!(r#"{{"protected":"{H}""#);
        let (nine, ten, eleven, twelve) = (deep(9), deep(10), deep(11), deep(12));
        let text = format!(r#"{start},"unprotected":{eleven},{REST}"#);
        self.writes("11 levels, shared", flattened(&eleven, ""), text);
        let text = format!(r#"{start},"unprotected":{eleven},"recipients":[{{}}],{REST}"#);
        self.writes("11 levels, shared, general", general(&eleven, &[""]), text);
        let text = format!(r#"{start},"header":{eleven},{REST}"#);
        self.writes("11 levels, own", flattened("", &eleven), text);
        let text = format!(r#"{start},"recipients":[{{"header":{nine}}}],{REST}"#);
        self.writes("9 levels, own, general", general("", &[&nine]), text);
        self.refuses(7, "12 levels, shared", flattened(&twelve, ""));
        self.refuses(7, "12 levels, shared, general", general(&twelve, &[""]));
        self.refuses(7, "12 levels, own", flattened("", &twelve));
        self.refuses(7, "10 levels, own, general", general("", &[&ten]));
        self.refuses(7, "10 levels, the last recipient", general("", &["", &nine, &ten]));
        self.refuses(7, "11 levels, own, general", general("", &[&eleven]));
        self.refuses(7, "12 levels, own, general", general("", &[&twelve]));
    }

    /// Each number that comes after 7, beside the nearest input without it where the other cases have none.
    fn numbers(&mut self) {
        self.refuses(3, "no known list", with_known(b"", flattened("", "")));
        self.refuses(3, "a known list too long", with_known(b"\0x", general("", &[""])));
        let long = |n: usize| format!("{}{}", header(), " ".repeat(n - header().len()));
        self.refuses(6, "4,097 octets", pieces(false, &long(4097), "", &[["", ""]]));
        self.refuses(6, "4,097 octets", pieces(true, &long(4097), "", &[["", ""]]));
        // The shared and own texts have no such limit.
        let shared = long(5000);
        let text = format!(r#"{{"unprotected":{shared},{REST}"#);
        self.writes("5,000 octets, shared", pieces(false, "", &shared, &[["", ""]]), text);
        let text = format!(r#"{{"recipients":[{{"header":{shared}}}],{REST}"#);
        self.writes("5,000 octets, own", pieces(true, "", "", &[[&shared, ""]]), text);
        let (most, more) = (members(32), members(33));
        let text = format!(r#"{{"protected":"{H}","unprotected":{most},{REST}"#);
        self.writes("32 members", flattened(&most, ""), text);
        self.refuses_text(8, "33 members", &more);
        self.refuses_text(9, "a name twice", r#"{"x":1,"\u0078":1}"#);
        let alg = r#"{"\u0061lg":"dir"}"#;
        self.refuses(12, "protected and shared", flattened(alg, ""));
        self.refuses(12, "protected and own", flattened("", alg));
        self.refuses(12, "protected and the last's own", general("", &["", "", alg]));
        self.refuses(12, "shared and own", flattened(r#"{"x":1}"#, r#"{"x":1}"#));
        self.refuses(12, "shared and an own one", general(r#"{"x":1}"#, &["", r#"{"x":1}"#]));
        let enc = r#"{"enc":"A128GCM"}"#;
        self.refuses(13, "no header at all", pieces(false, "", "", &[["", ""]]));
        self.refuses(13, "no header at all, general", pieces(true, "", "", &[["", ""]]));
        self.refuses(13, "the last has no alg", pieces(true, enc, "", &[[r#"{"alg":"dir"}"#, ""], ["", ""]]));
        self.refuses_text(14, "kid a number", &format!(r#"{{"kid":1,{}}}"#, r#""x":1"#));
        self.refuses(15, "alg unlisted", pieces(true, enc, "", &[[r#"{"alg":"none"}"#, ""]]));
        self.refuses(16, "zip shared", flattened(r#"{"zip":"DEF"}"#, ""));
        self.refuses(16, "crit own", general("", &["", r#"{"crit":["x"]}"#]));
        let crit = r#"{"alg":"dir","enc":"A128GCM","crit":["x"]}"#;
        let known = [1, 1, b'x'];
        self.refuses(17, "crit, absent for the last", with_known(&known, pieces(true, crit, "", &[[r#"{"x":1}"#, ""], ["", ""]])));
        self.refuses(17, "crit, nothing known", pieces(false, crit, r#"{"x":1}"#, &[["", ""]]));
        self.refuses(18, "a key in mode 5", pieces(false, &header(), "", &[["", "\0"]]));
        self.refuses(18, "a key in mode 5, the last", pieces(true, &header(), "", &[["", ""], ["", "\0"]]));
        self.refuses(18, "no key in mode 2", pieces(true, enc, r#"{"alg":"A128KW"}"#, &[["", "\0"], ["", ""]]));
    }

    /// Two faults, of which the first in the order is told.
    fn orders(&mut self) {
        let long = " ".repeat(4097);
        let wrong_table = |pieces| Pieces { recipients: vec![0], ..pieces };
        let twice = r#"{"x":1,"x":1}"#;
        let many = members(33);
        let enc = r#"{"enc":"A128GCM"}"#;
        self.refuses(3, "3 before 20", with_known(b"", wrong_table(flattened("", ""))));
        self.refuses(20, "20 before 6", wrong_table(pieces(true, &long, "", &[["", ""]])));
        self.refuses(20, "20, one too many, before 6", pieces(false, &long, "", &[["", ""]; 2]));
        self.refuses(6, "6 before 7", pieces(false, &long, "", &[["", ""]]));
        self.refuses(7, "7 of the last before 10", general("{}", &["", "", "{"]));
        self.refuses(7, "7 where it stands before 10", general("{}", &[&deep(10)]));
        self.refuses(7, "7 where it stands before 8", flattened(&many, &deep(12)));
        // The shared and own headers' shape is the top level's and the elements', before what the headers say.
        self.refuses(10, "10, shared, before 8", pieces(false, &many, "{}", &[["", ""]]));
        self.refuses(10, "10, own, before 9", pieces(true, twice, "", &[["", ""], ["{}", ""]]));
        self.refuses(10, "10, protected, before 8 and 9", pieces(true, "{}", &many, &[[twice, ""]]));
        self.refuses(9, "9, protected, before 8, shared", pieces(false, twice, &many, &[["", ""]]));
        self.refuses(8, "8, shared, before 9, own", flattened(&many, twice));
        self.refuses(9, "9 of one before 8 of the next", general("", &[twice, &many]));
        self.refuses(8, "8 of one before 9 of the next", general("", &[&many, twice]));
        self.refuses(9, "9 of the last before 12 of the first", general("", &[r#"{"alg":"dir"}"#, twice]));
        self.refuses(18, "18 of one before 12 of the next", pieces(true, &header(), "", &[["", "\0"], [r#"{"alg":"dir"}"#, ""]]));
        self.refuses(12, "12 before 13", pieces(false, r#"{"alg":"dir"}"#, r#"{"alg":"dir"}"#, &[["", ""]]));
        self.refuses(13, "13 before 14", pieces(true, enc, r#"{"kid":1}"#, &[["", ""]]));
        self.refuses(14, "14 before 15", pieces(true, enc, r#"{"kid":1}"#, &[[r#"{"alg":"none"}"#, ""]]));
        self.refuses(15, "15 before 16", pieces(false, enc, r#"{"zip":"DEF"}"#, &[[r#"{"alg":"none"}"#, ""]]));
        let crit = r#"{"alg":"dir","enc":"A128GCM","crit":[]}"#;
        self.refuses(16, "16 before 17", pieces(false, crit, r#"{"zip":"DEF"}"#, &[["", ""]]));
        self.refuses(17, "17 before 18", pieces(true, crit, "", &[["", "\0"]]));
    }
}

impl Cases {
    /// Different names with one fingerprint, which chance does not make: in one text, across headers, and of two recipients.
    fn colliding(&mut self) {
        let names = colliding::names(32, 100);
        let object = |names: &[String]| {
            format!("{{{}}}", names.iter().map(|name| format!(r#""{name}":0"#)).collect::<Vec<_>>().join(","))
        };
        // The first again, with an escape for its last letter.
        let again = format!("{}\\u{:04x}", &names[0][..99], names[0].as_bytes()[99]);
        let all = object(&names);
        let twice = object(&[&names[..31], &[again.clone()]].concat());
        let text = format!(r#"{{"protected":"{H}","unprotected":{all},{REST}"#);
        self.writes("32 colliding names", flattened(&all, ""), text);
        self.refuses_text(9, "31 colliding names and one again", &twice);
        let (some, others) = (object(&names[..16]), object(&names[16..]));
        let text = format!(
            r#"{{"protected":"{H}","unprotected":{some},"recipients":[{{"header":{others}}},{{"header":{others}}}],{REST}"#
        );
        self.writes("colliding names across headers", general(&some, &[&others, &others]), text);
        let others = object(&[&names[17..], &[again]].concat());
        self.refuses(12, "one of them in both", general(&some, &["", &others]));
        self.refuses(12, "one of them in both, flattened", flattened(&others, &some));
    }
}

pub fn all() -> Vec<Case> {
    let mut cases = Cases(Vec::new());
    cases.written();
    cases.tables();
    cases.texts();
    cases.numbers();
    cases.orders();
    cases.contents();
    cases.colliding();
    cases.0
}

const LONGEST: usize = 16_777_216;

/// About 16 MiB: a name, what is written, how many octets the message has, and the refusal, 0 where there is none. The length
/// is made by space around the shared text.
pub fn long(length: impl Fn(&Pieces) -> usize) -> Vec<(&'static str, Pieces, u32)> {
    let mut cases = Vec::new();
    let mut add = |name, size: usize, refusal, mut pieces: Pieces| {
        let missing = size - length(&pieces);
        pieces.shared.resize(pieces.shared.len() + missing, b' ');
        cases.push((name, pieces, refusal));
    };
    let ciphertext = |pieces: Pieces| Pieces { ciphertext: vec![0x5a; 12_582_000], ..pieces };
    let x = r#"{"x":1}"#;
    add("16 MiB", LONGEST, 0, ciphertext(flattened(x, "")));
    add("16 MiB, general", LONGEST, 0, ciphertext(general(x, &["", r#"{"y":1}"#])));
    add("16 MiB of shared text", LONGEST, 0, flattened(x, ""));
    add("an octet more", LONGEST + 1, 2, ciphertext(flattened(x, "")));
    add("an octet more, general", LONGEST + 1, 2, ciphertext(general(x, &["", r#"{"y":1}"#])));
    // Too deep where it stands: judged in the whole, so after its length. Too deep by itself: before.
    add("too deep, 16 MiB", LONGEST, 7, flattened(&deep(12), ""));
    add("too deep, an octet more", LONGEST + 1, 2, flattened(&deep(12), ""));
    add("own too deep, an octet more", LONGEST + 1, 2, general(x, &[&deep(10)]));
    add("too deep by itself, an octet more", LONGEST + 1, 7, flattened(&deep(13), ""));
    add("own too deep by itself, an octet more", LONGEST + 1, 7, general(x, &["", &deep(13)]));
    add("a text over 16 MiB", LONGEST + 1000, 2, flattened(x, ""));
    add("a text over 16 MiB that is none", LONGEST + 1000, 7, flattened("[]", ""));
    // The others come after 2, or before it.
    add("2 before 8", LONGEST + 1, 2, flattened(&members(33), ""));
    add("8, 16 MiB", LONGEST, 8, flattened(&members(33), ""));
    add("2 before 10", LONGEST + 1, 2, flattened("{}", ""));
    add("2 before 18", LONGEST + 1, 2, pieces(false, &header(), x, &[["", "\0"]]));
    let two = [[r#"{"alg":"dir","enc":"A128GCM"}"#, ""], [r#"{"alg":"dir","enc":"A256GCM"}"#, ""]];
    add("2 before 21", LONGEST + 1, 2, pieces(true, "", x, &two));
    add("21, 16 MiB", LONGEST, 21, pieces(true, "", x, &two));
    add("6 before 2", LONGEST + 1, 6, pieces(false, &" ".repeat(4097), x, &[["", ""]]));
    add("20 before 2", LONGEST + 1, 20, pieces(false, &header(), x, &[["", ""], ["", ""]]));
    add("3 before 2", LONGEST + 1, 3, with_known(b"", flattened(x, "")));
    cases
}
