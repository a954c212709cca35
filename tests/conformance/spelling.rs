//! Document 01, 'Spelling rules': base64url (RFC 4648), JSON (RFC 8259), UTF-8 (RFC 3629), and which octets make a
//! message compact or JSON.

use crate::list::{compact, flat, general, with, Cases, DIR, H, M, T10};

/// A compact message with DIR and a member `x` whose value is a string of these octets.
fn string(octets: &[u8]) -> String {
    compact([b"{", DIR.as_bytes(), b",\"x\":\"", octets, b"\"}"].concat())
}

impl Cases {
    pub fn spelling(&mut self) {
        self.base64url();
        self.forms();
        self.values();
        self.utf8();
    }

    /// RFC 4648 sections 3.2, 3.3, 3.5 and 5: no padding, no foreign octet, no spare bits.
    fn base64url(&mut self) {
        let wrong: [(&str, &[u8]); 16] = [
            ("padding of two", b"AA=="),
            ("padding of one", b"AAA="),
            ("the first spare bit of four", b"AI"),
            ("the last spare bit of four", b"AB"),
            ("the first spare bit of two", b"AAC"),
            ("the last spare bit of two", b"AAB"),
            ("a length of 5", b"AAAAA"),
            ("the plus of base64", b"A+AA"),
            ("the slash of base64", b"A/AA"),
            ("a space inside", b"A AA"),
            ("a line end inside", b"AA\r\nAA"),
            ("a tab inside", b"AA\tA"),
            ("a NUL at its end", b"AA\0"),
            ("a letter that is not ASCII", b"A\xc3\xa9A"),
            ("an octet above 0x7f", b"AA\xc1A"),
            ("a tilde", b"A~AA"),
        ];
        for (what, iv) in wrong {
            let message = [H.as_bytes(), b"..", iv, b".AQID.Ag"].concat();
            self.compact(5, format!("base64url, {what}"), message);
        }
        // Of two characters the last is A, Q, g or w; of three its two last bits are zero.
        for text in ["AQ", "_w", "AAE", "__8", "-_-_", "09az"] {
            self.compact(0, format!("base64url, {text} for a tag"), format!("{H}..AA.AQID.{text}"));
        }
        let places = ["the protected header", "the key", "the iv", "the ciphertext", "the tag"];
        for (i, place) in places.into_iter().enumerate() {
            for (what, text) in [("a lone character", "A"), ("spare bits", "AAB")] {
                let mut parts = [H, "", "AA", "AQID", "Ag"];
                parts[i] = text;
                self.compact(5, format!("base64url, {what} in {place}"), parts.join("."));
            }
        }
        for name in ["iv", "aad", "tag", "encrypted_key"] {
            for (what, text) in [("spare bits", "AB"), ("padding", "AA==")] {
                let message = flat(&format!(r#""{name}":"{text}""#));
                self.flattened(5, format!("base64url, {what} in {name}"), message);
            }
        }
        for (what, text) in [("spare bits", "eyJ9AB"), ("a space", "eyJ9 ")] {
            self.flattened(5, format!("base64url, {what} in protected"), flat(r#""tag":"AA""#).replace(H, text));
            self.general(5, format!("base64url, {what} in protected"), general("{}").replace(H, text));
            self.flattened(5, format!("base64url, {what} in ciphertext"), flat(r#""tag":"AA""#).replace("AQID", text));
        }
        let key = |key: &str| general(&format!(r#"{{}},{{"encrypted_key":"{key}"}}"#));
        self.general(5, "base64url, spare bits in the key of recipient 1", key("AB"));
        self.general(5, "base64url, a letter that is not ASCII in the key of recipient 1", key("A\u{e9}A"));
        let key = general(r#"{"encrypted_key":"A"},{}"#);
        self.general(5, "base64url, a lone character in the key of recipient 0, 1 asked for", key).asking('1');
        self.flattened(5, "base64url, a slash without a backslash", flat(r#""iv":"A/AA""#));
        // A tab or line end in a JSON string is no JSON.
        self.flattened(7, "a line end in a component", flat("\"iv\":\"AA\nAA\""));
    }

    /// Compact or JSON, and what stands around the message.
    fn forms(&mut self) {
        for dots in [2, 3, 5] {
            self.compact(4, format!("{dots} dots and nothing else"), ".".repeat(dots));
        }
        self.compact(4, "H alone", H);
        self.compact(7, "four dots and nothing else", "....");
        self.compact(7, "an empty first part", "..AA.AQID.Ag");
        self.compact(4, "H and three dots", format!("{H}..."));
        self.compact(4, "H and five dots", format!("{H}....."));
        self.compact(0, "H and four dots", format!("{H}...."));
        self.compact(4, "a JWS of three parts", format!("{H}.AA.AA"));
        for (name, space) in [("space", " "), ("tab", "\t"), ("LF", "\n"), ("CR", "\r")] {
            self.compact(5, format!("{name} before M"), format!("{space}{M}"));
            self.compact(5, format!("{name} behind M"), format!("{M}{space}"));
            self.flattened(0, format!("{name} before and behind T10"), format!("{space}{T10}{space}"));
            self.general(0, format!("{name} before and behind"), format!("{space}{}{space}", general("{}")));
        }
        self.compact(4, "space alone", " \t\n\r");
        self.compact(5, "M in quotation marks", format!("\"{M}\""));
        self.compact(5, "a byte order mark before M", format!("\u{feff}{M}"));
        self.compact(4, "a byte order mark before T10", format!("\u{feff}{T10}"));
        self.compact(4, "a vertical tab before T10", format!("\x0b{T10}"));
        self.compact(4, "a NUL before T10", format!("\0{T10}"));
        self.compact(4, "a no-break space before T10", format!("\u{a0}{T10}"));
        self.compact(4, "T10 in an array", format!("[{T10}]"));
        self.compact(5, "a JSON string with four dots", "\"....\"");
        self.flattened(7, "a byte order mark behind T10", format!("{T10}\u{feff}"));
        self.flattened(7, "a byte order mark inside T10", T10.replacen('{', "{\u{feff}", 1));
        self.flattened(7, "a form feed behind T10", format!("{T10}\x0c"));
        self.flattened(7, "a NUL behind T10", format!("{T10}\0"));
        self.flattened(7, "T10 twice", format!("{T10}{T10}"));
        self.flattened(7, "T10 and M", format!("{T10}{M}"));
        self.flattened(7, "T10 without its last octet", &T10[..T10.len() - 1]);
        self.flattened(7, "a brace and M", format!("{{{M}"));
        self.flattened(7, "a brace alone", "{");
        self.flattened(7, "a brace and four dots", "{....");
        self.flattened(7, "a comma behind the last member", T10.replace(r#":""}"#, r#":"",}"#));
        self.flattened(7, "no comma between members", T10.replace(r#","aad""#, r#" "aad""#));
        self.flattened(7, "a comment", T10.replace(r#","aad""#, r#",/* */"aad""#));
        self.flattened(7, "a name without quotation marks", T10.replace(r#""aad""#, "aad"));
        self.flattened(7, "names in apostrophes", T10.replace('"', "'"));
        let spaced = T10.replace(':', " \t:\n ").replace(',', "\r ,\t\n").replace('{', "{ \n").replace('}', "\r\t}");
        self.flattened(0, "space around every sign", spaced);
        self.general(7, "a comma behind the last element", general("{},"));
        self.general(7, "no comma between elements", general("{}{}"));
        self.general(0, "space around elements", general(" { } ,\n{\t}\r"));
    }

    /// RFC 8259 sections 3 to 7, as the value of a member of a header and of an ignored member.
    fn values(&mut self) {
        let wrong = [
            "", "01", "-01", "+1", "1.", ".5", "1.e1", "1e", "1e+", "-", "0x1", "NaN", "-Infinity", "True", "nul",
            "truefalse", "'x'", "x", "1 2", "[1,]", "[,1]", "[1 2]", "[1:2]", "[}", "{]", "[1", "{1:2}", "{a:1}",
            r#"{"a"}"#, r#"{"a":}"#, r#"{"a":1,}"#, r#"{"a" 1}"#, r#"{null:1}"#, r#"""""#, r#"""#, r#""\""#,
            r#""\x41""#, r#""\u12""#, r#""\u00g0""#, r#""\U0041""#, r#""\'""#, r#""\0""#,
        ];
        for value in wrong {
            self.compact(7, format!("`{value}` for a value, RFC 8259"), with(&format!(r#""x":{value}"#)));
        }
        let right = [
            "-0", "0.50", "1E+05", "-1e-0", "1e400", "123456789012345678901234567890", "true", "false", "null", r#""""#,
            r#""\b\f\n\r\t\/\\\"""#, r#""\u0000""#, r#""\uFFFF""#, "[1,\"\",{\"a\":[[],{}]}]", r#"{"":""}"#,
        ];
        for value in right {
            self.compact(0, format!("`{value}` for a value, RFC 8259"), with(&format!(r#""x":{value}"#)));
        }
        for (what, octet) in [("NUL", 0), ("tab", 9), ("0x1f", 0x1f)] {
            self.compact(7, format!("{what} as it is in a string"), string(&[octet]));
        }
        self.compact(0, "0x7f as it is in a string", string(&[0x7f]));
        self.compact(7, "a form feed between members", compact(format!("{{{DIR},\x0c\"x\":1}}")));
        self.compact(7, "a no-break space between members", compact(format!("{{{DIR},\u{a0}\"x\":1}}")));
        self.compact(7, "a NUL behind the header", compact(format!("{{{DIR}}}\0")));
        self.compact(7, "a byte order mark before the header", compact(format!("\u{feff}{{{DIR}}}")));
        self.compact(7, "a comma for a header's member", compact(format!("{{,{DIR}}}")));
        self.compact(7, "something behind the header", compact(format!("{{{DIR}}}{{}}")));
        self.compact(0, "space around the header", compact(format!(" \t\r\n{{{DIR}}}\n\r\t ")));
        self.each(7, "an array for a protected header", "[]");
        self.each(7, "a protected header that does not end", "{");
        self.compact(7, "a string for a protected header", compact("\"x\""));
        self.flattened(7, "a wrong number in an ignored member", flat(r#""x":01"#));
        self.flattened(7, "a wrong escape in an ignored name", flat(r#""\x":1"#));
        self.flattened(7, "a wrong literal deep in an ignored member", flat(r#""x":[{"y":[nul]}]"#));
        self.general(7, "a wrong number in an ignored member of an element", general(r#"{},{"x":-}"#));
        self.general(7, "a wrong string in an own header", general(r#"{"header":{"kid":"\q"}}"#));
    }

    /// RFC 3629 sections 3 and 4: the first and last of each row of the syntax, and what lies beside them.
    fn utf8(&mut self) {
        let wrong: [&[u8]; 20] = [
            b"\x80", b"\xbf", b"\xc0\x80", b"\xc1\xbf", b"\xc2", b"\xc2A", b"\xdf\xc0", b"\xe0\x80\x80",
            b"\xe0\x9f\xbf", b"\xe1\x80", b"\xed\xa0\x80", b"\xed\xbf\xbf", b"\xed\xa0\xb4\xed\xb4\x9e",
            b"\xf0\x80\x80\x80", b"\xf0\x8f\xbf\xbf", b"\xf0\x90\x80", b"\xf4\x90\x80\x80", b"\xf5\x80\x80\x80",
            b"\xfe", b"\xff",
        ];
        let right: [&[u8]; 9] = [
            b"\xc2\x80", b"\xdf\xbf", b"\xe0\xa0\x80", b"\xed\x9f\xbf", b"\xee\x80\x80", b"\xef\xbf\xbf",
            b"\xf0\x90\x80\x80", b"\xf4\x8f\xbf\xbf", b"\xef\xbb\xbf",
        ];
        let all = wrong.iter().map(|octets| (7, *octets)).chain(right.iter().map(|octets| (0, *octets)));
        for (number, octets) in all {
            let hex: String = octets.iter().map(|octet| format!("{octet:02x}")).collect();
            self.compact(number, format!("{hex} in a string, RFC 3629"), string(octets));
        }
        let in_place = |octets: &[u8], place: &str| {
            let (before, behind) = place.split_once('*').expect("a place");
            [before.as_bytes(), octets, behind.as_bytes()].concat()
        };
        let ignored = flat(r#""x":"*""#);
        let own = general(r#"{"header":{"*":1}}"#);
        let places = [(1, "an ignored member", &ignored), (2, "a name in an own header", &own)];
        for (form, place, message) in places {
            for (number, what, octets) in [
                (7, "an overlong slash", &b"\xc0\xaf"[..]),
                (7, "half of a pair", b"\xed\xa0\xb4"),
                (7, "a code point above U+10FFFF", b"\xf4\x90\x80\x80"),
                (0, "a code point of four octets", b"\xf0\x9d\x84\x9e"),
            ] {
                self.of_form(form, number, format!("{what} in {place}, RFC 3629"), in_place(octets, message));
            }
        }
        let sixteen: Vec<u8> = format!("{{{DIR}}}").bytes().flat_map(|c| [0, c]).collect();
        self.compact(7, "UTF-16 for a header", compact(sixteen));
    }
}
