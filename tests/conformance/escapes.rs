//! Escapes: halves of surrogate pairs, and names that are one name after undoing them (RFC 7515, 5.3), in one object,
//! in two headers, and where a member or parameter is known by its name.

use crate::list::{encoded, flat, general, json, members, protected, shown, with, Cases, H, T10};

impl Cases {
    pub fn escapes(&mut self) {
        self.pairs();
        self.names();
        self.known_names();
    }

    /// House rule: a \u escape that is half of a surrogate pair has its other half.
    fn pairs(&mut self) {
        let wrong = [
            r"\ud834", r"\udd1e", r"\uD800", r"\uDFFF", r"\udd1e\ud834", r"\ud834\ud834", r"\ud834x", r"\ud834\n",
            r"\ud834\\", r"\ud834 \udd1e", r"\ud834\u0041", r"\udbff\ue000", r"\ud834\udd1e\udd1e",
            r"\ud834\ud834\udd1e", r"\ud834\\udd1e",
        ];
        let right = [
            r"\ud834\udd1e", r"\uD834\uDD1E", r"\uD834\udd1E", r"\ud800\udc00", r"\uDBFF\uDFFF", r"\ud7ff", r"\ue000",
            r"\\ud834", r"\ud834\udd1e\ud834\udd1e",
        ];
        let all = wrong.into_iter().map(|s| (7, s)).chain(right.into_iter().map(|s| (0, s)));
        for (number, spelled) in all {
            self.compact(number, format!("{spelled} in a string"), with(&format!(r#""x":"{spelled}""#)));
        }
        self.compact(7, "half of a pair in a name", with(r#""\ud834":1"#));
        self.compact(7, "half of a pair in crit", with(r#""crit":["\udd1e"]"#));
        self.compact(7, "half of a pair deep in a value", with(r#""x":[{"y":{"\udd1e":1}}]"#));
        self.flattened(7, "half of a pair in an ignored name", flat(r#""\udd1e":1"#));
        self.flattened(7, "half of a pair in an ignored value", flat(r#""x":["\ud834"]"#));
        self.flattened(7, "half of a pair in the shared header", flat(r#""unprotected":{"kid":"\ud834"}"#));
        self.general(7, "half of a pair in an ignored member of an element", general(r#"{},{"x":"\ud834"}"#));
        self.general(7, "half of a pair in an own header", general(r#"{},{"header":{"\ud834":1}}"#));
        let half = general("{}").replace(H, &encoded(r#"{"x":"\ud834"}"#));
        self.general(7, "half of a pair in the protected header", half);
    }

    /// RFC 7515, 5.3: names are compared after undoing escapes, code point by code point.
    fn names(&mut self) {
        let alike = [
            (r"x", r"\u0078"), (r"kx", r"\u006b\u0078"), (r"\u006B", r"\u006b"), (r"/", r"\/"), (r"\/", r"\u002F"),
            (r"\n", r"\u000a"), (r"\b", r"\u0008"), (r"\f", r"\u000C"),
            (r"\\", r"\u005c"), (r#"\""#, r"\u0022"), ("\u{e9}", r"\u00e9"), ("\u{20ac}", r"\u20AC"),
            ("\u{1d11e}", r"\ud834\udd1e"), (r"\uD834\uDD1E", r"\ud834\udd1e"), (r"\u0000", r"\u0000"), ("", ""),
        ];
        for (one, other) in alike {
            let what = format!("a name twice, `{}` and `{}`", shown(one), shown(other));
            self.compact(9, what, with(&format!(r#""{one}":1,"{other}":2"#)));
        }
        let apart = [
            ("x", "X"), ("alg ", " alg"), ("", r"\u0000"), ("x", r"x\u0000"), (r"\\u0078", "x"), (r"\b", r"\f"),
            ("\u{e9}", r"e\u0301"), ("n", r"\n"), ("/", r"\\/"), (r"\u00e9", r"\u00c3\u00a9"), ("xy", "x"),
        ];
        for (one, other) in apart {
            let what = format!("two names, `{}` and `{}`", shown(one), shown(other));
            self.compact(0, what, with(&format!(r#""{one}":1,"{other}":2"#)));
        }
        for (place, one) in [("the top level", flat("@")), ("the shared header", flat(r#""unprotected":{@}"#))] {
            let (twice, inside) = (r#""q":1,"\u0071":2"#, r#""q":{"a":1,"a":2}"#);
            self.flattened(9, format!("a name twice in {place}, once escaped"), one.replace('@', twice));
            self.flattened(0, format!("a name twice in an object inside {place}"), one.replace('@', inside));
        }
        self.flattened(9, "a name twice in the own header, once escaped", flat(r#""header":{"\/":1,"/":2}"#));
        self.flattened(9, "ciphertext twice, once escaped", flat(r#""ciphertex\u0074":"AQID""#));
        self.flattened(9, "protected twice", flat(&format!(r#""protected":"{H}""#)));
        self.general(9, "recipients twice, once escaped", flat(r#""recipients":[{}],"recipient\u0073":[{}]"#));
        self.general(9, "a name twice in element 1, once escaped", general(r#"{},{"q":1,"\u0071":1}"#));
        let header = general(r#"{"header":{"q":1},"he\u0061der":{"r":1}}"#);
        self.general(9, "header twice in element 0, once escaped", header);
        let own = general(r#"{},{"header":{"q":1,"\u0071":1}}"#);
        self.general(9, "a name twice in own header 1, once escaped", own);
        let inside = general(r#"{"header":{"q":[{"a":1,"a":2}]}}"#);
        self.general(0, "a name twice in an object inside an own header", inside);
        let between = with(&format!(r#""q":1,{},"q":2"#, members("m", 28)));
        self.compact(9, "a name twice with 28 others between", between);
        self.compact(0, "a name twice inside a value", with(r#""x":{"a":1,"a":2,"alg":3}"#));
        let two = flat(r#""unprotected":{"\u0061lg":"dir"}"#);
        self.flattened(12, "a name in two headers, once escaped", two);
        let pair = flat("\"unprotected\":{\"\u{1d11e}\":1},\"header\":{\"\\ud834\\udd1e\":1}");
        self.flattened(12, "a pair in two headers, once escaped", pair);
        let last = flat(r#""unprotected":{"\u0071":1},"recipients":[{},{"header":{"\u0071":2}}]"#);
        self.general(12, "a name in two headers of recipient 1, both escaped", last);
        let case = flat(r#""unprotected":{"ALG":1},"header":{"Alg":1}"#);
        self.flattened(0, "names in two headers that differ in case", case);
    }

    /// Members and parameters are known by what their names say.
    fn known_names(&mut self) {
        self.flattened(0, "ciphertext with an escape", T10.replace("ciphertext", r"ciphertex\u0074"));
        self.flattened(0, "protected with an escape", flat(r#""tag":"AA""#).replace("protected", r"\u0070rotected"));
        let recipients = general("{},{}").replace("recipients", r"recip\u0069ents");
        self.general(0, "recipients with an escape", recipients).asking('1');
        let own = protected(r#"{"alg":"dir"}"#) + r#","recipients":[{"h\u0065ader":{"enc":"A128GCM"}}]"#;
        let own = json(&own);
        self.general(0, "an element's header with an escape", own);
        let key = r#"{"alg":"A128KW","enc":"A128GCM"}"#;
        let key = json(&format!(r#"{},"encrypted\u005fkey":"AA""#, protected(key)));
        self.flattened(0, "encrypted_key with an escape", key);
        self.flattened(10, "iv with an escape, empty", flat(r#""\u0069v":"""#));
        let escaped = r#"{"\u0061lg":"d\u0069r","\u0065\u006e\u0063":"A\u003128GCM","z\u0069p":"\u0044EF"}"#;
        self.each(0, "alg, enc and zip with escapes", escaped);
        self.compact(14, "kid with an escape, a number", with(r#""k\u0069d":1"#));
        self.flattened(16, "crit with an escape in the shared header", flat(r#""unprotected":{"cr\u0069t":["x"]}"#));
    }
}
