//! Document 01, 'Header rules': kinds, values, modes, protection and `crit`, 12 to 18, in each header that has them.

use crate::list::{compact, flat, general, json, keyed, protected, with, Cases, ALGS, DIR};

/// A flattened and a general message with H and these members in its shared header or the last own header.
fn outside(members: &str) -> [(usize, &'static str, String); 3] {
    [
        (1, "the shared header", flat(&format!(r#""unprotected":{{{members}}}"#))),
        (1, "the own header", flat(&format!(r#""header":{{{members}}}"#))),
        (2, "the own header of recipient 1", general(&format!(r#"{{}},{{"header":{{{members}}}}}"#))),
    ]
}

impl Cases {
    pub fn headers(&mut self) {
        self.apart();
        self.present();
        self.kinds();
        self.listed();
        self.keys();
        self.protection();
        self.crit();
    }

    /// 12.
    fn apart(&mut self) {
        for (form, place, message) in outside(r#""enc":"A128GCM""#) {
            self.of_form(form, 12, format!("enc in the protected header and {place}"), message);
        }
        let two = flat(r#""unprotected":{"q":1},"header":{"q":1}"#);
        self.flattened(12, "a name in the shared and the own header", two);
        let three = json(r#""protected":"eyJxIjoxfQ","unprotected":{"q":1},"header":{"q":1}"#);
        self.flattened(12, "a name in all three headers", three);
        let last = flat(r#""unprotected":{"q":1},"recipients":[{},{},{"header":{"q":2}}]"#);
        self.general(12, "a name in the shared header and that of the last, the first asked for", last);
        let owns = general(r#"{"header":{"q":1}},{"header":{"q":2}}"#);
        self.general(0, "a name in the own headers of two recipients", owns).asking('1');
        self.flattened(12, "the empty name in two headers", flat(r#""unprotected":{"":1},"header":{"":1}"#));
        let inside = flat(r#""header":{"jwk":{"alg":"dir"}}"#);
        self.flattened(0, "a name in a header and inside a value of another", inside);
    }

    /// 13, whatever `alg` and `enc` hold.
    fn present(&mut self) {
        self.each(13, "no alg", r#"{"enc":"A128GCM"}"#);
        self.each(13, "no enc", r#"{"alg":"dir"}"#);
        self.compact(13, "alg inside a value alone", compact(r#"{"enc":"A128GCM","jwk":{"alg":"dir"}}"#));
        self.compact(13, "alg and enc in another case", compact(r#"{"Alg":"dir","ENC":"A128GCM"}"#));
        self.compact(13, "alg null and no enc", compact(r#"{"alg":null}"#));
        self.flattened(13, "no header at all", json(r#""tag":"AA""#));
        self.general(13, "no header at all", json(r#""recipients":[{}]"#));
        let first = json(r#""unprotected":{"enc":"A128GCM"},"recipients":[{"header":{"alg":"dir"}},{}]"#);
        self.general(13, "alg for recipient 0 alone, 0 asked for", &*first);
        self.general(13, "alg for recipient 0 alone, 1 asked for", &*first).asking('1');
        let apart = json(r#""recipients":[{"header":{"alg":"dir"}},{"header":{"enc":"A128GCM"}}]"#);
        self.general(13, "alg for one recipient, enc for the other", apart);
    }

    /// 14.
    fn kinds(&mut self) {
        for member in [
            r#""kid":1"#, r#""typ":null"#, r#""cty":{}"#, r#""jku":[]"#, r#""x5u":true"#, r#""x5t":false"#,
            r#""x5t#S256":-1"#, r#""zip":["DEF"]"#, r#""zip":null"#, r#""jwk":"{}""#, r#""jwk":[]"#, r#""jwk":null"#,
            r#""x5c":"x""#, r#""x5c":{}"#, r#""crit":"x""#, r#""crit":{"x":1}"#, r#""crit":null"#,
        ] {
            self.compact(14, member, with(member));
        }
        self.each(14, "alg null", r#"{"alg":null,"enc":"A128GCM"}"#);
        self.each(14, "enc in an array", r#"{"alg":"dir","enc":["A128GCM"]}"#);
        for member in [r#""x5c":{}"#, r#""crit":"x""#, r#""zip":1"#] {
            for (form, place, message) in outside(member) {
                self.of_form(form, 14, format!("{member} in {place}"), message);
            }
        }
        self.compact(0, "empty values of the right kind", with(r#""kid":"","typ":"","jwk":{},"x5c":[],"x5t#S256":"""#));
        // Document 01 gives kinds to the thirteen names of section 4.1 alone.
        let others = r#""epk":1,"apu":2,"apv":[],"p2s":{},"p2c":"","iv":null,"tag":0"#;
        self.each(0, "other registered parameters of any kind", &format!("{{{DIR},{others}}}"));
        let near = with(r#""Kid":1,"x5t#s256":1,"x5":1,"kid ":1,"JWK":1"#);
        self.compact(0, "parameters nearly named so, of any kind", near);
    }

    /// 15, and every listed value.
    fn listed(&mut self) {
        for (alg, why) in [
            ("none", "no algorithm"), ("DIR", "upper case"), ("dir ", "a space"), ("", "empty"), ("A128GCM", "an enc"),
            ("RSA-OAEP-512", "not in RFC 7518"), ("ECDH-ES+", "the beginning of some"), ("A128K", "short by one"),
            (r"dir\u0000", "a NUL behind"), ("PBES2-HS256+A256KW", "mixed"),
        ] {
            let header = format!(r#"{{"alg":"{alg}","enc":"A128GCM"}}"#);
            self.compact(15, format!("alg `{alg}`, {why}"), compact(&header));
        }
        for (enc, why) in [
            ("A128GCMKW", "an alg"), ("a128gcm", "lower case"), ("", "empty"), ("A128CBC-HS384", "mixed"),
            ("A128CBC+HS256", "an early draft's"), ("A128GC", "short by one"),
        ] {
            self.compact(15, format!("enc `{enc}`, {why}"), compact(format!(r#"{{"alg":"dir","enc":"{enc}"}}"#)));
        }
        for zip in ["def", "", "DEFLATE"] {
            self.compact(15, format!("zip `{zip}`"), with(&format!(r#""zip":"{zip}""#)));
        }
        self.each(0, "zip DEF", &format!(r#"{{{DIR},"zip":"DEF"}}"#));
        for enc in ["A128CBC-HS256", "A192CBC-HS384", "A256CBC-HS512", "A128GCM", "A192GCM", "A256GCM"] {
            self.compact(0, format!("enc {enc}"), compact(format!(r#"{{"alg":"dir","enc":"{enc}"}}"#)));
        }
        let owns = |alg, enc| {
            let own = format!(r#"{{"header":{{"alg":"{alg}","enc":"{enc}"}}}}"#);
            json(&format!(r#""recipients":[{{"header":{{{DIR}}}}},{own}]"#))
        };
        self.general(15, "alg of recipient 1, 0 asked for", owns("x", "A128GCM"));
        self.general(15, "enc of recipient 1, 0 asked for", owns("dir", "x"));
        self.general(21, "enc of recipient 1 is listed and another, 1 asked for", owns("dir", "A256GCM")).asking('1');
    }

    /// 18: each mode with and without a key.
    fn keys(&mut self) {
        for (mode, alg) in ALGS {
            let header = format!(r#"{{"alg":"{alg}","enc":"A256CBC-HS512"}}"#);
            let (with_key, without) = if mode == 3 || mode == 5 { (18, 0) } else { (0, 18) };
            self.compact(with_key, format!("{alg}, mode {mode}, with a key"), keyed(&header)).in_mode(1, mode);
            self.compact(without, format!("{alg}, mode {mode}, without a key"), compact(&header)).in_mode(1, mode);
        }
        for (mode, alg) in [(1, "RSA-OAEP"), (2, "A256GCMKW"), (3, "ECDH-ES"), (4, "ECDH-ES+A192KW"), (5, "dir")] {
            let header = protected(format!(r#"{{"alg":"{alg}","enc":"A192GCM"}}"#));
            let (with_key, without) = if mode == 3 || mode == 5 { (18, 0) } else { (0, 18) };
            let key = r#""encrypted_key":"AA""#;
            let message = json(&format!("{header},{key}"));
            self.flattened(with_key, format!("mode {mode} with a key"), message).in_mode(1, mode);
            self.flattened(without, format!("mode {mode} without a key"), json(&header)).in_mode(1, mode);
            let two = |last: &str| {
                let first = r#"{"header":{"alg":"dir"}}"#;
                let last = format!(r#"{{"header":{{"alg":"{alg}"}}{last}}}"#);
                json(&format!(r#""unprotected":{{"enc":"A192GCM"}},"recipients":[{first},{last}]"#))
            };
            let what = format!("mode {mode} of recipient 1");
            let message = two(&format!(",{key}"));
            self.general(with_key, format!("{what} with a key"), message).asking('1').in_mode(2, mode);
            self.general(without, format!("{what} without a key"), two("")).asking('1').in_mode(2, mode);
        }
    }

    /// 16.
    fn protection(&mut self) {
        for (form, place, message) in outside(r#""zip":"DEF""#) {
            self.of_form(form, 16, format!("zip in {place}"), message);
        }
        for (form, place, message) in outside(r#""crit":["x"],"x":1"#) {
            self.of_form(form, 16, format!("crit in {place}"), message).knowing(&["x"]);
        }
        for (form, place, message) in outside(r#""crit":[]"#) {
            self.of_form(form, 16, format!("an empty crit in {place}"), message);
        }
        for (form, place, message) in outside(r#""zip":"def""#) {
            self.of_form(form, 15, format!("zip def in {place}"), message);
        }
        let unprotected = json(&format!(r#""unprotected":{{{DIR},"zip":"DEF"}}"#));
        self.flattened(16, "zip without a protected header", unprotected);
        self.flattened(0, "zip inside a value", flat(r#""header":{"q":{"zip":"x","crit":1}}"#));
    }

    /// 17. RFC 7515, 4.1.11, and RFC 7516, 4.1.13.
    fn crit(&mut self) {
        let crit = |crit: &str, members: &str| format!(r#"{{{DIR},"crit":{crit}{members}}}"#);
        let x = r#","x":1"#;
        for (number, what, list, members) in [
            (0, "a known name that is there", r#"["x"]"#, x),
            (0, "two known names", r#"["x","y"]"#, r#","x":1,"y":null"#),
            (0, "a name with an escape", r#"["\u0078"]"#, x),
            (0, "of a name with an escape", r#"["x"]"#, r#","\u0078":1"#),
            (17, "no element", "[]", x),
            (17, "no element but space", "[ \n]", x),
            (17, "a number", "[1]", x),
            (17, "null behind a name", r#"["x",null]"#, x),
            (17, "an array in it", r#"[["x"]]"#, x),
            (17, "an object in it", r#"[{"x":1}]"#, x),
            (17, "a name twice", r#"["x","x"]"#, x),
            (17, "a name twice, once escaped", r#"["x","\u0078"]"#, x),
            (17, "a name twice with another between", r#"["x","y","x"]"#, r#","x":1,"y":1"#),
            (17, "a known name that is absent", r#"["x"]"#, ""),
            (17, "a known name inside a value alone", r#"["x"]"#, r#","z":{"x":1}"#),
            (17, "an unknown name", r#"["q"]"#, r#","q":1"#),
            (17, "an unknown name behind a known one", r#"["x","q"]"#, r#","x":1,"q":1"#),
            (17, "two known names in a row as one", r#"["xy"]"#, r#","xy":1"#),
            (17, "a known name in another case", r#"["X"]"#, r#","X":1"#),
            (17, "the empty name", r#"[""]"#, r#","":1"#),
        ] {
            self.compact(number, format!("crit, {what}"), compact(crit(list, members))).knowing(&["x", "y"]);
        }
        self.each(17, "crit, nothing known", &crit(r#"["x"]"#, x));
        self.each(17, "crit, empty", &crit("[]", ""));
        let registered = [
            ("alg", ""), ("enc", ""), ("zip", r#","zip":"DEF""#), ("jku", r#","jku":"""#), ("jwk", r#","jwk":{}"#),
            ("kid", r#","kid":"""#), ("x5u", r#","x5u":"""#), ("x5c", r#","x5c":[]"#), ("x5t", r#","x5t":"""#),
            ("x5t#S256", r#","x5t#S256":"""#), ("typ", r#","typ":"""#), ("cty", r#","cty":"""#), ("crit", ""),
            ("epk", r#","epk":{}"#), ("apu", r#","apu":"""#), ("apv", r#","apv":"""#), ("iv", r#","iv":"""#),
            ("tag", r#","tag":"""#), ("p2s", r#","p2s":"""#), ("p2c", r#","p2c":1"#),
        ];
        for (name, member) in registered {
            let message = compact(crit(&format!(r#"["{name}"]"#), member));
            self.compact(17, format!("crit, the registered name {name}, known"), message).knowing(&[name]);
        }
        let near = compact(crit(r#"["x5t#s256","Alg","b64"]"#, r#","x5t#s256":1,"Alg":1,"b64":true"#));
        self.compact(0, "crit, names that are nearly registered", near).knowing(&["Alg", "b64", "x5t#s256"]);
        let name = compact(crit(r#"["\u00e9","\ud834\udd1e"]"#, r#","é":1,"𝄞":2"#));
        self.compact(0, "crit, names that are not ASCII, known in UTF-8", name).knowing(&["𝄞", "é"]);

        // A name of the recipient's headers, whichever of the three.
        let header = protected(crit(r#"["x"]"#, ""));
        let shared = json(&format!(r#"{header},"unprotected":{{"x":1}}"#));
        self.flattened(0, "crit, a name of the shared header", shared).knowing(&["x"]);
        let own = json(&format!(r#"{header},"header":{{"x":1}}"#));
        self.flattened(0, "crit, a name of the own header", &*own).knowing(&["x"]);
        self.flattened(17, "crit, an unknown name of the own header", own).knowing(&["y"]);
        let top = json(&format!(r#"{header},"x":1"#));
        self.flattened(17, "crit, a name of the top level", top).knowing(&["x"]);
        let element = json(&format!(r#"{header},"recipients":[{{"x":1}}]"#));
        self.general(17, "crit, a name of the element itself", element).knowing(&["x"]);
        let two = |one: &str, other: &str| {
            let own = |name| format!(r#"{{"header":{{"{name}":1}}}}"#);
            json(&format!(r#"{header},"recipients":[{},{}]"#, own(one), own(other)))
        };
        self.general(0, "crit, a name that both recipients have", two("x", "x")).knowing(&["x"]);
        self.general(17, "crit, a name that recipient 0 alone has, 0 asked for", two("x", "y")).knowing(&["x"]);
        let last = two("y", "x");
        self.general(17, "crit, a name that recipient 1 alone has, 1 asked for", last).knowing(&["x"]).asking('1');
    }
}
