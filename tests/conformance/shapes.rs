//! Document 01, 'Shape (10)': the members that a JSON message knows, on the top level and in elements, and those that
//! it ignores.

use crate::list::{compact, flat, general, json, protected, shown, Cases, DIR, H, T10};

const COMPONENTS: [&str; 6] = ["protected", "encrypted_key", "iv", "aad", "ciphertext", "tag"];

/// A JSON message that would be sound, with this value for a component.
fn valued(name: &str, value: &str) -> String {
    let mut members = vec![format!(r#""unprotected":{{{DIR}}}"#), format!(r#""{name}":{value}"#)];
    if name != "ciphertext" {
        members.push(r#""ciphertext":"AQID""#.to_string());
    }
    format!("{{{}}}", members.join(","))
}

impl Cases {
    pub fn shapes(&mut self) {
        self.components();
        self.objects();
        self.recipients();
        self.elements();
        self.ignored();
    }

    fn components(&mut self) {
        self.flattened(10, "no member at all", "{}");
        self.flattened(10, "no ciphertext", T10.replace("ciphertext", "cipherText"));
        self.general(10, "no ciphertext", general("{}").replace("ciphertext", "cipher"));
        for (i, name) in COMPONENTS.into_iter().enumerate() {
            // Of the six other kinds two for each component, so that each kind has two.
            let kinds = ["null", "1", r#"["AA"]"#, r#"{"a":1}"#, "true", "false"];
            for kind in [kinds[i], kinds[(i + 3) % 6]] {
                self.flattened(10, format!("{kind} for {name}"), valued(name, kind));
            }
            self.flattened(10, format!("an escape in {name}"), valued(name, r#""\u0041A""#));
            let number = if name == "ciphertext" { 0 } else { 10 };
            self.flattened(number, format!("{name} empty"), valued(name, r#""""#));
        }
        for value in [r#""A\/AA""#, r#""\\""#, r#""AA\n""#, r#""\"""#] {
            self.flattened(10, format!("a backslash in a component, {value}"), valued("iv", value));
        }
        let escaped = flat(r#""tag":"AA""#).replace(H, &format!("\\u0065{}", &H[1..]));
        self.flattened(10, "the protected header itself with an escape", escaped);
    }

    fn objects(&mut self) {
        for value in ["null", "true", r#""{}""#, "[]", r#"[{"q":1}]"#, "{}", "{ \n}"] {
            let what = shown(value);
            self.flattened(10, format!("{what} for unprotected"), flat(&format!(r#""unprotected":{value}"#)));
            self.flattened(10, format!("{what} for header"), flat(&format!(r#""header":{value}"#)));
        }
        for value in ["{}", "[]", "null"] {
            let message = flat(&format!(r#""unprotected":{value},"recipients":[{{}}]"#));
            self.general(10, format!("{value} for unprotected"), message);
        }
        for (what, header) in [("{}", "{}"), ("space in braces", " {\r\n} ")] {
            let shared = format!(r#"{},"unprotected":{{{DIR}}}"#, protected(header));
            self.flattened(10, format!("{what} for the protected header"), json(&shared));
            self.general(10, format!("{what} for the protected header"), json(&(shared + r#","recipients":[{}]"#)));
            // The 10 for a protected header without members is in JSON's order alone.
            self.compact(13, format!("{what} for the protected header"), compact(header));
        }
    }

    fn recipients(&mut self) {
        for value in ["null", "{}", r#"{"header":{"q":1}}"#, r#""[]""#, "1", "[]", "[ ]"] {
            self.general(10, format!("{value} for recipients"), flat(&format!(r#""recipients":{value}"#)));
        }
        for element in ["null", r#""{}""#, "1", "[{}]"] {
            self.general(10, format!("{element} for an element"), general(element));
        }
        self.general(10, "no object between two elements", general("{},null,{}"));
        self.general(10, "no object behind eight elements", general(&(["{}"; 8].join(",") + ",1")));
        for (name, value) in [("header", r#"{"q":1}"#), ("encrypted_key", r#""AA""#)] {
            let message = flat(&format!(r#""{name}":{value},"recipients":[{{}}]"#));
            self.general(10, format!("recipients behind {name}"), message);
            let message = flat(&format!(r#""recipients":[{{}}],"{name}":{value}"#));
            self.general(10, format!("recipients before {name}"), message);
        }
        self.general(10, "recipients beside header, both empty", flat(r#""recipients":[],"header":{}"#));
        // All faults of `recipients` itself come before 11.
        let nine = ["{}"; 9].join(",");
        for (name, value) in [("header", r#"{"q":1}"#), ("encrypted_key", r#""AA""#)] {
            let message = flat(&format!(r#""recipients":[{nine}],"{name}":{value}"#));
            self.general(10, format!("9 recipients beside {name}"), message);
        }
        self.general(10, "no object behind nine elements", general(&format!("{nine},null")));
        self.general(10, "no object before nine elements", general(&format!("[],{nine}")));
    }

    fn elements(&mut self) {
        for element in [
            r#"{"header":{}}"#, r#"{"header":[]}"#, r#"{"header":null}"#, r#"{"encrypted_key":""}"#,
            r#"{"encrypted_key":null}"#, r#"{"encrypted_key":"\u0041A"}"#, r#"{"h\u0065ader":{}}"#,
        ] {
            self.general(10, format!("{element} for element 1"), general(&format!("{{}},{element}")));
        }
        self.general(10, "an empty header in element 0, 1 asked for", general(r#"{"header":{}},{}"#)).asking('1');
        self.general(0, "{} for an element", general("{}"));
        let others = r#""ciphertext":1,"iv":"","tag":{},"aad":"\n","protected":null,"unprotected":[],"recipients":[]"#;
        self.general(0, "an element knows header and encrypted_key alone", general(&format!("{{{others}}}")));
    }

    /// Unknown members are ignored (RFC 7516, 7.2.1), whatever they hold.
    fn ignored(&mut self) {
        for member in [
            r#""x":null"#, r#""alg":1"#, r#""zip":"x""#, r#""crit":[]"#, r#""Recipients":[]"#, r#""IV":"""#, r#""":{}"#,
            r#""protected ":1"#, r#""key":"\"""#, r#""payload":"A""#, r#""signatures":[]"#,
        ] {
            self.flattened(0, format!("{member} is ignored"), flat(member));
        }
        self.general(0, "members of the top level that are ignored", flat(r#""x":{"x":[]},"recipients":[{}],"enc":0"#));
        self.flattened(13, "parameters on the top level are none", json(DIR));
        self.flattened(13, "parameters in an ignored member", json(&format!(r#""Header":{{{DIR}}}"#)));
        self.general(13, "parameters in an element itself are none", json(&format!(r#""recipients":[{{{DIR}}}]"#)));
        let own = json(&format!(r#""recipients":[{{"unprotected":{{{DIR}}}}}]"#));
        self.general(13, "an element has no shared header", own);
        let named = flat(r#""iv":"AA","unprotected":{"iv":1,"tag":[],"ciphertext":0}"#);
        self.flattened(0, "parameters that are named as components", named);
    }
}
