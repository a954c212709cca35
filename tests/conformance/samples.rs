//! Document 01's belt samples and messages whose answers were counted by hand; then what is lent: the room (1), the
//! known names (3), and the recipient that is asked for (19).

use crate::list::{compact, flat, general, json, keyed, known, protected, with, Cases, DIR, H, M, T10};

impl Cases {
    pub fn samples(&mut self) {
        // T1 and T4 are on encoding alone; H is T4's.
        let m = [0, 0, 1, 5, 0, 39, 40, 0, 41, 2, 0, 0, 44, 4, 49, 2, 29, 2, 0, 2, 3, 7, 5, 2, 0, 14, 3, 19, 9, 2];
        self.compact(0, "T6, M", M).handing(&m);
        self.compact(0, "T2, AA is one octet", format!("{H}..AA.AQID.AA"));
        self.compact(5, "T2, AB has spare bits", format!("{H}..AB.AQID.Ag"));
        self.compact(5, "T3, a lone A", format!("{H}..A.AQID.Ag"));
        let t5 = "eyJhbGciOiJSU0EtT0FFUCIsImVuYyI6IkEyNTZHQ00ifQ";
        self.compact(0, "T5, a header of RFC 7516 A.1", format!("{t5}.AA.AA.AQID.Ag"));
        self.compact(4, "T7, M and a dot", format!("{M}."));
        self.compact(4, "T8, the empty message", "");
        self.compact(9, "T9, alg twice, once escaped", compact(r#"{"alg":"dir","\u0061lg":"dir","enc":"A128GCM"}"#));
        let t10 = [0, 1, 1, 5, 0, 0, 0, 0, 0, 0, 52, 2, 70, 0, 0, 0, 0, 2, 1, 17, 3, 22, 5, 2, 1, 29, 3, 34, 9, 2];
        self.flattened(0, "T10, an aad without a protected header", T10).handing(&t10);
        self.flattened(10, "T11, T10 with an empty iv", T10.replace(r#":""}"#, r#":"","iv":""}"#));
        self.compact(18, "T12, a key in mode 5", format!("{H}.AA.AA.AQID.Ag"));

        let text = concat!(
            r#"{"recipients":[{"header":{"alg":"dir"}}, { "encrypted_key" : "AAAA" , "header" : "#,
            r#"{ "alg" : "A128KW" , "k\u0069x" : [ 1 ] } } ],"#,
            r#""unprotected":{"enc":"A128GCM"},"ciphertext":"","tag":"AA","iv":"AAA"}"#,
        );
        let first = [
            0, 2, 2, 5, 0, 0, 0, 0, 192, 3, 0, 0, 173, 0, 182, 2, 0, 2, 1, 143, 3, 148, 9, 2, 2, 27, 3, 32, 5, 2,
        ];
        self.general(0, "places, the first of two", text).handing(&first);
        let second = [
            0, 2, 2, 2, 0, 0, 62, 4, 192, 3, 0, 0, 173, 0, 182, 2, 0, 3, 1, 143, 3, 148, 9, 2, 2, 84, 3, 91, 8, 2, 2,
            103, 8, 115, 5, 1,
        ];
        self.general(0, "places, the second of two", text).asking('1').handing(&second);

        let text = concat!(
            r#"{"header":{"enc":"A128GCM","":null,"n":-0.5e1,"o":{ }},"encrypted_key":"AAA","#,
            r#""protected":"eyJhbGciOiJBMTI4S1cifQ","ciphertext":"AA"}"#,
        );
        let flattened = [
            0, 1, 1, 2, 90, 22, 72, 3, 0, 0, 0, 0, 128, 2, 0, 0, 16, 5, 0, 2, 3, 7, 8, 2, 2, 12, 3, 17, 9, 2, 2, 28, 0,
            30, 4, 6, 2, 36, 1, 39, 6, 3, 2, 47, 1, 50, 3, 0,
        ];
        self.flattened(0, "places, a protected and an own header", text).handing(&flattened);

        // Kinds 0 to 6, and a value's place without the space around it.
        let header = r#" { "alg" : "dir" ,"enc":"A128GCM","o": {} ,"a":[ ],"n":0 ,"t":true,"f": false,"z":null } "#;
        let seven = [
            0, 0, 1, 5, 0, 119, 120, 0, 121, 2, 0, 0, 124, 4, 129, 2, 89, 8, 0, 4, 3, 11, 5, 2, 0, 19, 3, 24, 9, 2, 0,
            35, 1, 39, 2, 0, 0, 44, 1, 47, 3, 1, 0, 52, 1, 55, 1, 3, 0, 59, 1, 62, 4, 4, 0, 68, 1, 72, 5, 5, 0, 79, 1,
            82, 4, 6,
        ];
        self.compact(0, "places, each kind", compact(header)).handing(&seven);
        let absent = json(&format!(r#""unprotected":{{{DIR}}}"#));
        self.flattened(0, "all components absent but the ciphertext", absent);
        self.compact(0, "all components empty but the header", format!("{H}...."));
        let all = format!(r#""protected":"{H}","iv":"AA","aad":"AA","tag":"AA""#);
        self.flattened(0, "all components but the key", json(&all));
        let apart = json(r#""protected":"eyJhbGciOiJkaXIifQ","header":{"enc":"A128GCM"}"#);
        self.flattened(0, "alg protected, enc in the own header", apart).in_mode(1, 5);
        let owns = json(concat!(
            r#""unprotected":{"enc":"A256GCM"},"recipients":[{"header":{"alg":"ECDH-ES"}},"#,
            r#"{"header":{"alg":"RSA-OAEP"},"encrypted_key":"AAAA"},"#,
            r#"{"encrypted_key":"BBBB","header":{"alg":"A256KW"}}]"#,
        ));
        for (recipient, mode) in [('0', 3), ('1', 1), ('2', 2)] {
            let what = format!("recipient {recipient} of 3 has mode {mode}, with its own key and header");
            self.general(0, what, &*owns).asking(recipient).in_mode(3, mode);
        }
    }

    /// 1, 3 and 19 in each form, and the borders of the known list.
    pub fn lent(&mut self) {
        let forms = [M.to_string(), T10.to_string(), general("{},{}")];
        for (form, message) in forms.iter().enumerate() {
            self.of_form(form, 1, "the header buffer has 4,095 octets", &**message).room('h');
            self.of_form(form, 1, "the list has 575 numbers", &**message).room('l');
            self.of_form(form, 3, "no known list at all", &**message).lending("");
            self.of_form(form, 3, "17 known names", &**message).knowing(&["n"; 17]);
            self.of_form(form, 0, "16 known names", &**message).knowing(&["n"; 16]);
            self.of_form(form, 19, "the largest recipient number", &**message).asking('m');
            let beyond = if form == 2 { '2' } else { '1' };
            self.of_form(form, 19, format!("recipient {beyond} of {beyond}"), &**message).asking(beyond);
        }
        self.compact(1, "the header buffer is short, the message refused too", "").room('h');
        self.compact(1, "the list is short, the recipient absent too", M).room('l').asking('m');

        let name = |n: usize| "n".repeat(n);
        let names: Vec<String> = (0..16).map(|i| format!("{i:064}")).collect();
        let names: Vec<&str> = names.iter().map(|name| &**name).collect();
        self.compact(0, "a known name of 64 octets", M).knowing(&[&name(64)]);
        self.compact(0, "16 known names of 64 octets", M).knowing(&names);
        self.compact(3, "a known name of 65 octets", M).knowing(&[&name(65)]);
        self.compact(3, "the last known name of 65 octets", M).knowing(&["a", "b", &name(65)]);
        self.compact(3, "17 known names of 64 octets", M).knowing(&[&name(64) as &str; 17]);
        self.compact(3, "an empty known name", M).knowing(&[""]);
        self.compact(3, "an empty known name between others", M).knowing(&["a", "", "b"]);
        let lists: [(&str, &[u8]); 9] = [
            ("a known list without a length", b"\x01"),
            ("a known list without its name", b"\x01\x01"),
            ("a known list with an octet too few", b"\x02\x01\x02nn"),
            ("a known list with an octet too many", b"\x01\x01nn"),
            ("an empty known list with an octet too many", b"\x00n"),
            ("a known list of two with one length", b"\x02\x01n"),
            ("a known list whose lengths fill it, with no names", b"\x03\x01\x01\x01"),
            ("255 known names announced", b"\xff"),
            ("a known name of 255 octets announced", b"\x01\xffnnn"),
        ];
        for (what, list) in lists {
            self.compact(3, what, M).lending(list);
        }
        self.compact(3, "255 known names, all there", M).knowing(&["n"; 255]);
        // The form of the list alone is asked for: what the names are, nothing says.
        self.compact(0, "a known name that is no UTF-8", M).lending(*b"\x01\x02\xff\0");
        self.compact(0, "a known name twice", M).knowing(&["n", "n"]);
        self.compact(0, "a registered known name", M).knowing(&["alg"]);

        let critical = |names: &[&str]| {
            let list = names.iter().map(|name| format!(r#""{name}""#)).collect::<Vec<_>>().join(",");
            let members = names.iter().map(|name| format!(r#""{name}":1"#)).collect::<Vec<_>>().join(",");
            with(&format!(r#""crit":[{list}],{members}"#))
        };
        self.compact(0, "16 known names of 64 octets, all critical", critical(&names)).knowing(&names);
        self.compact(17, "16 names of 64 octets critical, 15 known", critical(&names)).knowing(&names[1..]);
        let seventeen: Vec<String> = (0..17).map(|i| format!("k{i}")).collect();
        let seventeen: Vec<&str> = seventeen.iter().map(|name| &**name).collect();
        self.compact(17, "17 critical names, 16 known", critical(&seventeen)).knowing(&seventeen[..16]);
        let long = critical(&[&name(65)]);
        self.compact(17, "a critical name of 65 octets, known but for its last", long).knowing(&[&name(64)]);

        let crit = protected(format!(r#"{{{DIR},"crit":["x"]}}"#));
        let two = json(&format!(r#"{crit},"recipients":[{{"header":{{"x":1}}}},{{"header":{{"x":2}}}}]"#));
        self.general(0, "a known name that both recipients have", &*two).knowing(&["x"]).asking('1');
        self.general(3, "a known list with a length of 0 before one of 2", &*two).lending(*b"\x02\x00\x02xx");
        self.flattened(3, "a known list of one octet, 16", flat(r#""tag":"AA""#)).lending(*b"\x10");
        let list = [known(&["x"]), known(&["y"])].concat();
        self.flattened(3, "two known lists in a row", flat(r#""tag":"AA""#)).lending(list);
        self.compact(18, "the recipient asked for is absent, the key wrong", keyed(format!("{{{DIR}}}"))).asking('m');
    }
}
