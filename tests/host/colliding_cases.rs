//! Messages by hand whose names have one fingerprint: different ones are accepted, and equal ones are refused by 9 and 12
//! however they are spelled.

use super::cases::{compact, flat, general, json, known, protected, Cases, Expected, DIR};
use super::colliding::{names, twin};
use super::Call;
use Expected::{Accepted, Refused};

fn members(names: &[String]) -> String {
    names.iter().map(|name| format!(r#""{name}":0"#)).collect::<Vec<_>>().join(",")
}

/// The same name with an escape for the octet at a place.
fn escaped(name: &str, at: usize) -> String {
    format!("{}\\u{:04x}{}", &name[..at], name.as_bytes()[at], &name[at + 1..])
}

impl Cases {
    pub fn colliding(&mut self) {
        self.colliding_in_one_object();
        self.colliding_across_headers();
        self.colliding_with_known_names();
    }

    fn colliding_in_one_object(&mut self) {
        // 30 names with `alg` and `enc`: 3,150 octets of the 4,096.
        let hundred = names(32, 100);
        let header = |names: &[String]| compact(&format!("{{{DIR},{}}}", members(names)));
        let with_again = |from: &[String], at: usize| [from, &[escaped(&from[0], at)]].concat();
        self.accepted(0, 1, 5, "30 colliding names in a protected header", header(&hundred[..30]));
        for at in [0, 50, 99] {
            let name = format!("29 colliding names and one of them again, an escape at {at}");
            self.refused(9, &name, header(&with_again(&hundred[..29], at)));
        }
        let mut spelled: Vec<String> = hundred[..24].iter().map(|name| escaped(name, 70)).collect();
        self.accepted(0, 1, 5, "24 colliding names spelled with escapes", header(&spelled));
        spelled.push(hundred[23].clone());
        self.refused(9, "the last of them again, without", header(&spelled));

        for length in [40, 1000, 100_000] {
            let long = names(32, length);
            let shared = |names: &[String]| flat(&format!(r#""unprotected":{{{}}}"#, members(names)));
            self.accepted(1, 1, 5, &format!("32 colliding names of {length} octets in the shared header"), shared(&long));
            let again = with_again(&long[..31], length - 1);
            self.refused(9, &format!("31 of {length} octets and one again"), shared(&again));
            self.accepted(1, 1, 5, &format!("30 of {length} octets on the top level"), flat(&members(&long[..30])));
            self.refused(9, &format!("29 and one again, {length} octets"), flat(&members(&with_again(&long[..29], length / 2))));
            let element = |names: &[String]| general(&format!("{{{}}}", members(names)));
            self.accepted(2, 1, 5, &format!("32 of {length} octets in an element"), element(&long));
            self.refused(9, &format!("31 and one again in an element, {length} octets"), element(&again));
        }
    }

    fn colliding_across_headers(&mut self) {
        let [one, other, third, fourth] = &names(4, 200)[..] else { panic!("four names") };
        let message = |shared: &str, own: &str| {
            let header = protected(&format!(r#"{{{DIR},"{one}":0}}"#));
            json(&format!(r#"{header},"unprotected":{{"{shared}":0}},"header":{{"{own}":0,"{fourth}":0}}"#))
        };
        self.accepted(1, 1, 5, "colliding names in three headers", message(other, third));
        self.refused(12, "colliding, one again in the shared header", message(&escaped(one, 199), third));
        self.refused(12, "colliding, one again in the own header", message(other, &escaped(one, 0)));
        self.refused(12, "colliding, shared and own", message(other, &escaped(other, 100)));

        // Each recipient has the same 32 names, and the shared header 32 others with the same fingerprint.
        let many = names(64, 5000);
        let own = |names: &[String]| format!(r#"{{"header":{{{}}}}}"#, members(names));
        let eight = |last: &[String]| {
            let elements = vec![own(&many[..32]); 7].join(",");
            let shared = format!(r#""unprotected":{{{}}}"#, members(&many[32..]));
            flat(&format!(r#"{shared},"recipients":[{elements},{}]"#, own(last)))
        };
        self.accepted(2, 8, 5, "8 recipients of 32 colliding names", eight(&many[..32]));
        let twice = [&many[..31], &[escaped(&many[30], 4999)]].concat();
        self.refused(9, "the last recipient has one again", eight(&twice));
        let in_two = [&many[..31], &[escaped(&many[63], 2500)]].concat();
        self.refused(12, "the last recipient has one of the shared header", eight(&in_two));
    }

    /// Names with the fingerprint of a known one are not that one.
    fn colliding_with_known_names(&mut self) {
        let [one, other] = &names(2, 64)[..] else { panic!("two names") };
        let critical = |names: &str, has: &str| compact(&format!(r#"{{{DIR},"crit":[{names}],"{has}":0}}"#));
        let knowing = |names: &[&str], message: String| Call { known: known(names), ..Call::new(message) };
        let named = format!("\"{one}\"");
        self.call(Accepted(0, 1, 5), "crit, the name itself", knowing(&[other, one], critical(&named, one)));
        self.call(Refused(17), "crit, a colliding name in the header", knowing(&[one, other], critical(&named, other)));
        self.call(Refused(17), "crit, a colliding name known", knowing(&[other], critical(&named, one)));
        let both = critical(&format!(r#""{one}","{other}""#), &format!(r#"{one}":1,"{other}"#));
        self.call(Accepted(0, 1, 5), "crit, two colliding names", knowing(&[one, other], both));
        let again = critical(&format!(r#""{one}","{}""#, escaped(one, 63)), one);
        self.call(Refused(17), "crit, one of them twice", knowing(&[one, other], again));

        for name in ["alg", "enc", "crit", "zip", "kid", "x5t#S256"] {
            let beside = compact(&format!(r#"{{{DIR},"{}":0}}"#, twin(name)));
            self.accepted(0, 1, 5, &format!("a name with the fingerprint of {name}"), beside);
        }
        let instead = format!("{{{DIR}}}").replace("\"alg\"", &format!("\"{}\"", twin("alg")));
        self.refused(13, "a name with the fingerprint of alg for it", compact(&instead));
        for name in ["recipients", "header", "ciphertext", "protected", "encrypted_key"] {
            self.accepted(1, 1, 5, &format!("a member with the fingerprint of {name}"), flat(&format!(r#""{}":0"#, twin(name))));
        }
        self.refused(10, "a member with the fingerprint of ciphertext for it", flat("\"x\":0").replace("ciphertext", &twin("ciphertext")));
    }
}
