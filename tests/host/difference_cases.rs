//! Pairs of messages written by hand, each with the refusals and lines that request 4 of document 02 gives it.

use super::cases::{compact, encoded, json, known, protected, DIR, H, M, T10};
use super::colliding;
use super::second_differences::Line;

pub struct Case {
    pub name: String,
    pub left: Vec<u8>,
    pub right: Vec<u8>,
    pub known: Vec<u8>,
    pub refusals: [u32; 2],
    pub lines: Vec<Line>,
}

const FORM: u32 = 0;
const COUNT: u32 = 1;
const HEADER: u32 = 2;
const IV: u32 = 3;
const AAD: u32 = 4;
const CIPHERTEXT: u32 = 5;
const TAG: u32 = 6;

/// Origin, and the start and length of the value of a member, which the text has as it is given.
type Place = [u32; 3];

fn at(origin: u32, text: &str, member: &str) -> Place {
    let found: Vec<usize> = text.match_indices(member).map(|(at, _)| at).collect();
    assert_eq!(found.len(), 1, "{member} stands once in the text");
    let colon = member.find("\":").expect("a name and a value") + 2;
    [origin, (found[0] + colon) as u32, (member.len() - colon) as u32]
}

fn line(kind: u32, recipient: u32, left: Place, right: Place) -> Line {
    [kind, recipient, left[0], left[1], left[2], right[0], right[1], right[2]]
}

fn whole(kind: u32) -> Line {
    line(kind, 0, [0; 3], [0; 3])
}

fn key(recipient: u32) -> Line {
    line(7, recipient, [0; 3], [0; 3])
}

fn only_left(recipient: u32, left: Place) -> Line {
    line(8, recipient, left, [0; 3])
}

fn only_right(recipient: u32, right: Place) -> Line {
    line(9, recipient, [0; 3], right)
}

fn moved(recipient: u32, left: Place, right: Place) -> Line {
    line(10, recipient, left, right)
}

fn other(recipient: u32, left: Place, right: Place) -> Line {
    line(11, recipient, left, right)
}

#[derive(Default)]
struct Cases(Vec<Case>);

impl Cases {
    fn accepted(&mut self, name: &str, left: &str, right: &str, lines: &[Line]) {
        self.push(name, left, right, &[0], [0, 0], lines);
    }

    fn refused(&mut self, name: &str, left: &str, right: &str, known: &[u8], refusals: [u32; 2]) {
        self.push(name, left, right, known, refusals, &[]);
    }

    fn push(&mut self, name: &str, left: &str, right: &str, known: &[u8], refusals: [u32; 2], lines: &[Line]) {
        let (left, right) = (left.as_bytes().to_vec(), right.as_bytes().to_vec());
        self.0.push(Case { name: name.into(), left, right, known: known.to_vec(), refusals, lines: lines.to_vec() });
    }

    /// Two values: as a shared parameter, where nothing else differs, and as a protected one; both ways round.
    fn values(&mut self, one: &str, two: &str, same: bool) {
        for [one, two] in [[one, two], [two, one]] {
            let name = format!("{one} and {two}");
            let members = [one, two].map(|value| format!(r#""x":{value}"#));
            let texts = members.each_ref().map(|member| json(&format!(r#""protected":"{H}","unprotected":{{{member}}}"#)));
            let places = [0, 1].map(|i| at(1, &texts[i], &members[i]));
            let lines = if same { vec![] } else { vec![other(0, places[0], places[1])] };
            self.accepted(&format!("{name}, shared"), &texts[0], &texts[1], &lines);

            let headers = members.each_ref().map(|member| format!("{{{DIR},{member}}}"));
            let places = [0, 1].map(|i| at(0, &headers[i], &members[i]));
            let mut lines = if headers[0] == headers[1] { vec![] } else { vec![whole(HEADER)] };
            lines.extend(if same { None } else { Some(other(0, places[0], places[1])) });
            self.accepted(&format!("{name}, protected"), &compact(&headers[0]), &compact(&headers[1]), &lines);

            // One level down, and as an element.
            for around in [[r#"{"b":"#, r#","a":[]}"#], ["[", "]"], ["[[0,", "],0]"]] {
                let members = [one, two].map(|value| format!(r#""x":{}{value}{}"#, around[0], around[1]));
                let texts = members.each_ref().map(|member| json(&format!(r#""protected":"{H}","header":{{{member}}}"#)));
                let places = [0, 1].map(|i| at(2, &texts[i], &members[i]));
                let lines = if same { vec![] } else { vec![other(0, places[0], places[1])] };
                self.accepted(&format!("{name}, in {}", around.concat()), &texts[0], &texts[1], &lines);
            }
        }
    }

    fn same_values(&mut self) {
        for [one, two] in [
            [r#""a""#, r#""a""#],
            [r#""a""#, r#""\u0061""#],
            [r#""\/""#, r#""/""#],
            [r#""\n\"\\""#, r#""\u000a\u0022\u005C""#],
            [r#""\ud834\udd1e""#, "\"\u{1d11e}\""],
            [r#""\uD834\uDD1E""#, r#""\ud834\udd1e""#],
            ["1e5", "1e5"],
            ["true", "true"],
            ["null", "null"],
            ["[]", "[ ]"],
            ["[1,2]", "[ 1\t,\n2 ]"],
            ["{}", "{ }"],
            [r#"{"a":1,"b":2}"#, r#"{"b":2,"a":1}"#],
            [r#"{"a":1,"b":2,"c":3}"#, r#"{ "c":3, "a":1, "b":2 }"#],
            [r#"{"a":1}"#, r#"{"\u0061":1}"#],
            [r#"{"a":1,"b":2}"#, r#"{"\u0062":2,"\u0061":1}"#],
            [r#"{"a":{"b":[{"c":1,"d":2}],"e":"f"}}"#, r#"{"a":{"e":"\u0066","b":[{"d":2,"c":1}]}}"#],
            [r#"[{"a":1,"b":2},{"b":1,"a":2}]"#, r#"[{"b":2,"a":1},{"a":2,"b":1}]"#],
            [r#"{"":0,"a":1}"#, r#"{"a":1,"":0}"#],
            // A repeated name, the same octets; around it order and space do not count.
            [r#"{"a":1,"a":2}"#, r#"{"a":1,"a":2}"#],
            [r#"[{"a":1,"\u0061":1}]"#, r#"[ {"a":1,"\u0061":1} ]"#],
            [r#"{"o":{"a":1,"a":2},"p":1}"#, r#"{ "p" : 1 , "o" : {"a":1,"a":2} }"#],
        ] {
            self.values(one, two, true);
        }
    }

    fn other_values(&mut self) {
        for [one, two] in [
            [r#""a""#, r#""b""#],
            [r#""a""#, r#""A""#],
            [r#""a""#, r#""a ""#],
            [r#""""#, r#""\u0000""#],
            [r#""ab""#, r#""a""#],
            [r#""\u0061""#, r#""\u0062""#],
            [r#""\\u0061""#, r#""a""#],
            ["\"\u{e9}\"", "\"e\u{301}\""],
            ["1", "1.0"],
            ["1", "1e0"],
            ["1e0", "1E0"],
            ["10", "1e1"],
            ["1e1", "1e+1"],
            ["0", "-0"],
            ["1", r#""1""#],
            ["true", "false"],
            ["true", r#""true""#],
            ["null", "false"],
            ["{}", "[]"],
            ["[]", "[[]]"],
            ["[1,2]", "[2,1]"],
            ["[1]", "[1,1]"],
            ["[1,2,3]", "[1,2,4]"],
            [r#"{"a":1}"#, r#"{"a":2}"#],
            [r#"{"a":1}"#, r#"{"b":1}"#],
            [r#"{"a":1}"#, r#"{"A":1}"#],
            [r#"{"a":1}"#, r#"{"a":1,"b":1}"#],
            [r#"{"a":1,"b":2}"#, r#"{"a":2,"b":1}"#],
            [r#"{"a":{"b":1,"c":2}}"#, r#"{"a":{"c":1,"b":2}}"#],
            [r#"{"a":1}"#, "{}"],
            // A repeated name, in other octets.
            [r#"{"a":1,"a":1}"#, r#"{"a":1}"#],
            [r#"{"a":1,"a":2}"#, r#"{"a":2,"a":1}"#],
            [r#"{"a":1,"a":1}"#, r#"{"a":1, "a":1}"#],
            [r#"{"a":1,"a":1}"#, r#"{"a":1,"\u0061":1}"#],
            [r#"{"a":1,"\u0061":1}"#, r#"{"\u0061":1,"a":1}"#],
            [r#"{"a":1,"a":1}"#, r#"{"a":1,"b":1}"#],
            [r#"{"a":1,"b":2,"a":1}"#, r#"{"a":1,"a":1,"b":2}"#],
            [r#"{"o":{"a":1,"a":2}}"#, r#"{"o":{"a":1,"a":2 }}"#],
            [r#"{"a":1,"a":1,"o":{}}"#, r#"{"a":1,"a":1,"o":{ }}"#],
        ] {
            self.values(one, two, false);
        }
    }

    fn components(&mut self) {
        let text = |rest: &str| format!("{H}.{rest}");
        self.accepted("M and itself", M, M, &[]);
        self.accepted("another iv", M, &text(".AQ.AQID.Ag"), &[whole(IV)]);
        self.accepted("another ciphertext", M, &text(".AA.AQIE.Ag"), &[whole(CIPHERTEXT)]);
        self.accepted("a shorter ciphertext", M, &text(".AA.AQI.Ag"), &[whole(CIPHERTEXT)]);
        self.accepted("another tag", M, &text(".AA.AQID.Aw"), &[whole(TAG)]);
        self.accepted("no tag", M, &text(".AA.AQID."), &[whole(TAG)]);
        self.accepted("all three", M, &text("..."), &[whole(IV), whole(CIPHERTEXT), whole(TAG)]);
        let flat = |rest: &str| format!(r#"{{"protected":"{H}","ciphertext":"AQID"{rest}}}"#);
        self.accepted("an aad", &flat(""), &flat(r#","aad":"AA""#), &[whole(AAD)]);
        self.accepted("another aad", &flat(r#","aad":"AQ""#), &flat(r#","aad":"AA""#), &[whole(AAD)]);
        // What is absent is as what is empty.
        self.accepted("no iv and tag, compact and flattened", &text("..AQID."), &flat(""), &[whole(FORM)]);
        self.accepted("the same, compact and flattened", M, &flat(r#","iv":"AA","tag":"Ag""#), &[whole(FORM)]);
        let general = |elements: &str| flat(&format!(r#","recipients":[{elements}]"#));
        self.accepted("flattened and general", &flat(""), &general("{}"), &[whole(FORM)]);
        self.accepted("two recipients and one", &general("{},{}"), &general("{}"), &[whole(COUNT)]);
        self.accepted("compact and two", &text("..AQID."), &general("{},{}"), &[whole(FORM), whole(COUNT)]);
        self.accepted("other order of members", &flat(r#","iv":"AA","tag":"Ag""#), &flat(r#","tag":"Ag","iv":"AA""#), &[]);
        self.accepted("members that are ignored", &flat(""), &flat(r#","x":{"a":1,"a":2}"#), &[]);
        self.accepted("space", &flat(""), &(flat("").replace(',', " ,\n") + "\r\n"), &[]);
        let all = format!(r#"{{"protected":"{}","recipients":[{{}},{{}}],"iv":"AQ","aad":"AA","ciphertext":""}}"#, encoded(
            format!("{{{DIR} }}").as_bytes()
        ));
        let kinds = [FORM, COUNT, HEADER, IV, AAD, CIPHERTEXT, TAG].map(whole);
        self.accepted("all of the whole message", M, &all, &kinds);
    }

    fn keys(&mut self) {
        let element = |key: &str| if key.is_empty() { "{}".to_string() } else { format!(r#"{{"encrypted_key":"{key}"}}"#) };
        let keyed = |keys: &[&str]| {
            let elements: Vec<String> = keys.iter().map(|key| element(key)).collect();
            let header = protected(r#"{"alg":"A128KW","enc":"A128GCM"}"#);
            json(&format!(r#"{header},"recipients":[{}]"#, elements.join(",")))
        };
        let three = keyed(&["AA", "AQ", "Ag"]);
        self.accepted("the same keys", &three, &three, &[]);
        self.accepted("the first key", &three, &keyed(&["AAA", "AQ", "Ag"]), &[key(0)]);
        self.accepted("the second key", &three, &keyed(&["AA", "AA", "Ag"]), &[key(1)]);
        self.accepted("the last key", &three, &keyed(&["AA", "AQ", "Aw"]), &[key(2)]);
        self.accepted("keys exchanged", &three, &keyed(&["AQ", "AA", "Ag"]), &[key(0), key(1)]);
        self.accepted("a key more", &three, &keyed(&["AA", "AQ", "Ag", "BA"]), &[whole(COUNT)]);
        self.accepted("a key less", &three, &keyed(&["AQ", "AQ"]), &[whole(COUNT), key(0)]);
        let flat = json(&format!(r#"{},"encrypted_key":"AA""#, protected(r#"{"alg":"A128KW","enc":"A128GCM"}"#)));
        self.accepted("flattened and three", &flat, &three, &[whole(FORM), whole(COUNT)]);
        self.accepted("three and flattened, another key", &keyed(&["AQ", "AA"]), &flat, &[whole(FORM), whole(COUNT), key(0)]);
    }

    fn parameters(&mut self) {
        let header = |members: &str| format!("{{{DIR}{members}}}");
        let pair = |one: &str, two: &str| [one, two].map(|members| header(members));
        let place = |text: &str, member: &str| at(0, text, member);

        let [one, two] = pair("", r#","a":1"#);
        let added = place(&two, r#""a":1"#);
        self.accepted("only right", &compact(&one), &compact(&two), &[whole(HEADER), only_right(0, added)]);
        self.accepted("only left", &compact(&two), &compact(&one), &[whole(HEADER), only_left(0, added)]);
        let [one, two] = pair(r#","a":1,"b":2"#, r#","b":2,"a":1"#);
        self.accepted("another order", &compact(&one), &compact(&two), &[whole(HEADER)]);
        let [one, two] = pair(r#","a":1"#, r#", "\u0061":1"#);
        self.accepted("a name with an escape", &compact(&one), &compact(&two), &[whole(HEADER)]);
        let [one, two] = pair(r#","a":1"#, r#","A":1"#);
        let lines = [whole(HEADER), only_left(0, place(&one, r#""a":1"#)), only_right(0, place(&two, r#""A":1"#))];
        self.accepted("capitals", &compact(&one), &compact(&two), &lines);
        // Left's order first, then what only right has, in its order.
        let [one, two] = pair(r#","c":1,"b":1,"a":1"#, r#","z":1,"a":2,"y":1,"c":2"#);
        let lines = [
            whole(HEADER),
            other(0, place(&one, r#""c":1"#), place(&two, r#""c":2"#)),
            only_left(0, place(&one, r#""b":1"#)),
            other(0, place(&one, r#""a":1"#), place(&two, r#""a":2"#)),
            only_right(0, place(&two, r#""z":1"#)),
            only_right(0, place(&two, r#""y":1"#)),
        ];
        self.accepted("orders", &compact(&one), &compact(&two), &lines);
        let [one, two] = [r#"{"alg":"dir","enc":"A128GCM"}"#, r#"{"enc":"A256GCM","alg":"ECDH-ES"}"#];
        let lines = [
            whole(HEADER),
            other(0, place(one, r#""alg":"dir""#), place(two, r#""alg":"ECDH-ES""#)),
            other(0, place(one, r#""enc":"A128GCM""#), place(two, r#""enc":"A256GCM""#)),
        ];
        self.accepted("alg and enc", &compact(one), &compact(two), &lines);
    }

    fn origins(&mut self) {
        let text = |protected_members: &str, shared: &str, own: &str| {
            let part = |name: &str, members: &str| {
                if members.is_empty() { String::new() } else { format!(r#","{name}":{{{members}}}"#) }
            };
            let header = format!("{{{DIR}{protected_members}}}");
            (json(&format!("{}{}{}", protected(&header), part("unprotected", shared), part("header", own))), header)
        };
        let a = r#""a":1"#;
        let (shared, _) = text("", a, "");
        let (own, _) = text("", "", a);
        let (inside, header) = text(&format!(",{a}"), "", "");
        let places = [at(0, &header, a), at(1, &shared, a), at(2, &own, a)];
        self.accepted("shared to own", &shared, &own, &[moved(0, places[1], places[2])]);
        self.accepted("own to shared", &own, &shared, &[moved(0, places[2], places[1])]);
        self.accepted("protected to shared", &inside, &shared, &[whole(HEADER), moved(0, places[0], places[1])]);
        self.accepted("own to protected", &own, &inside, &[whole(HEADER), moved(0, places[2], places[0])]);
        // Moved with another value, moved with another spelling.
        let (other_own, _) = text("", "", r#""\u0061":2"#);
        let there = at(2, &other_own, r#""\u0061":2"#);
        let lines = [moved(0, places[1], there), other(0, places[1], there)];
        self.accepted("moved, and another value", &shared, &other_own, &lines);
        let (spelled, _) = text("", r#""a":{"b":1,"c":"d"}"#, "");
        let (again, _) = text("", "", r#""a" : { "c" : "\u0064" , "b" : 1 }"#);
        let place = at(1, &spelled, r#""a":{"b":1,"c":"d"}"#);
        let start = again.find(r#"{ "c""#).expect("the value") as u32;
        let lines = [moved(0, place, [2, start, r#"{ "c" : "\u0064" , "b" : 1 }"#.len() as u32])];
        self.accepted("moved, the same value", &spelled, &again, &lines);
        let compacted = compact(&format!("{{{DIR}}}"));
        let flat = json(&format!(r#""unprotected":{{{DIR}}},"iv":"AA","tag":"Ag""#));
        let header = format!("{{{DIR}}}");
        let lines = [
            whole(FORM),
            whole(HEADER),
            moved(0, at(0, &header, r#""alg":"dir""#), at(1, &flat, r#""alg":"dir""#)),
            moved(0, at(0, &header, r#""enc":"A128GCM""#), at(1, &flat, r#""enc":"A128GCM""#)),
        ];
        self.accepted("no protected header", &compacted, &flat, &lines);
    }

    fn recipients(&mut self) {
        let text = |shared: &str, owns: &[&str]| {
            let elements: Vec<String> = owns.iter().map(|own| format!(r#"{{"header":{{{own}}}}}"#)).collect();
            json(&format!(r#""protected":"{H}","unprotected":{{{shared}}},"recipients":[{}]"#, elements.join(",")))
        };
        // One that is common to all gives its line for each recipient number that both have.
        let one = text(r#""s":1"#, &[r#""a":0"#, r#""b":0"#, r#""c":0"#]);
        let two = text(r#""s":2"#, &[r#""a":0"#, r#""b":0"#, r#""c":0"#]);
        let lines = [0, 1, 2].map(|number| other(number, at(1, &one, r#""s":1"#), at(1, &two, r#""s":2"#)));
        self.accepted("a common parameter, three recipients", &one, &two, &lines);
        let short = text(r#""s":2"#, &[r#""a":0"#, r#""b":0"#]);
        let lines = [
            whole(COUNT),
            other(0, at(1, &one, r#""s":1"#), at(1, &short, r#""s":2"#)),
            other(1, at(1, &one, r#""s":1"#), at(1, &short, r#""s":2"#)),
        ];
        self.accepted("a common parameter, three recipients and two", &one, &short, &lines);
        // Own ones by number.
        let two = text(r#""s":1"#, &[r#""a":0"#, r#""b":1"#, r#""c":0"#]);
        let lines = [other(1, at(2, &one, r#""b":0"#), at(2, &two, r#""b":1"#))];
        self.accepted("an own parameter of the second", &one, &two, &lines);
        let two = text(r#""s":1"#, &[r#""b":0"#, r#""a":0"#, r#""c":0"#]);
        let (a, b) = (r#""a":0"#, r#""b":0"#);
        let lines = [
            only_left(0, at(2, &one, a)),
            only_right(0, at(2, &two, b)),
            only_left(1, at(2, &one, b)),
            only_right(1, at(2, &two, a)),
        ];
        self.accepted("two recipients exchanged", &one, &two, &lines);
        let two = text(r#""s":1"#, &[r#""a":0"#]);
        self.accepted("three and one", &one, &two, &[whole(COUNT)]);
        // Keys of all numbers come before the parameters of the first.
        let keyed = |kid: &str, keys: [&str; 2]| {
            let element = |i: usize| format!(r#"{{"header":{{"kid":"{kid}{i}"}},"encrypted_key":"{}"}}"#, keys[i]);
            let header = protected(r#"{"alg":"A256KW","enc":"A256GCM"}"#);
            json(&format!(r#"{header},"recipients":[{},{}]"#, element(0), element(1)))
        };
        let (one, two) = (keyed("k", ["AA", "AQ"]), keyed("l", ["Ag", "Aw"]));
        let kid = |text: &str, kid: &str| at(2, text, &format!(r#""kid":"{kid}""#));
        let lines = [
            key(0),
            key(1),
            other(0, kid(&one, "k0"), kid(&two, "l0")),
            other(1, kid(&one, "k1"), kid(&two, "l1")),
        ];
        self.accepted("keys before parameters", &one, &two, &lines);
        // A parameter that is own for one recipient and shared for the other message.
        let one = text(r#""s":1"#, &[r#""t":1"#, r#""u":1"#]);
        let two = text(r#""t":1"#, &[r#""s":1"#, r#""u":1"#]);
        let (s, t) = (r#""s":1"#, r#""t":1"#);
        let lines = [
            moved(0, at(1, &one, s), at(2, &two, s)),
            moved(0, at(2, &one, t), at(1, &two, t)),
            only_left(1, at(1, &one, s)),
            only_right(1, at(1, &two, t)),
        ];
        self.accepted("shared and own exchanged", &one, &two, &lines);
    }

    fn refusals(&mut self) {
        let stop = format!("{M}.");
        let key = format!("{H}.AA.AA.AQID.Ag");
        self.refused("right refused", M, &stop, &[0], [0, 4]);
        self.refused("left refused", &stop, M, &[0], [4, 0]);
        self.refused("both refused", &stop, &key, &[0], [4, 18]);
        self.refused("the same, refused", &key, &key, &[0], [18, 18]);
        self.refused("nothing and M", "", M, &[0], [4, 0]);
        self.refused("T11 and T10", &T10.replace("\"aad\"", "\"iv\":\"\",\"aad\""), T10, &[0], [10, 0]);
        self.refused("known names malformed", M, M, &[], [3, 3]);
        self.refused("known names malformed, both refused", &stop, M, &[1, 1], [3, 3]);
        let critical = compact(&format!(r#"{{{DIR},"crit":["x"],"x":1}}"#));
        self.refused("an extension that is not known", &critical, M, &[0], [17, 0]);
        let header = format!(r#"{{{DIR},"crit":["x"],"x":1}}"#);
        let lines = [
            whole(HEADER),
            only_left(0, at(0, &header, r#""crit":["x"]"#)),
            only_left(0, at(0, &header, r#""x":1"#)),
        ];
        self.push("an extension that is known", &critical, M, &known(&["x"]), [0, 0], &lines);
        let contents = |one: &str, two: &str| {
            let element = |enc: &str| format!(r#"{{"header":{{"alg":"dir","enc":"{enc}"}}}}"#);
            json(&format!(r#""recipients":[{},{}]"#, element(one), element(two)))
        };
        let (good, bad) = (contents("A128GCM", "A128GCM"), contents("A128GCM", "A256GCM"));
        self.refused("a fault of the second recipient", &good, &bad, &[0], [0, 21]);
    }
}

pub fn all() -> Vec<Case> {
    let mut cases = Cases::default();
    cases.components();
    cases.keys();
    cases.parameters();
    cases.origins();
    cases.recipients();
    cases.same_values();
    cases.other_values();
    cases.refusals();
    cases.0
}

/// Members of an object, each a name and a number.
fn numbered(names: &[String], order: impl Iterator<Item = usize>, odd: usize) -> String {
    let members: Vec<String> =
        order.map(|i| format!(r#""{}":{}"#, names[i], if i == odd { usize::MAX } else { i })).collect();
    format!("{{{}}}", members.join(","))
}

/// Eight recipients of 96 parameters each. On either side three headers have the same three sets of 32 names, but each in another
/// place, and everything has another value: 10 and 11 for each name. With 2 to 6, as form and count are the same, and 7 for
/// each recipient these are 1,549 lines: no two messages have more.
fn everything() -> Case {
    const SETS: [&str; 3] = ["a", "b", "c"];
    let set = |which: usize, value: usize| {
        let mut members: Vec<(String, String)> =
            (0..32).map(|i| (format!("{}{i}", SETS[which]), format!("{}", value * 100 + i))).collect();
        if which == 0 {
            members[3] = ("alg".into(), format!("\"{}\"", ["A128KW", "A192KW"][value - 1]));
            members[17] = ("enc".into(), format!("\"{}\"", ["A128GCM", "A192GCM"][value - 1]));
        }
        let texts: Vec<String> = members.iter().map(|(name, value)| format!(r#""{name}":{value}"#)).collect();
        (members.into_iter().map(|(name, _)| name).collect::<Vec<_>>(), format!("{{{}}}", texts.join(",")))
    };
    // Left has the sets a, b, c as protected, shared, own; right has c, a, b.
    let orders = [[0, 1, 2], [2, 0, 1]];
    let sides = [0, 1].map(|side| {
        let headers = orders[side].map(|which| set(which, side + 1));
        let element = |i: usize| {
            let key = encoded(&[side as u8, i as u8]);
            format!(r#"{{"header":{},"encrypted_key":"{key}"}}"#, headers[2].1)
        };
        let elements: Vec<String> = (0..8).map(element).collect();
        let part = |n: u8| encoded(&[n + side as u8]);
        let text = format!(
            r#"{{{},"unprotected":{},"recipients":[{}],"iv":"{}","aad":"{}","ciphertext":"{}","tag":"{}"}}"#,
            protected(&headers[0].1), headers[1].1, elements.join(","), part(1), part(3), part(5), part(7),
        );
        (headers, text)
    });
    // Where the value of a name stands: the own headers are alike, so the one of a recipient is found by counting.
    let place = |side: usize, which: usize, name: &str, recipient: usize| -> Place {
        let (headers, text) = &sides[side];
        let origin = orders[side].iter().position(|w| *w == which).expect("each set stands somewhere");
        let inside = &headers[origin].1;
        let start = inside.find(&format!("\"{name}\":")).expect("the name") + name.len() + 3;
        let length = inside[start..].find([',', '}']).expect("an end");
        let from = match origin {
            0 => 0,
            1 => text.find(&**inside).expect("the shared header"),
            _ => text.match_indices(&format!(r#"{{"header":{inside}"#)).nth(recipient).expect("its element").0 + 10,
        };
        [origin as u32, (from + start) as u32, length as u32]
    };
    let mut lines: Vec<Line> = [HEADER, IV, AAD, CIPHERTEXT, TAG].map(whole).to_vec();
    lines.extend((0..8).map(key));
    for recipient in 0..8 {
        for (which, (names, _)) in sides[0].0.iter().enumerate() {
            for name in names {
                let places = [0, 1].map(|side| place(side, which, name, recipient));
                lines.push(moved(recipient as u32, places[0], places[1]));
                lines.push(other(recipient as u32, places[0], places[1]));
            }
        }
    }
    assert_eq!(lines.len(), 1549);
    let [left, right] = sides.map(|(_, text)| text.into_bytes());
    Case { name: "everything differs".into(), left, right, known: vec![0], refusals: [0, 0], lines }
}

pub fn large() -> Vec<Case> {
    let mut cases = Cases::default();
    cases.0.push(everything());
    let own = |value: &str| json(&format!(r#""protected":"{H}","header":{{"x":{value}}}"#));
    // Two values of one own parameter.
    let mut values = |name: &str, one: &str, two: &str, same: bool| {
        let texts = [one, two].map(own);
        let start = texts[0].find("\"x\":").expect("the parameter") as u32 + 4;
        let lines = if same { vec![] } else { vec![other(0, [2, start, one.len() as u32], [2, start, two.len() as u32])] };
        cases.accepted(name, &texts[0], &texts[1], &lines);
    };
    let names: Vec<String> = (0..100_000).map(|i| format!("name {i}")).collect();
    let n = names.len();
    let plain = numbered(&names, 0..n, n);
    // 7919 is prime to 100,000, so that each member comes once.
    let stepped = |i: usize| i * 7919 % n;
    values("100,000 members, reversed", &plain, &numbered(&names, (0..n).rev(), n), true);
    values("100,000 members, in another order", &plain, &numbered(&names, (0..n).map(stepped), n), true);
    values("100,000 members, rotated", &plain, &numbered(&names, (1..n).chain([0]), n), true);
    values("100,000 members, the last differs", &plain, &numbered(&names, (0..n).rev(), n - 1), false);
    values("100,000 members, the first differs", &plain, &numbered(&names, (0..n).map(stepped), 0), false);
    values("100,000 members and one less", &plain, &numbered(&names, 1..n, n), false);
    let mut twice = names.clone();
    twice[n - 1] = "n\\u0061me 0".into();
    let repeated = numbered(&twice, 0..n, n);
    values("100,000 members, the last name repeats the first", &repeated, &repeated, true);
    values("100,000 members, a repeated name and another order", &repeated, &numbered(&twice, (0..n).rev(), n), false);
    values("100,000 members, a repeated name and none", &repeated, &plain, false);

    let long: Vec<String> = (0..16).map(|i| format!("{}{i:02}", "n".repeat(500_000))).collect();
    values("long names", &numbered(&long, 0..16, 16), &numbered(&long, (0..16).rev(), 16), true);
    values("long names, one value", &numbered(&long, 0..16, 16), &numbered(&long, (0..16).rev(), 3), false);
    for count in [64, 65, 300] {
        let colliding = colliding::names(count, 300);
        let (one, two) = (numbered(&colliding, 0..count, count), numbered(&colliding, (0..count).rev(), count));
        values(&format!("{count} names with one fingerprint"), &one, &two, true);
        values(&format!("{count} names with one fingerprint, one value"), &two, &numbered(&colliding, 0..count, 1), false);
    }
    let objects = |member: &dyn Fn(usize) -> String| format!("[{}]", (0..100_000).map(member).collect::<Vec<_>>().join(","));
    let (one, two) = (objects(&|i| format!(r#"{{"a":{i},"b":[]}}"#)), objects(&|i| format!(r#"{{"b":[],"a":{i}}}"#)));
    values("100,000 objects in another order", &one, &two, true);
    values("100,000 objects, one value", &one, &two.replace(":99999}", ":99998}"), false);
    // Level by level, each in another order.
    let nested = |around: &dyn Fn(usize, String) -> String| (0..9).fold("1".to_string(), |inner, i| around(i, inner));
    let one = nested(&|i, inner| format!(r#"{{"a{i}":{inner},"b":[]}}"#));
    values("nine levels", &one, &nested(&|i, inner| format!(r#"{{"b":[],"a{i}":{inner}}}"#)), true);
    values("nine levels, the innermost differs", &one, &one.replace(":1,", ":2,"), false);
    let letters = "a".repeat(2_000_000);
    values("2,000,000 escapes", &format!("\"{letters}\""), &format!("\"{}\"", letters.replace('a', "\\u0061")), true);
    values("2,000,000 letters, the last differs", &format!("\"{letters}\""), &format!("\"{}b\"", &letters[1..]), false);

    // As long as a message may be, and an octet longer.
    let most = (16 << 20) - own("\"\"").len();
    let long = |last: char| own(&format!("\"{}{last}\"", "a".repeat(most - 1)));
    let (one, two) = (long('a'), long('b'));
    let start = one.find("\"x\":").expect("the parameter") as u32 + 4;
    let place = [2, start, most as u32 + 2];
    cases.accepted("16 MiB, the last letter of a value", &one, &two, &[other(0, place, place)]);
    cases.accepted("16 MiB and itself", &one, &one, &[]);
    let ciphertext = |last: &str| format!("{H}...{}{last}.Ag", "AAAA".repeat((16 << 18) - 20));
    cases.accepted("16 MiB, the last octet of the ciphertext", &ciphertext("AAA"), &ciphertext("AAE"), &[whole(CIPHERTEXT)]);
    cases.refused("16 MiB and one octet", &format!("{one} "), &one, &[0], [2, 0]);
    // 32 shared names of 500,000 octets, in another order.
    let members = |order: &mut dyn Iterator<Item = usize>| {
        order.map(|i| format!(r#""{}{i:02}":0"#, "n".repeat(500_000))).collect::<Vec<_>>().join(",")
    };
    let shared = |members: &str| json(&format!(r#""protected":"{H}","unprotected":{{{members}}}"#));
    cases.accepted("32 long names", &shared(&members(&mut (0..32))), &shared(&members(&mut (0..32).rev())), &[]);
    cases.0
}
