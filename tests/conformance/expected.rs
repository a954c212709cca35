//! Makes what the program `conformance` reads and what it has to print: `expected FOLDER` writes `stdin` and `stdout`
//! there. A case is a message written by hand with the number that document 01, with request 2 of document 02, gives
//! it, 0 where it is accepted. What the program reads is made from the cases; what it has to print is made from that,
//! field by field, by the second reader of the host tests. Where the second reader's number is not the one set down,
//! the case is named and nothing is written.

mod contents;
mod escapes;
mod headers;
mod list;
mod orders;
mod published;
#[path = "../host/reference.rs"]
#[allow(dead_code)]
mod reference;
mod samples;
#[path = "../host/second.rs"]
mod second;
mod shapes;
mod sizes;
mod spelling;
mod template;

use list::{Case, Cases};
use second::Answer;
use std::collections::HashSet;
use std::path::Path;
use std::process::exit;
use template::{expanded, written};

const FORMS: [&str; 3] = ["compact", "flattened", "general"];
const LONGEST_INPUT: usize = 400_000;
const LONGEST_MESSAGE: usize = 400_000;
const LONGEST_KNOWN: usize = 2_000;
const LONGEST_NAME: usize = 200;

/// A case as a line of the program's input, without its LF.
fn input(case: &Case) -> Vec<u8> {
    let [known, message] = [&case.known, &case.message].map(|octets| written(octets));
    let (recipient, room) = (case.recipient.to_string(), case.room.to_string());
    [case.name().as_bytes(), recipient.as_bytes(), room.as_bytes(), &known, &message].join(&b'\t')
}

/// What a line of the input asks, given to the second reader; None where the line is not as the program wants it.
fn answer(line: &[u8]) -> Option<Answer> {
    let fields: Vec<&[u8]> = line.split(|&c| c == b'\t').collect();
    let [name, recipient, room, known, message] = fields[..] else { return None };
    let recipient = match recipient {
        b"m" => u32::MAX,
        [digit @ b'0'..=b'9'] => (digit - b'0') as u32,
        _ => return None,
    };
    let (header_room, list_room) = match room {
        b"-" => (4096, 576),
        b"h" => (4095, 576),
        b"l" => (4096, 575),
        _ => return None,
    };
    let (known, message) = (expanded(known)?, expanded(message)?);
    let printable = name.iter().all(|c| (b' '..=b'~').contains(c));
    let fits = name.len() <= LONGEST_NAME && known.len() <= LONGEST_KNOWN && message.len() <= LONGEST_MESSAGE;
    (printable && fits).then(|| second::read(&message, &known, recipient, header_room, list_room))
}

/// The numbers that are handed out: 18 of the result, then six a parameter.
fn numbers(answer: &Answer) -> Vec<u32> {
    let mut numbers = vec![answer.refusal, answer.form, answer.recipients, answer.mode];
    numbers.extend(answer.places.concat());
    numbers.extend([answer.header.len() as u32, answer.list.len() as u32 / 6]);
    numbers.extend(&answer.list);
    numbers
}

/// What the program prints behind a case's name and `: `.
fn output(answer: &Answer) -> String {
    if answer.refusal > 0 {
        return format!("refused {}", answer.refusal);
    }
    let numbers: String = numbers(answer).iter().map(|n| format!(" {n}")).collect();
    let header = match &*answer.header {
        [] => "-".to_string(),
        octets => octets.iter().map(|octet| format!("{octet:02x}")).collect(),
    };
    format!("accepted{numbers} {header}")
}

/// What is wrong with a case, the second reader having given this answer.
fn fault(case: &Case, answer: &Answer) -> Option<String> {
    if answer.refusal != case.number {
        return Some(format!("document 01 says {}, the second reader {}", case.number, answer.refusal));
    }
    let form = FORMS[case.form];
    let curly = case.message.iter().find(|c| !b" \t\n\r".contains(c)) == Some(&b'{');
    if curly == (case.form == 0) {
        return Some(format!("the message is not {form}"));
    }
    if answer.refusal == 0 && answer.form != case.form as u32 {
        return Some(format!("read as {}, not {form}", FORMS[answer.form as usize]));
    }
    let handed = numbers(answer);
    if case.numbers.as_ref().is_some_and(|expected| *expected != handed) {
        return Some(format!("expected {:?}, the second reader hands out {handed:?}", case.numbers));
    }
    let mode = (answer.recipients, answer.mode);
    let other = case.mode.filter(|expected| *expected != mode);
    other.map(|expected| format!("recipients and mode are {expected:?}, the second reader has {mode:?}"))
}

/// The numbers that no message of a form gets. 2 needs a message of over 16 MiB, more than the program has room for; 20 is
/// the JSON writer's.
///
/// Compact: there is no JSON message whose shape could be wrong (10; a header without members is 13), one recipient
/// (11, 21), and one header, the protected one (12, 16). Flattened: a full stop is an octet of the JSON text (4), and there
/// is one recipient (11, 21). General: 4 as in flattened.
fn never(form: usize) -> &'static [u32] {
    [&[2, 10, 11, 12, 16, 20, 21][..], &[2, 4, 11, 20, 21], &[2, 4, 20]][form]
}

fn main() {
    let Some(folder) = std::env::args().nth(1) else {
        eprintln!("usage: expected FOLDER");
        exit(2)
    };
    let cases = Cases::all();
    let mut faults = Vec::new();
    let (mut stdin, mut stdout) = (Vec::new(), String::new());
    let mut met = HashSet::new();
    for case in &cases.list {
        let line = input(case);
        match answer(&line) {
            None => faults.push(format!("{}: not a line that the program takes", case.name())),
            Some(answer) => {
                faults.extend(fault(case, &answer).map(|fault| format!("{}: {fault}", case.name())));
                stdout += &format!("{}: {}\n", case.name(), output(&answer));
            }
        }
        stdin.extend(line);
        stdin.push(b'\n');
        met.insert((case.form, case.number));
    }
    let names: HashSet<String> = cases.list.iter().map(Case::name).collect();
    if names.len() < cases.list.len() {
        let mut once = HashSet::new();
        let twice = cases.list.iter().map(Case::name).filter(|name| !once.insert(name.clone()));
        faults.extend(twice.map(|name| format!("{name}: two cases of this name")));
    }
    for (form, name) in FORMS.iter().enumerate() {
        let missing = (0..22).filter(|n| met.contains(&(form, *n)) == never(form).contains(n));
        faults.extend(missing.map(|n| format!("{name}: number {n} has no case, or one that cannot be")));
    }
    if stdin.len() > LONGEST_INPUT {
        faults.push(format!("the input has {} octets, over {LONGEST_INPUT}", stdin.len()));
    }
    if !faults.is_empty() {
        eprintln!("{}", faults.join("\n"));
        exit(1);
    }
    let folder = Path::new(&folder);
    std::fs::write(folder.join("stdin"), &stdin).expect("stdin is written");
    std::fs::write(folder.join("stdout"), &stdout).expect("stdout is written");
    let groups: Vec<String> = cases.groups().iter().map(|(group, count)| format!("{group} {count}")).collect();
    let (count, groups) = (cases.list.len(), groups.join(", "));
    println!("conformance: {count} cases ({groups}), {} and {} octets", stdin.len(), stdout.len());
}
