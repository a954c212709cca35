//! The JSON writers beside the second one: a fuzzed message as a header's text or as the table of recipients, what was read of a
//! JSON message written again, and that with a recipient more, whose content algorithm may be another.

use crate::json_writer;
use crate::jwe::pieces::{table, Pieces};
use crate::jwe::second::{self, Answer};
use crate::jwe::{parameter_rows, Call};
use crate::library;
use crate::reference::Reference;

const HEADER: &[u8] = br#"{"alg":"dir","enc":"A128GCM"}"#;

/// Ours answers and writes what the second writer does, with room and, where it writes, with an octet too few.
fn agree(pieces: &Pieces, reference: &Reference) -> Option<Vec<u8>> {
    let room = pieces.inputs().iter().map(|input| 2 * input.len()).sum::<usize>() + 1000;
    let expected = json_writer::write(reference, pieces, room);
    let mut out = vec![0x5a; room];
    let mut octets = usize::MAX;
    let refusal = library::write_json(pieces.general, pieces.inputs(), &mut out, &mut octets);
    let text = expected.as_deref().unwrap_or(&[]);
    let unchanged = out[text.len()..].iter().all(|&c| c == 0x5a);
    if (refusal, octets) != (expected.as_ref().err().copied().unwrap_or(0), text.len()) || !unchanged {
        return None;
    }
    let same = out[..octets] == *text;
    let refused = text.is_empty() || {
        let mut short = vec![0x5a; text.len() - 1];
        library::write_json(pieces.general, pieces.inputs(), &mut short, &mut octets) == 1 && octets == 0
    };
    (same && refused).then(|| expected.unwrap_or_default())
}

/// The message in one place or another, by its length and the recipient that is asked for.
fn as_text(call: &Call) -> Pieces {
    let Call { message, known, recipient, .. } = call;
    let sound = Pieces {
        general: message.len() / 6 % 2 == 0,
        protected: HEADER.to_vec(),
        ciphertext: vec![1, 2, 3],
        known: known.clone(),
        recipients: table(&[["", ""]]),
        ..Pieces::default()
    };
    let message = message.clone();
    match (message.len() + *recipient as usize) % 6 {
        0 => Pieces { protected: message, shared: HEADER.to_vec(), ..sound },
        1 | 2 => Pieces { shared: message, ..sound },
        3 => Pieces { recipients: table(&[[&message[..], b""]]), ..sound },
        4 => Pieces { recipients: table(&[[&b""[..], b""], [&message, b"k"], [b"", b""]]), ..sound },
        _ => Pieces { recipients: message, ..sound },
    }
}

/// What was read, as the writer takes it: a header's text has its members, without the space around them.
fn taken_apart(call: &Call, first: &Answer, reference: &Reference) -> Pieces {
    let read = |recipient| second::read(&call.message, &call.known, recipient, 4096, 576);
    let component = |answer: &Answer, n: usize| {
        let [start, length] = answer.places[n].map(|n| n as usize);
        reference.decode(&call.message[start..][..length]).expect("base64url")
    };
    let header = |answer: &Answer, origin: u32| {
        let rows = parameter_rows(&call.message, &answer.header, &answer.list);
        let own = rows.iter().filter(|row| row.0 == origin);
        let members: Vec<Vec<u8>> = own.map(|(_, name, value, _)| [b"\"", *name, b"\":", value].concat()).collect();
        if members.is_empty() { Vec::new() } else { [b"{", &members.join(&b',')[..], b"}"].concat() }
    };
    let recipients: Vec<[Vec<u8>; 2]> =
        (0..first.recipients).map(read).map(|answer| [header(&answer, 2), component(&answer, 1)]).collect();
    let [iv, aad, ciphertext, tag] = [2, 3, 4, 5].map(|n| component(first, n));
    Pieces {
        general: first.form == 2,
        protected: first.header.clone(),
        shared: header(first, 1),
        aad,
        iv,
        ciphertext,
        tag,
        known: call.known.clone(),
        recipients: table(&recipients),
    }
}

/// The same in general form, with one recipient more before or behind the others, by the message's length. Where no header that
/// all share has an `enc`, 21 tells whether theirs is another one.
fn with_one_more(call: &Call, pieces: Pieces) -> Pieces {
    const OWNS: [&[u8]; 3] = [HEADER, br#"{"alg":"dir","enc":"A256GCM"}"#, br#"{"enc":"A128GC\u004d","alg":"dir"}"#];
    let mut recipients = json_writer::recipients(&pieces.recipients).expect("a sound table");
    let at = if call.message.len() % 2 == 0 { 0 } else { recipients.len() };
    recipients.insert(at, [OWNS[call.message.len() / 2 % OWNS.len()], b""]);
    Pieces { general: true, recipients: table(&recipients), ..pieces }
}

pub fn json_writers_agree(call: &Call, answer: &Answer, reference: &Reference) -> bool {
    if agree(&as_text(call), reference).is_none() {
        return false;
    }
    if answer.refusal != 0 || answer.form == 0 {
        return true;
    }
    // What is accepted is written again, and then reads the same for this recipient, places aside.
    let pieces = taken_apart(call, answer, reference);
    let Some(message) = agree(&pieces, reference) else { return false };
    if agree(&with_one_more(call, pieces.clone()), reference).is_none() {
        return false;
    }
    let again = second::read(&message, &call.known, call.recipient, 4096, 576);
    let said = |answer: &Answer, message| {
        let rows = parameter_rows(message, &answer.header, &answer.list);
        let rows: Vec<_> = rows.iter().map(|(origin, name, value, kind)| (*origin, name.to_vec(), value.to_vec(), *kind)).collect();
        (answer.refusal, answer.form, answer.recipients, answer.mode, rows)
    };
    said(&again, &message[..]) == said(answer, &call.message)
}
