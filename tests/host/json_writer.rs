//! A second writer of JSON messages, written from request 1 of document 02 and section 7.2 of RFC 7516. It puts the whole
//! text together, and then asks the second readers: about each header's text by itself, and about the whole.

use crate::jwe::pieces::Pieces;
use crate::jwe::second;
use crate::reader;
use crate::reference::Reference;

pub const LONGEST: usize = 16_777_216;
const HEADER: usize = 4096;
const LIST: usize = 576;
const LEVELS: u32 = 12;
/// Document 01's M, which only a malformed list of known names can spoil.
const M: &[u8] = b"eyJhbGciOiJkaXIiLCJlbmMiOiJBMTI4R0NNIn0..AA.AQID.Ag";

/// A header's text and a raw key.
pub type Recipient<'a> = [&'a [u8]; 2];

/// The recipients of a table, or None where it is malformed.
pub fn recipients(table: &[u8]) -> Option<Vec<Recipient<'_>>> {
    let (&n, rest) = table.split_first()?;
    if !(1..=8).contains(&n) || rest.len() < 8 * n as usize {
        return None;
    }
    let (contents, mut bodies) = rest.split_at(8 * n as usize);
    let mut body = |length: &[u8]| {
        let length = length.iter().fold(0, |sum, &octet| sum * 256 + octet as usize);
        let body = bodies.get(..length)?;
        bodies = &bodies[length..];
        Some(body)
    };
    let mut all = Vec::new();
    for lengths in contents.chunks_exact(8) {
        all.push([body(&lengths[..4])?, body(&lengths[4..])?]);
    }
    bodies.is_empty().then_some(all)
}

/// Members with the texts of their values; those that are absent have none.
type Members<'a> = Vec<(&'a str, Option<Vec<u8>>)>;

fn object(members: Members) -> Vec<u8> {
    let present = members.into_iter().filter_map(|(name, value)| Some([&b"\""[..], name.as_bytes(), b"\":", &value?].concat()));
    [b"{", &present.collect::<Vec<_>>().join(&b',')[..], b"}"].concat()
}

/// A header's text stands as it is.
fn header(text: &[u8]) -> Option<Vec<u8>> {
    (!text.is_empty()).then(|| text.to_vec())
}

fn string(reference: &Reference, octets: &[u8]) -> Vec<u8> {
    [b"\"", &reference.encode(octets)[..], b"\""].concat()
}

fn component(reference: &Reference, octets: &[u8]) -> Option<Vec<u8>> {
    (!octets.is_empty()).then(|| string(reference, octets))
}

/// The text of a message, whatever it may be refused for.
pub fn text(reference: &Reference, pieces: &Pieces, recipients: &[Recipient]) -> Vec<u8> {
    let own = |[text, key]: &Recipient| vec![("header", header(text)), ("encrypted_key", component(reference, key))];
    let mut members = vec![
        ("protected", component(reference, &pieces.protected)),
        ("unprotected", header(&pieces.shared)),
    ];
    if pieces.general {
        let elements: Vec<Vec<u8>> = recipients.iter().map(|recipient| object(own(recipient))).collect();
        members.push(("recipients", Some([b"[", &elements.join(&b',')[..], b"]"].concat())));
    } else {
        members.extend(recipients.iter().flat_map(own));
    }
    members.extend([
        ("aad", component(reference, &pieces.aad)),
        ("iv", component(reference, &pieces.iv)),
        ("ciphertext", Some(string(reference, &pieces.ciphertext))),
        ("tag", component(reference, &pieces.tag)),
    ]);
    object(members)
}

/// The second writer: 3; 20; 6; 7 on each text by itself; 2; the reader's over the whole, 21 among them; 1.
pub fn write(reference: &Reference, pieces: &Pieces, room: usize) -> Result<Vec<u8>, u32> {
    if second::read(M, &pieces.known, 0, HEADER, LIST).refusal != 0 {
        return Err(3);
    }
    let recipients = recipients(&pieces.recipients).ok_or(20u32)?;
    if !pieces.general && recipients.len() != 1 {
        return Err(20);
    }
    if pieces.protected.len() > HEADER {
        return Err(6);
    }
    let owns = recipients.iter().map(|[text, _]| *text);
    let mut texts = [&pieces.protected[..], &pieces.shared].into_iter().chain(owns).filter(|text| !text.is_empty());
    if texts.any(|text| reader::read(text, LEVELS).is_none()) {
        return Err(7);
    }
    let message = text(reference, pieces, &recipients);
    if message.len() > LONGEST {
        return Err(2);
    }
    let refusal = second::read(&message, &pieces.known, 0, HEADER, LIST).refusal;
    if refusal != 0 {
        return Err(refusal);
    }
    if room < message.len() {
        return Err(1);
    }
    Ok(message)
}
