//! A second reader of JWE messages, written from document 01 and request 2 of document 02. A JSON text becomes one tree
//! that owns what it says: tokens go on a stack, and each closing bracket folds what lies above its opening one into a
//! value. The rules are then asked of whole trees, one after the other in document 01's order. Base64url is decoded
//! octet by octet, from the two characters that the octet's bits lie in. It shares no code with the other second
//! readers here.

const LONGEST: usize = 16_777_216;
const HEADER: usize = 4096;
const LIST: usize = 576;
const LEVELS: usize = 12;
const MEMBERS: usize = 32;
const RECIPIENTS: usize = 8;

/// What is handed out: where refused, all but the number is 0 or empty.
#[derive(Clone, Debug, Default, PartialEq)]
pub struct Answer {
    pub refusal: u32,
    pub form: u32,
    pub recipients: u32,
    pub mode: u32,
    /// Start and length of the protected header, key, iv, aad, ciphertext and tag.
    pub places: [[u32; 2]; 6],
    /// The decoded protected header.
    pub header: Vec<u8>,
    /// Six numbers for a parameter.
    pub list: Vec<u32>,
}

/// What comes next, or a refusal.
type Judged<T> = Result<T, u32>;

fn refuse_if(number: u32, fault: bool) -> Judged<()> {
    if fault {
        Err(number)
    } else {
        Ok(())
    }
}

// Base64url

fn six_bits(c: u8) -> Option<u8> {
    match c {
        b'A'..=b'Z' => Some(c - b'A'),
        b'a'..=b'z' => Some(c - b'a' + 26),
        b'0'..=b'9' => Some(c - b'0' + 52),
        b'-' => Some(62),
        b'_' => Some(63),
        _ => None,
    }
}

pub fn decoded(text: &[u8]) -> Option<Vec<u8>> {
    let values = text.iter().map(|&c| six_bits(c)).collect::<Option<Vec<u8>>>()?;
    let count = values.len() * 6 / 8;
    let spare = values.len() * 6 - count * 8;
    if spare == 6 || spare > 0 && values.last()? % (1 << spare) != 0 {
        return None;
    }
    let octet = |i: usize| {
        let (first, skipped) = (i * 8 / 6, i * 8 % 6);
        values[first] << (2 + skipped) | values[first + 1] >> (4 - skipped)
    };
    Some((0..count).map(octet).collect())
}

// JSON

#[derive(Debug)]
pub enum What {
    Object(Vec<Member>),
    Array(Vec<Value>),
    String(String),
    Number,
    True,
    False,
    Null,
}

/// A value with its place, quotation marks included.
#[derive(Debug)]
pub struct Value {
    pub start: usize,
    pub end: usize,
    pub what: What,
}

#[derive(Debug)]
pub struct Member {
    /// What its name says, after undoing escapes.
    pub name: String,
    /// Where the name stands, without its quotation marks.
    start: usize,
    end: usize,
    pub value: Value,
}

impl Value {
    fn kind(&self) -> u32 {
        match self.what {
            What::Object(_) => 0,
            What::Array(_) => 1,
            What::String(_) => 2,
            What::Number => 3,
            What::True => 4,
            What::False => 5,
            What::Null => 6,
        }
    }

    pub fn members(&self) -> Option<&[Member]> {
        match &self.what {
            What::Object(members) => Some(members),
            _ => None,
        }
    }

    fn elements(&self) -> Option<&[Value]> {
        match &self.what {
            What::Array(elements) => Some(elements),
            _ => None,
        }
    }

    fn string(&self) -> Option<&str> {
        match &self.what {
            What::String(said) => Some(said),
            _ => None,
        }
    }
}

/// What a string says, from what stands between its quotation marks. All of it becomes UTF-16, in which a half of a pair
/// without its other half shows.
pub fn said(spelling: &str) -> Option<String> {
    let mut units = Vec::with_capacity(spelling.len());
    let mut rest = spelling.chars();
    while let Some(c) = rest.next() {
        match c {
            '\\' => units.push(match rest.next()? {
                c @ ('"' | '\\' | '/') => c as u16,
                'b' => 8,
                't' => 9,
                'n' => 10,
                'f' => 12,
                'r' => 13,
                'u' => {
                    let mut unit = 0;
                    for _ in 0..4 {
                        unit = unit * 16 + rest.next()?.to_digit(16)? as u16;
                    }
                    unit
                }
                _ => return None,
            }),
            '\0'..='\x1f' => return None,
            c => units.extend_from_slice(c.encode_utf16(&mut [0; 2])),
        }
    }
    String::from_utf16(&units).ok()
}

/// RFC 8259 section 6, by states.
fn is_number(text: &str) -> bool {
    let end = text.bytes().try_fold("start", |state, c| match (state, c) {
        ("start", b'-') => Some("minus"),
        ("start" | "minus", b'0') => Some("zero"),
        ("start" | "minus", b'1'..=b'9') | ("int", b'0'..=b'9') => Some("int"),
        ("zero" | "int", b'.') => Some("point"),
        ("point" | "frac", b'0'..=b'9') => Some("frac"),
        ("zero" | "int" | "frac", b'e' | b'E') => Some("e"),
        ("e", b'+' | b'-') => Some("sign"),
        ("e" | "sign" | "exp", b'0'..=b'9') => Some("exp"),
        _ => None,
    });
    matches!(end, Some("zero" | "int" | "frac" | "exp"))
}

/// What is on the stack: a sign that is not folded yet, or a whole value.
enum Item {
    Sign(u8, usize),
    Value(Value),
}

/// Replaces an opening bracket and what lies above it by one value.
fn fold(stack: &mut Vec<Item>, close: u8, end: usize) -> Option<()> {
    let open = stack.iter().rposition(|item| matches!(item, Item::Sign(b'{' | b'[', _)))?;
    let mut items = stack.drain(open..);
    let Some(Item::Sign(bracket, start)) = items.next() else { return None };
    let (mut members, mut elements) = (Vec::new(), Vec::new());
    let mut item = items.next();
    while let Some(Item::Value(value)) = item {
        if bracket == b'{' {
            let (Some(Item::Sign(b':', _)), Some(Item::Value(of))) = (items.next(), items.next()) else { return None };
            let What::String(name) = value.what else { return None };
            members.push(Member { name, start: value.start + 1, end: value.end - 1, value: of });
        } else {
            elements.push(value);
        }
        item = match items.next() {
            None => None,
            Some(Item::Sign(b',', _)) => Some(items.next()?),
            _ => return None,
        };
    }
    if item.is_some() {
        return None;
    }
    drop(items);
    let what = match (bracket, close) {
        (b'{', b'}') => What::Object(members),
        (b'[', b']') => What::Array(elements),
        _ => return None,
    };
    stack.push(Item::Value(Value { start, end, what }));
    Some(())
}

/// The reading of a text as one object within the levels.
pub fn object(octets: &[u8]) -> Option<Value> {
    let text = std::str::from_utf8(octets).ok()?;
    let mut stack = Vec::new();
    let (mut at, mut level) = (0, 0);
    while at < octets.len() {
        let start = at;
        at += 1;
        match octets[start] {
            b' ' | b'\t' | b'\n' | b'\r' => {}
            sign @ (b'{' | b'[') => {
                level += 1;
                if level > LEVELS {
                    return None;
                }
                stack.push(Item::Sign(sign, start));
            }
            sign @ (b':' | b',') => stack.push(Item::Sign(sign, start)),
            close @ (b'}' | b']') => {
                fold(&mut stack, close, at)?;
                level -= 1;
            }
            b'"' => {
                let mut escaped = false;
                at += 1 + octets[at..].iter().position(|&c| {
                    let closes = c == b'"' && !escaped;
                    escaped = c == b'\\' && !escaped;
                    closes
                })?;
                let what = What::String(said(&text[start + 1..at - 1])?);
                stack.push(Item::Value(Value { start, end: at, what }));
            }
            _ => {
                let ends = |c: &u8| b" \t\n\r{}[]:,\"".contains(c);
                at = octets[start..].iter().position(ends).map_or(octets.len(), |n| start + n);
                let what = match &text[start..at] {
                    "true" => What::True,
                    "false" => What::False,
                    "null" => What::Null,
                    number if is_number(number) => What::Number,
                    _ => return None,
                };
                stack.push(Item::Value(Value { start, end: at, what }));
            }
        }
    }
    match (stack.pop()?, stack.is_empty()) {
        (Item::Value(value), true) if value.kind() == 0 => Some(value),
        _ => None,
    }
}

fn find<'a>(members: &'a [Member], name: &str) -> Option<&'a Value> {
    members.iter().find(|member| member.name == name).map(|member| &member.value)
}

/// 8 and 9.
fn judge_names(members: &[Member]) -> Judged<()> {
    refuse_if(8, members.len() > MEMBERS)?;
    let mut names: Vec<&str> = members.iter().map(|member| &*member.name).collect();
    names.sort();
    refuse_if(9, names.windows(2).any(|two| two[0] == two[1]))
}

// One recipient

const STRINGS: [&str; 10] = ["alg", "enc", "kid", "typ", "cty", "jku", "x5u", "x5t", "x5t#S256", "zip"];
const OBJECTS: [&str; 1] = ["jwk"];
const ARRAYS: [&str; 2] = ["x5c", "crit"];
const OTHER_REGISTERED: [&str; 7] = ["epk", "apu", "apv", "iv", "tag", "p2s", "p2c"];

fn registered(name: &str) -> bool {
    STRINGS.contains(&name) || OBJECTS.contains(&name) || ARRAYS.contains(&name) || OTHER_REGISTERED.contains(&name)
}

fn mode(alg: &str) -> Option<u32> {
    match alg {
        "RSA1_5" | "RSA-OAEP" | "RSA-OAEP-256" => Some(1),
        "A128KW" | "A192KW" | "A256KW" => Some(2),
        "A128GCMKW" | "A192GCMKW" | "A256GCMKW" => Some(2),
        "PBES2-HS256+A128KW" | "PBES2-HS384+A192KW" | "PBES2-HS512+A256KW" => Some(2),
        "ECDH-ES" => Some(3),
        "ECDH-ES+A128KW" | "ECDH-ES+A192KW" | "ECDH-ES+A256KW" => Some(4),
        "dir" => Some(5),
        _ => None,
    }
}

const ENCS: [&str; 6] = ["A128CBC-HS256", "A192CBC-HS384", "A256CBC-HS512", "A128GCM", "A192GCM", "A256GCM"];

/// The protected, shared and own header, and the place of the key.
struct Recipient<'a> {
    headers: [&'a [Member]; 3],
    key: Option<[usize; 2]>,
}

impl Recipient<'_> {
    fn find(&self, name: &str) -> Option<&Value> {
        self.headers.iter().find_map(|header| find(header, name))
    }

    /// 12 to 18. Answers the mode.
    fn judge(&self, known: &[&[u8]]) -> Judged<u32> {
        let names = || self.headers.iter().flat_map(|header| header.iter());
        // Each header by itself has no name twice here.
        let twice = |one: &Member| names().filter(|other| other.name == one.name).count() > 1;
        refuse_if(12, names().any(twice))?;

        let (alg, enc) = (self.find("alg").ok_or(13u32)?, self.find("enc").ok_or(13u32)?);

        let wrong_kind = |member: &Member| match &*member.name {
            name if STRINGS.contains(&name) => member.value.kind() != 2,
            name if OBJECTS.contains(&name) => member.value.kind() != 0,
            name if ARRAYS.contains(&name) => member.value.kind() != 1,
            _ => false,
        };
        refuse_if(14, names().any(wrong_kind))?;

        let mode = alg.string().and_then(mode).ok_or(15u32)?;
        refuse_if(15, !enc.string().is_some_and(|enc| ENCS.contains(&enc)))?;
        refuse_if(15, self.find("zip").is_some_and(|zip| zip.string() != Some("DEF")))?;

        let outside = |name| self.headers[1..].iter().any(|header| find(header, name).is_some());
        refuse_if(16, outside("zip") || outside("crit"))?;

        if let Some(crit) = find(self.headers[0], "crit") {
            let elements = crit.elements().ok_or(14u32)?;
            let strings = elements.iter().map(Value::string).collect::<Option<Vec<&str>>>().ok_or(17u32)?;
            let wrong = |s: &str| {
                let twice = strings.iter().filter(|other| **other == s).count() > 1;
                twice || self.find(s).is_none() || !known.contains(&s.as_bytes()) || registered(s)
            };
            refuse_if(17, strings.is_empty() || strings.iter().any(|s| wrong(s)))?;
        }

        let empty = self.key.map_or(true, |[_, length]| length == 0);
        refuse_if(18, empty != matches!(mode, 3 | 5))?;
        Ok(mode)
    }
}

/// Whether two recipients have different values of `enc`, each pair compared by what the strings say.
fn contents_differ(all: &[Recipient]) -> bool {
    let encs: Vec<&str> = all.iter().filter_map(|recipient| recipient.find("enc")?.string()).collect();
    encs.iter().any(|one| encs.iter().any(|other| one.chars().ne(other.chars())))
}

/// All recipients in turn, 21, then 19; and what is handed out for the one asked for.
fn judge_recipients(
    all: &[Recipient],
    asked: u32,
    known: &[&[u8]],
    form: u32,
    parts: [Option<[usize; 2]>; 5],
    header: Vec<u8>,
) -> Judged<Answer> {
    let modes = all.iter().map(|recipient| recipient.judge(known)).collect::<Judged<Vec<u32>>>()?;
    refuse_if(21, contents_differ(all))?;
    let recipient = all.get(asked as usize).ok_or(19u32)?;
    let mut list = Vec::new();
    for (origin, members) in recipient.headers.iter().enumerate() {
        for Member { start, end, value, .. } in members.iter() {
            let row = [origin, *start, end - start, value.start, value.end - value.start, value.kind() as usize];
            list.extend(row.map(|n| n as u32));
        }
    }
    let [protected, iv, aad, ciphertext, tag] = parts;
    let place = |part: Option<[usize; 2]>| part.unwrap_or([0, 0]).map(|n| n as u32);
    Ok(Answer {
        refusal: 0,
        form,
        recipients: all.len() as u32,
        mode: modes[asked as usize],
        places: [protected, recipient.key, iv, aad, ciphertext, tag].map(place),
        header,
        list,
    })
}

// The message

/// The known names, or None where their list is malformed.
fn known_names(list: &[u8]) -> Option<Vec<&[u8]>> {
    let n = *list.first()? as usize;
    let lengths = list.get(1..1 + n)?;
    let mut names = Vec::new();
    let mut end = 1 + n;
    for &length in lengths {
        let start = end;
        end += length as usize;
        names.push(list.get(start..end)?);
    }
    let sound = n <= 16 && lengths.iter().all(|length| (1..=64).contains(length)) && end == list.len();
    sound.then_some(names)
}

fn compact(message: &[u8], known: &[&[u8]], asked: u32) -> Judged<Answer> {
    let mut places = Vec::new();
    let mut start = 0;
    for part in message.split(|&c| c == b'.') {
        places.push([start, part.len()]);
        start += part.len() + 1;
    }
    let Ok([protected, key, iv, ciphertext, tag]) = <[_; 5]>::try_from(places) else { return Err(4) };

    let octets = [protected, key, iv, ciphertext, tag].map(|[start, length]| decoded(&message[start..][..length]));
    refuse_if(5, octets.contains(&None))?;
    let [Some(header), ..] = octets else { return Err(5) };
    refuse_if(6, header.len() > HEADER)?;
    let reading = object(&header).ok_or(7u32)?;
    let members = reading.members().ok_or(7u32)?;
    judge_names(members)?;

    let recipient = Recipient { headers: [members, &[], &[]], key: Some(key) };
    judge_recipients(&[recipient], asked, known, 0, [Some(protected), Some(iv), None, Some(ciphertext), Some(tag)], header)
}

/// The place of a component, its quotation marks left out; or 10.
fn component(message: &[u8], members: &[Member], name: &str) -> Judged<Option<[usize; 2]>> {
    let Some(value) = find(members, name) else { return Ok(None) };
    refuse_if(10, value.kind() != 2)?;
    let (start, end) = (value.start + 1, value.end - 1);
    refuse_if(10, message[start..end].contains(&b'\\'))?;
    refuse_if(10, start == end && name != "ciphertext")?;
    Ok(Some([start, end - start]))
}

/// The members of a header that stands as an object, none where it is absent; or 10.
fn header<'a>(members: &'a [Member], name: &str) -> Judged<&'a [Member]> {
    let Some(value) = find(members, name) else { return Ok(&[]) };
    let members = value.members().ok_or(10u32)?;
    refuse_if(10, members.is_empty())?;
    Ok(members)
}

fn json(message: &[u8], known: &[&[u8]], asked: u32) -> Judged<Answer> {
    let reading = object(message).ok_or(7u32)?;
    let top = reading.members().ok_or(7u32)?;

    judge_names(top)?;
    let mut parts = [None; 5];
    for (part, name) in parts.iter_mut().zip(["protected", "iv", "aad", "ciphertext", "tag"]) {
        *part = component(message, top, name)?;
    }
    refuse_if(10, parts[3].is_none())?;
    let shared = header(top, "unprotected")?;
    let (top_key, top_header) = (component(message, top, "encrypted_key")?, header(top, "header")?);
    let elements = match find(top, "recipients") {
        None => None,
        Some(value) => {
            let elements = value.elements().ok_or(10u32)?;
            let objects = elements.iter().map(Value::members).collect::<Option<Vec<&[Member]>>>().ok_or(10u32)?;
            refuse_if(10, objects.is_empty() || find(top, "header").is_some() || find(top, "encrypted_key").is_some())?;
            Some(objects)
        }
    };

    let form = if elements.is_some() { 2 } else { 1 };
    let mut owns = vec![(top_header, top_key)];
    if let Some(elements) = elements {
        refuse_if(11, elements.len() > RECIPIENTS)?;
        owns.clear();
        for element in elements {
            judge_names(element)?;
            owns.push((header(element, "header")?, component(message, element, "encrypted_key")?));
        }
    }

    let keys = owns.iter().map(|(_, key)| *key);
    for [start, length] in parts.into_iter().chain(keys).flatten() {
        refuse_if(5, decoded(&message[start..][..length]).is_none())?;
    }

    let mut octets = Vec::new();
    let mut protected_reading = None;
    if let Some([start, length]) = parts[0] {
        octets = decoded(&message[start..][..length]).ok_or(5u32)?;
        refuse_if(6, octets.len() > HEADER)?;
        let reading = object(&octets).ok_or(7u32)?;
        refuse_if(10, reading.members().map_or(true, <[_]>::is_empty))?;
        protected_reading = Some(reading);
    }
    let protected = protected_reading.as_ref().and_then(Value::members).unwrap_or(&[]);

    judge_names(protected)?;
    judge_names(shared)?;
    owns.iter().try_for_each(|(own, _)| judge_names(own))?;

    let all: Vec<Recipient> =
        owns.into_iter().map(|(own, key)| Recipient { headers: [protected, shared, own], key }).collect();
    judge_recipients(&all, asked, known, form, parts, octets)
}

fn is_json(message: &[u8]) -> bool {
    message.iter().find(|c| !b" \t\n\r".contains(c)) == Some(&b'{')
}

fn judge(message: &[u8], known: &[u8], recipient: u32, header_room: usize, list_room: usize) -> Judged<Answer> {
    refuse_if(1, header_room < HEADER || list_room < LIST)?;
    refuse_if(2, message.len() > LONGEST)?;
    let known = known_names(known).ok_or(3u32)?;
    if is_json(message) {
        json(message, &known, recipient)
    } else {
        compact(message, &known, recipient)
    }
}

pub fn read(message: &[u8], known: &[u8], recipient: u32, header_room: usize, list_room: usize) -> Answer {
    judge(message, known, recipient, header_room, list_room)
        .unwrap_or_else(|refusal| Answer { refusal, ..Answer::default() })
}
