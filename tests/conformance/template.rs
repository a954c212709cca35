//! Octets as the program's input spells them. Every octet stands for itself but `~`: `~` and two hexadecimal digits is
//! that octet, and `~*`, four hexadecimal digits n and four octets is those four octets n times.

/// An octet that may stand for itself.
fn plain(octet: u8) -> bool {
    (b' '..b'~').contains(&octet)
}

/// How often the four octets at the beginning follow one another.
fn repeats(octets: &[u8]) -> usize {
    match octets.get(..4) {
        Some(four) if four.iter().all(|&c| plain(c)) => octets.chunks_exact(4).take_while(|next| *next == four).count(),
        _ => 0,
    }
}

/// The spelling: four octets that stand eight times or more in a row are not written out.
pub fn written(octets: &[u8]) -> Vec<u8> {
    let mut text = Vec::new();
    let mut rest = octets;
    while let Some(&octet) = rest.first() {
        let n = repeats(rest).min(0xffff);
        if n >= 8 {
            text.extend(format!("~*{n:04x}").bytes());
            text.extend(&rest[..4]);
            rest = &rest[4 * n..];
            continue;
        }
        match plain(octet) {
            true => text.push(octet),
            false => text.extend(format!("~{octet:02x}").bytes()),
        }
        rest = &rest[1..];
    }
    text
}

/// The octets, or None where the text is not such a spelling.
pub fn expanded(text: &[u8]) -> Option<Vec<u8>> {
    let mut octets = Vec::new();
    let mut rest = text;
    while let Some((&octet, after)) = rest.split_first() {
        if octet != b'~' {
            octets.push(Some(octet).filter(|&c| plain(c))?);
            rest = after;
        } else if let Some(repeated) = after.strip_prefix(b"*") {
            let four = repeated.get(4..8)?;
            if !four.iter().all(|&c| plain(c)) {
                return None;
            }
            octets.extend(four.repeat(number(&repeated[..4])?));
            rest = &repeated[8..];
        } else {
            octets.push(number(after.get(..2)?)? as u8);
            rest = &after[2..];
        }
    }
    Some(octets)
}

/// Hexadecimal digits, in lower case.
fn number(digits: &[u8]) -> Option<usize> {
    digits.iter().try_fold(0, |n, &digit| match digit {
        b'0'..=b'9' => Some(16 * n + (digit - b'0') as usize),
        b'a'..=b'f' => Some(16 * n + (digit - b'a') as usize + 10),
        _ => None,
    })
}
