//! Different names with one fingerprint. Names are told apart by fingerprints first (crates/spelling), which is quick where they
//! differ; whoever sends a message can make them equal, since they are one sum with known factors:
//! h becomes h * 16777619 + c + 1 modulo 2^32 with each octet c.

use std::collections::HashMap;

const FIRST: u32 = 2166136261;
const FACTOR: u32 = 16777619;
/// Blocks of letters, as many as there are 26^8: more than 2^32, so that two of them add the same.
const BLOCK: usize = 8;

/// Where the library has another fingerprint the names here do not collide, and show nothing.
const SOURCE: &str = include_str!("../../crates/spelling/src/lib.rt");

fn mixed(h: u32, name: &[u8]) -> u32 {
    name.iter().fold(h, |h, &c| h.wrapping_mul(FACTOR).wrapping_add(c as u32 + 1))
}

pub fn fingerprint(name: &[u8]) -> u32 {
    let source: String = SOURCE.split_whitespace().collect();
    for part in ["letmutprint=2166136261;", "h.wrapping_mul(16777619).wrapping_add(u32::from(c)).wrapping_add(1)"] {
        assert!(source.contains(part), "crates/spelling has another fingerprint: change tests/host/colliding.rs with it");
    }
    mixed(FIRST, name)
}

/// The letters of a number, in base 26.
fn letters(mut n: u64) -> [u8; BLOCK] {
    [0; BLOCK].map(|_| {
        let letter = b'a' + (n % 26) as u8;
        n /= 26;
        letter
    })
}

/// Two blocks that add the same, by the birthday paradox: after some 2^16 of them.
pub fn pair() -> [[u8; BLOCK]; 2] {
    let mut seen = HashMap::new();
    for i in 1u64.. {
        let block = letters(i.wrapping_mul(0x9e3779b97f4a7c15));
        match seen.insert(mixed(0, &block), block) {
            Some(other) if other != block => return [other, block],
            _ => {}
        }
    }
    unreachable!()
}

/// Different names of one length and one fingerprint, which begin alike: they differ first where their last blocks do.
pub fn names(count: usize, length: usize) -> Vec<String> {
    let blocks = pair();
    let bits = count.next_power_of_two().trailing_zeros() as usize;
    let beginning = "n".repeat(length - bits * BLOCK);
    let named = |i: usize| {
        let end = (0..bits).flat_map(|bit| blocks[i >> bit & 1]).map(char::from);
        beginning.chars().chain(end).collect::<String>()
    };
    let names: Vec<String> = (0..count).map(named).collect();
    assert!(names.iter().all(|name| fingerprint(name.as_bytes()) == fingerprint(names[0].as_bytes())));
    names
}

/// Names that differ from those in nothing but that each has a fingerprint of its own, for the bench.
#[allow(dead_code)]
pub fn plain(count: usize, length: usize) -> Vec<String> {
    let bits = count.next_power_of_two().trailing_zeros() as usize;
    let beginning = "n".repeat(length - bits * BLOCK);
    let end = |i: usize| letters(i as u64 + 1).repeat(bits).into_iter().map(char::from).collect::<String>();
    let names: Vec<String> = (0..count).map(|i| beginning.clone() + &end(i)).collect();
    let prints: std::collections::HashSet<u32> = names.iter().map(|name| fingerprint(name.as_bytes())).collect();
    assert_eq!(prints.len(), count);
    names
}

/// Eight letters with the fingerprint of a name: a first half and a last one that meet.
pub fn twin(name: &str) -> String {
    const HALF: usize = BLOCK / 2;
    const HALVES: u64 = 26u64.pow(HALF as u32);
    let half = |n: u64| -> [u8; HALF] { letters(n)[..HALF].try_into().expect("four letters") };
    // What a first half is multiplied by, and what the last half adds.
    let factor = (0..HALF).fold(1u32, |product, _| product.wrapping_mul(FACTOR));
    let last: HashMap<u32, [u8; HALF]> = (0..HALVES).map(|n| (mixed(0, &half(n)), half(n))).collect();
    for n in 0..HALVES {
        let wanted = fingerprint(name.as_bytes()).wrapping_sub(mixed(FIRST, &half(n)).wrapping_mul(factor));
        if let Some(last) = last.get(&wanted) {
            let twin = String::from_utf8([half(n), *last].concat()).expect("letters");
            assert!(fingerprint(twin.as_bytes()) == fingerprint(name.as_bytes()) && twin != name);
            return twin;
        }
    }
    panic!("no twin of {name}")
}
