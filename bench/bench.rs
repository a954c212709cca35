//! Measures check, decode and encode of 16 MiB beside plain Rust table loops in the same process, and a copy for scale; judging JSON
//! texts of 16 MiB beside a plain Rust recursive descent; reading messages beside plain Rust; and each beside the peers of the
//! directory that is given, where it is there. Then JSON messages written, beside what that takes at least; two messages compared; and
//! last, messages that are meant to cost time. Deterministic input; ours and the peer take turns, so that both meet the same machine.

mod differing;
mod hostile;
mod jwe;
mod peers;
mod validator;
mod writing;

use std::hint::black_box;
use std::ptr::null_mut;
use std::slice::from_raw_parts_mut;

extern "C" {
    fn jwe_decode(text: *const u8, text_len: usize, out: *mut u8, out_len: usize, octets: *mut usize) -> u32;
    fn probe_check(text: *const u8, text_len: usize) -> u32;
    fn probe_encode(octets: *const u8, len: usize, out: *mut u8, out_len: usize, at: usize, end: *mut usize) -> u32;
    fn probe_judge(text: *const u8, text_len: usize, levels: u32, end: *mut usize) -> u32;
    fn mmap(near: *mut u8, length: usize, protection: i32, flags: i32, file: i32, offset: i64) -> *mut u8;
    fn munmap(start: *mut u8, length: usize) -> i32;
    fn clock_gettime(clock: i32, time: *mut [i64; 2]) -> i32;
}

// Ours

fn check(text: &[u8]) -> bool {
    // SAFETY: the pointers and lengths are those of slices, here and below.
    unsafe { probe_check(text.as_ptr(), text.len()) == 0 }
}

fn decode(text: &[u8], out: &mut [u8]) -> Option<usize> {
    let mut n = 0;
    let refusal = unsafe { jwe_decode(text.as_ptr(), text.len(), out.as_mut_ptr(), out.len(), &mut n) };
    (refusal == 0).then_some(n)
}

fn encode(octets: &[u8], out: &mut [u8]) -> Option<usize> {
    let mut end = 0;
    let refusal = unsafe { probe_encode(octets.as_ptr(), octets.len(), out.as_mut_ptr(), out.len(), 0, &mut end) };
    (refusal == 0).then_some(end)
}

fn judge(text: &[u8], levels: u32) -> Option<usize> {
    let mut end = 0;
    let refusal = unsafe { probe_judge(text.as_ptr(), text.len(), levels, &mut end) };
    (refusal == 0).then_some(end)
}

#[inline(never)]
fn peer_judge(text: &[u8], levels: u32) -> Option<usize> {
    validator::judge(text, levels)
}

// The peers: what one writes in Rust with a table, by whole groups and without an index that has to be checked. They
// give the same answers, but a peer that refuses to decode may have written to its buffer before.

const ALPHABET: &[u8; 64] = b"ABCDEFGHIJKLMNOPQRSTUVWXYZabcdefghijklmnopqrstuvwxyz0123456789-_";

/// The six bits of a character, or BAD.
static VALUES: [u8; 256] = {
    let mut values = [BAD; 256];
    let mut v = 0;
    while v < 64 {
        values[ALPHABET[v] as usize] = v as u8;
        v += 1;
    }
    values
};

const BAD: u8 = 0x80;

fn value(c: u8) -> u8 {
    VALUES[c as usize]
}

#[inline(never)]
fn peer_check(text: &[u8]) -> bool {
    let groups = text.chunks_exact(4);
    let tail = groups.remainder();
    for g in groups {
        if (value(g[0]) | value(g[1]) | value(g[2]) | value(g[3])) & BAD != 0 {
            return false;
        }
    }
    match *tail {
        [] => true,
        [a, b] => (value(a) & BAD) | (value(b) & (BAD | 15)) == 0,
        [a, b, c] => (value(a) & BAD) | (value(b) & BAD) | (value(c) & (BAD | 3)) == 0,
        _ => false,
    }
}

#[inline(never)]
fn peer_decode(text: &[u8], out: &mut [u8]) -> Option<usize> {
    let n = text.len() / 4 * 3 + text.len() % 4 * 3 / 4;
    let (whole, rest) = out.get_mut(..n)?.split_at_mut(text.len() / 4 * 3);
    let groups = text.chunks_exact(4);
    let tail = groups.remainder();
    for (g, place) in groups.zip(whole.chunks_exact_mut(3)) {
        let (a, b, c, d) = (value(g[0]), value(g[1]), value(g[2]), value(g[3]));
        if (a | b | c | d) & BAD != 0 {
            return None;
        }
        place[0] = a << 2 | b >> 4;
        place[1] = b << 4 | c >> 2;
        place[2] = c << 6 | d;
    }
    if !peer_check(tail) {
        return None;
    }
    match (tail, rest) {
        ([a, b], [x]) => *x = value(*a) << 2 | value(*b) >> 4,
        ([a, b, c], [x, y]) => {
            *x = value(*a) << 2 | value(*b) >> 4;
            *y = value(*b) << 4 | value(*c) >> 2;
        }
        _ => {}
    }
    Some(n)
}

fn character(v: u8) -> u8 {
    ALPHABET[(v & 63) as usize]
}

#[inline(never)]
fn peer_encode(octets: &[u8], out: &mut [u8]) -> Option<usize> {
    let n = octets.len() / 3 * 4 + (octets.len() % 3 * 4 + 2) / 3;
    let (whole, rest) = out.get_mut(..n)?.split_at_mut(octets.len() / 3 * 4);
    let groups = octets.chunks_exact(3);
    let tail = groups.remainder();
    for (g, place) in groups.zip(whole.chunks_exact_mut(4)) {
        place[0] = character(g[0] >> 2);
        place[1] = character(g[0] << 4 | g[1] >> 4);
        place[2] = character(g[1] << 2 | g[2] >> 6);
        place[3] = character(g[2]);
    }
    match (tail, rest) {
        ([a], [x, y]) => {
            *x = character(a >> 2);
            *y = character(a << 4);
        }
        ([a, b], [x, y, z]) => {
            *x = character(a >> 2);
            *y = character(a << 4 | b >> 4);
            *z = character(b << 2);
        }
        _ => {}
    }
    Some(n)
}

// Measuring

const SIZE: usize = 16 << 20;
const ROUNDS: usize = 25;
/// Beside named peers and for hostile messages, which take longer.
const FEW: usize = 9;

/// Octets from the kernel that nobody has touched yet.
struct Fresh(*mut u8, usize);

impl Fresh {
    fn new(length: usize) -> Self {
        // SAFETY: new private memory; the numbers are x86-64 Linux's.
        let start = unsafe { mmap(null_mut(), length, 3, 0x22, -1, 0) };
        assert!(start as isize != -1, "no memory");
        Fresh(start, length)
    }

    fn octets(&mut self) -> &mut [u8] {
        // SAFETY: mapped for as long as self lives, and zero.
        unsafe { from_raw_parts_mut(self.0, self.1) }
    }
}

impl Drop for Fresh {
    fn drop(&mut self) {
        // SAFETY: mapped by `new`; no borrow outlives self.
        unsafe { munmap(self.0, self.1) };
    }
}

/// The processor time that this thread has had, in seconds: what else runs on the machine does not count.
fn processor_time() -> f64 {
    const THREAD: i32 = 3;
    let mut time = [0; 2];
    // SAFETY: on x86-64 Linux a timespec is seconds and nanoseconds, of 64 bits each.
    assert_eq!(unsafe { clock_gettime(THREAD, &mut time) }, 0);
    time[0] as f64 + time[1] as f64 / 1e9
}

/// MB/s of SIZE octets.
fn speed(work: impl FnOnce() -> bool) -> f64 {
    let start = processor_time();
    let good = work();
    let seconds = processor_time() - start;
    assert!(good);
    SIZE as f64 / 1e6 / seconds
}

/// The best and the median.
fn summary(mut speeds: Vec<f64>) -> (f64, f64) {
    speeds.sort_by(f64::total_cmp);
    (speeds[speeds.len() - 1], speeds[speeds.len() / 2])
}

/// One line: ours and the peer in turn. The first round is not counted.
fn line(name: &str, ours: impl FnMut() -> f64, peer: impl FnMut() -> f64) {
    line_with(name, ROUNDS, ours, peer, "");
}

/// The same in so many rounds, with more columns.
fn line_with(name: &str, rounds: usize, mut ours: impl FnMut() -> f64, mut peer: impl FnMut() -> f64, more: &str) {
    let (our_speeds, peer_speeds) = (0..=rounds).map(|_| (ours(), peer())).skip(1).unzip();
    let ((our_best, our_median), (peer_best, peer_median)) = (summary(our_speeds), summary(peer_speeds));
    println!(
        "{name:<20} {our_best:>9.0} {our_median:>9.0} {peer_best:>9.0} {peer_median:>9.0} {:>9.2} {:>9.2}{more}",
        our_best / peer_best,
        our_median / peer_median
    );
}

/// xorshift64
fn octets(n: usize, mut state: u64) -> Vec<u8> {
    let mut octets = Vec::with_capacity(n + 7);
    while octets.len() < n {
        state ^= state << 13;
        state ^= state >> 7;
        state ^= state << 17;
        octets.extend_from_slice(&state.to_le_bytes());
    }
    octets.truncate(n);
    octets
}

/// Both sides give the same and it is right: on all of the input, on its short beginnings and where a text is damaged.
fn compare(octets: &[u8]) {
    let mut text = vec![0; octets.len() * 2];
    let length = encode(octets, &mut text).unwrap();
    for n in (0..300).chain([octets.len()]) {
        let (mut one, mut other) = (vec![0; n * 2], vec![0; n * 2]);
        assert_eq!(encode(&octets[..n], &mut one), peer_encode(&octets[..n], &mut other));
        assert!(one == other);
    }
    for n in (0..300).chain([length]) {
        for damaged in [false, true] {
            let mut text = text[..n].to_vec();
            if let (true, Some(c)) = (damaged, text.get_mut(n * 2 / 3)) {
                *c = b'=';
            }
            assert_eq!(check(&text), peer_check(&text));
            let (mut one, mut other) = (vec![0; n], vec![0; n]);
            let answer = decode(&text, &mut one);
            assert_eq!(answer, peer_decode(&text, &mut other));
            if answer.is_some() {
                assert!(one == other);
                assert!(n < length || one[..octets.len()] == *octets);
            }
        }
    }
}

// JSON texts of 16 MiB: those that messages have, and the worst valid ones

/// SIZE octets: a beginning, parts that are counted from 0, an end; the rest is space.
fn repeated(start: &[u8], part: impl Fn(usize) -> Vec<u8>, end: &[u8]) -> Vec<u8> {
    let mut text = Vec::with_capacity(SIZE);
    text.extend_from_slice(start);
    for i in 0.. {
        let part = part(i);
        if text.len() + part.len() + end.len() > SIZE {
            break;
        }
        text.extend(part);
    }
    text.extend_from_slice(end);
    text.resize(SIZE, b' ');
    text
}

/// A part with a comma before it, but for the first one.
fn listed(i: usize, part: &str) -> Vec<u8> {
    [if i > 0 { "," } else { "" }, part].concat().into_bytes()
}

fn json_texts() -> Vec<(&'static str, Vec<u8>)> {
    let flattened = br#"{"protected":"eyJhbGciOiJkaXIiLCJlbmMiOiJBMTI4R0NNIn0","iv":"AA","tag":"Ag","ciphertext":""#;
    let letters = |i: usize| vec![ALPHABET[i * 7 % 64]];
    let member = |i: usize| {
        let value = match i % 7 {
            0 => r#""dir""#.to_string(),
            1 => r#""A128GCM""#.to_string(),
            2 => (i % 1000).to_string(),
            3 => "true".to_string(),
            4 => format!(r#"["{}",null]"#, i % 100),
            5 => format!(r#"{{"kty":"oct","k":{i}}}"#),
            _ => "-1.5e3".to_string(),
        };
        listed(i, &format!(r#""m{i}":{value}"#))
    };
    let alternating = |_| "a\u{e9}".as_bytes().to_vec();
    vec![
        ("long string", repeated(flattened, letters, b"\"}")),
        ("small members", repeated(b"{", member, b"}")),
        ("[[],[],..]", repeated(b"{\"a\":[", |i| listed(i, "[]"), b"]}")),
        ("string of \\u0041", repeated(b"{\"a\":\"", |_| b"\\u0041".to_vec(), b"\"}")),
        ("1 and 2 octets", repeated(b"{\"a\":\"", alternating, b"\"}")),
        ("long number", repeated(b"{\"a\":1", |i| vec![b'0' + (i % 10) as u8], b"}")),
        ("spaces at signs", repeated(b" { ", |i| [if i > 0 { " , " } else { "" }, "\"a\" : 1"].concat().into_bytes(), b" } ")),
    ]
}

/// Both sides give the same on a text, on its beginnings and where it is damaged.
fn compare_json(text: &[u8]) {
    let end = text.iter().rposition(|&c| c == b'}').map(|last| last + 1);
    assert_eq!(judge(text, 12), end);
    assert_eq!(peer_judge(text, 12), end);
    assert_eq!(judge(text, 0), peer_judge(text, 0));
    for n in 0..1000 {
        let mut part = text[..n].to_vec();
        assert_eq!(judge(&part, 12), peer_judge(&part, 12));
        part.extend_from_slice(b"\"]}");
        assert_eq!(judge(&part, 12), peer_judge(&part, 12));
        part[n / 2] ^= 1 << (n % 8);
        assert_eq!(judge(&part, 12), peer_judge(&part, 12));
    }
}

fn main() {
    let peers = peers::all(&std::env::args().nth(1).unwrap_or_default());
    let message = octets(SIZE, 7516);
    compare(&message);
    let mut spelled = vec![1; SIZE * 2];
    let mut peer_spelled = vec![1; SIZE * 2];
    assert_eq!(encode(&message[..SIZE / 4 * 3], &mut spelled), Some(SIZE));
    let text = spelled[..SIZE].to_vec();
    let mut out = vec![1; SIZE];
    let mut peer_out = vec![1; SIZE];

    println!("16 MiB of text (check, decode) or octets (encode, copy). Peer: a plain Rust table loop, opt-level 3.");
    println!("Both for baseline x86-64; their results were compared and are equal.");
    println!("{ROUNDS} rounds, {FEW} with named peers, after one that is not counted, ours and the peer in turn; processor time.");
    println!("All buffers were touched before; in the last line the output is fresh memory in every round.");
    println!();
    println!("{:<20} {:>9} {:>19} {:>19}", "MB/s", "ours", "peer", "ours/peer");
    println!("{:<20}{}", "(MB = 10^6)", "      best    median".repeat(3));
    line("check", || speed(|| check(black_box(&text))), || speed(|| peer_check(black_box(&text))));
    line(
        "decode",
        || speed(|| decode(black_box(&text), black_box(&mut out)).is_some()),
        || speed(|| peer_decode(black_box(&text), black_box(&mut peer_out)).is_some()),
    );
    for peer in &peers {
        peer.decode(&text, &message[..SIZE / 4 * 3], || speed(|| decode(black_box(&text), black_box(&mut out)).is_some()));
    }
    line(
        "encode",
        || speed(|| encode(black_box(&message), black_box(&mut spelled)).is_some()),
        || speed(|| peer_encode(black_box(&message), black_box(&mut peer_spelled)).is_some()),
    );
    // An octet less, which makes whole groups: modp_b64 would write padding.
    let octets = &message[..SIZE / 3 * 3];
    let expected = spelled[..SIZE / 3 * 4].to_vec();
    for peer in &peers {
        peer.encode(octets, &expected, || speed(|| encode(black_box(octets), black_box(&mut spelled)).is_some()));
    }
    let mut copy = || {
        black_box(&mut out[..]).copy_from_slice(black_box(&message));
        true
    };
    let (best, median) = summary((0..=ROUNDS).map(|_| speed(&mut copy)).skip(1).collect());
    println!("{:<20} {best:>9.0} {median:>9.0}", "copy (memcpy)");
    let fresh = |decode: fn(&[u8], &mut [u8]) -> Option<usize>| {
        let mut out = Fresh::new(SIZE / 4 * 3);
        speed(|| decode(black_box(&text), black_box(out.octets())).is_some())
    };
    line("decode, first touch", || fresh(decode), || fresh(peer_decode));

    println!();
    println!("JSON texts of 16 MiB, judged within 12 levels. Peer: from_utf8 and a plain Rust recursive descent.");
    println!("ns/o: ours, best, in nanoseconds for an octet; last column: how many times as long as small members.");
    println!();
    println!("{:<20} {:>9} {:>19} {:>19}", "MB/s", "ours", "peer", "ours/peer");
    println!("{:<20}{}{:>10}{:>10}", "(MB = 10^6)", "      best    median".repeat(3), "ns/o", "x small");
    let texts = json_texts();
    let small = texts.iter().position(|(name, _)| *name == "small members").expect("its text");
    let time = |text: &[u8]| speed(|| judge(black_box(text), 12).is_some());
    let base = (0..ROUNDS).map(|_| time(&texts[small].1)).fold(0.0, f64::max);
    for (name, text) in &texts {
        compare_json(text);
        let best = (0..ROUNDS).map(|_| time(text)).fold(0.0, f64::max);
        line_with(
            name,
            ROUNDS,
            || speed(|| judge(black_box(text), 12).is_some()),
            || speed(|| peer_judge(black_box(text), 12).is_some()),
            &format!(" {:>9.3} {:>9.2}", 1e3 / best, base / best),
        );
        for peer in &peers {
            peer.judge(text, false, || speed(|| judge(black_box(text), 12).is_some()), |work| speed(work));
        }
    }
    let mut reader = jwe::Reader::new();
    jwe::measure(&mut reader, &peers);
    writing::measure(&mut reader);
    differing::measure();
    hostile::measure(&mut reader);
}
