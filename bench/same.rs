//! Two objects of many members compared (probe_same), by the order of the right one's: counted names, names without a pattern, and
//! names made to have one fingerprint. Arguments: numbers of members.

use std::time::Instant;

#[path = "../tests/host/colliding.rs"]
#[allow(dead_code)]
mod colliding;

extern "C" {
    fn probe_same(s: *const u8, n: usize, t: *const u8, m: usize) -> u32;
}

fn run(what: &str, s: &str, t: &str) {
    let start = Instant::now();
    let answer = unsafe { probe_same(s.as_ptr(), s.len(), t.as_ptr(), t.len()) };
    println!("  {what:26} {:>9.1} ms", start.elapsed().as_secs_f64() * 1e3);
    assert_eq!(answer, 1);
}

fn object(names: &[String], gap: &str) -> String {
    let members: Vec<String> = names.iter().map(|name| format!("\"{name}\":{gap}1")).collect();
    format!("{{{}}}", members.join(","))
}

fn orders(what: &str, names: &[String]) {
    let n = names.len();
    let left = object(names, "");
    println!("{n} members, {} octets, names {what}", left.len());
    let reversed: Vec<String> = names.iter().rev().cloned().collect();
    let mut shuffled = names.to_vec();
    let mut seed = 0x1234567u64;
    for i in (1..n).rev() {
        seed ^= seed << 13;
        seed ^= seed >> 7;
        seed ^= seed << 17;
        shuffled.swap(i, (seed % (i as u64 + 1)) as usize);
    }
    let mut rotated = names.to_vec();
    rotated.rotate_right(1);
    run("the same octets", &left, &left);
    run("one order, a space more", &left, &object(names, " "));
    run("reversed", &left, &object(&reversed, ""));
    run("shuffled", &left, &object(&shuffled, ""));
    run("rotated by one", &left, &object(&rotated, ""));
}

fn main() {
    for n in std::env::args()
        .skip(1)
        .map(|word| word.parse::<usize>().expect("a number of members"))
    {
        orders("counted", &(0..n).map(|k| format!("{k:05x}")).collect::<Vec<_>>());
        let mixed = |k: usize| (k as u64).wrapping_mul(0x9E3779B97F4A7C15) >> 24;
        orders(
            "without a pattern",
            &(0..n).map(|k| format!("{:010x}", mixed(k))).collect::<Vec<_>>(),
        );
        if n <= 2_000 {
            let bits = n.next_power_of_two().trailing_zeros() as usize;
            orders("of one fingerprint", &colliding::names(n, bits * 8));
        }
    }
}
