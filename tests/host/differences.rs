//! Compares jwe_differences with the second implementation: on pairs written by hand, whose lines are set down with them;
//! on each two of the published messages and samples; on long and large ones; and on pairs made by chance.
//!
//! Every call is judged by its numbers and the whole of its memory: the list, the octets beside it, and what was lent to be
//! read only.

use crate::jwe::difference_cases::{self, Case};
use crate::jwe::pairs::made_pair;
use crate::jwe::second_differences::{differences, Differences};
use crate::jwe::{as_numbers, numbers, octets};
use crate::lent::Lent;
use crate::library;
use crate::random::Random;
use crate::reference::Reference;
use std::path::Path;
use std::process::exit;

/// As many numbers as are lent at most: the room that is always enough, and some.
const ROOM: usize = 12_408;
const MORE: usize = 100;
const LONGEST: usize = (16 << 20) + 1;
const KINDS: usize = 12;

pub struct Differ {
    left: Lent,
    right: Lent,
    known: Lent,
    list: Lent,
    /// Random octets, which a list holds before a call.
    canary: Vec<u8>,
    calls: usize,
    /// Lines by kind; pairs by how many were refused; calls whose list was too short.
    kinds: [u64; KINDS],
    refused: [u64; 3],
    short: u64,
    same: u64,
}

impl Differ {
    pub fn new(random: &mut Random) -> Self {
        let list = 4 * (ROOM + MORE);
        Differ {
            left: Lent::new(LONGEST),
            right: Lent::new(LONGEST),
            known: Lent::new(1 << 14),
            list: Lent::new(list),
            canary: (0..list + 4096).map(|_| random.next() as u8).collect(),
            calls: 0,
            kinds: [0; KINDS],
            refused: [0; 3],
            short: 0,
            same: 0,
        }
    }

    /// Makes a call with a list of so many numbers, and says what is otherwise than expected.
    fn fault(&mut self, inputs: [&[u8]; 3], room: usize, expected: &Differences) -> Option<String> {
        self.calls += 1;
        let at_end = self.calls % 4 > 0;
        for (lent, input) in [&mut self.left, &mut self.right, &mut self.known].into_iter().zip(inputs) {
            lent.lend(input, at_end, self.calls as u8);
        }
        self.list.lend(&self.canary[self.calls % 4096..][..4 * room], at_end, self.calls as u8);
        self.list.expect(0, &octets(&expected.lines.concat()));
        let lent = [&*self.left.buffer(), &*self.right.buffer(), &*self.known.buffer()];
        let answer = library::differences(lent, as_numbers(&mut self.list));
        let awaited = (expected.own, expected.refusals, expected.lines.len());
        if answer != awaited {
            return Some(format!("own number, refusals and lines\nexpected {awaited:?}\n     got {answer:?}"));
        }
        for (name, lent) in [("left", &self.left), ("right", &self.right), ("known names", &self.known)] {
            if lent.compared().0 != lent.compared().1 {
                return Some(format!("{name}, which is only lent to be read, with its margin"));
            }
        }
        let (expected, got) = self.list.compared();
        (expected != got).then(|| {
            let (expected, got) = (numbers(expected), numbers(got));
            let at = (0..expected.len()).find(|&at| expected[at] != got[at]).unwrap_or(0);
            let (from, to) = (at.saturating_sub(16), expected.len().min(at + 16));
            let shown = format!("list with its margin, from number {from} on");
            format!("{shown}\nexpected {:?}\n     got {:?}", &expected[from..to], &got[from..to])
        })
    }

    /// Compares an answer, the list having so many numbers. Where it is another, the messages are made as short as they can be,
    /// shown, and the program ends.
    fn compare(&mut self, name: &str, inputs: [&[u8]; 3], room: usize, full: &Differences) {
        let expected = full.clone().with_room(room);
        if self.fault(inputs, room, &expected).is_none() {
            return;
        }
        let [left, right, known] = inputs;
        let mut two = [left.to_vec(), right.to_vec()];
        let enough = ROOM.max(room);
        let mut differ = |two: &[Vec<u8>; 2], room| {
            let inputs = [&two[0][..], &two[1][..], known];
            self.fault(inputs, room, &differences(inputs[0], inputs[1], known).with_room(room))
        };
        // With room the lines show; what has to do with the room alone is not cut down.
        if differ(&two, enough).is_some() {
            for _ in 0..2 {
                for which in [&[0usize, 1][..], &[0], &[1]] {
                    cut_down(&mut two, which, |two| differ(two, enough).is_some());
                }
            }
        }
        let room = if differ(&two, enough).is_some() { enough } else { room };
        let fault = differ(&two, room).unwrap_or_default();
        println!("MISMATCH in jwe_differences, {name}, with a list of {room} numbers");
        for (side, text) in ["left", "right"].iter().zip(&two) {
            println!("{side:>8} {} ({} octets)", text[..text.len().min(20_000)].escape_ascii(), text.len());
        }
        println!("   known {}\n  differ {fault}", known.escape_ascii());
        exit(1)
    }

    /// With the list exactly full, one number and one line short, empty, and longer.
    fn all_rooms(&mut self, name: &str, inputs: [&[u8]; 3]) -> Differences {
        let full = differences(inputs[0], inputs[1], inputs[2]);
        let n = 8 * full.lines.len();
        assert!(n <= ROOM, "{name}: {n} numbers");
        for room in [n, n.saturating_sub(1), n.saturating_sub(8), n / 2, 0, n + 1, ROOM] {
            self.compare(name, inputs, room, &full);
        }
        full
    }

    /// With the list exactly full, and one number short.
    pub fn pair(&mut self, name: &str, inputs: [&[u8]; 3]) {
        let full = differences(inputs[0], inputs[1], inputs[2]);
        let n = 8 * full.lines.len();
        self.compare(name, inputs, n, &full);
        if n > 0 {
            self.compare(name, inputs, n - 1, &full);
        }
    }

    /// Each message with itself has no line.
    fn with_itself(&mut self, name: &str, message: &[u8], known: &[u8]) {
        let full = self.all_rooms(name, [message, message, known]);
        assert!(full.lines.is_empty(), "{name} differs from itself: {:?}", full.lines);
    }

    fn by_hand(&mut self) -> usize {
        let cases = difference_cases::all();
        for Case { name, left, right, known, refusals, lines } in &cases {
            let full = self.all_rooms(name, [left, right, known]);
            if (full.refusals, &full.lines) != (*refusals, lines) {
                println!("MISMATCH in the second differences, {name}\nexpected {refusals:?} {lines:?}\n     got {full:?}");
                exit(1);
            }
            self.with_itself(name, left, known);
            self.with_itself(name, right, known);
        }
        cases.len()
    }

    /// Every published message and sample with itself and with each other. Answers how many pairs.
    fn published(&mut self) -> usize {
        let here = Path::new(file!()).parent().expect("a directory");
        let folders = [here.join("../vectors"), here.join("../../samples")];
        let files = folders.iter().flat_map(|folder| std::fs::read_dir(folder).expect("messages"));
        let mut paths: Vec<_> = files.map(|file| file.expect("a message").path()).collect();
        paths.retain(|path| path.extension().is_some_and(|extension| extension == "jwe"));
        paths.sort();
        let messages: Vec<Vec<u8>> = paths.iter().map(|path| std::fs::read(path).expect("a message")).collect();
        for (path, left) in paths.iter().zip(&messages) {
            self.with_itself(&path.display().to_string(), left, &[0]);
            for (other, right) in paths.iter().zip(&messages) {
                self.all_rooms(&format!("{} and {}", path.display(), other.display()), [left, right, &[0]]);
            }
        }
        messages.len() * messages.len()
    }

    /// Long and large ones, with room.
    fn large(&mut self) -> usize {
        let cases = difference_cases::large();
        for Case { name, left, right, known, refusals, lines } in &cases {
            let inputs = [&left[..], right, known];
            let full = differences(left, right, known);
            if (full.refusals, &full.lines) != (*refusals, lines) {
                println!("MISMATCH in the second differences, {name}\nexpected {refusals:?} {lines:?}\n     got {full:?}");
                exit(1);
            }
            self.compare(name, inputs, 8 * lines.len(), &full);
        }
        cases.len()
    }

    fn by_chance(&mut self, random: &mut Random, reference: &Reference) {
        let [left, right, known] = made_pair(random, reference);
        let full = differences(&left, &right, &known);
        let n = 8 * full.lines.len();
        let room = match random.below(8) {
            0 | 1 => n,
            2 => n.saturating_sub(1),
            3 => n.saturating_sub(8),
            4 => random.below(n + 1),
            5 => n + random.below(8),
            6 => ROOM + random.below(MORE),
            _ => n + random.below(MORE),
        };
        self.compare("made by chance", [&left, &right, &known], room, &full);
        if random.below(4) == 0 {
            self.pair("made by chance, the sides exchanged", [&right, &left, &known]);
        }
        self.refused[full.refusals.iter().filter(|refusal| **refusal != 0).count()] += 1;
        self.same += (full.refusals == [0, 0] && full.lines.is_empty()) as u64;
        self.short += (n > room) as u64;
        full.lines.iter().for_each(|line| self.kinds[line[0] as usize] += 1);
    }
}

/// Takes parts out of these of the two texts while a test holds.
fn cut_down(two: &mut [Vec<u8>; 2], which: &[usize], mut holds: impl FnMut(&[Vec<u8>; 2]) -> bool) {
    let longest = two.iter().map(Vec::len).max().unwrap_or(0);
    let mut length = longest / 2;
    while length > longest / 5000 {
        let mut at = 0;
        while which.iter().all(|&i| at + length <= two[i].len()) {
            let mut shorter = two.clone();
            which.iter().for_each(|&i| drop(shorter[i].drain(at..at + length)));
            if holds(&shorter) {
                *two = shorter;
            } else {
                at += length;
            }
        }
        length /= 2;
    }
}

/// All of it. Answers whether every kind of line was met, refused messages, and lists that were too short.
pub fn compare(random: &mut Random) -> bool {
    const PAIRS: usize = 100_000;

    let reference = Reference::new();
    let mut differ = Differ::new(random);
    let cases = differ.by_hand();
    let pairs = differ.published();
    let large = differ.large();
    let calls = differ.calls;
    println!("differences: {cases} pairs by hand, {pairs} of published messages and samples, {large} large: {calls} calls");
    for _ in 0..PAIRS {
        differ.by_chance(random, &reference);
    }
    let [neither, one, both] = differ.refused;
    let same = differ.same;
    println!("differences: {PAIRS} pairs by chance: {neither} accepted, {same} the same; one refused {one}, both {both}");
    let kinds: Vec<String> = differ.kinds.iter().enumerate().map(|(kind, count)| format!("{kind}: {count}")).collect();
    println!("differences: lines by kind {}; lists too short {}", kinds.join(", "), differ.short);
    !differ.kinds.contains(&0) && !differ.refused.contains(&0) && differ.short > 0 && differ.same > 0
}
