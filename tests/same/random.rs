//! Random pairs of spelled trees: the proved code against a plain comparison of the trees.
extern "C" {
    fn probe_same(s: *const u8, n: usize, t: *const u8, m: usize) -> u32;
}
struct R(u64);
impl R {
    fn n(&mut self, k: u64) -> u64 {
        self.0 ^= self.0 << 13;
        self.0 ^= self.0 >> 7;
        self.0 ^= self.0 << 17;
        self.0 % k
    }
}
#[derive(Clone)]
enum V {
    O(Vec<(u32, V)>),
    A(Vec<V>),
    S(u32),
    N(&'static str),
    L(&'static str),
}
#[derive(Clone)]
struct T {
    own: String,
    k: K,
}
#[derive(Clone)]
enum K {
    O(Vec<(u32, T)>),
    A(Vec<T>),
    S(u32),
    N(String),
    L(String),
}
const NUMS: [&str; 4] = ["1", "1.0", "-0", "10e1"];
const LITS: [&str; 3] = ["true", "false", "null"];
fn make(r: &mut R, d: u64) -> V {
    match r.n(if d == 0 { 3 } else { 6 }) {
        0 => V::S(r.n(4) as u32),
        1 => V::N(NUMS[r.n(4) as usize]),
        2 => V::L(LITS[r.n(3) as usize]),
        3 => V::A((0..r.n(4)).map(|_| make(r, d - 1)).collect()),
        _ => {
            let n = r.n(4);
            let mut o = vec![];
            for k in 0..n {
                let name = if r.n(8) == 0 { r.n(4) as u32 } else { k as u32 };
                o.push((name, make(r, d - 1)));
            }
            V::O(o)
        }
    }
}
fn sp(r: &mut R, loose: bool) -> &'static str {
    if loose && r.n(4) == 0 {
        [" ", "\n", "\t "][r.n(3) as usize]
    } else {
        ""
    }
}
fn word(r: &mut R, x: u32, loose: bool) -> String {
    let c = ["", "a", "b", "\u{e9}"][x as usize];
    if loose && r.n(3) == 0 {
        ["", "\\u0061", "\\u0062", "\\u00e9"][x as usize].to_string()
    } else {
        c.to_string()
    }
}
fn spell(r: &mut R, v: &V, loose: bool) -> T {
    match v {
        V::S(x) => T {
            own: format!("\"{}\"", word(r, *x, loose)),
            k: K::S(*x),
        },
        V::N(x) => T {
            own: x.to_string(),
            k: K::N(x.to_string()),
        },
        V::L(x) => T {
            own: x.to_string(),
            k: K::L(x.to_string()),
        },
        V::A(xs) => {
            let mut o = format!("[{}", sp(r, loose));
            let mut ts = vec![];
            for (i, x) in xs.iter().enumerate() {
                if i > 0 {
                    o += sp(r, loose);
                    o += ",";
                    o += sp(r, loose);
                }
                let t = spell(r, x, loose);
                o += &t.own;
                ts.push(t);
            }
            o += sp(r, loose);
            o += "]";
            T { own: o, k: K::A(ts) }
        }
        V::O(ms) => {
            let mut o = format!("{{{}", sp(r, loose));
            let mut ts = vec![];
            for (i, (n, x)) in ms.iter().enumerate() {
                if i > 0 {
                    o += sp(r, loose);
                    o += ",";
                    o += sp(r, loose);
                }
                o += &format!("\"{}\"", word(r, *n, loose));
                o += sp(r, loose);
                o += ":";
                o += sp(r, loose);
                let t = spell(r, x, loose);
                o += &t.own;
                ts.push((*n, t));
            }
            o += sp(r, loose);
            o += "}";
            T { own: o, k: K::O(ts) }
        }
    }
}
fn change(r: &mut R, v: &V) -> V {
    match v {
        V::O(ms) => {
            let mut o: Vec<(u32, V)> = ms
                .iter()
                .map(|(n, x)| (*n, if r.n(3) == 0 { change(r, x) } else { x.clone() }))
                .collect();
            if o.len() > 1 && r.n(2) == 0 {
                let i = r.n(o.len() as u64) as usize;
                let j = r.n(o.len() as u64) as usize;
                o.swap(i, j);
            }
            if r.n(12) == 0 && !o.is_empty() {
                let i = r.n(o.len() as u64) as usize;
                o[i].0 = r.n(4) as u32;
            }
            V::O(o)
        }
        V::A(xs) => V::A(
            xs.iter()
                .map(|x| if r.n(3) == 0 { change(r, x) } else { x.clone() })
                .collect(),
        ),
        _ => {
            if r.n(4) == 0 {
                make(r, 0)
            } else {
                v.clone()
            }
        }
    }
}
fn twice(ms: &[(u32, T)]) -> bool {
    (0..ms.len()).any(|i| (0..i).any(|j| ms[i].0 == ms[j].0))
}
fn same(a: &T, b: &T) -> bool {
    match (&a.k, &b.k) {
        (K::S(x), K::S(y)) => x == y,
        (K::N(x), K::N(y)) => x == y,
        (K::L(x), K::L(y)) => x == y,
        (K::A(x), K::A(y)) => x.len() == y.len() && x.iter().zip(y).all(|(p, q)| same(p, q)),
        (K::O(x), K::O(y)) => {
            if twice(x) || twice(y) {
                a.own == b.own
            } else {
                x.len() == y.len() && x.iter().all(|(n, p)| y.iter().any(|(m, q)| n == m && same(p, q)))
            }
        }
        _ => false,
    }
}
/// Objects of up to some hundred members in another order, two levels of them, so that filters and tables are used: the same, or with
/// one name or one value changed, or one name repeated.
fn large(r: &mut R) {
    for _ in 0..3000 {
        let n = 30 + r.n(400) as usize;
        let inner = |x: usize| format!("{{{}}}", (0..x).map(|k| format!("\"{:x}\":{k}", k * 7919)).collect::<Vec<_>>().join(","));
        let deep = inner(60 + r.n(80) as usize);
        let member = |k: usize| (format!("{:x}", k * 104_729), if k % 100 == 3 { deep.clone() } else { k.to_string() });
        let left: Vec<(String, String)> = (0..n).map(member).collect();
        let mut right = left.clone();
        for i in (1..n).rev() {
            right.swap(i, r.n(i as u64 + 1) as usize);
        }
        let at = r.n(n as u64) as usize;
        let other = (at + 1 + r.n(n as u64 - 1) as usize) % n;
        let want = match r.n(5) {
            0 => {
                right[at].0.push('x');
                0
            }
            1 => {
                right[at].1 = "null".to_string();
                0
            }
            2 => {
                right[at].0 = right[other].0.clone();
                0
            }
            _ => 1,
        };
        let text = |ms: &[(String, String)], gap: &str| {
            format!("{{{gap}{}}}", ms.iter().map(|(a, b)| format!("\"{a}\":{b}")).collect::<Vec<_>>().join(","))
        };
        let (a, b) = (text(&left, ""), text(&right, " "));
        let got = unsafe { probe_same(a.as_ptr(), a.len(), b.as_ptr(), b.len()) };
        assert_eq!(got, want, "{a}\n{b}");
        assert_eq!(unsafe { probe_same(b.as_ptr(), b.len(), a.as_ptr(), a.len()) }, want);
    }
    println!("3000 pairs of large objects agree");
}

fn main() {
    large(&mut R(0x2545F4914F6CDD1D));
    let mut r = R(0x9E3779B97F4A7C15);
    let mut yes = 0;
    let mut rep = 0;
    let total = 300000;
    for _ in 0..total {
        let v = V::O(vec![(0, make(&mut r, 4)), (1, make(&mut r, 3))]);
        let w = if r.n(2) == 0 { v.clone() } else { change(&mut r, &v) };
        let la = r.n(2) == 0;
        let lb = r.n(2) == 0;
        let a = spell(&mut r, &v, la);
        let b = spell(&mut r, &w, lb);
        if let K::O(ms) = &a.k {
            if ms.iter().any(|(_, t)| matches!(&t.k, K::O(x) if twice(x))) {
                rep += 1;
            }
        }
        let got = unsafe { probe_same(a.own.as_ptr(), a.own.len(), b.own.as_ptr(), b.own.len()) };
        let want = same(&a, &b) as u32;
        yes += want;
        if got != want {
            println!("DIFFERS got {got} want {want}\n{}\n{}", a.own, b.own);
            return;
        }
    }
    println!("{total} pairs agree; {yes} the same; {rep} with a repeated name directly below");
}
