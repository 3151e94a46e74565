// The check in plain Rust, to compare speed with: a byte map of the elements that trails pass.
// One set a line on standard input, as `kp 2 1,0 -1,0`; one verdict a line on standard output.
use std::io::{self, BufRead};

type Z = (i32, i32);

struct System {
    t: i32,
    n: i32,
    p: i32,
}

impl System {
    fn named(name: &str) -> System {
        match name {
            "kp" => System { t: 1, n: 2, p: 2 },
            "km" => System { t: -1, n: 2, p: 2 },
            "g5" => System { t: 0, n: 1, p: 5 },
            _ => panic!("no such system"),
        }
    }

    fn norm(&self, z: Z) -> i64 {
        let (x, y) = (z.0 as i64, z.1 as i64);
        x * x + self.t as i64 * x * y + self.n as i64 * y * y
    }

    fn divide(&self, z: Z) -> Option<Z> {
        if self.p == 2 {
            if z.0 & 1 != 0 {
                return None;
            }
            let h = z.0 / 2;
            Some((z.1 + self.t * h, -h))
        } else {
            let a = 2 * z.0 + z.1;
            if a % 5 != 0 {
                return None;
            }
            Some((a / 5, (2 * z.1 - z.0) / 5))
        }
    }

    fn same_class(&self, w: u32, z: Z, d: Z) -> bool {
        let mut r = (z.0 - d.0, z.1 - d.1);
        for _ in 0..w {
            match self.divide(r) {
                Some(q) => r = q,
                None => return false,
            }
        }
        true
    }

    fn step(&self, w: u32, digits: &[Z], z: Z) -> Z {
        if let Some(q) = self.divide(z) {
            return q;
        }
        for &d in digits {
            if self.same_class(w, z, d) {
                return self.divide((z.0 - d.0, z.1 - d.1)).unwrap();
            }
        }
        panic!("not full")
    }
}

const UNKNOWN: u8 = 0;
const ON_THE_WAY: u8 = 1;
const ENDS: u8 = 2;
const RETURNS: u8 = 3;

fn check(s: &System, w: u32, digits: &[Z]) -> Option<(Z, usize, usize)> {
    let largest = digits.iter().map(|&d| s.norm(d)).max().unwrap();
    let bound = 6 * largest / (2 * (s.p as i64).pow(w) - 3);
    let mut reach = 0i32;
    while 3 * ((reach + 1) as i64).pow(2) <= 4 * 6 * largest {
        reach += 1;
    }
    let side = (2 * reach + 1) as usize;
    let place = |z: Z| (z.0 + reach) as usize * side + (z.1 + reach) as usize;
    let mut map = vec![UNKNOWN; side * side];
    map[place((0, 0))] = ENDS;
    let mut first: Option<(i64, Z)> = None;
    let mut path = Vec::new();
    for x in -reach..=reach {
        for y in -reach..=reach {
            let norm = s.norm((x, y));
            if norm > bound {
                continue;
            }
            let mut z = (x, y);
            while map[place(z)] == UNKNOWN {
                map[place(z)] = ON_THE_WAY;
                path.push(z);
                z = s.step(w, digits, z);
            }
            let end = if map[place(z)] == ENDS { ENDS } else { RETURNS };
            for q in path.drain(..) {
                map[place(q)] = end;
            }
            if map[place((x, y))] == RETURNS && first.map_or(true, |(n, f)| (norm, (x, y)) < (n, f)) {
                first = Some((norm, (x, y)));
            }
        }
    }
    let (_, z) = first?;
    let mut seen = std::collections::HashMap::new();
    let (mut at, mut k) = (z, 0usize);
    loop {
        if let Some(&i) = seen.get(&at) {
            return Some((z, i, k - i));
        }
        seen.insert(at, k);
        at = s.step(w, digits, at);
        k += 1;
    }
}

fn main() {
    for line in io::stdin().lock().lines() {
        let line = line.unwrap();
        let mut words = line.split_whitespace();
        let Some(name) = words.next() else { continue };
        let w: u32 = words.next().unwrap().parse().unwrap();
        let digits: Vec<Z> = words
            .map(|d| {
                let (x, y) = d.split_once(',').unwrap();
                (x.parse().unwrap(), y.parse().unwrap())
            })
            .collect();
        match check(&System::named(name), w, &digits) {
            None => println!("cleared"),
            Some((f, lead, period)) => println!("barred {},{} {} {}", f.0, f.1, lead, period),
        }
    }
}
