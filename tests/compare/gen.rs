// Random cases. The same seed gives the same cases.
use crate::published::{hex, spell};
use crate::common::*;
use elements_miniscript::miniscript::lex::lex;

const KEYS: [u8; 4] = [2, 3, 4, 6];

/// Index constants up to here have a form that `lex` reads back.
const NARROW: u64 = 0x7fff_ffff;

struct Random(u64);
impl Random {
    fn next(&mut self) -> u64 {
        self.0 = self.0.wrapping_add(0x9e3779b97f4a7c15);
        let z = (self.0 ^ self.0 >> 30).wrapping_mul(0xbf58476d1ce4e5b9);
        let z = (z ^ z >> 27).wrapping_mul(0x94d049bb133111eb);
        z ^ z >> 31
    }
    fn below(&mut self, n: usize) -> usize {
        (self.next() % n as u64) as usize
    }
    fn of<T: Copy>(&mut self, all: &[T]) -> T {
        all[self.below(all.len())]
    }
    fn bytes(&mut self, n: usize) -> Vec<u8> {
        (0..n).map(|_| self.next() as u8).collect()
    }
    /// Any number from `least` on, its edges often.
    fn wide(&mut self, least: u64) -> u64 {
        match self.below(3) {
            0 => self.next().max(least),
            1 => (self.next() >> self.below(33)).max(least),
            _ => self.of(&[1 << 31, (1 << 32) - 1, 1 << 32, (1 << 63) - 1, 1 << 63, u64::MAX - 1, u64::MAX]).max(least),
        }
    }
    /// A time: small, now and then any.
    fn time(&mut self, small: usize) -> u64 {
        if self.below(6) > 0 { self.below(small) as u64 } else { self.wide(0) }
    }
    fn value(&mut self) -> i64 {
        match self.below(3) {
            0 => self.of(&[0, 1, -1, 2, -2, 7, -7, i64::MAX, i64::MIN, i64::MIN + 1, i64::MAX - 1]),
            1 => self.below(100) as i64 - 50,
            _ => self.next() as i64,
        }
    }
}

/// One of four keys, so that equal keys occur; each is the x coordinate of a point, so the real crate takes it.
fn key(r: &mut Random) -> Vec<u8> {
    let first = r.of(&KEYS);
    (0..32).map(|i| first + 7 * i).collect()
}

fn oracle(r: &mut Random, c: u8, out: &mut Vec<u8>) {
    out.push(c);
    out.extend(key(r));
    out.extend(r.time(8).to_le_bytes());
}

/// What the index expressions of a case are: any at all; with constants that a script has; with those that `lex` reads back; or such that at this current index the Rust is the
/// comparison.
#[derive(Clone, Copy)]
enum Indexes {
    Any,
    Pushed,
    Formed,
    Compared(u64),
}

fn index(r: &mut Random, size: usize, indexes: Indexes, out: &mut Vec<u8>) {
    if size < 2 {
        if r.below(3) == 0 {
            return out.push(2);
        }
        out.push(1);
        let n = match r.below(16) {
            0 if matches!(indexes, Indexes::Pushed) => r.of(&[16, 17, 127, 128, 32767, 32768, 0x7f_ffff, 0x80_0000, NARROW, NARROW + 1, 0xffff_ffff]),
            0 => r.of(&[16, 17, 127, 128, 255, 256, 32767, 32768, NARROW]),
            1 if matches!(indexes, Indexes::Pushed) => r.next() >> 32,
            1 if matches!(indexes, Indexes::Any) => r.wide(NARROW + 1),
            1 => r.next() % (NARROW + 1),
            _ => r.below(4) as u64,
        };
        return out.extend(n.to_le_bytes());
    }
    let left = r.below(size);
    index(r, left, indexes, out);
    index(r, size - 1 - left, indexes, out);
    out.push(r.of(&[3, 3, 4, 5, 6]));
}

fn looked_up(r: &mut Random, indexes: Indexes) -> Vec<u8> {
    loop {
        let (mut out, n) = (vec![], r.below(4));
        index(r, n, indexes, &mut out);
        match indexes {
            Indexes::Compared(current) if !compared(&out, current) => continue,
            _ => return out,
        }
    }
}

/// A value of about `size` operations. Its first terminal is the condition's first where `first` holds.
fn value(r: &mut Random, size: usize, first: bool, indexes: Indexes, out: &mut Vec<u8>) {
    if size < 2 {
        return match r.below(10) {
            0..=3 => {
                out.push(16);
                out.extend(r.value().to_le_bytes())
            }
            4 if !matches!(indexes, Indexes::Compared(current) if !compared(&[2], current)) => out.push(17),
            4..=7 => {
                out.extend(looked_up(r, indexes));
                out.push(r.of(&[18, 18, 19, 19, 20, 21]))
            }
            _ => {
                // now and then one that the oracle rules turn down
                let c = if first != (r.below(20) == 0) { 32 } else { 33 };
                oracle(r, c, out)
            }
        };
    }
    if r.below(5) == 0 {
        value(r, size - 1, first, indexes, out);
        return out.push(r.of(&[30, 31]));
    }
    let left = r.below(size);
    value(r, left, first, indexes, out);
    value(r, size - 1 - left, false, indexes, out);
    out.push(r.of(&[22, 22, 23, 23, 24, 25, 26, 27, 28, 29]));
}

fn condition(r: &mut Random, indexes: Indexes) -> Vec<u8> {
    let mut out = vec![];
    let (left, right) = match r.below(64) {
        0 => (r.below(200), r.below(200)),
        1..=8 => (r.below(40), r.below(40)),
        _ => (r.below(6), r.below(4)),
    };
    value(r, left, true, indexes, &mut out);
    value(r, right, false, indexes, &mut out);
    out.push(48 + r.below(5) as u8);
    out
}

fn amounts(r: &mut Random, n: usize) -> String {
    let all: Vec<String> = (0..n)
        .map(|_| match r.below(8) {
            0 => "x".into(),
            1 => (r.value() as u64).to_string(),
            _ => r.below(1000).to_string(),
        })
        .collect();
    if n == 0 { "-".into() } else { all.join(",") }
}

/// The time of a quote for a terminal with that time. Where the two differ the Rust's rule is not ours, but that both refuse a time that is negative as a signed
/// number for a terminal's that is not.
fn quoted(r: &mut Random, terminal: u64) -> u64 {
    if terminal < 1 << 63 && r.below(8) == 0 { r.wide(1 << 63) } else { terminal }
}

/// The elements of each terminal, those of the first on top; now and then three more below, and some missing or of a wrong width.
fn witness(r: &mut Random, terminals: &[u64]) -> String {
    let mut times: Vec<u64> = terminals.iter().map(|t| quoted(r, *t)).collect();
    if r.below(2) == 0 {
        times.push(r.time(4));
    }
    let mut all = vec![];
    for time in times.into_iter().rev() {
        let wrong = |r: &mut Random, n: usize| if r.below(25) == 0 { r.of(&[0, 1, 7, 9, 32, 63, 65]) } else { n };
        let n = wrong(r, 64);
        all.push(r.bytes(n));
        let n = wrong(r, 8);
        all.push(time.to_le_bytes().into_iter().cycle().take(n).collect());
        let n = wrong(r, 8);
        let price = if r.below(10) == 0 { r.next() } else { r.below(1000) as u64 };
        all.push(price.to_le_bytes().into_iter().cycle().take(n).collect());
    }
    let cut = if r.below(10) == 0 { r.below(all.len() + 1) } else { 0 };
    let all: Vec<String> = all[cut..].iter().map(|b| if b.is_empty() { ".".into() } else { hex(b) }).collect();
    if all.is_empty() { "-".into() } else { all.join(",") }
}

fn form(code: &[u8]) -> Option<Vec<Record>> {
    let script = tree(code).ok()?.push_to_builder(elements::script::Builder::new()).into_script();
    Some(lex(&script).ok()?.iter().map(record).collect())
}

/// A Num: small, or any of 32 bits.
fn num(r: &mut Random) -> Record {
    let n = if r.below(2) == 0 { r.of(&[0, 1, 1, 2, 300]) } else { r.wide(0).min(u32::MAX as u64) as u32 };
    Record(1, n.to_le_bytes().to_vec())
}

fn any(r: &mut Random) -> Record {
    match r.below(40) {
        k @ (0 | 4..=35) => Record(k as u8, vec![]),
        1 => num(r),
        3 => Record(3, key(r)),
        _ => Record(2, r.time(9).to_le_bytes().to_vec()),
    }
}

/// The places of index constants in a form: Nums that no Equal follows.
fn index_constants(all: &[Record]) -> Vec<usize> {
    (0..all.len()).filter(|&i| all[i].0 == 1 && all.get(i + 1).map_or(true, |next| next.0 != 14)).collect()
}

/// A token list: a form, with any index constants of 32 bits and other tokens before it, and often changed a little.
fn tokens(r: &mut Random) -> Vec<Record> {
    let mut all: Vec<Record> = (0..r.of(&[0, 0, 1, 2, 5, 14])).map(|_| any(r)).collect();
    let c = condition(r, Indexes::Formed);
    all.extend(form(&c).unwrap_or_default());
    for at in index_constants(&all) {
        if r.below(4) == 0 {
            all[at] = num(r);
        }
    }
    for _ in 0..r.of(&[0, 0, 0, 1, 1, 2, 4]) {
        if all.is_empty() {
            break;
        }
        let at = r.below(all.len());
        match r.below(4) {
            0 => drop(all.remove(at)),
            1 => all[at] = any(r),
            2 => all.insert(at, any(r)),
            _ => {
                // the later oracle form becomes the first's
                if let Some(w) = all.windows(13).position(|w| w[0].0 == 26 && w[1].0 == 25 && w[12].0 == 35) {
                    all.drain(w + 11..w + 13);
                    all.remove(w);
                }
            }
        }
    }
    all.split_off(all.len().saturating_sub(1024))
}

/// Every ninth case is one of scripts, with random numbers of its own, so that the others are what they are without it.
pub fn cases(seed: u64, count: usize, mut emit: impl FnMut(String)) {
    let (mut r, mut own) = (Random(seed), Random(!seed));
    for n in 0..count {
        emit(match n % 9 {
            8 => format!("S {}", hex(&condition(&mut own, Indexes::Pushed))),
            0 => format!("C {}", hex(&condition(&mut r, Indexes::Any))),
            // Write's bytes are read back by `lex`
            1 | 2 => format!("W {}", hex(&condition(&mut r, Indexes::Formed))),
            3 | 4 => {
                let all: Vec<String> = tokens(&mut r).iter().map(spell).collect();
                format!("D {}", if all.is_empty() { "-".into() } else { all.join(",") })
            }
            _ => {
                let (inputs, outputs) = (r.below(5), r.below(5));
                let at = if r.below(16) > 0 { r.below(inputs + 2) as u64 } else { r.wide(5) };
                let c = condition(&mut r, Indexes::Compared(at));
                let (s, o, i, k) = (amounts(&mut r, inputs), amounts(&mut r, outputs), amounts(&mut r, inputs), amounts(&mut r, inputs));
                let w = witness(&mut r, &times(&c));
                format!("E {} {at} {s} {o} {i} {k} {w}", hex(&c))
            }
        });
    }
}
