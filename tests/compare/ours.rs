// Our answers to the same lines, from the archive. Buffers have the room that the calls ask for, and an element more, which must be kept. Write and Decode are asked over
// number slices and over token records; where the two differ, both are the answer.
use crate::covenant::{self, Decoded, List, Record as TokenRecord, Written, MAX_CODE, MAX_ORACLES, MAX_SCRIPT, MAX_TOKENS};
use crate::published::{hex, list, records, spell, unhex};
use crate::common::Record;

fn amounts(s: &str) -> List {
    let mut l = List::default();
    for x in list(s, str::to_owned) {
        l.numbers.push(if x == "x" { 0 } else { x.parse().expect("number") });
        l.marks.push((x != "x") as u8);
    }
    l
}

pub fn check(f: &[&str]) -> String {
    covenant::check(&unhex(f[1])).number.to_string()
}

pub fn evaluate(f: &[&str]) -> String {
    let lists = [amounts(f[3]), amounts(f[4]), amounts(f[5]), amounts(f[6])];
    let (mut witness, mut ends) = (vec![], vec![]);
    for e in list(f[7], unhex) {
        witness.extend(e);
        ends.push(witness.len() as u32);
    }
    let mut checks = vec![0xa5; 112 * MAX_ORACLES + 1];
    let a = covenant::evaluate(&unhex(f[1]), &lists, f[2].parse().expect("index"), &witness, &ends, &mut checks);
    let n = 112 * a.checks as usize;
    assert!(checks[n..].iter().all(|b| *b == 0xa5), "bytes beyond the checks");
    if a.number != 0 && a.number < 20 {
        return a.number.to_string();
    }
    format!("{} {} {} {} {} {} {}", a.number, a.first, a.second, a.verdict, a.checks, a.left, hex(&checks[..n]))
}

/// What holds of both ways to ask.
fn one_answer(slices: String, records: String) -> String {
    if slices == records { slices } else { format!("{slices}, over records {records}") }
}

/// the keys that the records name, in the order of the first record that names each, are all the key bytes; a record names the place of its key there, and one that names
/// no key 0. The Rust has no key buffer, so that this is not compared.
fn in_token_order(all: &[TokenRecord], keys: &[u8]) {
    let named = |r: &TokenRecord| &keys[r.place as usize..][..32];
    let mut distinct: Vec<&[u8]> = vec![];
    for r in all.iter().filter(|r| r.kind == 3) {
        if !distinct.contains(&named(r)) {
            distinct.push(named(r));
        }
    }
    assert!(keys == distinct.concat(), "each key once, in the order of tokens");
    for r in all {
        let place = if r.kind == 3 { 32 * distinct.iter().position(|k| *k == named(r)).unwrap() } else { 0 };
        assert_eq!(r.place as usize, place, "the place of a key");
    }
}

/// Write's answer, from the records that it wrote; `kept` is what stands in those beyond the count.
fn form(a: Written, all: &[TokenRecord], kept: TokenRecord, keys: &[u8]) -> String {
    let n = a.records as usize;
    assert!(all[n..].iter().all(|r| *r == kept), "records beyond the count");
    assert!(keys[a.key_bytes as usize..].iter().all(|k| *k == 0xa5), "key bytes beyond the count");
    if a.number != 0 {
        return a.number.to_string();
    }
    in_token_order(&all[..n], &keys[..a.key_bytes as usize]);
    let data = |r: &TokenRecord| match r.kind {
        1 => (r.number as u32).to_le_bytes().to_vec(),
        2 => r.number.to_le_bytes().to_vec(),
        3 => keys[r.place as usize..][..32].to_vec(),
        _ => vec![],
    };
    all[..n].iter().map(|r| spell(&Record(r.kind, data(r)))).collect::<Vec<_>>().join(",")
}

pub fn write(f: &[&str]) -> String {
    const UNSET: TokenRecord = TokenRecord { kind: 0xa5, number: 5, place: 5 };
    let code = unhex(f[1]);
    let (mut kinds, mut numbers, mut places, mut keys) = (vec![0xa5; MAX_TOKENS + 1], vec![5; MAX_TOKENS + 1], vec![5; MAX_TOKENS + 1], vec![0xa5; 32 * MAX_ORACLES + 1]);
    let a = covenant::write(&code, &mut kinds, &mut numbers, &mut places, &mut keys);
    let columns: Vec<_> = (0..kinds.len()).map(|i| TokenRecord { kind: kinds[i], number: numbers[i], place: places[i] }).collect();
    let slices = form(a, &columns, UNSET, &keys);
    let mut all = vec![UNSET; MAX_TOKENS + 1];
    keys.fill(0xa5);
    let b = covenant::write_records(&code, &mut all, &mut keys);
    one_answer(slices, form(b, &all, UNSET, &keys))
}

pub fn script(f: &[&str]) -> String {
    let mut script = vec![0xa5; MAX_SCRIPT + 1];
    let a = covenant::write_script(&unhex(f[1]), &mut script);
    let n = a.script_bytes as usize;
    assert!(script[n..].iter().all(|b| *b == 0xa5), "bytes beyond the script");
    if a.number != 0 { a.number.to_string() } else { hex(&script[..n]) }
}

/// Decode's answer, from the code that it wrote.
fn reading(a: Decoded, code: &[u8]) -> String {
    assert!(code[a.code_bytes as usize..].iter().all(|b| *b == 0xa5), "bytes beyond the code");
    if a.number != 0 { a.number.to_string() } else { format!("{} {}", a.start, hex(&code[..a.code_bytes as usize])) }
}

pub fn decode(f: &[&str]) -> String {
    let (mut all, mut keys) = (vec![], vec![]);
    for Record(kind, data) in records(f[1]) {
        let number = if kind == 3 { 9 } else { data.iter().rev().fold(0, |n, b| n << 8 | *b as u64) };
        all.push(TokenRecord { kind, number, place: if kind == 3 { keys.len() as u32 } else { 77 } });
        if kind == 3 {
            keys.extend(data);
        }
    }
    let (kinds, numbers): (Vec<_>, Vec<_>) = all.iter().map(|r| (r.kind, r.number)).unzip();
    let places: Vec<_> = all.iter().map(|r| r.place).collect();
    let mut code = vec![0xa5; MAX_CODE + 1];
    let a = covenant::decode(&kinds, &numbers, &places, &keys, &mut code);
    let slices = reading(a, &code);
    code.fill(0xa5);
    let b = covenant::decode_records(&all, &keys, &mut code);
    one_answer(slices, reading(b, &code))
}
