//! compare SEED COUNT: generates cases, asks the published Rust and the archive, and compares. Exits with 1 where an answer differs, and prints the shortest such case.
//! compare sample SEED COUNT: prints cases with the published Rust's answers, for the vectors.
#[allow(dead_code)]
mod common;
#[path = "../boundary/covenant.rs"]
mod covenant;
mod gen;
mod ours;
mod published;
use std::collections::BTreeMap;
use std::panic::{catch_unwind, resume_unwind};

fn published_answer(f: &[&str]) -> String {
    match f[0] {
        "C" => common::tree(&published::unhex(f[1])).err().unwrap_or(0).to_string(),
        "E" => published::evaluate(f),
        "W" => published::write(f),
        "S" => published::script(f),
        _ => published::decode(f),
    }
}

fn our_answer(f: &[&str]) -> String {
    match f[0] {
        "C" => ours::check(f),
        "E" => ours::evaluate(f),
        "W" => ours::write(f),
        "S" => ours::script(f),
        _ => ours::decode(f),
    }
}

/// The published Rust has no bound on tokens: a condition of more than 1,024 must have document 01's 3, whatever the Rust answers.
fn too_long(f: &[&str]) -> bool {
    f[0] != "D" && common::tokens(&published::unhex(f[1])) > 1024
}

/// The published Rust answers None both where no tail can be read (11) and where its oracle rule turns the condition down (4 or 5).
fn alike<'a>(call: &str, answer: &'a str) -> &'a str {
    if call == "D" && (answer == "4" || answer == "5") { "11" } else { answer }
}

/// The number that an answer begins with; that of a form, a script or a reading is 0.
fn number(call: &str, answer: &str) -> String {
    match call {
        "W" | "S" if answer.len() > 2 => "0".into(),
        "D" if answer.contains(' ') => "0".into(),
        _ => answer.split(' ').next().unwrap().into(),
    }
}

/// The far parts of the domain that a case is in.
fn far(f: &[&str]) -> Vec<&'static str> {
    let mut parts = vec![];
    if f[0] == "D" {
        if published::records(f[1]).iter().any(|r| r.0 == 1 && u32::from_le_bytes(r.1[..].try_into().unwrap()) > 300) {
            parts.push("a Num above 300");
        }
        return parts;
    }
    let code = published::unhex(f[1]);
    let all = common::instructions(&code);
    if all.iter().any(|(c, n)| *c == 1 && common::le64(n) > 0x7fff_ffff) {
        parts.push("an index constant above 2^31 - 1");
    }
    if common::times(&code).iter().any(|t| *t >= 1 << 63) {
        parts.push("a terminal's time of 2^63 or more");
    }
    if f[0] == "E" && f[2].parse::<u64>().expect("index") > 5 {
        parts.push("a current index far beyond the inputs");
    }
    parts
}

fn run() -> i32 {
    let args: Vec<String> = std::env::args().skip(1).collect();
    let sample = args[0] == "sample";
    let at = sample as usize;
    let (seed, count) = (args[at].parse().expect("seed"), args[at + 1].parse().expect("count"));
    let mut tally: BTreeMap<(String, String), u64> = BTreeMap::new();
    let mut parts: BTreeMap<(String, &str), u64> = BTreeMap::new();
    let mut differs: Option<String> = None;
    gen::cases(seed, count, |case| {
        let f: Vec<&str> = case.split(' ').collect();
        if sample {
            return println!("{case} => {}", published_answer(&f));
        }
        let asked = catch_unwind(|| (if too_long(&f) { "3".into() } else { published_answer(&f) }, our_answer(&f)));
        let (wanted, given) = asked.unwrap_or_else(|e| {
            println!("ended at {case}");
            resume_unwind(e)
        });
        *tally.entry((f[0].into(), number(f[0], &given))).or_default() += 1;
        for part in far(&f) {
            *parts.entry((f[0].into(), part)).or_default() += 1;
        }
        if wanted != alike(f[0], &given) && differs.as_ref().map_or(true, |d| case.len() < d.len()) {
            differs = Some(format!("{case}\n  wanted {wanted}\n  ours   {given}"));
        }
    });
    for ((call, number), n) in &tally {
        println!("{call} {number:8} {n:8}");
    }
    for ((call, part), n) in &parts {
        println!("{call} with {part}: {n}");
    }
    if let Some(d) = &differs {
        println!("differs: {d}");
    } else if !sample {
        println!("{count} cases, no difference");
    }
    differs.is_some() as i32
}

fn main() {
    // deep trees: the source recurses
    let status = std::thread::Builder::new().stack_size(256 << 20).spawn(run).unwrap().join().unwrap();
    std::process::exit(status);
}
