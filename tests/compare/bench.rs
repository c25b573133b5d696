//! bench FILE: for each line of bench/shapes.py the time of the published Rust's calls, in nanoseconds, the least of 40 rounds: new, eval, push_to_builder, from_tokens, and
//! push_to_builder again, which both Write and Script are held against.
//! bench FILE LINE CALL: makes that one call ten times, for callgrind.
#[allow(dead_code)]
mod common;
use common::*;
use elements::confidential::Value as Amount;
use elements::script::Builder;
use elements::{AssetIssuance, Transaction, TxIn, TxOut};
use elements_miniscript::extensions::{SpkExpr, TxEnv};
use elements_miniscript::interpreter::{Element, Stack};
use elements_miniscript::miniscript::lex::{lex, Token};
use std::hint::black_box;
use std::time::Instant;

type Sides = (Value, Value);

#[no_mangle]
#[inline(never)]
fn bench_new(op: u8, (x, y): Sides) -> Cond {
    SpkExpr::compared(op, x, y).unwrap()
}

#[no_mangle]
#[inline(never)]
fn bench_eval(c: &Cond, env: &TxEnv, s: &mut Stack) -> bool {
    c.eval(env, s).unwrap()
}

#[no_mangle]
#[inline(never)]
fn bench_write(c: &Cond) -> Builder {
    c.push_to_builder(Builder::new())
}

#[no_mangle]
#[inline(never)]
fn bench_decode(t: &[Token]) -> usize {
    SpkExpr::from_tokens(t).unwrap().1
}

/// Ten calls where `once` holds, else the least time of 40 rounds; what `f` is given is made outside the time.
fn least<T>(once: bool, mut make: impl FnMut() -> T, mut f: impl FnMut(T)) -> f64 {
    if once {
        (0..10).for_each(|_| f(make()));
        return 0.0;
    }
    (0..40)
        .map(|_| {
            let given: Vec<T> = (0..20).map(|_| make()).collect();
            let start = Instant::now();
            given.into_iter().for_each(&mut f);
            start.elapsed().as_nanos() as f64 / 20.0
        })
        .fold(f64::MAX, f64::min)
}

fn row(code: &[u8], only: Option<usize>) -> [f64; 5] {
    let c = tree(code).unwrap();
    let amount = Amount::Explicit(1);
    let spent = vec![TxOut { value: amount }; 4];
    let tx = Transaction {
        input: vec![TxIn { asset_issuance: AssetIssuance { amount, inflation_keys: amount } }; 4],
        output: spent.clone(),
    };
    let env = TxEnv::new(&tx, &spent, 1).unwrap();
    let (sig, times, price) = ([5u8; 64], times(code).iter().rev().map(|t| t.to_le_bytes()).collect::<Vec<_>>(), 1u64.to_le_bytes());
    let stack = Stack::from(times.iter().flat_map(|time| [&sig[..], time, &price].map(Element::from)).collect::<Vec<_>>());
    let script = c.push_to_builder(Builder::new()).into_script();
    let tokens = lex(&script).unwrap();
    assert!(SpkExpr::from_tokens(&tokens) == Some((c.clone(), 0)));
    let (op, x, y) = SpkExpr::sides(&c);
    let once = only.is_some();
    let wanted = |i| only.is_none_or(|n| n == i);
    let mut kept = vec![];
    let mut answer = [0.0; 5];
    if wanted(0) {
        // what `Arith::new` made is dropped outside the time
        answer[0] = least(once, || (x.clone(), y.clone()), |s| kept.push(bench_new(op, s)));
    }
    if wanted(1) {
        answer[1] = least(once, || stack.clone(), |mut s| {
            bitcoin::forget();
            black_box(bench_eval(black_box(&c), &env, &mut s));
        });
    }
    for i in [2, 4].into_iter().filter(|i| wanted(*i)) {
        answer[i] = least(once, || (), |()| {
            black_box(bench_write(black_box(&c)));
        });
    }
    if wanted(3) {
        answer[3] = least(once, || (), |()| {
            black_box(bench_decode(black_box(&tokens)));
        });
    }
    answer
}

fn run() {
    let args: Vec<String> = std::env::args().skip(1).collect();
    let text = std::fs::read_to_string(&args[0]).expect("the lines of shapes.py");
    let pick: Option<(usize, usize)> = args.get(2).map(|c| (args[1].parse().unwrap(), c.parse().unwrap()));
    for (n, line) in text.lines().enumerate() {
        let f: Vec<&str> = line.split(' ').collect();
        let code: Vec<u8> = (0..f[2].len()).step_by(2).map(|i| u8::from_str_radix(&f[2][i..i + 2], 16).unwrap()).collect();
        match pick {
            Some((at, call)) if at == n => {
                row(&code, Some(call));
            }
            Some(_) => (),
            None => {
                let times = row(&code, None).map(|t| format!(" {t:.0}")).concat();
                println!("{} {}{times}", f[0], f[1]);
            }
        }
    }
}

fn main() {
    std::thread::Builder::new().stack_size(256 << 20).spawn(run).unwrap().join().unwrap();
}
