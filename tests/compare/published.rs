// The published Rust's answers, in document 01's numbers. A case is a line:
//   C code                                       -> number (0, 4, 5)
//   E code index spent outs iss reiss witness    -> number first second verdict checks left checkbytes   (lists: 7,x,9; x: not explicit)
//   W code                                       -> tokens, by push_to_builder and lex
//   S code                                       -> script, by push_to_builder
//   D tokens                                     -> start code, or 11
// Bytes are hex; - stands for an empty list, . for an empty witness element; a token is kind or kind:hex.
use crate::common::*;
use elements::confidential::Value as Amount;
use elements::script::Builder;
use elements::{AssetIssuance, Script, Transaction, TxIn, TxOut};
use elements_miniscript::extensions::{EvalError, ParseableExt, TxEnv};
use elements_miniscript::interpreter::{Element, Stack};
use elements_miniscript::miniscript::lex::{lex, TokenIter};

pub fn hex(b: &[u8]) -> String {
    if b.is_empty() {
        return "-".into();
    }
    b.iter().map(|x| format!("{:02x}", x)).collect()
}

pub fn unhex(s: &str) -> Vec<u8> {
    if s == "-" || s == "." {
        return vec![];
    }
    (0..s.len()).step_by(2).map(|i| u8::from_str_radix(&s[i..i + 2], 16).expect("hex")).collect()
}

pub fn list<T>(s: &str, f: impl Fn(&str) -> T) -> Vec<T> {
    if s == "-" { vec![] } else { s.split(',').map(f).collect() }
}

fn amounts(s: &str) -> Vec<Amount> {
    list(s, |x| if x == "x" { Amount::Confidential } else { Amount::Explicit(x.parse().expect("number")) })
}

fn numbers(e: &EvalError) -> (u64, u64, u64) {
    use EvalError::*;
    let two = |n, a: usize, b: usize| (n, a as u64, b as u64);
    let one = |n, a: usize| (n, a as u64, 0);
    let signed = |n, a: i64, b: i64| (n, a as u64, b as u64);
    match *e {
        UtxoIndexOutOfBounds(a, b) => two(20, a, b),
        NonExplicitInput(a) => one(21, a),
        OutputIndexOutOfBounds(a, b) => two(22, a, b),
        NonExplicitOutput(a) => one(23, a),
        InputIndexOutOfBounds(a, b) => two(24, a, b),
        NonExplicitInputIssuance(a) => one(25, a),
        NonExplicitInputReIssuance(a) => one(26, a),
        AddOverflow(a, b) => signed(27, a, b),
        SubOverflow(a, b) => signed(28, a, b),
        MulOverflow(a, b) => signed(29, a, b),
        DivOverflow(a, b) => signed(30, a, b),
        ModOverflow(a, b) => signed(31, a, b),
        NegOverflow(a) => signed(32, a, 0),
        MissingPrice => (33, 0, 0),
        Price8BytePush => (34, 0, 0),
        MissingTimestamp => (35, 0, 0),
        Timstamp8BytePush => (36, 0, 0),
        MissingOracleSignature => (37, 0, 0),
        MalformedSig => (38, 0, 0),
        TimestampInFuture => (39, 0, 0),
        PriceOverflow => (40, 0, 0),
        TxEnvNotPresent | InvalidSignature => unreachable!("the stand-in's check answers yes"),
    }
}

pub fn evaluate(f: &[&str]) -> String {
    let c = match tree(&unhex(f[1])) {
        Ok(c) => c,
        Err(n) => return n.to_string(),
    };
    let spent: Vec<TxOut> = amounts(f[3]).into_iter().map(|value| TxOut { value }).collect();
    let output = amounts(f[4]).into_iter().map(|value| TxOut { value }).collect();
    let input = amounts(f[5]).into_iter().zip(amounts(f[6]));
    let input = input.map(|(amount, inflation_keys)| TxIn { asset_issuance: AssetIssuance { amount, inflation_keys } }).collect();
    let tx = Transaction { input, output };
    let Some(env) = TxEnv::new(&tx, &spent, f[2].parse().expect("index")) else { return "8".into() };
    let elements = list(f[7], unhex);
    let mut stack = Stack::from(elements.iter().map(Element::from).collect::<Vec<_>>());
    bitcoin::forget();
    let (n, a, b, verdict) = match c.eval(&env, &mut stack) {
        Ok(v) => (0, 0, 0, v as u8),
        Err(e) => {
            let (n, a, b) = numbers(&e);
            (n, a, b, 0)
        }
    };
    let checks = bitcoin::taken();
    format!("{n} {a} {b} {verdict} {} {} {}", checks.len() / 112, stack.len(), hex(&checks))
}

fn built(code: &[u8]) -> Result<Script, u64> {
    Ok(tree(code)?.push_to_builder(Builder::new()).into_script())
}

pub fn script(f: &[&str]) -> String {
    built(&unhex(f[1])).map_or_else(|n| n.to_string(), |script| hex(&script[0..]))
}

pub fn form(code: &[u8]) -> Result<Vec<Record>, u64> {
    Ok(lex(&built(code)?).expect("a form that the builder made").iter().map(record).collect())
}

pub fn write(f: &[&str]) -> String {
    let code = unhex(f[1]);
    match form(&code) {
        Err(n) => n.to_string(),
        Ok(all) => {
            assert_eq!(all.len(), tokens(&code), "tokens counted by the commands");
            all.iter().map(spell).collect::<Vec<_>>().join(",")
        }
    }
}

pub fn spell(r: &Record) -> String {
    if r.1.is_empty() { r.0.to_string() } else { format!("{}:{}", r.0, hex(&r.1)) }
}

pub fn records(s: &str) -> Vec<Record> {
    list(s, |t| {
        let (k, b) = t.split_once(':').unwrap_or((t, "-"));
        Record(k.parse().expect("kind"), unhex(b))
    })
}

/// What from_tokens answers, by from_token_iter, which takes off what was read.
pub fn decode(f: &[&str]) -> String {
    let records = records(f[1]);
    let mut tokens = TokenIter::new(records.iter().map(token).collect());
    match Cond::from_token_iter(&mut tokens) {
        Ok(c) => format!("{} {}", tokens.len(), hex(&code(&c))),
        Err(_) => "11".into(),
    }
}
