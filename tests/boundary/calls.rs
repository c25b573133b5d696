//! Calls the archive from Rust, on good and bad input.
mod covenant;
use covenant::{List, Record, ScriptWritten, MAX_CODE, MAX_ORACLES, MAX_SCRIPT, MAX_TOKENS};

fn main() {
    let header = include_str!("../../include/covenant.h");
    for (name, n) in [("CODE", MAX_CODE), ("TOKENS", MAX_TOKENS), ("ORACLES", MAX_ORACLES), ("SCRIPT", MAX_SCRIPT)] {
        assert!(header.contains(&format!("#define COVENANT_MAX_{name} {n}\n")), "the header's {name}");
    }
    let five = [16, 5, 0, 0, 0, 0, 0, 0, 0, 16, 5, 0, 0, 0, 0, 0, 0, 0, 48];
    assert_eq!(covenant::check(&five), covenant::Checked { number: 0, place: 0 });
    assert_eq!(covenant::check(&five[..9]), covenant::Checked { number: 2, place: 9 });

    let list = |numbers: &[u64], mark| List { numbers: numbers.to_vec(), marks: vec![mark; numbers.len()] };
    let lists = [list(&[7, 8], 1), list(&[], 1), list(&[0, 0], 0), list(&[0, 0], 0)];
    let less_one = [2, 1, 1, 0, 0, 0, 0, 0, 0, 0, 4, 18, 16, 7, 0, 0, 0, 0, 0, 0, 0, 48];
    let at = |current| covenant::evaluate(&less_one, &lists, current, &[], &[], &mut []);
    assert_eq!((at(0).number, at(0).verdict), (43, 0));
    assert_eq!((at(1).number, at(1).verdict), (0, 1));
    assert_eq!((at(9).number, at(9).first, at(9).second), (20, 8, 2));

    let (mut kinds, mut numbers, mut places, mut keys) = ([9; 4], [9; 4], [9; 4], [9; 1]);
    let w = covenant::write(&five, &mut kinds, &mut numbers, &mut places, &mut keys);
    assert_eq!((w.number, w.records, w.key_bytes), (0, 3, 0));
    assert_eq!((kinds, numbers, places, keys), ([2, 2, 14, 9], [5, 5, 0, 9], [0, 0, 0, 9], [9]));

    let mut code = [0xa5; MAX_CODE + 1];
    let d = covenant::decode(&kinds[..3], &numbers, &places, &[], &mut code);
    assert_eq!((d.number, d.code_bytes, d.start), (0, 19, 0));
    assert!(code[..19] == five && code[19..].iter().all(|b| *b == 0xa5));
    assert_eq!(covenant::decode(&kinds, &numbers, &places, &[], &mut code).number, 11);

    let right = [2, 25, 26, 2, 28, 15, 32, 33, 3, 34, 27, 14];
    let key_tokens = |kinds: &[u8], code: &mut [u8]| covenant::decode(kinds, &[0; 12], &[0; 12], &[7; 32], code).number;
    code.fill(0xa5);
    assert_eq!((key_tokens(&right, &mut code), key_tokens(&right[..11], &mut code)), (5, 11));
    assert!(code.iter().all(|b| *b == 0xa5));

    // three oracle terminals; the keys of the first and the last are equal, the second differs from them in its last byte
    let terminal = |c: u8, last: u8| [&[c][..], &[7; 31], &[last], &[5, 0, 0, 0, 0, 0, 0, 0]].concat();
    let three = [&terminal(32, 9)[..], &terminal(33, 8), &[27], &terminal(33, 9), &[27], &five[9..]].concat();
    let (mut form, mut amounts, mut at, mut two) = ([9; 40], [9; 40], [9; 40], [9; 65]);
    assert_eq!(covenant::write(&three, &mut form, &mut amounts, &mut at, &mut two[..63]).number, 7);
    assert!((form, amounts, at, two) == ([9; 40], [9; 40], [9; 40], [9; 65]));
    let w = covenant::write(&three, &mut form, &mut amounts, &mut at, &mut two);
    assert_eq!((w.number, w.records, w.key_bytes), (0, 40, 64));
    assert!(two[..] == [&[7; 31][..], &[9], &[7; 31], &[8], &[9]].concat());
    let places: Vec<u32> = (0..40).filter(|i| form[*i] == 3).map(|i| at[i]).collect();
    assert!(places == [0, 32, 0] && (0..40).all(|i| form[i] == 3 || at[i] == 0));
    let d = covenant::decode(&form, &amounts, &at, &two[..64], &mut code);
    assert!((d.number, d.start) == (0, 0) && code[..d.code_bytes as usize] == three);

    let unset = Record { kind: 9, number: 9, place: 9 };
    let token = |kind, number| Record { kind, number, place: 0 };
    let mut records = [unset; 4];
    assert_eq!(covenant::write_records(&five, &mut records[..2], &mut keys).number, 7);
    assert_eq!((records, keys), ([unset; 4], [9]));
    let w = covenant::write_records(&five, &mut records, &mut keys);
    assert_eq!((w.number, w.records, w.key_bytes), (0, 3, 0));
    assert_eq!((records, keys), ([token(2, 5), token(2, 5), token(14, 0), unset], [9]));
    code.fill(0xa5);
    assert_eq!(covenant::decode_records(&records, &[], &mut code).number, 11);
    assert_eq!(covenant::decode_records(&records[..3], &[], &mut code[..MAX_CODE - 1]).number, 7);
    assert!(code.iter().all(|b| *b == 0xa5));
    let d = covenant::decode_records(&records[..3], &[], &mut code);
    assert_eq!((d.number, d.code_bytes, d.start), (0, 19, 0));
    assert!(code[..19] == five && code[19..].iter().all(|b| *b == 0xa5));

    let mut script = [0xa5; MAX_SCRIPT + 1];
    let refused = |number, place| ScriptWritten { number, place, script_bytes: 0 };
    assert_eq!(covenant::write_script(&[], &mut []), refused(2, 0));
    assert_eq!(covenant::write_script(&five[..9], &mut script), refused(2, 9));
    assert_eq!(covenant::write_script(&five, &mut script[..18]), refused(7, 0));
    let at_index = |n: u64| [&[1][..], &n.to_le_bytes(), &[19], &five[9..]].concat();
    for room in [0, MAX_SCRIPT] {
        assert_eq!(covenant::write_script(&at_index(1 << 32), &mut script[..room]), refused(6, 0));
    }
    assert!(script.iter().all(|b| *b == 0xa5));
    // the pushes of 5, of the terminal's time and of its key stand in the script as they are
    let push = [8, 5, 0, 0, 0, 0, 0, 0, 0];
    let oracle = [&[0x6e, 0x6b][..], &push, &[0xdf, 0x69, 0x7e, 0xa8, 0x20], &[7; 31], &[9, 0xc2, 0x6c]].concat();
    for (code, left) in [(five.to_vec(), push.to_vec()), ([&terminal(32, 9)[..], &five[9..]].concat(), oracle), (at_index(1 << 31), vec![5, 0, 0, 0, 128, 0, 0xcf, 0x51, 0x88])] {
        let known = [&left[..], &push, &[0x87]].concat();
        for room in [known.len(), MAX_SCRIPT] {
            script.fill(0xa5);
            assert_eq!(covenant::write_script(&code, &mut script[..room]), ScriptWritten { number: 0, place: 0, script_bytes: known.len() as u64 });
            assert!(script[..known.len()] == known && script[known.len()..].iter().all(|b| *b == 0xa5));
        }
    }
    println!("boundary: the calls from Rust agree");
}
