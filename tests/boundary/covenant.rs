//! Rust's view of libcovenant.a. A slice is passed as a pointer and a number of elements.
#![allow(dead_code)]

/// The sizes that the header names.
pub const MAX_CODE: usize = 9216;
pub const MAX_TOKENS: usize = 1024;
pub const MAX_ORACLES: usize = 73;
pub const MAX_SCRIPT: usize = 5120;

#[repr(C)]
#[derive(Clone, Copy, Debug, PartialEq)]
pub struct Checked {
    pub number: u32,
    pub place: u64,
}

#[repr(C)]
#[derive(Clone, Copy, Debug, PartialEq)]
pub struct Evaluated {
    pub number: u32,
    pub verdict: u32,
    pub first: u64,
    pub second: u64,
    pub checks: u64,
    pub left: u64,
}

#[repr(C)]
#[derive(Clone, Copy, Debug, PartialEq)]
pub struct Written {
    pub number: u32,
    pub place: u64,
    pub records: u64,
    pub key_bytes: u64,
}

#[repr(C)]
#[derive(Clone, Copy, Debug, PartialEq)]
pub struct Decoded {
    pub number: u32,
    pub place: u64,
    pub code_bytes: u64,
    pub start: u64,
}

#[repr(C)]
#[derive(Clone, Copy, Debug, PartialEq)]
pub struct ScriptWritten {
    pub number: u32,
    pub place: u64,
    pub script_bytes: u64,
}

/// One token: 24 bytes.
#[repr(C)]
#[derive(Clone, Copy, Debug, PartialEq)]
pub struct Record {
    pub kind: u8,
    pub number: u64,
    pub place: u32,
}

mod archive {
    use super::*;
    #[link(name = "covenant", kind = "static")]
    extern "C" {
        pub fn covenant_check(code: *const u8, n: usize) -> Checked;
        pub fn covenant_evaluate(
            code: *const u8, n: usize, spent: *const u64, n: usize, marks: *const u8, n: usize, outputs: *const u64, n: usize, marks: *const u8, n: usize,
            issued: *const u64, n: usize, marks: *const u8, n: usize, reissued: *const u64, n: usize, marks: *const u8, n: usize, current: u64,
            witness: *const u8, n: usize, ends: *const u32, n: usize, checks: *mut u8, n: usize,
        ) -> Evaluated;
        pub fn covenant_write(
            code: *const u8, n: usize, kinds: *mut u8, n: usize, numbers: *mut u64, n: usize, places: *mut u32, n: usize, keys: *mut u8, n: usize,
        ) -> Written;
        pub fn covenant_decode(
            kinds: *const u8, n: usize, numbers: *const u64, n: usize, places: *const u32, n: usize, keys: *const u8, n: usize, code: *mut u8, n: usize,
        ) -> Decoded;
        pub fn covenant_write_script(code: *const u8, n: usize, script: *mut u8, n: usize) -> ScriptWritten;
        pub fn covenant_write_records(code: *const u8, n: usize, records: *mut Record, n: usize, keys: *mut u8, n: usize) -> Written;
        pub fn covenant_decode_records(records: *const Record, n: usize, keys: *const u8, n: usize, code: *mut u8, n: usize) -> Decoded;
    }
}

/// Amounts, and a mark for each.
#[derive(Clone, Debug, Default)]
pub struct List {
    pub numbers: Vec<u64>,
    pub marks: Vec<u8>,
}

pub fn check(code: &[u8]) -> Checked {
    unsafe { archive::covenant_check(code.as_ptr(), code.len()) }
}

/// Lists are spent, outputs, issued and reissued.
pub fn evaluate(code: &[u8], lists: &[List; 4], current: u64, witness: &[u8], ends: &[u32], checks: &mut [u8]) -> Evaluated {
    let [s, o, i, r] = lists;
    unsafe {
        archive::covenant_evaluate(
            code.as_ptr(), code.len(), s.numbers.as_ptr(), s.numbers.len(), s.marks.as_ptr(), s.marks.len(), o.numbers.as_ptr(), o.numbers.len(),
            o.marks.as_ptr(), o.marks.len(), i.numbers.as_ptr(), i.numbers.len(), i.marks.as_ptr(), i.marks.len(), r.numbers.as_ptr(), r.numbers.len(),
            r.marks.as_ptr(), r.marks.len(), current, witness.as_ptr(), witness.len(), ends.as_ptr(), ends.len(), checks.as_mut_ptr(), checks.len(),
        )
    }
}

pub fn write(code: &[u8], kinds: &mut [u8], numbers: &mut [u64], places: &mut [u32], keys: &mut [u8]) -> Written {
    unsafe {
        archive::covenant_write(
            code.as_ptr(), code.len(), kinds.as_mut_ptr(), kinds.len(), numbers.as_mut_ptr(), numbers.len(), places.as_mut_ptr(), places.len(),
            keys.as_mut_ptr(), keys.len(),
        )
    }
}

pub fn decode(kinds: &[u8], numbers: &[u64], places: &[u32], keys: &[u8], code: &mut [u8]) -> Decoded {
    unsafe {
        archive::covenant_decode(
            kinds.as_ptr(), kinds.len(), numbers.as_ptr(), numbers.len(), places.as_ptr(), places.len(), keys.as_ptr(), keys.len(), code.as_mut_ptr(),
            code.len(),
        )
    }
}

pub fn write_script(code: &[u8], script: &mut [u8]) -> ScriptWritten {
    unsafe { archive::covenant_write_script(code.as_ptr(), code.len(), script.as_mut_ptr(), script.len()) }
}

pub fn write_records(code: &[u8], records: &mut [Record], keys: &mut [u8]) -> Written {
    unsafe { archive::covenant_write_records(code.as_ptr(), code.len(), records.as_mut_ptr(), records.len(), keys.as_mut_ptr(), keys.len()) }
}

pub fn decode_records(records: &[Record], keys: &[u8], code: &mut [u8]) -> Decoded {
    unsafe { archive::covenant_decode_records(records.as_ptr(), records.len(), keys.as_ptr(), keys.len(), code.as_mut_ptr(), code.len()) }
}
