//! The functions of libcallfilter.a, as `callfilter.h` declares them, and a safe function over each.
//!
//! Nothing is asked of what is handed over but what references say already: a slice's pointer is good for its length, and what is written
//! is borrowed alone. Every function answers whatever bytes, states and cursors it gets, keeps no pointer, and returns.

use crate::sock_filter;

// answers of compiling; 1, bytes that are not of the format, is what is left, since buffers here are never too short
pub(crate) const NOT_ASCENDING: u32 = 2;
pub(crate) const EQUAL_ACTIONS: u32 = 3;
pub(crate) const EMPTY_RULE: u32 = 4;
pub(crate) const INDEX_ABOVE_FIVE: u32 = 5;
pub(crate) const TOO_MANY_INSTRUCTIONS: u32 = 6;
pub(crate) const MORE_THAN_32_BITS: u32 = 8;

// stands for an entry, a rule or a condition that an answer does not speak of
pub(crate) const NOWHERE: u32 = u32::MAX;

// refusals of a writer
pub(crate) const NO_ROOM: u32 = 3;
pub(crate) const SET_TOO_LONG: u32 = 4;

#[repr(C)]
#[derive(Clone, Copy)]
pub(crate) struct Answer {
    pub code: u32,
    pub count: u32,
    pub entry: u32,
    pub rule: u32,
    pub condition: u32,
}

#[repr(C)]
#[derive(Clone, Copy)]
pub(crate) struct Ended {
    pub code: u32,
    pub action: u32,
    pub steps: u32,
}

#[repr(C)]
#[derive(Clone, Copy)]
pub(crate) struct Decision {
    pub code: u32,
    pub action: u32,
    pub entry: u32,
    pub rule: u32,
    pub condition: u32,
}

#[repr(C)]
#[derive(Clone, Copy)]
pub(crate) struct Writer {
    pub code: u32,
    pub end: u32,
    pub entry: u32,
    pub rule: u32,
}

#[repr(C)]
#[derive(Clone, Copy)]
pub(crate) struct Cursor {
    pub code: u32,
    pub at: u32,
    pub entries: u32,
    pub rules: u32,
    pub conditions: u32,
}

#[repr(C)]
#[derive(Clone, Copy)]
pub(crate) struct Head {
    pub next: Cursor,
    pub architecture: u32,
    pub mismatch: u32,
    pub on_match: u32,
}

#[repr(C)]
#[derive(Clone, Copy)]
pub(crate) struct Entry {
    pub next: Cursor,
    pub number: u32,
}

#[repr(C)]
#[derive(Clone, Copy)]
pub(crate) struct Compared {
    pub next: Cursor,
    pub index: u8,
    pub width: u8,
    pub operator: u8,
    pub value: u64,
    pub mask: u64,
}

extern "C" {
    #[link_name = "callfilter_abi_1"]
    fn callfilter_abi() -> u32;
    fn callfilter_compile(set: *const u8, set_len: usize, out: *mut u8, out_len: usize) -> Answer;
    fn callfilter_compile_search(set: *const u8, set_len: usize, out: *mut u8, out_len: usize) -> Answer;
    fn callfilter_start(out: *mut u8, out_len: usize, architecture: u32, mismatch: u32, on_match: u32) -> Writer;
    fn callfilter_list(out: *mut u8, out_len: usize, writer: Writer, number: u32) -> Writer;
    fn callfilter_begin_rule(out: *mut u8, out_len: usize, writer: Writer) -> Writer;
    fn callfilter_add_condition(
        out: *mut u8,
        out_len: usize,
        writer: Writer,
        index: u8,
        width: u8,
        operator: u8,
        value: u64,
        mask: u64,
    ) -> Writer;
    fn callfilter_read_head(set: *const u8, set_len: usize) -> Head;
    fn callfilter_next_entry(set: *const u8, set_len: usize, cursor: Cursor) -> Entry;
    fn callfilter_next_rule(set: *const u8, set_len: usize, cursor: Cursor) -> Cursor;
    fn callfilter_next_condition(set: *const u8, set_len: usize, cursor: Cursor) -> Compared;
    fn callfilter_accepts(filter: *const u8, filter_len: usize) -> bool;
    fn callfilter_run(filter: *const u8, filter_len: usize, call: *const u8, call_len: usize) -> Ended;
    fn callfilter_run_all(filter: *const u8, filter_len: usize, calls: *const u8, calls_len: usize, out: *mut u8, out_len: usize) -> u32;
    fn callfilter_decide(set: *const u8, set_len: usize, call: *const u8, call_len: usize) -> Decision;
}

// The casts below go from instructions to bytes: an instruction is eight bytes without padding, and any eight bytes are an instruction.
const _: () = assert!(std::mem::size_of::<sock_filter>() == 8);

/// The archive's version. The name that it is asked by has the number of the binary interface, and every way into the archive asks: so no
/// program with this crate in it links with an archive whose structs or signatures are others.
pub(crate) fn version() -> u32 {
    // SAFETY: nothing is handed over
    unsafe { callfilter_abi() }
}

pub(crate) fn compile(set: &[u8], out: &mut [sock_filter]) -> Answer {
    version();
    // SAFETY: both slices are good for their lengths, `out` in bytes, and borrowed apart
    unsafe { callfilter_compile(set.as_ptr(), set.len(), out.as_mut_ptr().cast(), std::mem::size_of_val(out)) }
}

pub(crate) fn compile_search(set: &[u8], out: &mut [sock_filter]) -> Answer {
    version();
    // SAFETY: both slices are good for their lengths, `out` in bytes, and borrowed apart
    unsafe { callfilter_compile_search(set.as_ptr(), set.len(), out.as_mut_ptr().cast(), std::mem::size_of_val(out)) }
}

pub(crate) fn start(out: &mut [u8], architecture: u32, mismatch: u32, on_match: u32) -> Writer {
    version();
    // SAFETY: the slice is good for its length
    unsafe { callfilter_start(out.as_mut_ptr(), out.len(), architecture, mismatch, on_match) }
}

pub(crate) fn list(out: &mut [u8], writer: Writer, number: u32) -> Writer {
    // SAFETY: the slice is good for its length, and any state gets its answer
    unsafe { callfilter_list(out.as_mut_ptr(), out.len(), writer, number) }
}

pub(crate) fn begin_rule(out: &mut [u8], writer: Writer) -> Writer {
    // SAFETY: the slice is good for its length, and any state gets its answer
    unsafe { callfilter_begin_rule(out.as_mut_ptr(), out.len(), writer) }
}

pub(crate) fn add_condition(out: &mut [u8], writer: Writer, index: u8, width: u8, operator: u8, value: u64, mask: u64) -> Writer {
    // SAFETY: the slice is good for its length, and any state and any numbers get their answer
    unsafe { callfilter_add_condition(out.as_mut_ptr(), out.len(), writer, index, width, operator, value, mask) }
}

pub(crate) fn read_head(set: &[u8]) -> Head {
    version();
    // SAFETY: the slice is good for its length
    unsafe { callfilter_read_head(set.as_ptr(), set.len()) }
}

pub(crate) fn next_entry(set: &[u8], cursor: Cursor) -> Entry {
    // SAFETY: the slice is good for its length, and any cursor gets its answer
    unsafe { callfilter_next_entry(set.as_ptr(), set.len(), cursor) }
}

pub(crate) fn next_rule(set: &[u8], cursor: Cursor) -> Cursor {
    // SAFETY: the slice is good for its length, and any cursor gets its answer
    unsafe { callfilter_next_rule(set.as_ptr(), set.len(), cursor) }
}

pub(crate) fn next_condition(set: &[u8], cursor: Cursor) -> Compared {
    // SAFETY: the slice is good for its length, and any cursor gets its answer
    unsafe { callfilter_next_condition(set.as_ptr(), set.len(), cursor) }
}

pub(crate) fn accepts(filter: &[u8]) -> bool {
    version();
    // SAFETY: the slice is good for its length
    unsafe { callfilter_accepts(filter.as_ptr(), filter.len()) }
}

pub(crate) fn run(filter: &[sock_filter], call: &[u8; 64]) -> Ended {
    // SAFETY: both slices are good for their lengths, `filter` in bytes
    unsafe { callfilter_run(filter.as_ptr().cast(), std::mem::size_of_val(filter), call.as_ptr(), call.len()) }
}

pub(crate) fn run_all(filter: &[sock_filter], calls: &[u8], out: &mut [u8]) -> u32 {
    let (filter, filter_len) = (filter.as_ptr().cast(), std::mem::size_of_val(filter));
    // SAFETY: all three slices are good for their lengths, `filter` in bytes, and `out` is borrowed alone
    unsafe { callfilter_run_all(filter, filter_len, calls.as_ptr(), calls.len(), out.as_mut_ptr(), out.len()) }
}

pub(crate) fn decide(set: &[u8], call: &[u8; 64]) -> Decision {
    // SAFETY: both slices are good for their lengths
    unsafe { callfilter_decide(set.as_ptr(), set.len(), call.as_ptr(), call.len()) }
}
