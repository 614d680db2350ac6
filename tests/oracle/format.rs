// Rule sets as bytes, read into plain values, and frames of bytes. Written from the description of the format, so that the oracle and
// the judge share no reading with the code that they test.

use std::io::{ErrorKind, Read};

pub const LONGEST_SET: usize = 1 << 20;

pub struct Condition {
    pub index: u8,
    pub wide: bool,
    pub operator: u8,
    pub value: u64,
    pub mask: u64,
}

pub struct Entry {
    pub number: u32,
    pub rules: Vec<Vec<Condition>>,
}

pub struct RuleSet {
    pub architecture: u32,
    pub native_only: bool,
    pub mismatch: u32,
    pub on_match: u32,
    pub entries: Vec<Entry>,
}

pub const EQ: u8 = 0;
pub const GE: u8 = 1;
pub const GT: u8 = 2;
pub const LE: u8 = 3;
pub const LT: u8 = 4;
pub const MASKED_EQ: u8 = 5;
pub const NE: u8 = 6;

// added to an architecture's number: native numbers only
const NATIVE_ONLY: u32 = 0x100;

// Numbers with this bit are of x86_64's second table (x32), but for that of a call which a tracer has cancelled.
pub const SECOND_TABLE: u32 = 0x4000_0000;
pub const CANCELLED: u32 = u32::MAX;

impl RuleSet {
    // whether numbers of a second table kill: only x86_64 has one
    pub fn guarded(&self) -> bool {
        self.native_only && self.architecture == 1
    }
}

pub fn is_action(word: u32) -> bool {
    match word >> 16 {
        0x0005 | 0x7ff0 => true,
        0x8000 | 0x0000 | 0x0003 | 0x7fc0 | 0x7ffc | 0x7fff => word & 0xffff == 0,
        _ => false,
    }
}

struct Bytes<'a>(&'a [u8]);

impl Bytes<'_> {
    // counts are not trusted: whatever they say, a part is read only while there are bytes for it
    fn number(&mut self, size: usize) -> Option<u64> {
        if self.0.len() < size {
            return None;
        }
        let (front, rest) = self.0.split_at(size);
        self.0 = rest;
        Some(front.iter().rev().fold(0, |sum, byte| sum << 8 | u64::from(*byte)))
    }

    fn word(&mut self) -> Option<u32> {
        self.number(4).map(|number| number as u32)
    }

    fn condition(&mut self) -> Option<Condition> {
        let index = self.number(1)? as u8;
        let wide = match self.number(1)? {
            4 => false,
            8 => true,
            _ => return None,
        };
        let operator = self.number(1)? as u8;
        let zero = self.number(5)?;
        let value = self.number(8)?;
        let mask = self.number(8)?;
        let good = operator <= NE && zero == 0 && (operator == MASKED_EQ || mask == 0);
        good.then_some(Condition { index, wide, operator, value, mask })
    }

    fn rule(&mut self) -> Option<Vec<Condition>> {
        let count = self.word()?;
        (0..count).map(|_| self.condition()).collect()
    }

    fn entry(&mut self) -> Option<Entry> {
        let number = self.word()?;
        let count = self.word()?;
        let rules = (0..count).map(|_| self.rule()).collect::<Option<_>>()?;
        Some(Entry { number, rules })
    }
}

// the rule set that bytes stand for; none where they are not of the format
pub fn read_set(bytes: &[u8]) -> Option<RuleSet> {
    if bytes.len() > LONGEST_SET {
        return None;
    }
    let mut left = Bytes(bytes);
    let head = left.word()?;
    let (architecture, native_only) = (head & !NATIVE_ONLY, head & NATIVE_ONLY != 0);
    let mismatch = left.word()?;
    let on_match = left.word()?;
    let count = left.word()?;
    if !(1..=3).contains(&architecture) || !is_action(mismatch) || !is_action(on_match) {
        return None;
    }
    let entries = (0..count).map(|_| left.entry()).collect::<Option<_>>()?;
    left.0.is_empty().then_some(RuleSet { architecture, native_only, mismatch, on_match, entries })
}

// the next four bytes of a stream as a number; none at its end
pub fn next_word(input: &mut impl Read) -> Option<u32> {
    let mut word = [0; 4];
    match input.read_exact(&mut word) {
        Ok(()) => Some(u32::from_le_bytes(word)),
        Err(error) if error.kind() == ErrorKind::UnexpectedEof => None,
        Err(error) => panic!("standard input: {error}"),
    }
}

pub fn next_bytes(input: &mut impl Read, length: u32) -> Vec<u8> {
    let mut bytes = vec![0; length as usize];
    input.read_exact(&mut bytes).expect("a whole frame");
    bytes
}
