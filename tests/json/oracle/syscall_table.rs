// The numbers of calls by their names, from the table that the test lends, in the place of the tables that seccompiler carries: both sides
// of the comparison know the same calls.

use std::collections::HashMap;
use std::sync::OnceLock;

use crate::backend::TargetArch;

static NUMBERS: OnceLock<HashMap<Vec<u8>, i64>> = OnceLock::new();

// slots of 32 bytes: a name, filled up with zeros to 28, and its number
pub fn lend(table: &[u8]) {
    let slot = |slot: &[u8]| {
        let (name, number) = slot.split_at(28);
        let length = name.iter().position(|byte| *byte == 0).unwrap_or(28);
        (name[..length].to_vec(), i64::from(u32::from_le_bytes(number.try_into().expect("four bytes"))))
    };
    NUMBERS.set(table.chunks(32).map(slot).collect()).expect("lent once");
}

pub struct SyscallTable;

impl SyscallTable {
    pub fn new(_: TargetArch) -> Self {
        SyscallTable
    }

    pub fn get_syscall_nr(&self, name: &str) -> Option<i64> {
        NUMBERS.get().expect("a table was lent").get(name.as_bytes()).copied()
    }
}
