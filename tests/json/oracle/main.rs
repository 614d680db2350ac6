// The oracle: answers JSON texts with the real front end and compiler of seccompiler 0.5.0. It exists to be compared with; nothing of it is
// part of the product.
//
// Standard input: the table of call names (length, slots of 32 bytes), then frames of (architecture, text length, text). Standard output,
// for each: what became of it (0 taken; else the kind of the real error, see `kind`), and how many filters or, for a filter that is too
// long, how many instructions; if it was taken, for each filter in the order of their names: (name length, program length in bytes), name,
// program. All numbers have 4 bytes, lowest byte first.

mod backend;
mod frontend {
    pub mod json;
}
mod syscall_table;

use std::collections::BTreeMap;
use std::io::{self, BufReader, BufWriter, ErrorKind, Read, Write};

use backend::{BpfProgram, Error as BackendError, TargetArch};
use frontend::json::{Error, JsonCompiler};
use serde_json::error::Category;

type Programs = BTreeMap<String, BpfProgram>;

fn kind(error: &Error) -> (u32, u32) {
    match error {
        Error::SerdeJson(error) => match error.classify() {
            Category::Syntax | Category::Eof => (10, 0),
            Category::Data => (11, 0),
            Category::Io => unreachable!("a text in memory"),
        },
        Error::SyscallName(..) => (13, 0),
        Error::Backend(error) => backend_kind(error),
    }
}

fn backend_kind(error: &BackendError) -> (u32, u32) {
    match error {
        BackendError::IdenticalActions => (3, 0),
        BackendError::EmptyRule => (4, 0),
        BackendError::InvalidArgumentNumber => (5, 0),
        BackendError::FilterTooLarge(count) => (6, *count as u32),
        other => unreachable!("an error that a text does not have: {other:?}"),
    }
}

fn compile(text: &[u8], architecture: TargetArch) -> Result<Programs, (u32, u32)> {
    let filters = JsonCompiler::new(architecture).compile(text).map_err(|error| kind(&error))?;
    filters.into_iter().map(|(name, filter)| Ok((name, filter.try_into().map_err(|error| backend_kind(&error))?))).collect()
}

fn next_word(input: &mut impl Read) -> Option<u32> {
    let mut word = [0; 4];
    match input.read_exact(&mut word) {
        Ok(()) => Some(u32::from_le_bytes(word)),
        Err(error) if error.kind() == ErrorKind::UnexpectedEof => None,
        Err(error) => panic!("standard input: {error}"),
    }
}

fn next_bytes(input: &mut impl Read) -> Vec<u8> {
    let length = next_word(input).expect("a whole frame");
    let mut bytes = vec![0; length as usize];
    input.read_exact(&mut bytes).expect("a whole frame");
    bytes
}

fn architecture(number: u32) -> TargetArch {
    match number {
        1 => TargetArch::x86_64,
        2 => TargetArch::aarch64,
        3 => TargetArch::riscv64,
        _ => unreachable!("the test asks for no other"),
    }
}

fn reply(answer: Result<Programs, (u32, u32)>) -> Vec<u8> {
    let programs = match answer {
        Ok(programs) => programs,
        Err((kind, count)) => return [kind, count].map(u32::to_le_bytes).concat(),
    };
    let mut bytes = [0, programs.len() as u32].map(u32::to_le_bytes).concat();
    for (name, program) in programs {
        bytes.extend([name.len() as u32, 8 * program.len() as u32].map(u32::to_le_bytes).concat());
        bytes.extend(name.as_bytes());
        for step in program {
            bytes.extend(step.code.to_le_bytes());
            bytes.extend([step.jt, step.jf]);
            bytes.extend(step.k.to_le_bytes());
        }
    }
    bytes
}

fn main() {
    let mut input = BufReader::new(io::stdin().lock());
    let mut output = BufWriter::new(io::stdout().lock());
    syscall_table::lend(&next_bytes(&mut input));
    while let Some(number) = next_word(&mut input) {
        let text = next_bytes(&mut input);
        output.write_all(&reply(compile(&text, architecture(number)))).expect("standard output");
    }
    output.flush().expect("standard output");
}
