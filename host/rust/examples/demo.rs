//! A host: it makes a rule set, compiles it, and shows what the filter does with some calls, without installing it.

use callfilter::{Action, Architecture, Call, Condition, Error, Operator, RuleSet, Width};

// x86_64's numbers of read, write, open and openat
const READ: u32 = 0;
const WRITE: u32 = 1;
const OPEN: u32 = 2;
const OPENAT: u32 = 257;

fn worked_set() -> Result<RuleSet, Error> {
    let mut set = RuleSet::new(Architecture::X86_64, Action::Errno(1), Action::Allow);
    set.call(READ);
    set.call(WRITE).rule(&[Condition::new(0, Width::Dword, Operator::Eq, 1)?]);
    set.call(OPENAT).rule(&[Condition::new(2, Width::Qword, Operator::MaskedEq(3), 0)?]).rule(&[Condition::new(
        1,
        Width::Qword,
        Operator::Ge,
        1 << 32,
    )?]);
    Ok(set)
}

/// An architecture, a number, and the arguments that are not 0.
type Sketch = (Architecture, u32, &'static [(usize, u64)]);

const CALLS: [Sketch; 10] = [
    (Architecture::X86_64, READ, &[]),
    (Architecture::X86_64, WRITE, &[(0, 1)]),
    (Architecture::X86_64, WRITE, &[(0, (1 << 32) + 1)]),
    (Architecture::X86_64, WRITE, &[(0, 2)]),
    (Architecture::X86_64, OPENAT, &[(2, 4)]),
    (Architecture::X86_64, OPENAT, &[(2, 1)]),
    (Architecture::X86_64, OPENAT, &[(2, 1), (1, 1 << 32)]),
    (Architecture::X86_64, OPENAT, &[(2, 2), (1, (1 << 32) - 1)]),
    (Architecture::X86_64, OPEN, &[]),
    (Architecture::Aarch64, READ, &[]),
];

fn call((architecture, number, given): Sketch) -> Call {
    let mut arguments = [0; 6];
    for (index, value) in given {
        arguments[*index] = *value;
    }
    Call::new(architecture, number, arguments)
}

fn told((architecture, number, given): Sketch) -> String {
    let on = if architecture == Architecture::X86_64 { String::new() } else { format!(" on {architecture}") };
    let arguments: String = given.iter().map(|(index, value)| format!(", argument {index} = {}", short(*value))).collect();
    format!("{number}{on}{arguments}")
}

fn short(value: u64) -> String {
    if value < 10 {
        value.to_string()
    } else {
        format!("{value:#x}")
    }
}

fn indented(text: impl ToString) -> String {
    text.to_string().lines().map(|line| format!("  {line}\n")).collect()
}

fn main() -> Result<(), Error> {
    let set = worked_set()?;
    println!("The rule set, {} bytes (on x86_64 {READ} is read, {WRITE} write and {OPENAT} openat):\n", set.to_bytes()?.len());
    println!("{}", indented(&set));

    let filter = set.compile()?;
    println!("Its filter, {} instructions, {} bytes:\n", filter.len(), filter.to_bytes().len());
    println!("{}", indented(&filter));

    println!("What becomes of some calls:\n");
    println!("  {:46} {:14} {:19} {}", "call", "the set means", "the filter returns", "instructions run");
    for sketch in CALLS {
        let (means, outcome) = (set.decide(&call(sketch))?, filter.run(&call(sketch)));
        let returns = outcome.action().map_or(format!("{:#x}", outcome.word), |action| action.to_string());
        println!("  {:46} {means:14} {returns:19} {:16}", told(sketch), outcome.steps);
    }
    Ok(())
}
