//! Filters as listings: each instruction with its offset, arrows to where it jumps, and what it decides.
//!
//! A [`Filter`] is only made of instructions that the kernel takes: their codes are known, and jumps go forward and stay inside.

use std::fmt;

use crate::words::{CallNumber, Value};
use crate::{sock_filter, Action, Architecture, Filter};

const NUMBER: u32 = 0;
const ARCHITECTURE: u32 = 4;

/// Arrows further out than this are not drawn; the offset that they go to is told all the same.
const LANES: usize = 8;

impl fmt::Display for Filter {
    /// An instruction to a line.
    fn fmt(&self, to: &mut fmt::Formatter) -> fmt::Result {
        let (known, lanes) = (known_at_each(self), lanes(self));
        for (at, instruction) in self.iter().enumerate() {
            let decides = known[at].map_or("never reached".to_owned(), |known| decides(instruction, at, known));
            let line = format!("{} {at:>4}  {:<15}  {decides}", gutter(&lanes, at), text(instruction, known[at]));
            write!(to, "{}{}", if at == 0 { "" } else { "\n" }, line.trim_end())?;
        }
        Ok(())
    }
}

// ---- codes

fn class(code: u16) -> u16 {
    code & 7
}

fn is_load(code: u16) -> bool {
    code == 0x20
}

fn is_jump(code: u16) -> bool {
    class(code) == 5
}

fn is_equality(code: u16) -> bool {
    code == 0x15
}

fn is_bit_test(code: u16) -> bool {
    code == 0x45
}

// equal, greater and at least, but not a test of bits
fn is_comparison(code: u16) -> bool {
    is_jump(code) && !is_bit_test(code) && code != 0x05
}

fn is_return(code: u16) -> bool {
    class(code) == 6
}

// loads, arithmetic and `txa`
fn changes_accumulator(code: u16) -> bool {
    class(code) == 0 || class(code) == 4 || code == 0x87
}

// where a jump goes, if its test holds and if not
fn targets(instruction: &sock_filter, at: usize) -> [usize; 2] {
    let distances = match instruction.code {
        0x05 => [instruction.k; 2],
        _ => [instruction.jt, instruction.jf].map(u32::from),
    };
    distances.map(|distance| at + 1 + distance as usize)
}

fn name(code: u16) -> &'static str {
    let which = usize::from(code >> 4);
    match class(code) {
        4 => ["add", "sub", "mul", "div", "or", "and", "lsh", "rsh", "neg", "mod", "xor"][which],
        5 => ["ja", "jeq", "jgt", "jge", "jset"][which],
        7 => ["tax", "txa"][which / 8],
        other => ["ld", "ldx", "st", "stx", "", "", "ret"][usize::from(other)],
    }
}

fn operand(instruction: &sock_filter, known: Option<Known>) -> String {
    let k = instruction.k;
    let compares_number = is_comparison(instruction.code) && known.is_some_and(|known| known.word == Some(NUMBER));
    match (class(instruction.code), instruction.code & 0xf8) {
        (0, 0x20) => format!("[{k}]"),
        (0 | 1, 0x60) | (2 | 3, _) => format!("M[{k}]"),
        (0 | 1, 0x80) => "length".to_owned(),
        (4, 0x80) | (7, _) => String::new(),
        (5, 0x00) => format!("+{k}"),
        (6, 0x10) => "a".to_owned(),
        (4 | 5, other) if other & 8 != 0 => "x".to_owned(),
        _ if compares_number => CallNumber(k).to_string(),
        _ => Value(u64::from(k)).to_string(),
    }
}

fn text(instruction: &sock_filter, known: Option<Known>) -> String {
    format!("{:<4} {}", name(instruction.code), operand(instruction, known))
}

// ---- what is known at an instruction, of all ways that lead to it

/// Which one a call's number, or architecture, is.
#[derive(Clone, Copy, PartialEq)]
enum Which {
    Any,
    Is(u32),
    /// One was asked for, and it is not that one.
    Other,
    /// It has one of these bits.
    With(u32),
}

#[derive(Clone, Copy, PartialEq)]
struct Known {
    /// Which word of the call the accumulator holds.
    word: Option<u32>,
    architecture: Which,
    number: Which,
}

impl Known {
    fn and(self, other: Known) -> Known {
        let which = |one, two| if one == two { one } else { Which::Any };
        Known {
            word: self.word.filter(|_| self.word == other.word),
            architecture: which(self.architecture, other.architecture),
            number: which(self.number, other.number),
        }
    }

    fn after_question(self, answer: Which) -> Known {
        // that it is not a certain one says less than that it has certain bits
        let after = |before| if let (Which::With(_), Which::Other) = (before, answer) { before } else { answer };
        match self.word {
            Some(NUMBER) => Known { number: after(self.number), ..self },
            Some(ARCHITECTURE) => Known { architecture: after(self.architecture), ..self },
            _ => self,
        }
    }
}

// Jumps go forward, so one walk sees all ways to an instruction before it.
fn known_at_each(filter: &[sock_filter]) -> Vec<Option<Known>> {
    let mut known: Vec<Option<Known>> = vec![None; filter.len()];
    known[0] = Some(Known { word: None, architecture: Which::Any, number: Which::Any });
    for (at, instruction) in filter.iter().enumerate() {
        let Some(here) = known[at] else { continue };
        for (target, there) in ways(instruction, at, here) {
            known[target] = Some(known[target].map_or(there, |before| before.and(there)));
        }
    }
    known
}

fn ways(instruction: &sock_filter, at: usize, here: Known) -> Vec<(usize, Known)> {
    let code = instruction.code;
    if is_return(code) {
        vec![]
    } else if is_equality(code) {
        let [yes, no] = targets(instruction, at);
        vec![(yes, here.after_question(Which::Is(instruction.k))), (no, here.after_question(Which::Other))]
    } else if is_bit_test(code) {
        let [yes, no] = targets(instruction, at);
        vec![(yes, here.after_question(Which::With(instruction.k))), (no, here)]
    } else if is_jump(code) {
        targets(instruction, at).map(|target| (target, here)).to_vec()
    } else if changes_accumulator(code) {
        vec![(at + 1, Known { word: is_load(code).then_some(instruction.k), ..here })]
    } else {
        vec![(at + 1, here)]
    }
}

// ---- what an instruction decides

fn decides(instruction: &sock_filter, at: usize, known: Known) -> String {
    let code = instruction.code;
    if is_load(code) {
        word_name(instruction.k)
    } else if code == 0x05 {
        format!("{}→ {}", whose(known), targets(instruction, at)[0])
    } else if is_jump(code) {
        format!("{}{}", question(instruction, known), answers(instruction, at))
    } else if code == 0x06 {
        let action = Action::from_word(instruction.k).map_or("no known action".to_owned(), |action| action.to_string());
        format!("{}{action}", whose(known))
    } else if code == 0x54 {
        format!("masked by {}", operand(instruction, Some(known)))
    } else {
        String::new()
    }
}

fn word_name(offset: u32) -> String {
    let half = ["low", "high"][(offset / 4 % 2) as usize];
    match offset {
        NUMBER => "call number".to_owned(),
        ARCHITECTURE => "architecture".to_owned(),
        8 | 12 => format!("instruction pointer, {half} half"),
        _ => format!("argument {}, {half} half", (offset - 16) / 8),
    }
}

fn whose(known: Known) -> String {
    match (known.architecture, known.number) {
        (Which::Other, _) => "other architectures: ".to_owned(),
        (_, Which::Is(number)) => format!("call {}: ", CallNumber(number)),
        (_, Which::Other) => "other calls: ".to_owned(),
        (_, Which::With(bits)) => format!("calls with a bit of {}: ", Value(u64::from(bits))),
        _ => String::new(),
    }
}

fn question(instruction: &sock_filter, known: Known) -> String {
    let k = instruction.k;
    let architecture = Architecture::ALL.into_iter().find(|known| known.word() == k);
    match (is_equality(instruction.code), known.word, architecture) {
        (true, Some(NUMBER), _) => return format!("call {}?", CallNumber(k)),
        (true, Some(ARCHITECTURE), Some(architecture)) => return format!("{architecture}?"),
        _ => {}
    }
    let call = if known.word == Some(NUMBER) { "call " } else { "" };
    let asked = match name(instruction.code) {
        "jeq" => format!("{call}="),
        "jgt" => format!("{call}>"),
        "jge" => format!("{call}≥"),
        _ if call.is_empty() => "any bit of".to_owned(),
        _ => format!("{call}with a bit of"),
    };
    format!("{asked} {}?", operand(instruction, Some(known)))
}

fn answers(instruction: &sock_filter, at: usize) -> String {
    let [yes, no] = targets(instruction, at);
    let told = |answer, target| if target == at + 1 { String::new() } else { format!(" {answer} → {target}") };
    told("yes", yes) + &told("no", no)
}

// ---- arrows

/// All jumps to one instruction, as one line down to it.
struct Arrow {
    sources: Vec<usize>,
    target: usize,
}

impl Arrow {
    fn covers(&self, at: usize) -> bool {
        self.sources[0] <= at && at <= self.target
    }

    // whether it begins or ends at the instruction, and does not only go past
    fn touches(&self, at: usize) -> bool {
        at == self.target || self.sources.contains(&at)
    }

    fn line(&self, at: usize) -> char {
        if at == self.target {
            '╰'
        } else if at == self.sources[0] {
            '╭'
        } else if self.touches(at) {
            '├'
        } else {
            '│'
        }
    }
}

fn arrows(filter: &[sock_filter]) -> Vec<Arrow> {
    let mut arrows: Vec<Arrow> = (0..filter.len()).map(|target| Arrow { sources: vec![], target }).collect();
    for (at, instruction) in filter.iter().enumerate().filter(|(_, instruction)| is_jump(instruction.code)) {
        for target in targets(instruction, at).into_iter().filter(|target| *target != at + 1) {
            arrows[target].sources.push(at);
        }
    }
    arrows.retain(|arrow| !arrow.sources.is_empty());
    arrows
}

// Short arrows go in the inner lanes, and no two in one lane meet.
fn lanes(filter: &[sock_filter]) -> Vec<Vec<Arrow>> {
    let mut arrows = arrows(filter);
    arrows.sort_by_key(|arrow| arrow.target - arrow.sources[0]);
    let mut lanes: Vec<Vec<Arrow>> = vec![];
    for arrow in arrows {
        let apart = |lane: &Vec<Arrow>| lane.iter().all(|other| other.target < arrow.sources[0] || arrow.target < other.sources[0]);
        match lanes.iter().position(apart) {
            Some(free) => lanes[free].push(arrow),
            None if lanes.len() < LANES => lanes.push(vec![arrow]),
            None => {}
        }
    }
    lanes
}

fn gutter(lanes: &[Vec<Arrow>], at: usize) -> String {
    let (mut drawn, mut across, mut arrives) = (String::new(), false, false);
    for lane in lanes.iter().rev() {
        let arrow = lane.iter().find(|arrow| arrow.covers(at));
        let line = arrow.map_or(' ', |arrow| arrow.line(at));
        drawn.push(if across { crossed(line) } else { line });
        across |= arrow.is_some_and(|arrow| arrow.touches(at));
        arrives |= arrow.is_some_and(|arrow| arrow.target == at);
    }
    let end = match (arrives, across) {
        (true, _) => "─►",
        (false, true) => "──",
        (false, false) => "  ",
    };
    drawn + end
}

// a line where another one comes across from the left
fn crossed(line: char) -> char {
    match line {
        ' ' => '─',
        '╭' => '┬',
        '╰' => '┴',
        _ => '┼',
    }
}
