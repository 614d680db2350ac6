// The judge: runs a filter in an interpreter of classic BPF (linux/filter.h) on calls drawn from the values in its rule set, and compares
// each result with what the rule set means. Two compilers that agree on a wrong filter are caught here.
//
// Standard input: frames of (set length, filter length, number of calls, seed, set, filter). Standard output, for each: (calls that ended
// wrong, calls that ended with the match action, 1 if the kernel's checks refuse the filter). The first wrong call of a frame is told on
// standard error.

mod format;

use std::io::{self, BufReader, BufWriter, Write};

use format::{next_bytes, next_word, read_set, Condition, RuleSet, CANCELLED, SECOND_TABLE};

#[derive(Clone, Debug)]
struct Call {
    architecture: u32,
    number: u32,
    arguments: [u64; 6],
}

struct Step {
    code: u16,
    jump_true: u8,
    jump_false: u8,
    constant: u32,
}

const KILL_PROCESS: u32 = 0x8000_0000;
const WORDS: [u32; 3] = [0xc000_003e, 0xc000_00b7, 0xc000_00f3];

// ---- what a rule set means

fn holds(condition: &Condition, argument: u64) -> bool {
    let seen = if condition.wide { u64::MAX } else { u64::from(u32::MAX) };
    let (left, right) = (argument & seen, condition.value & seen);
    match condition.operator {
        format::EQ => left == right,
        format::GE => left >= right,
        format::GT => left > right,
        format::LE => left <= right,
        format::LT => left < right,
        format::MASKED_EQ => left & condition.mask == right & condition.mask,
        _ => left != right,
    }
}

fn meaning(set: &RuleSet, call: &Call) -> u32 {
    if call.architecture != WORDS[set.architecture as usize - 1] {
        return KILL_PROCESS;
    }
    if set.guarded() && call.number & SECOND_TABLE != 0 && call.number != CANCELLED {
        return KILL_PROCESS;
    }
    let Some(entry) = set.entries.iter().find(|entry| entry.number == call.number) else { return set.mismatch };
    let fits = |rule: &Vec<Condition>| rule.iter().all(|condition| holds(condition, call.arguments[condition.index as usize]));
    if entry.rules.is_empty() || entry.rules.iter().any(fits) {
        set.on_match
    } else {
        set.mismatch
    }
}

// ---- the machine

fn steps_of(filter: &[u8]) -> Vec<Step> {
    filter
        .chunks_exact(8)
        .map(|step| Step {
            code: u16::from_le_bytes([step[0], step[1]]),
            jump_true: step[2],
            jump_false: step[3],
            constant: u32::from_le_bytes([step[4], step[5], step[6], step[7]]),
        })
        .collect()
}

fn word_of(call: &Call, offset: u32) -> Option<u32> {
    let argument = |at: u32| call.arguments[(at / 2) as usize] >> (32 * (at % 2));
    match offset {
        0 => Some(call.number),
        4 => Some(call.architecture),
        // the instruction pointer, on which no filter here may depend
        8 | 12 => Some(0x5a5a_5a5a),
        16..=60 if offset % 4 == 0 => Some(argument((offset - 16) / 4) as u32),
        _ => None,
    }
}

// the action returned; none if the run leaves the filter or meets what the machine does not know
fn run(steps: &[Step], call: &Call) -> Option<u32> {
    let mut accumulator = 0u32;
    let mut at = 0usize;
    loop {
        let step = steps.get(at)?;
        let branch = |taken: bool| usize::from(if taken { step.jump_true } else { step.jump_false });
        at += 1;
        match step.code {
            0x20 => accumulator = word_of(call, step.constant)?,
            0x54 => accumulator &= step.constant,
            0x05 => at += step.constant as usize,
            0x15 => at += branch(accumulator == step.constant),
            0x25 => at += branch(accumulator > step.constant),
            0x35 => at += branch(accumulator >= step.constant),
            0x45 => at += branch(accumulator & step.constant != 0),
            0x06 => return Some(step.constant),
            _ => return None,
        }
    }
}

// the kernel's checks, for the eight codes that these filters use
fn taken(steps: &[Step]) -> bool {
    let inside = |at: usize, distance: u64| at as u64 + 1 + distance < steps.len() as u64;
    let good = |(at, step): (usize, &Step)| match step.code {
        0x20 => step.constant % 4 == 0 && step.constant < 64,
        0x54 | 0x06 => true,
        0x05 => inside(at, u64::from(step.constant)),
        0x15 | 0x25 | 0x35 | 0x45 => inside(at, u64::from(step.jump_true)) && inside(at, u64::from(step.jump_false)),
        _ => false,
    };
    (1..=4096).contains(&steps.len()) && steps.iter().enumerate().all(good) && steps.last().is_some_and(|step| step.code == 0x06)
}

// ---- calls

// splitmix64: small, and the same everywhere
struct Draw(u64);

impl Draw {
    fn next(&mut self) -> u64 {
        self.0 = self.0.wrapping_add(0x9e37_79b9_7f4a_7c15);
        let mut mixed = self.0;
        mixed = (mixed ^ mixed >> 30).wrapping_mul(0xbf58_476d_1ce4_e5b9);
        mixed = (mixed ^ mixed >> 27).wrapping_mul(0x94d0_49bb_1331_11eb);
        mixed ^ mixed >> 31
    }

    fn below(&mut self, bound: usize) -> usize {
        (self.next() % bound as u64) as usize
    }
}

// a number at or next to a condition's value, in one word or in both
fn near(condition: &Condition, draw: &mut Draw) -> u64 {
    let value = condition.value;
    match draw.below(10) {
        0 | 1 => value,
        2 => value.wrapping_add(1),
        3 => value.wrapping_sub(1),
        4 => value & condition.mask,
        5 => value ^ 1 << draw.below(64),
        6 => value.wrapping_add(1 << 32),
        7 => value.wrapping_sub(1 << 32),
        8 => value & 0xffff_ffff | draw.next() << 32,
        _ => value ^ (draw.next() & !condition.mask),
    }
}

// arguments that a rule takes, as far as they are found: long rules would else never match
fn solved(rule: &[Condition], draw: &mut Draw) -> [u64; 6] {
    let mut arguments = [0; 6];
    for (index, argument) in arguments.iter_mut().enumerate() {
        let here: Vec<&Condition> = rule.iter().filter(|condition| usize::from(condition.index) == index).collect();
        *argument = draw.next() >> draw.below(64);
        if here.is_empty() {
            continue;
        }
        for attempt in 0..200 {
            let source = here[draw.below(here.len())];
            // the plain value first: it is what most often fits all of them
            let candidate = if attempt % 2 == 0 { source.value } else { near(source, draw) };
            *argument = candidate;
            if here.iter().all(|condition| holds(condition, candidate)) {
                break;
            }
        }
    }
    arguments
}

// where the second table begins and ends
const BORDERS: [u32; 4] = [SECOND_TABLE, 2 * SECOND_TABLE, 3 * SECOND_TABLE, CANCELLED];

struct Sample<'a> {
    number: u32,
    rule: &'a [Condition],
    arguments: [u64; 6],
}

fn samples<'a>(set: &'a RuleSet, draw: &mut Draw) -> Vec<Sample<'a>> {
    let mut chosen = vec![];
    let count = set.entries.len();
    for _ in 0..count.min(12) {
        let entry = &set.entries[draw.below(count)];
        if entry.rules.is_empty() {
            chosen.push(Sample { number: entry.number, rule: &[], arguments: [0; 6] });
        } else {
            let rule = &entry.rules[draw.below(entry.rules.len())];
            chosen.push(Sample { number: entry.number, rule, arguments: solved(rule, draw) });
        }
    }
    chosen
}

fn call(set: &RuleSet, samples: &[Sample], draw: &mut Draw) -> Call {
    let mut made = Call { architecture: WORDS[set.architecture as usize - 1], number: draw.next() as u32, arguments: [0; 6] };
    if !samples.is_empty() {
        let sample = &samples[draw.below(samples.len())];
        made.number = sample.number;
        made.arguments = sample.arguments;
        if !sample.rule.is_empty() && draw.below(3) > 0 {
            let condition = &sample.rule[draw.below(sample.rule.len())];
            made.arguments[usize::from(condition.index)] = near(condition, draw);
        }
    }
    match draw.below(20) {
        0 => made.number = made.number.wrapping_add(1),
        1 => made.number = made.number.wrapping_sub(1),
        2 => made.number ^= 1 << draw.below(32),
        3 => made.architecture = WORDS[draw.below(3)],
        4 => made.architecture ^= 1 << draw.below(32),
        _ => (),
    }
    if set.native_only {
        match draw.below(6) {
            0 => made.number ^= SECOND_TABLE,
            1 => made.number = BORDERS[draw.below(BORDERS.len())].wrapping_add(draw.below(3) as u32).wrapping_sub(1),
            _ => (),
        }
    }
    made
}

fn main() {
    let mut input = BufReader::new(io::stdin().lock());
    let mut output = BufWriter::new(io::stdout().lock());
    let mut frame = 0;
    while let Some(set_length) = next_word(&mut input) {
        let mut word = || next_word(&mut input).expect("a whole frame");
        let (filter_length, calls, seed) = (word(), word(), word());
        let bytes = next_bytes(&mut input, set_length);
        let steps = steps_of(&next_bytes(&mut input, filter_length));
        let set = read_set(&bytes).expect("a set of the format");
        let mut draw = Draw(u64::from(seed));
        let samples = samples(&set, &mut draw);
        let (mut wrong, mut matched) = (0u32, 0u32);
        for _ in 0..calls {
            let call = call(&set, &samples, &mut draw);
            let (expected, returned) = (meaning(&set, &call), run(&steps, &call));
            if returned != Some(expected) {
                if wrong == 0 {
                    eprintln!("judge: frame {frame}: {call:x?} means {expected:08x}, the filter returned {returned:08x?}");
                }
                wrong += 1;
            }
            matched += u32::from(expected == set.on_match);
        }
        let refused = u32::from(!taken(&steps));
        output.write_all(&[wrong.to_le_bytes(), matched.to_le_bytes(), refused.to_le_bytes()].concat()).expect("standard output");
        frame += 1;
    }
    output.flush().expect("standard output");
}
