// The oracle: answers rule sets given as bytes with the real compiler of seccompiler 0.5.0, and checks on the way that the compiler's own
// refusals are the answers given. It exists to be compared with; nothing of it is part of the product.
//
// Standard input: frames of (set length, room, set). Standard output, for each: (code, count, entry, rule, condition) and, if the code is
// 0, the filter. All numbers have 4 bytes, lowest byte first. With the argument `differences` it instead tries the listed differences on
// the real code.

mod backend;
mod convert;
mod format;

use std::io::{self, BufReader, BufWriter, Write};

use backend::{
    BpfProgram, Error, SeccompAction, SeccompCmpArgLen, SeccompCmpOp, SeccompCondition, SeccompFilter, SeccompRule, TargetArch,
};
use convert::{condition, filter_of, guard_length, put_guard, put_right, Rules};
use format::{next_bytes, next_word, read_set, Entry, RuleSet};

// how often the real code was asked for each of its opinions, and how often it refused
#[derive(Default)]
struct Opinions {
    asked: [u64; 4],
    refused: [u64; 4],
}

const NAMES: [&str; 4] = ["equal actions", "empty rule", "index", "length"];
const ACTIONS: usize = 0;
const EMPTY: usize = 1;
const INDEX: usize = 2;
const LENGTH: usize = 3;

// the number of instructions from which on filters are refused: seccompiler's own, or that of the copy with its limit raised
const REFUSED_FROM: usize = if cfg!(raised) { 4097 } else { 4096 };

// as many as are taken here, whatever the real code refuses
const LONGEST: usize = 4096;

// entry, rule and condition, counted from 0
type Place = [u32; 3];

// what is told for each of them that an answer is not about
const NOWHERE: u32 = u32::MAX;

struct Answer {
    code: u32,
    count: u32,
    place: Place,
    program: BpfProgram,
}

fn refused(code: u32, count: usize, place: Option<Place>) -> Answer {
    Answer { code, count: count as u32, place: place.unwrap_or([NOWHERE; 3]), program: vec![] }
}

fn place(entry: usize, rule: Option<usize>, condition: Option<usize>) -> Place {
    [Some(entry), rule, condition].map(|number| number.map_or(NOWHERE, |number| number as u32))
}

// The first entry with which the real code's filter is too long. Each entry makes it longer, so it can be searched for by halves.
fn too_long_with(set: &RuleSet, rules: &Rules) -> Option<Place> {
    let taken = |last: &Entry| {
        let up_to = rules.range(..=i64::from(last.number)).map(|(number, rules)| (*number, rules.clone())).collect();
        let count = match BpfProgram::try_from(filter_of(set, up_to).expect("a filter that nothing is wrong with")) {
            Err(Error::FilterTooLarge(count)) => count,
            program => program.expect("nothing else is wrong with it").len(),
        };
        count + guard_length(set) <= LONGEST
    };
    let entry = set.entries.partition_point(taken);
    (entry < set.entries.len()).then(|| place(entry, None, None))
}

impl Opinions {
    // a disagreement means that this program or the description is wrong, and then no answer of it is worth anything
    fn ask(&mut self, which: usize, expected: bool, refused: bool, set: &[u8]) {
        self.asked[which] += 1;
        self.refused[which] += u64::from(refused);
        if expected != refused {
            let start = &set[..set.len().min(200)];
            eprintln!("oracle: seccompiler disagrees on '{}' (expected refusal: {expected})", NAMES[which]);
            eprintln!("oracle: for a set of {} bytes {start:02x?}", set.len());
            std::process::exit(4);
        }
    }

    fn report(&self) {
        for (which, name) in NAMES.iter().enumerate() {
            eprintln!("oracle: {name}: asked {}, refused {}, disagreements 0", self.asked[which], self.refused[which]);
        }
    }
}

fn answer(bytes: &[u8], room: u32, opinions: &mut Opinions) -> Answer {
    let Some(set) = read_set(bytes) else { return refused(1, 0, None) };

    let descent = set.entries.windows(2).position(|pair| pair[0].number >= pair[1].number);
    let descending = descent.map(|before| place(before + 1, None, None));

    // asked with no rules, since the rules may not be makeable
    let same = set.mismatch == set.on_match;
    opinions.ask(ACTIONS, same, filter_of(&set, Rules::new()) == Err(Error::IdenticalActions), bytes);

    // of each kind the first that is met stays
    let (mut empty, mut beyond, mut wide) = (None, None, None);
    let mut rules = Rules::new();
    for (at, entry) in set.entries.iter().enumerate() {
        let mut made = vec![];
        for (which, rule) in entry.rules.iter().enumerate() {
            let mut conditions = vec![];
            for (last, given) in rule.iter().enumerate() {
                let here = place(at, Some(which), Some(last));
                let result = condition(given);
                opinions.ask(INDEX, given.index > 5, result == Err(Error::InvalidArgumentNumber), bytes);
                if given.index > 5 {
                    beyond.get_or_insert(here);
                }
                // the real code takes these, and ignores what is above 32 bits: a listed difference
                if !given.wide && (given.value | given.mask) >> 32 != 0 {
                    wide.get_or_insert(here);
                }
                conditions.extend(result.ok());
            }
            if conditions.len() == rule.len() {
                let result = SeccompRule::new(conditions);
                opinions.ask(EMPTY, rule.is_empty(), result == Err(Error::EmptyRule), bytes);
                made.extend(result.ok());
            }
            if rule.is_empty() {
                empty.get_or_insert(place(at, Some(which), None));
            }
        }
        rules.insert(i64::from(entry.number), made);
    }

    // which of several refusals counts is ours to say: the real code reports the first that its caller meets
    let equal = same.then_some([NOWHERE; 3]);
    let refusal = [(2, descending), (3, equal), (4, empty), (5, beyond)].into_iter().find(|(_, found)| found.is_some());
    if let Some((code, found)) = refusal {
        return refused(code, 0, found);
    }

    let filter = filter_of(&set, rules.clone()).expect("a filter that nothing is wrong with");
    match BpfProgram::try_from(filter) {
        Ok(mut program) => {
            put_right(&mut program, &set);
            opinions.ask(LENGTH, program.len() >= REFUSED_FROM, false, bytes);
            put_guard(&mut program, &set);
            let count = program.len();
            if count > LONGEST {
                refused(6, count, too_long_with(&set, &rules))
            } else if (room as usize) < 8 * count {
                refused(7, count, None)
            } else if wide.is_some() {
                refused(8, 0, wide)
            } else {
                Answer { program, ..refused(0, count, None) }
            }
        }
        Err(Error::FilterTooLarge(count)) => {
            opinions.ask(LENGTH, count >= REFUSED_FROM, true, bytes);
            refused(6, count + guard_length(&set), too_long_with(&set, &rules))
        }
        Err(other) => panic!("an error that compiling does not have: {other:?}"),
    }
}

// what the list of differences says of the real code, tried on it
fn differences() -> bool {
    let one = |value: u64| {
        SeccompRule::new(vec![SeccompCondition::new(0, SeccompCmpArgLen::Dword, SeccompCmpOp::Eq, value).unwrap()]).unwrap()
    };
    let equal_to = |value: u64| Rules::from([(0, vec![one(value)])]);
    let filter = |rules: Rules| SeccompFilter::new(rules, SeccompAction::Errno(1), SeccompAction::Allow, TargetArch::x86_64);
    let compile = |rules: Rules| BpfProgram::try_from(filter(rules).unwrap());
    let listed = |number: i64| Rules::from([(number, vec![])]);
    let panics = |number: i64| std::panic::catch_unwind(|| compile(listed(number))).is_err();
    std::panic::set_hook(Box::new(|_| ()));

    let wide = SeccompCondition::new(0, SeccompCmpArgLen::Qword, SeccompCmpOp::MaskedEq(1), 1).unwrap();
    let mut exactly: Rules = (0..816).map(|number| (number, vec![])).collect();
    exactly.insert(816, vec![SeccompRule::new(vec![wide]).unwrap()]);
    let one_less: Rules = (0..818).map(|number| (number, vec![])).collect();

    let errno = |low, high| {
        SeccompFilter::new(Rules::new(), SeccompAction::Errno(low), SeccompAction::Errno(high), TargetArch::x86_64)
    };
    // of a filter for one number, the numbers that it is compared with
    let compared_with = |number: i64| {
        let program = compile(listed(number)).expect("a short filter");
        program.iter().skip(3).filter(|step| step.code & 7 == 5 && step.code != 5).map(|step| (step.code, step.k)).collect::<Vec<_>>()
    };
    let twice: Rules = [(0, vec![one(1)]), (0, vec![])].into_iter().collect();

    let tries = [
        ("a call number below 0 panics", panics(-1)),
        ("a call number of 2^32 panics", panics(1 << 32)),
        ("a call number of 2^32 - 1 compiles", !panics((1 << 32) - 1)),
        ("4,096 instructions are refused", compile(exactly) == Err(Error::FilterTooLarge(4096))),
        ("4,095 instructions are taken", compile(one_less).map(|program| program.len()) == Ok(4095)),
        ("the upper half of a dword condition's value is ignored", compile(equal_to(1 << 32)) == compile(equal_to(0))),
        ("errno 0 and errno 65536 pass as different", errno(0, 65536).is_ok()),
        ("errno 0 and errno 65536 are one word", u32::from(SeccompAction::Errno(0)) == u32::from(SeccompAction::Errno(65536))),
        ("equal actions are refused", errno(7, 7) == Err(Error::IdenticalActions)),
        ("a rule without conditions is refused when it is made", SeccompRule::new(vec![]) == Err(Error::EmptyRule)),
        ("a number listed twice keeps the last", compile(twice) == compile(listed(0))),
        ("a number of x32 is compared like any other, and with nothing else", compared_with(1 << 30) == [(0x15, 1 << 30)]),
        ("an unknown architecture name is an error", TargetArch::try_from("mips") == Err(Error::InvalidTargetArch("mips".into()))),
        ("architecture names are compared without case", TargetArch::try_from("AArch64") == Ok(TargetArch::aarch64)),
    ];
    for (name, held) in &tries {
        println!("{} {name}", if *held { "ok    " } else { "FAILED" });
    }
    let passed = tries.iter().filter(|(_, held)| *held).count();
    println!("{passed} passed, {} failed", tries.len() - passed);
    passed == tries.len()
}

fn main() {
    if std::env::args().nth(1).as_deref() == Some("differences") {
        std::process::exit(i32::from(!differences()));
    }
    let mut input = BufReader::new(io::stdin().lock());
    let mut output = BufWriter::new(io::stdout().lock());
    let mut opinions = Opinions::default();
    while let Some(length) = next_word(&mut input) {
        let room = next_word(&mut input).expect("a whole frame");
        let set = next_bytes(&mut input, length);
        let Answer { code, count, place: [entry, rule, condition], program } = answer(&set, room, &mut opinions);
        let mut reply = [code, count, entry, rule, condition].map(u32::to_le_bytes).concat();
        for step in program {
            reply.extend(step.code.to_le_bytes());
            reply.extend([step.jt, step.jf]);
            reply.extend(step.k.to_le_bytes());
        }
        output.write_all(&reply).expect("standard output");
    }
    output.flush().expect("standard output");
    opinions.report();
}
