// Times the proved compiler beside the real seccompiler 0.5.0, and its two forms of filter beside each other, in one process and on the
// same sets. All of it takes turns, batch by batch, and the best batch of each counts, so that what else the machine does falls on all
// alike and mostly falls away.
//
// What is timed:
//   ours     one call from the set's bytes into a lent buffer, which is not cleared in between
//   objects  seccompiler's conversion of a filter object, made before the clock starts, into a program, with freeing both: the
//            conversion consumes the object, so each batch has its own clones, made before the clock starts too
//   bytes    the same from the set's bytes: reading them into seccompiler's objects, then the conversion
//   copy     a memcpy of as many bytes as the filter has

#[path = "../target/oracle/src/backend/mod.rs"]
mod backend;
#[path = "../tests/oracle/convert.rs"]
mod convert;
#[path = "../tests/oracle/format.rs"]
mod format;

use std::hint::black_box;
use std::time::{Duration, Instant};

use backend::{BpfProgram, SeccompFilter, SeccompRule};
use convert::{condition, filter_of, Rules};
use format::{Condition, RuleSet};

// as callfilter.h has it
#[repr(C)]
struct Answer {
    code: u32,
    count: u32,
    entry: u32,
    rule: u32,
    condition: u32,
}

#[repr(C)]
struct Outcome {
    code: u32,
    action: u32,
    steps: u32,
}

extern "C" {
    fn callfilter_compile(set: *const u8, set_len: usize, out: *mut u8, out_len: usize) -> Answer;
    fn callfilter_compile_search(set: *const u8, set_len: usize, out: *mut u8, out_len: usize) -> Answer;
    fn callfilter_run(filter: *const u8, filter_len: usize, call: *const u8, call_len: usize) -> Outcome;
}

const LONGEST_FILTER: usize = 8 * 4096;
const TIME_FOR_A_SET: Duration = Duration::from_millis(1500);
const TIME_FOR_FORMS: Duration = Duration::from_millis(500);
const LIMIT: f64 = 5e6;
const LIMIT_OF_SEARCH: f64 = 50e6;
const AUDIT_ARCH_X86_64: u32 = 0xc000_003e;

fn ours(set: &[u8], out: &mut [u8]) -> Answer {
    unsafe { callfilter_compile(set.as_ptr(), set.len(), out.as_mut_ptr(), out.len()) }
}

fn search(set: &[u8], out: &mut [u8]) -> Answer {
    unsafe { callfilter_compile_search(set.as_ptr(), set.len(), out.as_mut_ptr(), out.len()) }
}

struct Reader<'a>(&'a [u8]);

impl<'a> Reader<'a> {
    fn take<const N: usize>(&mut self) -> Option<[u8; N]> {
        let (front, rest) = self.0.split_first_chunk::<N>()?;
        self.0 = rest;
        Some(*front)
    }

    fn word(&mut self) -> Option<u32> {
        self.take().map(u32::from_le_bytes)
    }
}

// straight into seccompiler's objects, with room for as many as the counts say where there are bytes for them: as fast a reader as
// one would write by hand
fn filter_from(bytes: &[u8]) -> Option<SeccompFilter> {
    let mut left = Reader(bytes);
    // no set here is for native numbers only, which seccompiler does not have
    let (architecture, native_only) = (left.word()?, false);
    let set = RuleSet { architecture, native_only, mismatch: left.word()?, on_match: left.word()?, entries: vec![] };
    let mut entries = vec![];
    for _ in 0..left.word()? {
        let number = left.word()?;
        let count = left.word()?;
        let mut rules = Vec::with_capacity((count as usize).min(left.0.len() / 4));
        for _ in 0..count {
            let count = left.word()?;
            let mut conditions = Vec::with_capacity((count as usize).min(left.0.len() / 24));
            for _ in 0..count {
                let [index, width, operator, zero @ ..] = left.take::<8>()?;
                let value = u64::from_le_bytes(left.take()?);
                let mask = u64::from_le_bytes(left.take()?);
                if width != 4 && width != 8 || operator > format::NE || zero != [0; 5] || mask != 0 && operator != format::MASKED_EQ {
                    return None;
                }
                conditions.push(condition(&Condition { index, wide: width == 8, operator, value, mask }).ok()?);
            }
            rules.push(SeccompRule::new(conditions).ok()?);
        }
        entries.push((i64::from(number), rules));
    }
    // a map is made fastest from a sorted list
    left.0.is_empty().then_some(())?;
    filter_of(&set, Rules::from_iter(entries)).ok()
}

fn as_bytes(program: &BpfProgram) -> Vec<u8> {
    program.iter().flat_map(|step| [&step.code.to_le_bytes()[..], &[step.jt, step.jf], &step.k.to_le_bytes()].concat()).collect()
}

fn timed(best: &mut f64, batch: usize, work: impl FnOnce()) {
    let start = Instant::now();
    work();
    *best = best.min(start.elapsed().as_nanos() as f64 / batch as f64);
}

// small enough that a batch's clones stay in the cache, large enough that the clock does not count
fn batch_of(set: &[u8]) -> usize {
    (65536 / set.len()).clamp(4, 256)
}

fn compare(name: &str, set: &[u8]) {
    let filter = filter_from(set).expect("a set of the format");
    let program = BpfProgram::try_from(filter.clone()).expect("a filter");
    let size = 8 * program.len();
    let mut out = vec![0; LONGEST_FILTER];
    let answer = ours(set, &mut out);
    assert!(answer.code == 0 && out[..size] == as_bytes(&program), "{name}: the filters differ");
    let mut copied = vec![0; size];

    let batch = batch_of(set);
    let (mut by_ours, mut by_objects, mut by_bytes, mut by_copy) = (f64::MAX, f64::MAX, f64::MAX, f64::MAX);
    let start = Instant::now();
    while start.elapsed() < TIME_FOR_A_SET {
        timed(&mut by_ours, batch, || {
            for _ in 0..batch {
                black_box(ours(black_box(set), black_box(&mut out)));
            }
        });
        let mut clones = vec![filter.clone(); batch];
        timed(&mut by_objects, batch, || {
            for one in clones.drain(..) {
                black_box(BpfProgram::try_from(black_box(one)).is_ok());
            }
        });
        timed(&mut by_bytes, batch, || {
            for _ in 0..batch {
                let program = filter_from(black_box(set)).map(BpfProgram::try_from);
                black_box(&program);
            }
        });
        timed(&mut by_copy, batch, || {
            for _ in 0..batch {
                black_box(&mut copied).copy_from_slice(black_box(&out[..size]));
            }
        });
    }
    println!(
        "| {name} | {} | {} | {by_ours:.0} ns | {:.2} ns | {:.1} | {:.1} | {:.1} | {:.0} | {:.0} |",
        set.len(),
        program.len(),
        by_ours / program.len() as f64,
        by_objects / by_ours,
        by_bytes / by_ours,
        by_ours / by_copy,
        by_objects / by_copy,
        by_bytes / by_copy
    );
}

// a set's filter in one form, and how long compiling takes
struct Form {
    compile: fn(&[u8], &mut [u8]) -> Answer,
    filter: Vec<u8>,
    time: f64,
}

impl Form {
    fn new(compile: fn(&[u8], &mut [u8]) -> Answer, set: &[u8]) -> Form {
        let mut filter = vec![0; LONGEST_FILTER];
        let answer = compile(set, &mut filter);
        assert!(answer.code == 0, "a set that compiles");
        filter.truncate(8 * answer.count as usize);
        Form { compile, filter, time: f64::MAX }
    }

    // how many instructions a call with a number runs, its arguments being all the same: as the definitions' machine runs them
    fn steps(&self, number: u32, argument: u64) -> u32 {
        let mut call = [number.to_le_bytes(), AUDIT_ARCH_X86_64.to_le_bytes(), [0; 4], [0; 4]].concat();
        call.extend([argument.to_le_bytes(); 6].concat());
        let outcome = unsafe { callfilter_run(self.filter.as_ptr(), self.filter.len(), call.as_ptr(), call.len()) };
        assert!(outcome.code == 0, "a filter that the kernel takes, and a call");
        outcome.steps
    }

    // the worst, and the mean
    fn steps_of(&self, numbers: &[u32]) -> (u32, f64) {
        let runs: Vec<u32> = numbers.iter().flat_map(|number| [0, u64::MAX].map(|argument| self.steps(*number, argument))).collect();
        (*runs.iter().max().expect("a number"), f64::from(runs.iter().sum::<u32>()) / runs.len() as f64)
    }
}

// Both forms side by side. A number that is not listed runs what any other between the same two listed ones runs, so that those next to
// listed ones, and the last of all, stand for all of them.
fn forms(name: &str, set: &[u8]) -> String {
    let mut forms = [Form::new(ours, set), Form::new(search, set)];
    let listed: Vec<u32> = format::read_set(set).expect("a set of the format").entries.iter().map(|entry| entry.number).collect();
    let around = listed.iter().flat_map(|number| [number.wrapping_sub(1), number.wrapping_add(1)]);
    let others: Vec<u32> = around.chain([u32::MAX]).filter(|number| listed.binary_search(number).is_err()).collect();

    let (batch, mut out) = (batch_of(set), vec![0; LONGEST_FILTER]);
    let start = Instant::now();
    while start.elapsed() < TIME_FOR_FORMS {
        for Form { compile, time, .. } in &mut forms {
            timed(time, batch, || {
                for _ in 0..batch {
                    black_box(compile(black_box(set), black_box(&mut out)));
                }
            });
        }
    }
    let [(list_worst, list_mean), (search_worst, search_mean)] = [&forms[0], &forms[1]].map(|form| form.steps_of(&listed));
    let [(list_other, _), (search_other, _)] = [&forms[0], &forms[1]].map(|form| form.steps_of(&others));
    println!(
        "| {name} | {} | {} | {list_worst} | {search_worst} | {list_mean:.0} | {search_mean:.0} | {list_other} | {search_other} |",
        forms[0].filter.len() / 8,
        forms[1].filter.len() / 8
    );
    format!("| {name} | {:.0} ns | {:.0} ns | {:.1} |", forms[0].time, forms[1].time, forms[1].time / forms[0].time)
}

// the answer, and how long it takes: the best time, and the middle one
fn answered(compile: fn(&[u8], &mut [u8]) -> Answer, set: &[u8], count: usize) -> (u32, f64, f64) {
    let (mut out, mut code) = (vec![0; LONGEST_FILTER], 0);
    let mut times: Vec<f64> = (0..count)
        .map(|_| {
            let start = Instant::now();
            let answer = compile(black_box(set), &mut out);
            let time = start.elapsed().as_nanos() as f64;
            code = answer.code;
            time
        })
        .collect();
    times.sort_by(f64::total_cmp);
    (code, times[0], times[times.len() / 2])
}

// The middle one is held to the limit, a search's to its own.
fn limit(name: &str, code: u32, set: &[u8]) -> bool {
    let (answer, best, middle) = answered(ours, set, 201);
    assert!(answer == code, "{name}: answer {answer}");
    let (of_search, _, middle_of_search) = answered(search, set, 21);
    let [good, good_of_search] = [middle < LIMIT, middle_of_search < LIMIT_OF_SEARCH];
    let [told, told_of_search] = [good, good_of_search].map(|good| if good { "yes" } else { "NO" });
    let size = set.len();
    println!(
        "| {name} | {size} | {code} | {:.2} ms | {:.2} ms | {told} | {of_search} | {:.2} ms | {told_of_search} |",
        best / 1e6,
        middle / 1e6,
        middle_of_search / 1e6
    );
    good && good_of_search
}

fn main() {
    let list = std::env::args().nth(1).expect("the list of sets");
    let list = std::fs::read_to_string(list).expect("the list of sets");
    let rows = |wanted: &str| -> Vec<(String, u32, Vec<u8>)> {
        let fields = list.lines().map(|line| line.split('\t').collect::<Vec<_>>());
        let row = |field: Vec<&str>| (field[3].to_string(), field[1].parse().expect("an answer"), std::fs::read(field[2]).expect("a set"));
        fields.filter(|field| field[0] == wanted).map(row).collect()
    };

    println!("| set | bytes | instructions | ours | per instruction | seccompiler from objects takes, times ours | from bytes, times ours | ours, times a copy | from objects, times a copy | from bytes, times a copy |");
    println!("|---|---|---|---|---|---|---|---|---|---|");
    for (name, _, set) in rows("compare") {
        compare(&name, &set);
    }
    println!();
    println!("| list and search | instructions | search | run for a listed number, worst | search | mean | search | for another, worst | search |");
    println!("|---|---|---|---|---|---|---|---|---|");
    let both = [rows("compare"), rows("forms")].concat();
    let times: Vec<String> = both.iter().map(|(name, _, set)| forms(name, set)).collect();
    println!();
    println!("| compiled into | a list | a search | search, times list |");
    println!("|---|---|---|---|");
    println!("{}", times.join("\n"));
    println!();
    println!("| set of 1 MiB | bytes | answer | best | middle | under 5 ms | of a search: answer | middle | under 50 ms |");
    println!("|---|---|---|---|---|---|---|---|---|");
    let good: Vec<bool> = rows("limit").iter().map(|(name, code, set)| limit(name, *code, set)).collect();
    std::process::exit(i32::from(good.contains(&false)));
}
