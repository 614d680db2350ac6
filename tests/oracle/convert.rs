// Plain values of the format as seccompiler's own objects, for the oracle and for the benchmark.

use std::collections::BTreeMap;

use crate::backend::{
    sock_filter, BpfProgram, Error, SeccompAction, SeccompCmpArgLen, SeccompCmpOp, SeccompCondition, SeccompFilter, SeccompRule, TargetArch,
};
use crate::format::{self, Condition, RuleSet, CANCELLED, SECOND_TABLE};

pub type Rules = BTreeMap<i64, Vec<SeccompRule>>;

// An action that seccompiler 0.5.0 does not have yet. It is asked with an errno in its place, and the returned words are put right
// behind it: nothing else in a filter depends on an action.
const USER_NOTIF: u32 = 0x7fc0_0000;
const RETURN: u16 = 0x06;

fn stands_in(set: &RuleSet) -> u32 {
    let free = |errno: &u32| ![set.mismatch, set.on_match].contains(errno);
    [0x0005_0001, 0x0005_0002, 0x0005_0003].into_iter().find(free).expect("a set has two actions")
}

fn asked(word: u32, set: &RuleSet) -> u32 {
    if word == USER_NOTIF { stands_in(set) } else { word }
}

pub fn put_right(program: &mut BpfProgram, set: &RuleSet) {
    for step in program.iter_mut().filter(|step| step.code == RETURN && step.k == stands_in(set)) {
        step.k = USER_NOTIF;
    }
}

// The flag for native numbers only is not seccompiler's: it is asked without, and what the flag asks for is put into its filter behind the
// test of the architecture, which has three instructions, and the load of the number, which stands there unless nothing is listed.
const BEFORE_NUMBER: usize = 3;
const KILL_PROCESS: u32 = 0x8000_0000;

fn guard_of(set: &RuleSet) -> Vec<sock_filter> {
    let load = sock_filter { code: 0x20, jt: 0, jf: 0, k: 0 };
    let guard = [
        sock_filter { code: 0x45, jt: 0, jf: 2, k: SECOND_TABLE },
        sock_filter { code: 0x15, jt: 1, jf: 0, k: CANCELLED },
        sock_filter { code: RETURN, jt: 0, jf: 0, k: KILL_PROCESS },
    ];
    match (set.guarded(), set.entries.is_empty()) {
        (false, _) => vec![],
        (true, false) => guard.into(),
        (true, true) => [&[load][..], &guard].concat(),
    }
}

pub fn guard_length(set: &RuleSet) -> usize {
    guard_of(set).len()
}

pub fn put_guard(program: &mut BpfProgram, set: &RuleSet) {
    let place = BEFORE_NUMBER + usize::from(!set.entries.is_empty());
    program.splice(place..place, guard_of(set));
}

fn action(word: u32) -> SeccompAction {
    let made = match word >> 16 {
        0x8000 => SeccompAction::KillProcess,
        0x0000 => SeccompAction::KillThread,
        0x0003 => SeccompAction::Trap,
        0x0005 => SeccompAction::Errno(word & 0xffff),
        0x7ff0 => SeccompAction::Trace(word & 0xffff),
        0x7ffc => SeccompAction::Log,
        0x7fff => SeccompAction::Allow,
        _ => unreachable!("the reader took an unknown action"),
    };
    assert_eq!(u32::from(made.clone()), word, "seccompiler returns another word for this action");
    made
}

fn architecture(number: u32) -> TargetArch {
    match number {
        1 => TargetArch::x86_64,
        2 => TargetArch::aarch64,
        3 => TargetArch::riscv64,
        _ => unreachable!("the reader took an unknown architecture"),
    }
}

pub fn condition(given: &Condition) -> Result<SeccompCondition, Error> {
    let width = if given.wide { SeccompCmpArgLen::Qword } else { SeccompCmpArgLen::Dword };
    let operator = match given.operator {
        format::EQ => SeccompCmpOp::Eq,
        format::GE => SeccompCmpOp::Ge,
        format::GT => SeccompCmpOp::Gt,
        format::LE => SeccompCmpOp::Le,
        format::LT => SeccompCmpOp::Lt,
        format::MASKED_EQ => SeccompCmpOp::MaskedEq(given.mask),
        format::NE => SeccompCmpOp::Ne,
        _ => unreachable!("the reader took an unknown operator"),
    };
    SeccompCondition::new(given.index, width, operator, given.value)
}

pub fn filter_of(set: &RuleSet, rules: Rules) -> Result<SeccompFilter, Error> {
    let [mismatch, on_match] = [set.mismatch, set.on_match].map(|word| action(asked(word, set)));
    SeccompFilter::new(rules, mismatch, on_match, architecture(set.architecture))
}
