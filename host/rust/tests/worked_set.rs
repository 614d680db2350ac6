//! The worked set: its bytes, its filter and what becomes of calls, spelled out.

use callfilter::{Action, Architecture, Call, Condition, Error, Filter, Operator, RuleSet, Width};

const SET: &str = "
    01000000 01000500 0000ff7f 03000000
    00000000 00000000
    01000000 01000000 01000000 0004000000000000 0100000000000000 0000000000000000
    01010000 02000000 01000000 0208050000000000 0000000000000000 0300000000000000
                      01000000 0108010000000000 0000000001000000 0000000000000000";

const FILTER: &str = "
    2000000004000000 150001003e0000c0 0600000000000080 2000000000000000 1500000100000000 0500000001000000
    0500000002000000 060000000000ff7f 0600000001000500 1500000101000000 0500000001000000 0500000004000000
    2000000010000000 1500000101000000 060000000000ff7f 0600000001000500 1500000101010000 0500000001000000
    0500000008000000 2000000024000000 5400000000000000 1500000400000000 2000000020000000 5400000003000000
    1500000100000000 060000000000ff7f 0500000001000000 0500000007000000 200000001c000000 2500030001000000
    1500000301000000 2000000018000000 3500000100000000 060000000000ff7f 0600000001000500 0600000001000500";

fn bytes(hex: &str) -> Vec<u8> {
    let digits: Vec<u32> = hex.chars().filter_map(|digit| digit.to_digit(16)).collect();
    digits.chunks_exact(2).map(|pair| (16 * pair[0] + pair[1]) as u8).collect()
}

fn worked_set() -> Result<RuleSet, Error> {
    let mut set = RuleSet::new(Architecture::X86_64, Action::Errno(1), Action::Allow);
    // not in the order of the bytes, and one call in two goes
    set.call(257).rule(&[Condition::new(2, Width::Qword, Operator::MaskedEq(3), 0)?]);
    set.call(1).rule(&[Condition::new(0, Width::Dword, Operator::Eq, 1)?]);
    set.call(0).call(257).rule(&[Condition::new(1, Width::Qword, Operator::Ge, 1 << 32)?]);
    Ok(set)
}

#[test]
fn its_bytes_are_those_of_the_format_and_read_back() {
    let set = worked_set().unwrap();
    assert_eq!(set.to_bytes(), Ok(bytes(SET)));
    assert_eq!(RuleSet::from_bytes(&bytes(SET)), Ok(set));
}

#[test]
fn its_filter_is_the_one_spelled_out() {
    let filter = worked_set().unwrap().compile().unwrap();
    assert_eq!(filter.len(), 36);
    assert_eq!(filter.to_bytes(), bytes(FILTER));
    assert_eq!(Filter::compile(&bytes(SET)).as_ref(), Ok(&filter));
    assert_eq!(Filter::from_bytes(&bytes(FILTER)), Ok(filter));
}

#[test]
fn its_filter_returns_what_it_means_for_ten_calls() {
    let set = worked_set().unwrap();
    let filter = set.compile().unwrap();
    let x86_64 = Architecture::X86_64;
    let calls = [
        (Call::new(x86_64, 0, [0; 6]), Action::Allow, 6),
        (Call::new(x86_64, 1, [1, 0, 0, 0, 0, 0]), Action::Allow, 10),
        (Call::new(x86_64, 1, [(1 << 32) + 1, 0, 0, 0, 0, 0]), Action::Allow, 10),
        (Call::new(x86_64, 1, [2, 0, 0, 0, 0, 0]), Action::Errno(1), 10),
        (Call::new(x86_64, 257, [0, 0, 4, 0, 0, 0]), Action::Allow, 16),
        (Call::new(x86_64, 257, [0, 0, 1, 0, 0, 0]), Action::Errno(1), 20),
        (Call::new(x86_64, 257, [0, 1 << 32, 1, 0, 0, 0]), Action::Allow, 22),
        (Call::new(x86_64, 257, [0, (1 << 32) - 1, 2, 0, 0, 0]), Action::Errno(1), 20),
        (Call::new(x86_64, 2, [0; 6]), Action::Errno(1), 11),
        (Call::new(Architecture::Aarch64, 0, [0; 6]), Action::KillProcess, 3),
    ];
    assert_eq!(filter.run_all(&[]), []);
    let at_once = filter.run_all(&calls.map(|(call, _, _)| call));
    assert_eq!(at_once.len(), calls.len());
    for ((call, action, steps), among_all) in calls.into_iter().zip(at_once) {
        let outcome = filter.run(&call);
        assert_eq!((outcome.word, outcome.action(), outcome.steps), (action.word(), Some(action), steps), "{call:?}");
        assert_eq!(among_all, outcome, "{call:?}");
        assert_eq!(set.decide(&call), Ok(action), "{call:?}");
    }
}

#[test]
fn its_search_is_shorter_and_returns_the_same() {
    let set = worked_set().unwrap();
    let (list, search) = (set.compile().unwrap(), set.compile_search().unwrap());
    assert_eq!((list.len(), search.len()), (36, 27));
    assert_eq!(Filter::compile_search(&bytes(SET)).as_ref(), Ok(&search));
    assert_eq!(Filter::from_bytes(&search.to_bytes()).as_ref(), Ok(&search));
    let words = [0, 1, 2, 3, 4, (1 << 32) - 1, 1 << 32, (1 << 32) + 1, u64::MAX];
    for architecture in Architecture::ALL {
        for number in [0, 1, 2, 256, 257, 258, 1 << 31, u32::MAX] {
            for arguments in words.map(|first| words.map(|last| [first, first, last, 0, 0, 0])).concat() {
                let call = Call::new(architecture, number, arguments);
                let (by_list, by_search) = (list.run(&call), search.run(&call));
                assert_eq!(by_search.word, by_list.word, "{call:?}");
                assert!(by_search.steps <= by_list.steps, "{call:?}");
            }
        }
    }
}

// the worked set for native numbers only: bit 8 of its first number, and behind the load of a call's number the guard
const GUARD: &str = "4500000200000040 15000100ffffffff 0600000000000080";

fn native_set() -> RuleSet {
    let mut set = worked_set().unwrap();
    set.native_only();
    set
}

#[test]
fn for_native_numbers_only_it_has_a_flag_and_its_filter_a_guard() {
    let mut flagged = bytes(SET);
    flagged[1] = 1;
    assert_eq!(native_set().to_bytes().as_ref(), Ok(&flagged));
    assert_eq!(RuleSet::from_bytes(&flagged), Ok(native_set()));
    assert_ne!(native_set(), worked_set().unwrap());
    let mut filter = bytes(FILTER);
    filter.splice(32..32, bytes(GUARD));
    assert_eq!(native_set().compile().unwrap().to_bytes(), filter);
    assert_eq!(Filter::compile(&flagged).unwrap().to_bytes(), filter);
    // the search has the same head
    let (search, plain) = (native_set().compile_search().unwrap(), worked_set().unwrap().compile_search().unwrap());
    assert_eq!(search.to_bytes()[..56], filter[..56]);
    assert_eq!(search.to_bytes()[56..], plain.to_bytes()[32..]);
    // nothing listed: the number is loaded all the same
    let mut empty = RuleSet::new(Architecture::X86_64, Action::Errno(1), Action::Allow);
    assert_eq!((empty.compile().unwrap().len(), empty.native_only().compile().unwrap().len()), (4, 8));
    assert_eq!(empty.compile().unwrap().to_bytes(), [&filter[..56], &filter[filter.len() - 8..]].concat());
    assert_eq!(empty.compile_search(), empty.compile());
}

#[test]
fn for_native_numbers_only_numbers_with_bit_30_kill_whatever_is_listed() {
    let mut set = native_set();
    for number in [0x3fff_ffff, 0x4000_0000, 0x4000_0001, 0x7fff_ffff, 0x8000_0001, 0xbfff_ffff, 0xc000_0000, 0xffff_fffe] {
        set.call(number);
    }
    let filters = [set.compile().unwrap(), set.compile_search().unwrap()];
    for (number, action) in [
        (0, Action::Allow),
        (2, Action::Errno(1)),
        (0x3fff_fffe, Action::Errno(1)),
        (0x3fff_ffff, Action::Allow),
        (0x4000_0000, Action::KillProcess),
        (0x4000_0001, Action::KillProcess),
        (0x4000_0002, Action::KillProcess),
        (0x7fff_ffff, Action::KillProcess),
        (0x8000_0000, Action::Errno(1)),
        (0x8000_0001, Action::Allow),
        (0xbfff_ffff, Action::Allow),
        (0xc000_0000, Action::KillProcess),
        (0xffff_fffe, Action::KillProcess),
        (0xffff_ffff, Action::Errno(1)),
    ] {
        let call = Call::new(Architecture::X86_64, number, [0; 6]);
        assert_eq!(set.decide(&call), Ok(action), "{number:#x}");
        for filter in &filters {
            assert_eq!(filter.run(&call).action(), Some(action), "{number:#x}");
        }
    }
}

#[test]
fn for_native_numbers_only_other_architectures_have_the_same_filter() {
    for architecture in [Architecture::Aarch64, Architecture::Riscv64] {
        let mut set = RuleSet::new(architecture, Action::Errno(1), Action::Allow);
        for number in [1, 2, 0x4000_0000, 0xffff_ffff] {
            let (plain, search) = (set.compile(), set.compile_search());
            let mut native = set.clone();
            native.native_only();
            assert_ne!(native.to_bytes(), set.to_bytes());
            assert_eq!(RuleSet::from_bytes(&native.to_bytes().unwrap()).as_ref(), Ok(&native));
            assert_eq!((native.compile(), native.compile_search()), (plain, search));
            set.call(number);
        }
    }
}

#[test]
fn a_search_over_many_calls_returns_what_the_set_means() {
    let mut set = RuleSet::new(Architecture::X86_64, Action::Trap, Action::Log);
    for number in (0..1200).filter(|number| number % 5 != 3) {
        let listed = set.call(number);
        if number % 15 == 0 {
            listed.rule(&[Condition::new(0, Width::Qword, Operator::Gt, u64::from(number)).unwrap()]);
        }
    }
    let (list, search) = (set.compile(), set.compile_search().unwrap());
    assert!(matches!(list, Err(Error::TooManyInstructions { .. })));
    for (number, argument) in (0..1210).flat_map(|number| [0, 1, 1 << 32].map(|more| (number, u64::from(number) + more))) {
        let call = Call::new(Architecture::X86_64, number, [argument, 0, 0, 0, 0, 0]);
        let outcome = search.run(&call);
        assert_eq!(outcome.action(), Some(set.decide(&call).unwrap()), "{call:?}");
        // at most 2^9 spans, and a condition with its two returns
        assert!(outcome.steps <= 9 + 9 + 1 + 9, "{call:?}: {}", outcome.steps);
    }
}

#[test]
fn every_operator_and_width_compares_as_it_says() {
    let around = |edge: u64| [edge.wrapping_sub(1), edge, edge.wrapping_add(1)];
    let numbers: Vec<u64> = [0, 1 << 31, 1 << 32, 5 << 32, 1 << 63].into_iter().flat_map(around).collect();
    let mask = 0x8000_0001_8000_0003;
    for width in [Width::Dword, Width::Qword] {
        let cut = |number: u64| if width == Width::Dword { number & 0xffff_ffff } else { number };
        for operator in [Operator::Eq, Operator::Ne, Operator::Ge, Operator::Gt, Operator::Le, Operator::Lt, Operator::MaskedEq(cut(mask))] {
            for (value, argument) in numbers.iter().flat_map(|value| numbers.iter().map(move |argument| (*value, *argument))) {
                if cut(value) != value {
                    assert_eq!(Condition::new(5, width, operator, value), Err(Error::MoreThan32Bits { number: value, place: None }));
                    continue;
                }
                let (one, two) = (cut(argument), value);
                let holds = match operator {
                    Operator::Eq => one == two,
                    Operator::Ne => one != two,
                    Operator::Ge => one >= two,
                    Operator::Gt => one > two,
                    Operator::Le => one <= two,
                    Operator::Lt => one < two,
                    Operator::MaskedEq(mask) => one & mask == two & mask,
                };
                let mut set = RuleSet::new(Architecture::Aarch64, Action::Trap, Action::Log);
                set.call(7).rule(&[Condition::new(5, width, operator, value).unwrap()]);
                let call = Call::new(Architecture::Aarch64, 7, [9, 9, 9, 9, 9, argument]);
                let action = if holds { Action::Log } else { Action::Trap };
                assert_eq!(set.compile().unwrap().run(&call).action(), Some(action), "{set} {argument:#x}");
                assert_eq!(set.decide(&call), Ok(action), "{set} {argument:#x}");
            }
        }
    }
}
