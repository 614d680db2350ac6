//! What is wrong is refused in words, and no bytes, whatever they are, do harm.

use callfilter::{Action, Architecture, Call, Condition, Error, Filter, Operator, Place, RuleSet, Width};

const ACTIONS: (Action, Action) = (Action::Errno(1), Action::Allow);

fn plain() -> RuleSet {
    RuleSet::new(Architecture::X86_64, ACTIONS.0, ACTIONS.1)
}

fn condition() -> Condition {
    Condition::new(0, Width::Dword, Operator::Eq, 1).unwrap()
}

// where in the bytes of `with_rules` its conditions begin, with their rules and places in these; all belong to call 5, the second entry
const CONDITIONS: [(usize, usize, usize); 3] = [(36, 0, 0), (60, 0, 1), (88, 1, 0)];

fn with_rules() -> Vec<u8> {
    let mut set = plain();
    let masked = Condition::new(3, Width::Qword, Operator::MaskedEq(6), 2).unwrap();
    set.call(3).call(5).rule(&[condition(), masked]).rule(&[condition()]).call(9);
    set.to_bytes().unwrap()
}

fn in_entry(entry: usize, call: u32) -> Place {
    Place { entry, call, rule: None, condition: None }
}

fn in_rule(entry: usize, call: u32, rule: usize) -> Place {
    Place { rule: Some(rule), ..in_entry(entry, call) }
}

fn in_condition(entry: usize, call: u32, rule: usize, condition: usize) -> Place {
    Place { condition: Some(condition), ..in_rule(entry, call, rule) }
}

// reading it, and compiling it into either form
fn both(bytes: &[u8]) -> Error {
    let refused = RuleSet::from_bytes(bytes).unwrap_err();
    assert_eq!(Filter::compile(bytes).unwrap_err(), refused);
    assert_eq!(Filter::compile_search(bytes).unwrap_err(), refused);
    refused
}

#[test]
fn bytes_that_are_no_set_are_refused() {
    let bytes = with_rules();
    for size in 0..bytes.len() {
        assert_eq!(both(&bytes[..size]), Error::NotOfTheFormat, "the first {size} bytes");
    }
    assert_eq!(both(&[&bytes[..], &[0]].concat()), Error::NotOfTheFormat);
}

#[test]
fn numbers_that_do_not_ascend_are_named() {
    for number in [3, 2, 0] {
        let mut bytes = with_rules();
        bytes[24] = number;
        assert_eq!(both(&bytes), Error::NotAscending { place: in_entry(1, number.into()), behind: 3 });
        // a second one behind it
        bytes[112] = 0;
        assert_eq!(both(&bytes).place(), Some(in_entry(1, number.into())));
    }
    // the last entry's own number, and the number before it
    for (place, number, last) in [(112, 5, 5), (112, 4, 4), (24, 9, 9)] {
        let mut bytes = with_rules();
        bytes[place] = number;
        assert_eq!(both(&bytes), Error::NotAscending { place: in_entry(2, last), behind: if place == 24 { 9 } else { 5 } });
    }
}

#[test]
fn equal_actions_are_named() {
    let set = RuleSet::new(Architecture::X86_64, Action::Trace(7), Action::Trace(7));
    assert_eq!(set.compile(), Err(Error::EqualActions(Action::Trace(7))));
    assert_eq!(both(&set.to_bytes().unwrap()), Error::EqualActions(Action::Trace(7)));
    assert_eq!(set.decide(&Call::new(Architecture::X86_64, 0, [0; 6])), Err(Error::EqualActions(Action::Trace(7))));
}

#[test]
fn a_rule_without_conditions_is_named() {
    let mut set = plain();
    set.call(3).call(5).rule(&[condition()]).rule(&[]);
    let refused = Error::EmptyRule(in_rule(1, 5, 1));
    assert_eq!(set.compile().as_ref(), Err(&refused));
    assert_eq!(set.decide(&Call::new(Architecture::X86_64, 0, [0; 6])).as_ref(), Err(&refused));
    assert_eq!(both(&set.to_bytes().unwrap()), refused);
    assert_eq!(
        refused.to_string(),
        "entry 1 (call 5), rule 1: it has no conditions; give it at least one, or the call no rules if it is to match always"
    );
}

#[test]
fn a_call_listed_with_rules_and_without_is_named() {
    let mut without_first = plain();
    without_first.call(4).call(5).call(5).rule(&[condition()]).rule(&[condition()]);
    let mut without_last = plain();
    without_last.call(5).rule(&[condition()]).call(5);
    for set in [without_first, without_last] {
        assert_eq!(set.compile(), Err(Error::AlwaysAndByRules(5)));
        assert_eq!(set.decide(&Call::new(Architecture::X86_64, 5, [0; 6])), Err(Error::AlwaysAndByRules(5)));
    }
    let (mut once, mut twice) = (plain(), plain());
    once.call(5).rule(&[condition()]).rule(&[condition()]).call(6);
    twice.call(6).call(5).rule(&[condition()]).call(6).call(5).rule(&[condition()]);
    assert_eq!(once, twice);
    assert_eq!(once.compile().map(|filter| filter.len()), Ok(22));
}

#[test]
fn an_argument_that_calls_have_not_is_named() {
    for index in 0..=255 {
        let made = Condition::new(index, Width::Qword, Operator::Ne, 0);
        assert_eq!(made.is_ok(), index < 6);
        if index > 5 {
            assert_eq!(made, Err(Error::IndexAboveFive { index, place: None }));
        }
        for (place, rule, condition) in CONDITIONS {
            let mut bytes = with_rules();
            bytes[place] = index;
            if index > 5 {
                let refused = Error::IndexAboveFive { index, place: Some(in_condition(1, 5, rule, condition)) };
                assert_eq!(both(&bytes), refused);
                // a second one behind it
                bytes[88] = index;
                assert_eq!(both(&bytes), refused);
            } else {
                assert_eq!(RuleSet::from_bytes(&bytes).unwrap().to_bytes(), Ok(bytes));
            }
        }
    }
}

#[test]
fn a_dword_condition_of_more_than_32_bits_is_named() {
    // value and mask begin 8 and 16 bytes behind the condition; the second one is a masked qword
    for ((start, rule, condition), at, number) in [
        (CONDITIONS[0], 12, 1 << 32 | 1),
        (CONDITIONS[0], 15, 1 << 56 | 1),
        (CONDITIONS[1], 12, 1 << 32 | 2),
        (CONDITIONS[1], 20, 1 << 32 | 6),
        (CONDITIONS[2], 12, 1 << 32 | 1),
    ] {
        let mut bytes = with_rules();
        (bytes[start + 1], bytes[start + at]) = (4, 1);
        let refused = Error::MoreThan32Bits { number, place: Some(in_condition(1, 5, rule, condition)) };
        assert_eq!(both(&bytes), refused);
        // a second one behind it
        bytes[CONDITIONS[2].0 + 12] = 1;
        assert_eq!(both(&bytes), refused);
    }
    // what has only ones above the 32 bits is a negative number: as a qword it would never match
    for (number, advice) in [
        (-100_i64 as u64, "has more: cut it to 0xffffff9c; the bits above are no part of an int, and calls mostly have zeros there"),
        (!3, "has more: cut it to 0xfffffffc; the bits above are no part of an int, and calls mostly have zeros there"),
        (0xffff_fffe_ffff_ff9c, "has more; compare a qword, or cut the number"),
        (1 << 32, "has more; compare a qword, or cut the number"),
    ] {
        for made in [Condition::new(0, Width::Dword, Operator::Eq, number), Condition::new(0, Width::Dword, Operator::MaskedEq(number), 0)]
        {
            assert!(made.unwrap_err().to_string().ends_with(advice), "{number:#x}");
        }
    }
    let cut = Condition::new(0, Width::Dword, Operator::Eq, (-100_i32 as u32).into()).unwrap();
    assert_eq!(cut.to_string(), "argument 0 (low 32 bits) = 0xffffff9c");
    for width in [Width::Dword, Width::Qword] {
        let made = Condition::new(0, width, Operator::MaskedEq(1 << 33), 0);
        assert_eq!(made.err(), (width == Width::Dword).then_some(Error::MoreThan32Bits { number: 1 << 33, place: None }));
    }
}

#[test]
fn a_filter_that_is_too_long_is_counted() {
    let mut set = plain();
    for number in 0..818 {
        set.call(number);
    }
    assert_eq!(set.compile().unwrap().len(), 4095);
    let mut longest = plain();
    for number in 0..816 {
        longest.call(number);
    }
    longest.call(816).rule(&[Condition::new(0, Width::Qword, Operator::MaskedEq(1), 1).unwrap()]);
    assert_eq!(longest.compile().unwrap().len(), 4096);
    for (number, count) in [(900, 4101), (901, 4106)] {
        let short = longest.call(number).compile_search().unwrap().len() as u32;
        let refused = Error::TooManyInstructions { count, place: in_entry(817, 900), search: Some(short) };
        assert_eq!(longest.compile(), Err(refused));
    }
    set.call(818);
    assert_eq!(set.compile(), Err(Error::TooManyInstructions { count: 4100, place: in_entry(818, 818), search: Some(7) }));
    // it has a meaning and a byte form all the same
    assert_eq!(set.decide(&Call::new(Architecture::X86_64, 818, [0; 6])), Ok(Action::Allow));
    assert_eq!(RuleSet::from_bytes(&set.to_bytes().unwrap()).as_ref(), Ok(&set));
    // but with a number that a condition does not look at whole it is no set
    let mut bytes = set.call(900).rule(&[condition()]).to_bytes().unwrap();
    let value = bytes.len() - 16;
    bytes[value + 4] = 1;
    assert_eq!(Filter::compile(&bytes), Err(Error::TooManyInstructions { count: 4107, place: in_entry(818, 818), search: None }));
    let refused = Error::MoreThan32Bits { number: 1 << 32 | 1, place: Some(in_condition(819, 900, 0, 0)) };
    assert_eq!(RuleSet::from_bytes(&bytes), Err(refused));
}

#[test]
fn a_guard_counts_into_the_length() {
    let listing = |count: u32| {
        let mut set = plain();
        for number in 0..count {
            set.call(number);
        }
        set
    };
    let native = |count: u32| {
        let mut set = listing(count);
        set.native_only();
        set
    };
    assert_eq!((listing(818).compile().unwrap().len(), native(817).compile().unwrap().len()), (4095, 4093));
    let refused = Error::TooManyInstructions { count: 4098, place: in_entry(817, 817), search: Some(10) };
    assert_eq!(native(818).compile(), Err(refused));
    // a set that is too long is read back with its flag
    let bytes = native(900).to_bytes().unwrap();
    assert_eq!(Filter::compile(&bytes), Err(Error::TooManyInstructions { count: 4508, place: in_entry(817, 817), search: Some(10) }));
    assert!(RuleSet::from_bytes(&bytes) == Ok(native(900)));
}

#[test]
fn what_stands_beside_the_flag_is_refused() {
    let known = [1, 2, 3, 0x101, 0x102, 0x103];
    let plain = plain().to_bytes().unwrap();
    for head in (0..0x400).chain([0x1_0001, 0x1_0101, 0x100_0001, 0x100_0101, 0x8000_0101, u32::MAX]) {
        let bytes = [&head.to_le_bytes()[..], &plain[4..]].concat();
        match RuleSet::from_bytes(&bytes) {
            Ok(set) => {
                assert!(known.contains(&head), "{head:#x}");
                assert_eq!((set.is_native_only(), set.to_bytes()), (head >= 0x100, Ok(bytes)));
            }
            Err(refused) => assert!(!known.contains(&head) && refused == Error::NotOfTheFormat, "{head:#x}"),
        }
    }
}

#[test]
fn a_search_that_is_too_long_is_counted() {
    // a span each, so that there is a question for each
    let spread = |count: u32| {
        let mut set = plain();
        for number in 0..count {
            set.call(2 * number);
        }
        set
    };
    assert_eq!(spread(3018).compile_search().unwrap().len(), 4096);
    let refused = spread(3019).compile_search().unwrap_err();
    assert_eq!(refused, Error::TooManyInstructions { count: 4097, place: in_entry(3018, 6036), search: None });
    assert_eq!(
        refused.to_string(),
        "entry 3018 (call 6036): with it the filter gets too long; in all it would have 4097 instructions, and at most 4096 are compiled: list \
         fewer calls or conditions"
    );
    assert_eq!(Filter::compile_search(&spread(3019).to_bytes().unwrap()), Err(refused));
    // whatever stands behind it
    assert_eq!(spread(90_000).compile_search().unwrap_err().place(), Some(in_entry(3018, 6036)));
    // one span, however many
    let mut row = plain();
    for number in 0..819 {
        row.call(number);
    }
    assert_eq!(row.compile(), Err(Error::TooManyInstructions { count: 4100, place: in_entry(818, 818), search: Some(7) }));
    assert_eq!(row.compile_search().unwrap().len(), 7);
    assert_eq!(
        row.compile().unwrap_err().to_string(),
        "entry 818 (call 818): with it the filter gets too long; in all it would have 4100 instructions, and at most 4096 are compiled: \
         compile_search makes a filter of 7 that does the same"
    );
    // neither form is short enough
    let refused = spread(3019).compile().unwrap_err();
    assert!(matches!(refused, Error::TooManyInstructions { search: None, .. }));
    assert!(refused.to_string().ends_with("list fewer calls or conditions"));
}

#[test]
fn a_set_has_at_most_a_mebibyte() {
    let mut set = plain();
    for number in 0..131_070 {
        set.call(number);
    }
    assert_eq!(set.to_bytes().unwrap().len(), 1 << 20);
    assert_eq!(RuleSet::from_bytes(&set.to_bytes().unwrap()).as_ref(), Ok(&set));
    set.call(u32::MAX);
    assert_eq!(set.to_bytes(), Err(Error::SetTooLong));
    assert_eq!(set.compile(), Err(Error::SetTooLong));
    assert_eq!(set.decide(&Call::new(Architecture::X86_64, 0, [0; 6])), Err(Error::SetTooLong));
}

#[test]
fn a_long_rule_is_written_whole() {
    let mut set = plain();
    let rule: Vec<Condition> = (0..300).map(|value| Condition::new(1, Width::Qword, Operator::Gt, value).unwrap()).collect();
    set.call(1).rule(&rule);
    assert_eq!(RuleSet::from_bytes(&set.to_bytes().unwrap()).as_ref(), Ok(&set));
    let filter = set.compile().unwrap();
    for (argument, action) in [(299, ACTIONS.0), (300, ACTIONS.1)] {
        assert_eq!(filter.run(&Call::new(Architecture::X86_64, 1, [0, argument, 0, 0, 0, 0])).action(), Some(action));
    }
}

#[test]
fn a_set_with_any_byte_changed_is_refused_or_reads_back_as_it_is() {
    let good = with_rules();
    let mut taken = 0;
    for place in 0..good.len() {
        for byte in 0..=255 {
            let mut bytes = good.clone();
            bytes[place] = byte;
            let read = RuleSet::from_bytes(&bytes);
            assert_eq!(read.is_ok(), Filter::compile(&bytes).is_ok());
            if let Ok(set) = read {
                assert_eq!(set.to_bytes(), Ok(bytes));
                taken += 1;
            }
        }
    }
    // at the least the values' bytes may be anything
    assert!(taken > 24 * 256, "{taken}");
}

#[test]
fn a_filter_with_any_byte_changed_is_refused_or_runs_and_is_listed() {
    let good = Filter::compile(&with_rules()).unwrap();
    let calls = [3, 5, 9, 10].map(|number| Call::new(Architecture::X86_64, number, [1, 0, 0, 2, 0, 0]));
    let mut taken = 0;
    for place in 0..8 * good.len() {
        for byte in 0..=255 {
            let mut bytes = good.to_bytes();
            bytes[place] = byte;
            let Ok(filter) = Filter::from_bytes(&bytes) else {
                assert!(!Filter::accepted(&bytes));
                continue;
            };
            taken += 1;
            assert!(Filter::accepted(&bytes));
            assert_eq!(filter.to_bytes(), bytes);
            for call in calls {
                assert!(filter.run(&call).steps as usize <= filter.len());
            }
            // a listing takes longer than all else here
            if usize::from(byte) % 16 == place % 16 {
                assert_eq!(filter.to_string().lines().count(), filter.len());
            }
        }
    }
    assert!(taken > 4096, "{taken}");
    for size in [0, 1, 7, 9, 8 * good.len() - 8] {
        assert_eq!(Filter::from_bytes(&good.to_bytes()[..size]), Err(Error::NotTaken));
    }
}

#[test]
fn errors_are_told_as_errors() {
    fn asked(name: &str) -> Result<Architecture, Box<dyn std::error::Error + Send + Sync>> {
        Ok(name.parse::<Architecture>()?)
    }
    assert_eq!(asked("AARCH64").unwrap(), Architecture::Aarch64);
    assert!(asked("").unwrap_err().to_string().contains("x86_64 or aarch64 or riscv64"));
    let place = in_condition(3, 257, 0, 2);
    let told = [
        (Error::NotOfTheFormat, "these bytes are no rule set"),
        (Error::NotAscending { place: in_entry(1, 2), behind: 3 }, "entry 1 (call 2): the one before it lists call 3; numbers must"),
        (Error::EqualActions(Action::Log), "the action is log whether a call matches or not"),
        (Error::IndexAboveFive { index: 7, place: Some(place) }, "entry 3 (call 257), rule 0, condition 2: there is no argument 7"),
        (Error::IndexAboveFive { index: 7, place: None }, "there is no argument 7; a call has the arguments 0 to 5"),
        (
            Error::MoreThan32Bits { number: 1 << 32, place: Some(place) },
            "entry 3 (call 257), rule 0, condition 2: a dword condition looks at 32 bits, and 0x100000000 has more",
        ),
        (
            Error::TooManyInstructions { count: 4100, place: in_entry(818, 818), search: Some(7) },
            "entry 818 (call 818): with it the filter gets too long",
        ),
        (
            Error::TooManyInstructions { count: 4100, place: in_entry(818, 818), search: Some(7) },
            "4100 instructions, and at most 4096 are compiled",
        ),
        (Error::AlwaysAndByRules(0x4000_0005), "call 0x40000005 is listed without rules"),
        (
            Error::NotAscending { place: in_entry(1, 65536), behind: u32::MAX },
            "entry 1 (call 0x10000): the one before it lists call 0xffffffff",
        ),
        (Error::AlwaysAndByRules(5), "call 5 is listed without rules, to match always, and once more with rules"),
        (Error::SetTooLong, "more than 1 MiB"),
        (Error::NotTaken, "the kernel would not take these bytes as a filter"),
    ];
    for (error, words) in told {
        assert!(error.to_string().contains(words), "{error}");
    }
}
