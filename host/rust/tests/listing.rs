//! Filters and rule sets in words.

use callfilter::{sock_filter, Action, Architecture, Condition, Error, Filter, Operator, RuleSet, Width};

fn filter(instructions: &[(u16, u8, u8, u32)]) -> Filter {
    let bytes: Vec<u8> = instructions.iter().flat_map(|&(code, jt, jf, k)| sock_filter { code, jt, jf, k }.to_bytes()).collect();
    Filter::from_bytes(&bytes).unwrap()
}

// the end of each line, from its instruction on
fn texts(filter: &Filter) -> Vec<String> {
    let lines: Vec<String> = filter.to_string().lines().map(str::to_owned).collect();
    let words = |line: &String| line.split_whitespace().map(str::to_owned).collect::<Vec<_>>();
    let behind_offset = |at: usize, line: &String| {
        let all = words(line);
        all[1 + all.iter().position(|word| *word == at.to_string()).unwrap()..].join(" ")
    };
    lines.iter().enumerate().map(|(at, line)| behind_offset(at, line)).collect()
}

#[test]
fn every_code_that_the_kernel_takes_has_its_name() {
    let codes = [
        (0x00, "ld 7"),
        (0x01, "ldx 7"),
        (0x02, "st M[7]"),
        (0x03, "stx M[7]"),
        (0x60, "ld M[7]"),
        (0x61, "ldx M[7]"),
        (0x80, "ld length"),
        (0x81, "ldx length"),
        (0x07, "tax"),
        (0x87, "txa"),
        (0x84, "neg"),
        (0x04, "add 7"),
        (0x0c, "add x"),
        (0x14, "sub 7"),
        (0x1c, "sub x"),
        (0x24, "mul 7"),
        (0x2c, "mul x"),
        (0x34, "div 7"),
        (0x3c, "div x"),
        (0x44, "or 7"),
        (0x4c, "or x"),
        (0x54, "and 7 masked by 7"),
        (0x5c, "and x"),
        (0x64, "lsh 7"),
        (0x6c, "lsh x"),
        (0x74, "rsh 7"),
        (0x7c, "rsh x"),
        (0xa4, "xor 7"),
        (0xac, "xor x"),
        (0x15, "jeq 7 = 7?"),
        (0x1d, "jeq x = x?"),
        (0x25, "jgt 7 > 7?"),
        (0x2d, "jgt x > x?"),
        (0x35, "jge 7 ≥ 7?"),
        (0x3d, "jge x ≥ x?"),
        (0x45, "jset 7 any bit of 7?"),
        (0x4d, "jset x any bit of x?"),
    ];
    let instructions: Vec<_> = codes.iter().map(|(code, _)| (*code, 0, 0, 7)).chain([(0x20, 0, 0, 8), (0x16, 0, 0, 0)]).collect();
    let mut expected: Vec<&str> = codes.iter().map(|(_, text)| *text).collect();
    expected.extend(["ld [8] instruction pointer, low half", "ret a"]);
    // a scratch word is not read before it is written
    let store = (0x02, 0, 0, 7);
    assert_eq!(texts(&filter(&[&[store], &instructions[..]].concat()))[1..], expected);
    assert_eq!(texts(&filter(&[(0x05, 0, 0, 0), (0x06, 0, 0, 0x7fff_0001)])), ["ja +0 → 1", "ret 0x7fff0001 no known action"]);
}

#[test]
fn what_is_known_is_what_holds_on_all_ways() {
    let same = (0x06, 0, 0, 0);
    // two numbers lead to one return, so it is neither one's
    let two = filter(&[(0x20, 0, 0, 0), (0x15, 1, 0, 5), (0x15, 0, 1, 6), (0x06, 0, 0, 0x7fff_0000), same]);
    assert_eq!(texts(&two)[3..], ["ret 0x7fff0000 allow", "ret 0 other calls: kill thread"]);
    // what was masked is no number any more
    let masked = filter(&[(0x20, 0, 0, 0), (0x54, 0, 0, 7), (0x15, 0, 0, 5), same]);
    assert_eq!(texts(&masked)[2..], ["jeq 5 = 5?", "ret 0 kill thread"]);
    let skipped = filter(&[(0x05, 0, 0, 1), same, same]);
    assert_eq!(texts(&skipped)[1..], ["ret 0 never reached", "ret 0 kill thread"]);
}

#[test]
fn a_search_compares_calls() -> Result<(), Error> {
    let mut set = RuleSet::new(Architecture::X86_64, Action::Errno(1), Action::Allow);
    for number in [1, 2, 3, 7] {
        set.call(number);
    }
    assert_eq!(
        texts(&set.compile_search()?)[4..],
        [
            "jge 7 call ≥ 7? yes → 7",
            "jge 1 call ≥ 1? no → 9",
            "jgt 3 call > 3? yes → 9 no → 8",
            "jeq 7 call 7? no → 9",
            "ret 0x7fff0000 allow",
            "ret 0x50001 errno 1",
        ]
    );
    Ok(())
}

#[test]
fn a_guard_asks_for_bits_of_calls() -> Result<(), Error> {
    let mut set = RuleSet::new(Architecture::X86_64, Action::Errno(1), Action::Allow);
    set.native_only().call(7);
    assert_eq!(
        texts(&set.compile()?)[3..],
        [
            "ld [0] call number",
            "jset 0x40000000 call with a bit of 0x40000000? no → 7",
            "jeq 0xffffffff call 0xffffffff? yes → 7",
            "ret 0x80000000 calls with a bit of 0x40000000: kill process",
            "jeq 7 call 7? no → 9",
            "ja +1 call 7: → 10",
            "ja +2 other calls: → 12",
            "ret 0x7fff0000 call 7: allow",
            "ret 0x50001 never reached",
            "ret 0x50001 other calls: errno 1",
        ]
    );
    assert_eq!(
        set.to_string(),
        "on x86_64, native numbers only: allow what matches, else errno 1; on any other architecture or by a number that is not native: \
         kill process
call 7 matches"
    );
    Ok(())
}

#[test]
fn values_are_hexadecimal_from_ten_on_and_native_numbers_decimal() -> Result<(), Error> {
    let mut set = RuleSet::new(Architecture::X86_64, Action::Errno(1), Action::Allow);
    // ioctl, by KVM_RUN and KVM_CREATE_VCPU
    for value in [9, 10, 44672, 0x4020_ae46] {
        set.call(16).rule(&[Condition::new(1, Width::Dword, Operator::Eq, value)?]);
    }
    set.call(65535).call(65536).rule(&[Condition::new(0, Width::Qword, Operator::MaskedEq(15), 7)?]);
    let values = ["9", "0xa", "0xae80", "0x4020ae46"];
    let rules = values.map(|value| format!("argument 1 (low 32 bits) = {value}"));
    let told = set.to_string();
    let lines: Vec<&str> = told.lines().skip(1).map(str::trim_start).collect();
    assert_eq!(lines[0], format!("call 16 matches if {}", rules[0]));
    assert_eq!(lines[1..4], [1, 2, 3].map(|at| format!("or {}", rules[at])));
    assert_eq!(lines[4..], ["call 65535 matches", "call 0x10000 matches if argument 0 & 0xf = 7"]);
    let texts = texts(&set.compile()?);
    assert_eq!(texts[4], "jeq 16 call 16? no → 6");
    for value in values {
        assert!(texts.iter().any(|text| text.starts_with(&format!("jeq {value} = {value}?"))), "{value}");
    }
    for text in ["jeq 65535 call 65535?", "jeq 0x10000 call 0x10000?", "and 0xf masked by 0xf", "ld [24] argument 1, low half"] {
        assert!(texts.iter().any(|line| line.starts_with(text)), "{text}");
    }
    Ok(())
}

#[test]
fn arrows_meet_and_cross() {
    let drawn = filter(&[(0x15, 2, 1, 1), (0x05, 0, 0, 2), (0x15, 1, 0, 2), (0x06, 0, 0, 0), (0x06, 0, 0, 0)]).to_string();
    let gutters: Vec<String> = drawn.lines().map(|line| line.chars().take(5).collect()).collect();
    assert_eq!(gutters, [" ╭┬──", "╭┼┼──", "├┼┴─►", "│╰──►", "╰───►"]);
}

#[test]
fn arrows_beyond_the_lanes_are_told_and_not_drawn() {
    // each jumps over all the others
    let mut instructions: Vec<(u16, u8, u8, u32)> = (0..20).map(|at| (0x15, 38 - 2 * at, 0, 1)).collect();
    instructions.extend([(0x06, 0, 0, 0); 20]);
    let drawn = filter(&instructions).to_string();
    assert!(drawn.lines().next().unwrap().ends_with("yes → 39"));
    assert!(drawn.lines().all(|line| line.chars().count() < 60));
}

#[test]
fn a_set_is_told_rule_by_rule() -> Result<(), Error> {
    let mut set = RuleSet::new(Architecture::Aarch64, Action::KillThread, Action::Trace(9));
    let low = |operator, value| Condition::new(0, Width::Dword, operator, value);
    let all = |operator, value| Condition::new(5, Width::Qword, operator, value);
    set.call(12).rule(&[low(Operator::Eq, 7)?, all(Operator::Ne, 1 << 32)?]);
    set.call(12).rule(&[low(Operator::MaskedEq(0xffff_ffff), 0xffff_ffff)?]).rule(&[all(Operator::MaskedEq(6), 255)?]);
    set.call(13).rule(&[low(Operator::Ge, 1)?, low(Operator::Gt, 2)?]).rule(&[low(Operator::Le, 3)?, low(Operator::Lt, 4)?]);
    assert_eq!(
        set.to_string(),
        "on aarch64: trace 9 what matches, else kill thread; on any other architecture: kill process
call 12 matches if argument 0 (low 32 bits) = 7 and argument 5 ≠ 0x100000000
                or argument 0 (low 32 bits) & 0xffffffff = 0xffffffff
                or argument 5 & 6 = 6
call 13 matches if argument 0 (low 32 bits) ≥ 1 and argument 0 (low 32 bits) > 2
                or argument 0 (low 32 bits) ≤ 3 and argument 0 (low 32 bits) < 4"
    );
    let mut both = RuleSet::new(Architecture::X86_64, Action::Trap, Action::Log);
    both.call(5).call(5).rule(&[all(Operator::Lt, 2)?]);
    assert!(both.to_string().ends_with("\ncall 5 matches always, and if argument 5 < 2"));
    Ok(())
}
