#!/usr/bin/env bash
# Counts the places of older forms in crates/*/src of a tree (this one, or the one that is named), one line for each form that docs/DESIGN-PASS.md speaks of.
# With -v it lists the places. It goes by text: what it finds is read by a person, who says on that page what became of each.
list=0
if [ "${1:-}" = -v ]; then list=1; shift; fi
cd "${1:-$(dirname "$0")/..}" || exit 1
sources=(crates/*/src/*.rt)

count() { # count POINT WHAT PATTERN: lines of the sources, comments aside, that match an extended regular expression
    local found
    found=$(grep -nE "$3" "${sources[@]}" | grep -vE '^[^:]+:[0-9]+:\s*//')
    printf '%s %s: %s\n' "$1" "$2" "$(grep -c . <<<"$found")"
    if [ "$list" = 1 ]; then sed 's/^/    /' <<<"$found"; fi
}

count 1 "a flag or a code beside a value" '^\s*(pub )?(ok|code): (bool|u32),'
count 1 "a code or a flag that is tested" '(\.code (!=|==) 0|!\w+\.ok\b)'
count 1 "a number that stands for none" '(== (16|65536|4294967296)\b|meant == [07]\b|\bn == 0 \{|hit: 0|place == 0|\.rule != 0|entry != 0)'
count 1 "a number for a kind" '\b(kind|field|op|test|letter): u(8|16|32|64)|\bcode: u16\b|\bo == [012]\b'
count 2 "a function that only spells an operator or a choice" 'fn (both|either|choose|choose_byte|pick|chosen|takes|counted|distance_if|one_if|is_seen|push)\('
count 2 "functions that differ in a type, a size or a constant" 'fn (u16_at|u32_at|u64_at|write_u32|write_u64|load|mask_by|jump_by|if_equal|if_any_bit|if_greater|if_at_least|give|put_two|put_three|set_a|set_x|set_m|condition_field|line_field|filter_field|with_mismatch|with_match|with_lines|begins|stands|stopped|refused|no_turn|not_there|copy)\('
count 3 "loops that are no for" '^\s*(while|loop)\b'
count 4 "conversions and comparisons by hand" 'fn (wide|long|narrow|same_answer|named_width|named_operator|short_escape|digit_of|order)\('
count 4 "a test that returns true or false" '^\s*return (true|false);'
count 5 "the bound on a text in a contract" 'length text\.now ≤ 1048576'
count 5 "that a place is in the text" 'at ≤ length text\.now|from ≤ length text\.now'
count 5 "the length of the scratch words" 'length s\.m ≡ 16'
count 5 "two actions passed side by side" '\bm: u32, d: u32|^\s*d: u32,'
count 5 "what a walk over entries carries" 'before: usize, found: Fault|fitted: u32,'
count 6 "a sorted table searched by hand" 'let middle'
count 6 "a buffer with a count beside it" 'let mut (kept|name) = \[0u8'
count 7 "a number or a flag that says which step to take" '\b(kind: u32|masked: bool|jumps: bool|inside: bool)'
