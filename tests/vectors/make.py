#!/usr/bin/env python3
"""Makes the stored vectors: rule sets as bytes, each with a room, the answer and the filter, for a program that replays them where neither
Rust nor Python is at hand. Answers come from the real compiler of seccompiler 0.5.0 (with its limit raised by one for filters of 4,096
instructions) and must be the model's too; where the oracle cannot be built they are the model's alone, and the last lines say so.

    make.py [--check]     writes crates/replay/stdin and stdout; with --check only compares them with what it would write

A record: what it is, set length, room, code, count, entry, rule, condition, filter length (4 bytes each, lowest byte first), set, filter.
What it is: 0 a vector, 1 the name of the kind that follows, in the set's place, 2 the end. Sets of exactly 1 MiB, and of 1, 4 and 8 bytes
more, are too large to store: tests/oracle/compare.py makes them."""
import itertools
import pathlib
import struct
import sys

from draw import BORDERS, EDGES, Draw
from model import (
    AARCH64, ACTIONS, ALLOW, ARCHITECTURES, EQ, ERRNO, GE, GT, KILL_PROCESS, LE, LOG, LT, MASKED_EQ, NE, NOWHERE, OPERATORS, SECOND_TABLE,
    TRACE, TRAP, WIDTHS, X86_64, answer, decode, distances, encode, helper_sets, length, native_only, rule_length, size_of)

ROOT = pathlib.Path(__file__).resolve().parent.parent.parent
STORED = ROOT / "crates" / "replay" / "stdin"
PRINTED = ROOT / "crates" / "replay" / "stdout"
sys.path.insert(0, str(ROOT / "tests" / "oracle"))
import build  # noqa: E402

LONGEST_STORED_SET = 65536
LONGEST_FILTER = 32768
LARGEST_FILE = 3_400_000
# sets of up to SMALL bytes are damaged in every place, those above LARGE only here and there
SMALL = 160
LARGE = 1400
VECTOR, KIND, END = range(3)
TOP = 2 ** 32 - 1
HEAD = (X86_64, ERRNO + 1, ALLOW)
ONE = (0, 4, EQ, 1, 0)

WORKED_SET = (*HEAD, [(0, []), (1, [[ONE]]), (257, [[(2, 8, MASKED_EQ, 0, 3)], [(1, 8, GE, 2 ** 32, 0)]])])
# spelled out, so that it does not hang on either compiler
WORKED_FILTER = bytes.fromhex("""
    2000000004000000 150001003e0000c0 0600000000000080 2000000000000000 1500000100000000 0500000001000000
    0500000002000000 060000000000ff7f 0600000001000500 1500000101000000 0500000001000000 0500000004000000
    2000000010000000 1500000101000000 060000000000ff7f 0600000001000500 1500000101010000 0500000001000000
    0500000008000000 2000000024000000 5400000000000000 1500000400000000 2000000020000000 5400000003000000
    1500000100000000 060000000000ff7f 0500000001000000 0500000007000000 200000001c000000 2500030001000000
    1500000301000000 2000000018000000 3500000100000000 060000000000ff7f 0600000001000500 0600000001000500""")

# for each operator and width the longest rule without, and with one set of helper jumps
REACHES = {
    **{(4, operator): (124, 248) for operator in (EQ, NE, GE, GT, LE, LT)},
    **{(8, operator): (62, 124) for operator in (EQ, NE)},
    **{(8, operator): (50, 100) for operator in (GE, GT, LE, LT)},
    (4, MASKED_EQ): (83, 166),
    (8, MASKED_EQ): (42, 84),
}


def fitting(rule_set, more=0):
    """A set with a buffer that is just long enough, or longer."""
    return encode(rule_set), min(8 * length(rule_set), LONGEST_FILTER) + more


def one_rule(rule, number=1):
    return (*HEAD, [(number, [rule])])


# ---- the kinds


def worked():
    for architecture in ARCHITECTURES:
        yield fitting((architecture, *WORKED_SET[1:]))


def corner_cases():
    """What seccompiler's own tests pin, and its rough edges."""
    yield fitting((*HEAD, []))
    yield fitting((AARCH64, ALLOW, TRAP, []))
    yield fitting(one_rule([(0, 4, MASKED_EQ, 36, 4)]))
    yield fitting(one_rule([(0, 8, MASKED_EQ, 36, 4)]))
    yield fitting((*HEAD, [(TOP, [])]))
    for operator in OPERATORS:
        mask = 2 ** 33 + 1 if operator == MASKED_EQ else 0
        yield fitting(one_rule([(0, 4, operator, 2 ** 32, mask)]))
    yield encode((X86_64, ERRNO, ERRNO, [])), 32
    yield fitting((X86_64, ERRNO, TRACE, []))


def answers():
    """Each answer with a smallest set."""
    yield encode((*HEAD, [])), 32
    yield b"", 0
    yield encode((*HEAD, [(0, []), (0, [])])), 1024
    yield encode((X86_64, ALLOW, ALLOW, [])), 1024
    yield encode((*HEAD, [(0, [[]])])), 1024
    yield encode((*HEAD, [(0, [[(6, 4, EQ, 0, 0)]])])), 1024
    yield encode((*HEAD, [(number, []) for number in range(819)])), LONGEST_FILTER
    yield encode((*HEAD, [])), 31
    yield encode((*HEAD, [(0, [[(0, 4, EQ, 2 ** 32, 0)]])])), 1024


def answer_pairs():
    """Sets that two or more answers apply to: the smallest one counts."""
    reasons = (2, 3, 4, 5, 6, 7, 8)
    for chosen in range(1, 2 ** len(reasons)):
        applies = {reason for place, reason in enumerate(reasons) if chosen >> place & 1}
        # the length costs bytes, so it is paired with each other reason but not with all their pairings
        if 6 in applies and len(applies) > 2:
            continue
        rules = ([[]] if 4 in applies else []) + [[(9 if 5 in applies else 5, 4, NE, 2 ** 32 if 8 in applies else 1, 0)]]
        entries = [(4, rules), (4 if 2 in applies else 5, [])]
        if 6 in applies:
            entries += [(number, []) for number in range(6, 6 + 818)]
        made = (X86_64, ALLOW if 3 in applies else LOG, ALLOW, entries)
        yield encode(made), 3 if 7 in applies else LONGEST_FILTER
        if not applies & {6, 7}:
            yield encode(made) + b"\0", LONGEST_FILTER
            yield encode(made)[:-1], 3


def values():
    turn = 0
    for operator in OPERATORS:
        for width in WIDTHS:
            for value in EDGES:
                turn += 1
                yield fitting(one_rule([(turn % 6, width, operator, value, 2 ** 64 - 1 if operator == MASKED_EQ else 0)]))


def masks():
    for width in WIDTHS:
        for value in EDGES:
            for mask in EDGES:
                yield fitting(one_rule([(0, width, MASKED_EQ, value, mask)]))


def indices():
    for index in (0, 1, 2, 3, 4, 5, 6, 7, 127, 128, 255):
        for width in WIDTHS:
            for operator in OPERATORS if index < 6 else (EQ, MASKED_EQ):
                high = 2 ** 36 if width == 8 else 2 ** 28
                yield fitting(one_rule([(index, width, operator, high + 7, high + 5 if operator == MASKED_EQ else 0)]))
    # the index that is too large stands in the last of several conditions, rules, entries
    yield encode((*HEAD, [(0, []), (1, [[ONE]]), (2, [[ONE], [ONE, ONE, (6, 8, GT, 0, 0)]])])), 4096


def repeated(operator, width, count):
    mask = 2 ** 33 + 2 ** 31 + 3 if operator == MASKED_EQ else 0
    seen = 2 ** (8 * width)
    return [(place % 6, width, operator, place * (2 ** 32 + 1) % seen, mask % seen) for place in range(count)]


def around(rule):
    """A long rule with a rule and numbers behind it, so that jumps over it and out of it land somewhere."""
    return (*HEAD, [(0, []), (1, [rule, [ONE]]), (2, [])])


def helpers():
    """Rules on both sides of each boundary, for each operator and width."""
    for (width, operator), reaches in REACHES.items():
        for sets, last in enumerate(reaches):
            assert helper_sets(repeated(operator, width, last)) == sets
            assert helper_sets(repeated(operator, width, last + 1)) == sets + 1
            yield fitting(around(repeated(operator, width, last)))
            yield fitting(around(repeated(operator, width, last + 1)))
    yield fitting(around(repeated(MASKED_EQ, 8, 300)))
    yield fitting(around(repeated(LE, 4, 300)))


def filled(draw, total):
    """Mixed conditions that take the given number of instructions together."""
    rule, left = [], total
    while left:
        condition = draw.rule(1)[0]
        size = size_of(condition)
        if size <= left and left - size != 1:
            rule.append(condition)
            left -= size
    return rule


def helper_distances():
    """Mixed rules in which the distance for the next condition is exactly 247 to 250, for each operator and width of the next."""
    draw = Draw(1)
    for distance in (248, 249):
        for operator in OPERATORS:
            for width in WIDTHS:
                rule = filled(draw, distance - 1)
                assert distances(rule)[1] == distance
                rule += draw.rule(1, operator, width)
                assert helper_sets(rule) == (distance > 248)
                yield fitting(around(rule))
    for distance in (247, 250):
        yield fitting(around(filled(draw, distance - 1) + draw.rule(2)))
    # the same once more behind a first set of helper jumps
    for first in (249, 250, 251, 252, 253, 254):
        start = filled(draw, first - 1 - 6) + draw.rule(1, MASKED_EQ, 8)
        assert distances(start)[1] == first
        for second in (248, 249):
            rule = start + filled(draw, second - 1)
            assert distances(rule)[1] == second and helper_sets(rule) == 1
            yield fitting(around(rule + draw.rule(1)))


def exact_plain(wanted):
    """Listed numbers, and one more with a rule that makes the length exact."""
    over = (wanted - 5) % 5
    # a condition of 2 to 6 instructions
    rule = {0: [], 1: [(0, 8, MASKED_EQ, 5, 7)], 2: [ONE], 3: [(0, 4, MASKED_EQ, 5, 7)], 4: [(0, 8, NE, 5, 0)]}[over]
    size = sum(map(size_of, rule))
    count = (wanted - 5 - size) // 5
    return (*HEAD, [(number, []) for number in range(count - 1)] + [(count - 1, [rule] if rule else [])])


def exact_rules(wanted):
    """One number with many rules."""
    rules, left = [], wanted - 7
    while left >= 18:
        rules.append([(len(rules) % 6, 8, MASKED_EQ, len(rules), 2 ** 64 - 1)])
        left -= 9
    for size in (left - left // 2, left // 2):
        # rules of 5 to 9 instructions
        last = {5: ONE, 6: (1, 4, MASKED_EQ, 1, 1), 7: (1, 8, EQ, 1, 0), 8: (1, 8, GE, 1, 0), 9: (1, 8, MASKED_EQ, 1, 1)}
        rules.append([last[size]])
    return (*HEAD, [(3, rules)])


def exact_rule(wanted):
    """One number with one rule, which has many sets of helper jumps."""
    fillers = [[], [ONE], [(1, 4, MASKED_EQ, 1, 1)], [(1, 8, EQ, 1, 0)], [(1, 8, GE, 1, 0)]]
    for count in range(wanted // 6, 0, -1):
        rule = [(place % 6, 8, MASKED_EQ, place, TOP + 2) for place in range(count)]
        for one in fillers:
            for two in fillers:
                if 7 + rule_length(rule + one + two) == wanted:
                    return (*HEAD, [(3, [rule + one + two])])
    raise AssertionError("no such rule")


def lengths():
    for wanted in (4095, 4096, 4097):
        for make in (exact_plain, exact_rules, exact_rule, Draw(wanted).exact):
            made = make(wanted)
            assert length(made) == wanted
            yield fitting(made)


def many_rules():
    yield fitting((*HEAD, [(0, [[(0, 4, EQ, number, 0)] for number in range(999)])]))
    for count in (1, 2, 3, 50):
        yield fitting((*HEAD, [(9, [[(0, 4, EQ, number, 0)] for number in range(count)])]))


def plain_list():
    yield fitting((*HEAD, [(number + number // 7, []) for number in range(412)]))
    yield fitting((AARCH64, KILL_PROCESS, ALLOW, [(number, []) for number in range(3)]))


def actions():
    for architecture in ARCHITECTURES:
        for mismatch in ACTIONS:
            for match in ACTIONS:
                yield fitting((architecture, mismatch, match, [(1, [[ONE]])]))
    data = (0, 1, 38, 255, 256, 4095, 0x7fff, 0x8000, 0xffff)
    for base in (ERRNO, TRACE):
        for one in data:
            yield fitting((X86_64, base + one, ALLOW, [(0, [])]))
            yield fitting((X86_64, ALLOW, base + one, [(0, [])]))
            yield fitting((X86_64, base + one, base + data[0], []))
            yield fitting((X86_64, base + one, ERRNO + TRACE - base + one, []))


def unknown_words():
    """Next to known words of actions, architectures, widths and operators."""
    near = {word + step for word in ACTIONS for step in (1, 0x8000, 0xffff, 0x10000, -0x10000, -1)} | {TOP, 0xc000003e}
    for word in sorted(word for word in near if 0 <= word <= TOP):
        yield struct.pack("<IIII", X86_64, word, ALLOW, 0), 64
        yield struct.pack("<IIII", X86_64, TRAP, word, 0), 64
    for word in (0, 1, 2, 3, 4, 62, 257, 258, 0x10001, 0x1000002, 2 ** 31 + 1, TOP, 0xc000003e):
        yield struct.pack("<IIII", word, TRAP, ALLOW, 0), 64
    plain = encode(one_rule([(0, 4, EQ, 3, 0)]))
    at = len(plain) - 24
    for place in (at + 1, at + 2):
        for byte in (*range(20), 32, 64, 127, 128, 132, 136, 252, 255):
            yield plain[:place] + bytes([byte]) + plain[place + 1:], 1024


def numbers():
    edges = (0, 1, 2 ** 16, 2 ** 31 - 1, 2 ** 31, 2 ** 31 + 1, TOP - 1, TOP)
    for one in edges:
        yield fitting((*HEAD, [(one, [[ONE]])]))
        for two in edges:
            yield fitting((*HEAD, [(one, []), (two, [[ONE]])]))
    yield fitting((*HEAD, [(number, []) for number in edges]))
    yield fitting((*HEAD, [(number, []) for number in reversed(edges)]))
    yield fitting((*HEAD, [(0, []), (1, [[ONE, ONE], [ONE]]), (2, []), (2, [])]))
    yield fitting((*HEAD, [(0, []), (2, [[ONE, ONE], [ONE]]), (1, []), (3, [])]))


def rooms():
    samples = [(*HEAD, []), WORKED_SET, one_rule(repeated(GE, 8, 51)), (*HEAD, [(number, []) for number in range(412)])]
    for made in samples:
        size = 8 * length(made)
        for room in (size, size - 1, 0, size + 5, size - 8, size - 7, 1, 7, 8, size // 2):
            yield encode(made), room
    # a long one costs its size each time
    for room in (LONGEST_FILTER, LONGEST_FILTER - 1, 0):
        yield encode(exact_plain(4096)), room
    for refused in (b"", encode((X86_64, ALLOW, ALLOW, [])), encode((*HEAD, [(0, [[]])])), encode(exact_plain(4097))):
        for room in (0, 5, LONGEST_FILTER, LONGEST_FILTER + 5):
            yield refused, room


ASCENDING = list(range(10, 80, 10))
# which of them have rules: three, of three conditions each
RULED = (0, 3, 5)
EVERYWHERE = [(entry, rule, condition) for entry in RULED for rule in range(3) for condition in range(3)]
# more than 32 bits in a value and in a mask
TOO_WIDE = [(2, 4, NE, 2 ** 63, 0), (0, 4, EQ, 2 ** 32, 0), (5, 4, MASKED_EQ, 3, 2 ** 32)]


def faulty(*faults, numbers=ASCENDING):
    """A set with faults, each a code and as much of its place as is told with it."""
    rule = [(2, 8, NE, 7, 0), ONE, (5, 4, MASKED_EQ, 3, 6)]
    entries = [(number, [list(rule) for _ in range(3)] if entry in RULED else []) for entry, number in enumerate(numbers)]
    for code, entry, *inside in faults:
        _, rules = entries[entry]
        if code == 2:
            entries[entry] = 0, rules
        elif code == 4:
            rules[inside[0]] = []
        else:
            at, last = inside
            rules[at][last] = (6, *rule[last][1:]) if code == 5 else TOO_WIDE[last]
    return (*HEAD, entries)


def too_long():
    """Sets whose filters are too long from an entry on, with that entry."""
    def plain(start, count):
        return [(number, []) for number in range(start, start + count)]

    fitting_entries, one_more = exact_plain(4096)[3], exact_plain(4097)[3]
    long_entry = (700, [[ONE], repeated(MASKED_EQ, 8, 150)])
    yield plain(0, 850), 818
    yield fitting_entries + plain(900, 1), len(fitting_entries)
    yield one_more + plain(900, 9), len(one_more) - 1
    yield exact_rule(4097)[3] + plain(900, 9), 0
    yield plain(0, 640) + [long_entry] + plain(900, 9), 640
    yield [(0, [[TOO_WIDE[0]]])] + plain(1, 850), 817
    # just too long by the helper jumps of the first entry
    yield [(0, [repeated(LE, 4, 125)])] + plain(1, 800), 767


def places():
    """Faults in first, middle and last entries, rules and conditions: one alone, several of one kind, of which the first counts, and of
    two kinds, of which the smaller code counts. Where they were put is what has to be told."""
    def told(rule_set, code, *place):
        data, count = encode(rule_set), length(rule_set) if code == 6 else 0
        given, expected = answer(data, LONGEST_FILTER), (code, count, *place, *[NOWHERE] * (3 - len(place)), b"")
        assert given == expected, (given, expected)
        return data, LONGEST_FILTER

    def fault(code, place):
        return (code, *place[:{2: 1, 4: 2}.get(code, 3)])

    for entry in range(1, len(ASCENDING)):
        yield told(faulty((2, entry)), 2, entry)
        before, behind = ASCENDING[:entry], ASCENDING[entry:]
        yield told(faulty(numbers=before + before[-1:] + behind[1:]), 2, entry)
        yield told(faulty(numbers=before + before[-1:] * len(behind)), 2, entry)
        # what is wrong with a number that is too large is the one behind it
        yield told(faulty(numbers=before[:-1] + [TOP] + behind), 2, entry)
    for code in (4, 5, 8):
        for only in dict.fromkeys(fault(code, place) for place in EVERYWHERE):
            yield told(faulty(only), *only)
    draw = Draw(3)
    for _ in range(12):
        for code in (4, 5, 8):
            several = [fault(code, place) for place in sorted(draw.of(EVERYWHERE) for _ in range(draw.between(2, 5)))]
            yield told(faulty(*several), *several[0])
    for one, other in itertools.combinations((2, 4, 5, 8), 2):
        for here, there in itertools.permutations(((3, 0, 1), (3, 2, 2), (5, 1, 0)), 2):
            smaller = fault(one, here)
            yield told(faulty(smaller, fault(other, there)), *smaller)
    for entries, entry in too_long():
        yield told((*HEAD, entries), 6, entry)


def drawn():
    draw = Draw(2)
    for _ in range(400):
        yield fitting(draw.small(), draw.of((0, 5)))
    for _ in range(6):
        yield fitting(draw.long_rules())
    for _ in range(2):
        yield fitting(draw.many_numbers())
    for _ in range(60):
        yield encode(draw.refused(draw.small())), 4096


# ---- kinds of sets for native numbers only


def native(rule_set):
    return native_only(rule_set[0]), *rule_set[1:]


def native_heads():
    """Next to the flag's bit, alone and with an architecture."""
    known = (0x101, 0x102, 0x103)
    unknown = (0x100, 0x104, 0x1ff, 0x200, 0x201, 0x203, 0x300, 0x301, 0x10001, 0x10101, 0x1000001, 0x1000101, 0x80000101, 0xfffffeff)
    for words, code in ((known, 0), (unknown, 1)):
        for word in words:
            for entries in ([], [(0, [])], [(SECOND_TABLE, [[ONE]])]):
                made = (word, TRAP, ALLOW, entries)
                assert answer(encode(made), 1024)[0] == code
                yield encode(made), 1024


def native_worked():
    for architecture in ARCHITECTURES:
        yield fitting(native((architecture, *WORKED_SET[1:])))
        yield fitting(native((architecture, *WORKED_SET[1:3], [])))
    for mismatch in ACTIONS:
        for match in ACTIONS:
            yield fitting(native((X86_64, mismatch, match, [])))


def native_numbers():
    """Listed numbers of the second table and next to it: they stand in the filter, and the guard in front of them."""
    for architecture in ARCHITECTURES:
        yield fitting(native((architecture, *HEAD[1:], [(number, []) for number in BORDERS])))
        yield fitting(native((architecture, *HEAD[1:], [(number, [[ONE]]) for number in BORDERS])))
    for number in (0, *BORDERS):
        yield fitting(native((*HEAD, [(number, [])])))
        yield fitting(native((*HEAD, [(0, [[ONE]])] * (number != 0) + [(number, [[ONE], [ONE, ONE]])])))
    yield fitting(native((*HEAD, [(number, []) for number in reversed(BORDERS)])))


def native_answers():
    """Each answer with a smallest set, and sets that two or more answers apply to."""
    for data, room in (*answers(), *answer_pairs()):
        # the long ones once: lengths are tried by themselves
        if decode(data) and len(data) < LARGE:
            yield encode(native(decode(data))), room
            yield encode(native((AARCH64, *decode(data)[1:]))), room


def native_lengths():
    """At the limit, with the guard's instructions and, on another architecture, without them; behind it the entry is named."""
    def told(made, code, count, entry):
        assert answer(*fitting(made))[:3] == (code, count, entry)
        return fitting(made)

    guard = 3
    yield told(native(exact_plain(4096 - guard)), 0, 4096, NOWHERE)
    # without the flag these are compiled: the last entry is too much by the guard alone
    for wanted in (4097, 4098, 4099):
        yield told(native(exact_plain(wanted - guard)), 6, wanted, len(exact_plain(wanted - guard)[3]) - 1)
    yield told(native(exact_rules(4097 - guard)), 6, 4097, 0)
    for wanted, code, entry in ((4096, 0, NOWHERE), (4097, 6, len(exact_plain(4097)[3]) - 1)):
        yield told(native((AARCH64, *exact_plain(wanted)[1:])), code, wanted, entry)
    for (entries, entry), with_guard in zip(too_long(), (817, 816, 817, 0, 640, 817, 767)):
        for made, named in ((native((*HEAD, entries)), with_guard), (native((AARCH64, *HEAD[1:], entries)), entry)):
            frame = told(made, 6, length(made), named)
            # where it is the same entry one of the two has to do
            if named != with_guard or made[0] == native_only(X86_64):
                yield frame


def native_rooms():
    for made in ((*HEAD, []), WORKED_SET, (*HEAD, [(SECOND_TABLE, [])])):
        plain, size = 8 * length(made), 8 * length(native(made))
        for room in (size, size - 1, size - 8, size + 5, plain, plain - 1, 0):
            yield encode(native(made)), room
    yield encode(native(exact_plain(4093))), LONGEST_FILTER - 1


def native_drawn():
    draw = Draw(4)
    for _ in range(80):
        yield fitting(draw.native(draw.small()), draw.of((0, 5)))
    yield fitting(draw.native(draw.long_rules()))
    for _ in range(30):
        yield encode(draw.refused(draw.native(draw.small()))), 4096


# ---- damaged copies


def fields(data):
    """The named parts of a set of the format, as (name, offset, size)."""
    found = [("architecture", 0, 4), ("mismatch", 4, 4), ("match", 8, 4), ("entries", 12, 4)]
    at = 16
    for _, rules in decode(data)[3]:
        found += [("number", at, 4), ("rules", at + 4, 4)]
        at += 8
        for rule in rules:
            found.append(("conditions", at, 4))
            at += 4
            for _ in rule:
                found += [(name, at + start, size) for name, start, size in (
                    ("index", 0, 1), ("width", 1, 1), ("operator", 2, 1), ("zero", 3, 5), ("value", 8, 8), ("mask", 16, 8))]
                at += 24
    return found


def first_and_last(found):
    chosen = {}
    for field in found:
        chosen.setdefault(field[0], [field, field])[1] = field
    return [field for pair in chosen.values() for field in dict.fromkeys(pair)]


def with_word(data, at, word):
    return data[:at] + struct.pack("<I", word % 2 ** 32) + data[at + 4:]


def word_at(data, at):
    return struct.unpack_from("<I", data, at)[0]


def cut_short(data, chosen):
    if len(data) <= SMALL:
        ends = set(range(len(data)))
    else:
        ends = {at + step for _, at, size in chosen for step in (0, 1, size)} | {len(data) - 1, len(data) - 24}
    for end in sorted(ends):
        if end < len(data):
            yield data[:end]


def made_longer(data):
    for more in (b"\0", b"\1", b"\xff", bytes(4), bytes(8), bytes(24), data[-24:]):
        yield data + more


def flipped(data, chosen):
    for _, at, size in chosen:
        for place in range(at, at + size) if len(data) <= SMALL else sorted({at, at + size - 1}):
            for bits in (0x01, 0x80, 0xff) if len(data) <= SMALL else (0x01,):
                yield data[:place] + bytes([data[place] ^ bits]) + data[place + 1:]


def wrong_counts(data, found, chosen):
    """Counts that are off, that pass every size, and whose products or sums come out right if they are cut to 32 bits."""
    for name, at, _ in chosen:
        if name in ("entries", "rules", "conditions"):
            count = word_at(data, at)
            bits = [2 ** power for power in (28, 29, 30, 31)]
            for wrong in (TOP, TOP - 1, count + 1, count - 1, 0, *bits, *(count + bit for bit in bits), 2 ** 32 // 24 + 1 + count):
                if wrong % 2 ** 32 != count:
                    yield with_word(data, at, wrong)
    for name in ("rules", "conditions"):
        places = [at for field, at, _ in found if field == name]
        for one, two in zip(places[:1], places[1:2]):
            total = word_at(data, one) + word_at(data, two)
            for wrong in (TOP, 2 ** 31, 2 ** 31 + 1):
                yield with_word(with_word(data, one, wrong), two, total - wrong)
                yield with_word(with_word(data, two, wrong), one, total - wrong)


def damaged(data):
    found = fields(data)
    chosen = first_and_last(found)
    if len(data) > LARGE:
        # each copy costs its whole size, so a few of each sort have to do
        yield from (data[:-1], data[:-24], data[:len(data) // 2], data + b"\0")
        yield from (data[:at] + bytes([data[at] ^ 1]) + data[at + 1:] for _, at, _ in chosen[::2])
        yield from (with_word(data, at, TOP) for name, at, _ in chosen if name in ("entries", "rules", "conditions"))
        return
    yield from cut_short(data, chosen)
    yield from made_longer(data)
    yield from flipped(data, chosen)
    yield from wrong_counts(data, found, chosen)


def damaged_copies(frames, used):
    """Damaged copies of one set of a kind: of the smallest that compiles and was not used yet, with several conditions if there is one, or
    with one condition where it is large."""
    compiled = [data for data, room in frames if data not in used and answer(data, room)[0] == 0]
    if not compiled:
        return
    conditions = {data: sum(name == "index" for name, _, _ in fields(data)) for data in compiled}
    chosen = min(compiled, key=lambda data: (-min(2 if len(data) <= LARGE else 1, conditions[data]), len(data)))
    used.add(chosen)
    seen = {chosen}
    for data in damaged(chosen):
        if data not in seen:
            seen.add(data)
            yield data, LONGEST_FILTER


# ---- writing


def all_kinds():
    base = (worked, corner_cases, answers, answer_pairs, values, masks, indices, helpers, helper_distances, lengths, many_rules, plain_list,
            actions, unknown_words, numbers, rooms, places, drawn)
    # of the kinds for native numbers only, damage to one shows what damage to the head does
    whole = (native_heads, native_numbers, native_answers, native_lengths, native_rooms, native_drawn)
    kinds, more = ([(make.__name__.replace("_", "-"), list(make())) for make in makers] for makers in ((*base, native_worked), whole))
    used = set()
    return kinds + more + [(f"damaged-{name}", copies) for name, frames in kinds if (copies := list(damaged_copies(frames, used)))]


def check_against_oracle(frames, expected):
    try:
        judge = build.build_judge()
        given, _ = build.ask_oracle(frames)
    except build.Missing as missing:
        print(f"the model's answers alone: {missing}")
        return
    for (data, room), model, real in zip(frames, expected, given):
        assert model == real, f"model {model[:-1]}, seccompiler {real[:-1]}, room {room}, set {data.hex()}"
    filters = [(data, written) for (data, _), (code, *_, written) in zip(frames, expected) if code == 0]
    results, told = build.judge(judge, filters, 100, 3)
    assert not any(wrong or refused for wrong, _, refused in results), "\n".join(told)
    matched = sum(result[1] for result in results)
    print(f"model and seccompiler agree on {len(frames)} vectors; {len(filters)} filters run on 100 calls each, {matched} matching")


def main():
    kinds = all_kinds()
    frames = [frame for _, of_kind in kinds for frame in of_kind]
    expected = [answer(*frame) for frame in frames]
    assert answer(encode(WORKED_SET), LONGEST_FILTER) == (0, 36, NOWHERE, NOWHERE, NOWHERE, WORKED_FILTER)
    check_against_oracle(frames, expected)

    records, printed, place = [], [], 0
    for name, of_kind in kinds:
        records.append(struct.pack("<9I", KIND, len(name), 0, 0, 0, 0, 0, 0, 0) + name.encode())
        for data, room in of_kind:
            *told, written = expected[place]
            place += 1
            assert len(data) <= LONGEST_STORED_SET and len(written) <= LONGEST_FILTER
            records.append(struct.pack("<9I", VECTOR, len(data), room, *told, len(written)) + data + written)
        printed.append(f"{name}: {len(of_kind)} passed, 0 failed\n")
    stored = b"".join(records) + struct.pack("<9I", END, 0, 0, 0, 0, 0, 0, 0, 0)
    printed = "".join(printed) + f"{len(frames)} passed, 0 failed\n"
    assert len(stored) < LARGEST_FILE, len(stored)

    codes = [code for code, *_ in expected]
    counts = ", ".join(f"{code}: {codes.count(code)}" for code in range(9))
    print(f"{len(frames)} vectors of {len(kinds)} kinds, {len(stored)} bytes; answers ({counts})")
    if "--check" in sys.argv[1:]:
        same = STORED.is_file() and STORED.read_bytes() == stored and PRINTED.is_file() and PRINTED.read_text() == printed
        print("1 passed, 0 failed" if same else "the stored vectors are not these\n0 passed, 1 failed")
        return 0 if same else 1
    STORED.parent.mkdir(parents=True, exist_ok=True)
    STORED.write_bytes(stored)
    PRINTED.write_text(printed)
    return 0


if __name__ == "__main__":
    sys.exit(main())
