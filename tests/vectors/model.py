#!/usr/bin/env python3
"""A model of the compiler in Python, written from the account of what seccompiler 0.5.0 emits and of our byte form: a second
opinion on every stored vector. Run as a program it speaks the oracle's frames.

A rule set is (architecture, mismatch, match, entries), an entry (number, rules), a rule a list of conditions, and a condition
(index, width, operator, value, mask). The architecture is the number in the head: NATIVE_ONLY is added to it where a set has that flag."""
import itertools
import struct
import sys

EQ, GE, GT, LE, LT, MASKED_EQ, NE = range(7)
OPERATORS = range(7)
WIDTHS = (4, 8)
X86_64, AARCH64, RISCV64 = 1, 2, 3
KILL_PROCESS, KILL_THREAD, TRAP, ERRNO, USER_NOTIF, TRACE, LOG, ALLOW = (
    0x80000000, 0x00000000, 0x00030000, 0x00050000, 0x7fc00000, 0x7ff00000, 0x7ffc0000, 0x7fff0000)
ACTIONS = (KILL_PROCESS, KILL_THREAD, TRAP, ERRNO, USER_NOTIF, TRACE, LOG, ALLOW)
ARCHITECTURE_WORDS = {X86_64: 0xc000003e, AARCH64: 0xc00000b7, RISCV64: 0xc00000f3}
ARCHITECTURES = tuple(ARCHITECTURE_WORDS)
# native numbers only, which asks for something on x86_64 alone: a number with the bit of its second table (x32) kills, but for the number
# of a call that a tracer has cancelled
NATIVE_ONLY = 0x100
SECOND_TABLE = 0x40000000
CANCELLED = 0xffffffff
LONGEST_SET = 2 ** 20
TOO_MANY = 4097
FURTHEST = 248
# what is told in the place of an entry, a rule or a condition that the answer is not about
NOWHERE = 2 ** 32 - 1

# ---- the byte form


def encode_condition(condition):
    index, width, operator, value, mask = condition
    return struct.pack("<BBB5xQQ", index, width, operator, value, mask)


def encode_rule(rule):
    return struct.pack("<I", len(rule)) + b"".join(map(encode_condition, rule))


def encode_entry(entry):
    number, rules = entry
    return struct.pack("<II", number, len(rules)) + b"".join(map(encode_rule, rules))


def encode(rule_set):
    architecture, mismatch, match, entries = rule_set
    return struct.pack("<IIII", architecture, mismatch, match, len(entries)) + b"".join(map(encode_entry, entries))


def is_action(word):
    return word in ACTIONS or word & 0xffff0000 in (ERRNO, TRACE)


def native_only(architecture):
    """The same with the flag."""
    return architecture | NATIVE_ONLY


def named(architecture):
    """The architecture without the flag."""
    return architecture & ~NATIVE_ONLY


def is_guarded(architecture):
    return architecture == native_only(X86_64)


def decode(data):
    """The rule set that bytes stand for, or None."""
    if not 16 <= len(data) <= LONGEST_SET:
        return None
    architecture, mismatch, match, entry_count = struct.unpack_from("<IIII", data, 0)
    if named(architecture) not in ARCHITECTURE_WORDS or not is_action(mismatch) or not is_action(match):
        return None
    at = 16
    entries = []
    # a count is believed only as far as there are bytes for what it counts
    for _ in range(entry_count):
        if at + 8 > len(data):
            return None
        number, rule_count = struct.unpack_from("<II", data, at)
        at += 8
        rules = []
        for _ in range(rule_count):
            if at + 4 > len(data):
                return None
            condition_count, = struct.unpack_from("<I", data, at)
            at += 4
            if at + 24 * condition_count > len(data):
                return None
            rule = []
            for _ in range(condition_count):
                index, width, operator = data[at], data[at + 1], data[at + 2]
                value, mask = struct.unpack_from("<QQ", data, at + 8)
                if width not in WIDTHS or operator not in OPERATORS or any(data[at + 3:at + 8]):
                    return None
                if mask and operator != MASKED_EQ:
                    return None
                rule.append((index, width, operator, value, mask))
                at += 24
            rules.append(rule)
        entries.append((number, rules))
    return (architecture, mismatch, match, entries) if at == len(data) else None


# ---- the filter

LOAD, AND, JUMP, IF_EQUAL, IF_GREATER, IF_AT_LEAST, IF_ANY_BIT, RETURN = 0x20, 0x54, 0x05, 0x15, 0x25, 0x35, 0x45, 0x06


def size_of(condition):
    _, width, operator, _, _ = condition
    if operator == MASKED_EQ:
        return 3 if width == 4 else 6
    if width == 4:
        return 2
    return 4 if operator in (EQ, NE) else 5


def emitted_condition(condition, fail):
    """fail: the distance to behind the rule, counted from behind this condition's last instruction."""
    index, width, operator, value, mask = condition
    if operator == MASKED_EQ:
        value &= mask
    high, low = value >> 32, value & 0xffffffff
    load_low = (LOAD, 0, 0, 16 + 8 * index)
    load_high = (LOAD, 0, 0, 20 + 8 * index)
    if operator == MASKED_EQ:
        narrow = [load_low, (AND, 0, 0, mask & 0xffffffff), (IF_EQUAL, 0, fail, low)]
        wide = [load_high, (AND, 0, 0, mask >> 32), (IF_EQUAL, 0, fail + 3, high)]
    elif operator == EQ:
        narrow = [load_low, (IF_EQUAL, 0, fail, low)]
        wide = [load_high, (IF_EQUAL, 0, fail + 2, high)]
    elif operator == NE:
        narrow = [load_low, (IF_EQUAL, fail, 0, low)]
        wide = [load_high, (IF_EQUAL, 0, 2, high)]
    elif operator in (GE, GT):
        narrow = [load_low, (IF_AT_LEAST if operator == GE else IF_GREATER, 0, fail, low)]
        wide = [load_high, (IF_GREATER, 3, 0, high), (IF_EQUAL, 0, fail + 2, high)]
    else:
        narrow = [load_low, (IF_GREATER if operator == LE else IF_AT_LEAST, fail, 0, low)]
        wide = [load_high, (IF_GREATER, fail + 3, 0, high), (IF_EQUAL, 0, 2, high)]
    return (wide if width == 8 else []) + narrow


def distances(rule):
    """For each condition its distance and, where helper jumps stand right behind it, the distance that they were put in for; and the
    distance in front of the last one."""
    places, distance = [], 1
    for condition in rule:
        helped = None
        if distance > FURTHEST:
            helped, distance = distance, 1
        places.append((distance, helped))
        distance += size_of(condition)
    return places, distance


def helper_sets(rule):
    return sum(helped is not None for _, helped in distances(rule)[0])


def emitted_rule(rule, match):
    places, distance = distances(rule)
    steps = [(JUMP, 0, 0, 1), (JUMP, 0, 0, distance + 1)]
    for condition, (fail, helped) in zip(reversed(rule), reversed(places)):
        steps += emitted_condition(condition, fail)
        if helped is not None:
            steps += [(JUMP, 0, 0, 2), (JUMP, 0, 0, helped + 1), (JUMP, 0, 0, helped + 1)]
    return steps + [(RETURN, 0, 0, match)]


def emitted(rule_set):
    architecture, mismatch, match, entries = rule_set
    steps = [(LOAD, 0, 0, 4), (IF_EQUAL, 1, 0, ARCHITECTURE_WORDS[named(architecture)]), (RETURN, 0, 0, KILL_PROCESS)]
    if entries or is_guarded(architecture):
        steps.append((LOAD, 0, 0, 0))
    if is_guarded(architecture):
        steps += [(IF_ANY_BIT, 0, 2, SECOND_TABLE), (IF_EQUAL, 1, 0, CANCELLED), (RETURN, 0, 0, KILL_PROCESS)]
    for number, rules in entries:
        steps.append((IF_EQUAL, 0, 1, number))
        if not rules:
            steps += [(JUMP, 0, 0, 1), (JUMP, 0, 0, 2), (RETURN, 0, 0, match)]
        for rule in rules:
            steps += emitted_rule(rule, match)
        steps.append((RETURN, 0, 0, mismatch))
    return steps + [(RETURN, 0, 0, mismatch)]


def rule_length(rule):
    return 3 + sum(map(size_of, rule)) + 3 * helper_sets(rule)


def entry_length(entry):
    _, rules = entry
    return 2 + (sum(map(rule_length, rules)) if rules else 3)


def around_entries(architecture):
    """How many instructions stand around entries, the last return among them."""
    return 8 if is_guarded(architecture) else 5


def length(rule_set):
    """The number of instructions, summed without writing them."""
    architecture, _, _, entries = rule_set
    return around_entries(architecture) + sum(map(entry_length, entries)) if entries or is_guarded(architecture) else 4


def filter_bytes(rule_set):
    return b"".join(struct.pack("<HBBI", *step) for step in emitted(rule_set))


# ---- the answer


def refused(code, count=0, entry=NOWHERE, rule=NOWHERE, condition=NOWHERE):
    return code, count, entry, rule, condition, b""


def answer(data, room):
    """(code, count, entry, rule, condition, filter): the smallest code that applies, and where it first does, counted from 0."""
    rule_set = decode(data)
    if rule_set is None:
        return refused(1)
    architecture, mismatch, match, entries = rule_set
    rules = [(entry, at, rule) for entry, (_, rules) in enumerate(entries) for at, rule in enumerate(rules)]
    conditions = [(*place, at, condition) for *place, rule in rules for at, condition in enumerate(rule)]
    for entry in range(1, len(entries)):
        if entries[entry - 1][0] >= entries[entry][0]:
            return refused(2, 0, entry)
    if mismatch == match:
        return refused(3)
    for *place, rule in rules:
        if not rule:
            return refused(4, 0, *place)
    for *place, (index, _, _, _, _) in conditions:
        if index > 5:
            return refused(5, 0, *place)
    count = length(rule_set)
    if count >= TOO_MANY:
        sums = itertools.accumulate(map(entry_length, entries))
        around = around_entries(architecture)
        return refused(6, count, next(entry for entry, size in enumerate(sums) if around + size >= TOO_MANY))
    if room < 8 * count:
        return refused(7, count)
    for *place, (_, width, _, value, mask) in conditions:
        if width == 4 and (value | mask) >> 32:
            return refused(8, 0, *place)
    written = filter_bytes(rule_set)
    assert len(written) == 8 * count, "the summed length is not the written one"
    return 0, count, NOWHERE, NOWHERE, NOWHERE, written


def main():
    read, write = sys.stdin.buffer.read, sys.stdout.buffer.write
    while head := read(8):
        size, room = struct.unpack("<II", head)
        *told, written = answer(read(size), room)
        write(struct.pack("<5I", *told) + written)


if __name__ == "__main__":
    main()
