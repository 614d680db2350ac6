#!/usr/bin/env python3
"""Writes random rule sets that compile, each with calls drawn from the values in its rules, for the program that asks the kernel about
them: frames of (set length, number of calls, set, calls of 64 bytes each without their instruction pointer).

    sets.py SEED FIRST COUNT"""
import pathlib
import struct
import sys

sys.path.insert(0, str(pathlib.Path(__file__).resolve().parent.parent / "vectors"))
from draw import BORDERS, Draw  # noqa: E402
from model import (  # noqa: E402
    AARCH64, EQ, ERRNO, GE, GT, LE, LT, MASKED_EQ, RISCV64, SECOND_TABLE, TOO_MANY, X86_64, encode, is_guarded, length)

CALLS = 64
SAMPLES = 24
TRIES = 24
# of so many sets one is for native numbers only, and of so many calls for it one has a number that this is about
NATIVE_SETS = 5
NATIVE_CALLS = 4
ALL = 2 ** 64 - 1
# the only two that a process of this machine can make: its own, and 32-bit ones
NATIVE, OLD = 0xc000003e, 0x40000003


def rules_for_many(draw):
    """Two of three numbers have rules: a search over them has instructions in between that a question cannot jump over."""
    numbers = draw.numbers(draw.between(60, 250))
    return (*draw.head(), [(number, [draw.rule(draw.between(1, 3)) for _ in range(draw.below(3))]) for number in numbers])


def rule_set(draw):
    """Mostly with two errnos as actions, since these can be told apart from outside."""
    while True:
        shape = draw.below(22)
        if shape < 12:
            made = draw.small()
        elif shape < 16:
            made = draw.long_rules()
        elif shape < 18:
            made = draw.many_numbers()
        elif shape < 20:
            made = rules_for_many(draw)
        else:
            made = draw.exact(draw.of((TOO_MANY - 1, draw.between(200, TOO_MANY - 1))))
        _, mismatch, match, entries = made
        architecture = draw.of((AARCH64, RISCV64)) if draw.chance(25) else X86_64
        if not draw.chance(5):
            mismatch, match = ERRNO + draw.below(2000), ERRNO + 2000 + draw.below(1999)
        made = architecture, mismatch, match, entries
        if mismatch != match and length(made) < TOO_MANY:
            return made


def holds(condition, argument):
    _, width, operator, value, mask = condition
    seen = 2 ** (8 * width) - 1
    argument, value = argument & seen, value & seen
    if operator == MASKED_EQ:
        return argument & mask == value & mask
    return {EQ: argument == value, GE: argument >= value, GT: argument > value, LE: argument <= value, LT: argument < value}.get(
        operator, argument != value)


def near(draw, condition):
    """A number at or next to a condition's value, in one word or in both."""
    _, _, _, value, mask = condition
    return draw.of((
        value, value, value + 1, value - 1, value & mask, value ^ 1 << draw.below(64), value + 2 ** 32, value - 2 ** 32,
        value & 0xffffffff | draw.bits() << 32, value ^ draw.bits() & ~mask)) & ALL


def solved(draw, rule):
    """Arguments that a rule takes, as far as they are found: long rules would else never match."""
    arguments = [draw.value() for _ in range(6)]
    for index in range(6):
        here = [condition for condition in rule if condition[0] == index]
        for attempt in range(TRIES if here else 0):
            source = draw.of(here)
            # the plain value first: it is what most often fits all of them
            arguments[index] = source[3] if attempt % 2 == 0 else near(draw, source)
            if all(holds(condition, arguments[index]) for condition in here):
                break
    return arguments


def samples(draw, entries):
    chosen = []
    for _ in range(min(SAMPLES, len(entries))):
        number, rules = draw.of(entries)
        rule = draw.of(rules) if rules else []
        chosen.append((number, rule, solved(draw, rule)))
    return chosen or [(draw.below(400), [], solved(draw, []))]


def sometimes_native(flag, made):
    flagged = flag.native(made) if flag.chance(NATIVE_SETS) else made
    return flagged if length(flagged) < TOO_MANY else made


def call(draw, chosen, guarded):
    number, rule, arguments = draw.of(chosen)
    if rule and not draw.chance(3):
        condition = draw.of(rule)
        arguments = list(arguments)
        arguments[condition[0]] = near(draw, condition)
    if draw.chance(6):
        number = draw.of((number + 1, number - 1, number ^ 1 << draw.below(32), draw.bits())) % 2 ** 32
    if guarded and draw.chance(NATIVE_CALLS):
        number = draw.of((number ^ SECOND_TABLE, draw.of(BORDERS)))
    architecture = NATIVE
    if draw.chance(200):
        architecture, arguments = OLD, [argument % 2 ** 32 for argument in arguments]
    return struct.pack("<IIQ6Q", number, architecture, 0, *arguments)


def frame(seed, index):
    # every index has a sequence of its own, so that one can be drawn again without the others
    draw = Draw(Draw((seed << 32) + index & ALL).bits())
    made = sometimes_native(Draw(draw.state + 1), rule_set(draw))
    given, chosen, guarded = encode(made), samples(draw, made[3]), is_guarded(made[0])
    return struct.pack("<II", len(given), CALLS) + given + b"".join(call(draw, chosen, guarded) for _ in range(CALLS))


def main():
    seed, first, count = map(int, sys.argv[1:])
    for index in range(first, first + count):
        sys.stdout.buffer.write(frame(seed, index))


if __name__ == "__main__":
    main()
