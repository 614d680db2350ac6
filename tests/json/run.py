#!/usr/bin/env python3
"""JSON texts put to the model of our reader and to the real front end of seccompiler 0.5.0: taken or refused alike, and the same programs,
byte for byte, but for the differences that differences.py foretells, each of which must occur. The model itself is held against the
answers that the definitions compute and against stored cases, places included. Where the archive has the proved reader, it is held
against the model. Where the real front end cannot be built, it is not asked, and the last line counts that as skipped.

    run.py [--seed N] [--texts N]"""
import argparse
import collections
import itertools
import struct
import sys

import differences
import examples
import model
import names
import product
import real
from draw import Draw

SHOWN = 10
LINE = b'{"t":{"mismatch_action":"trap","match_action":"allow","filter":[%s]}}'
# the places of a text in which a string stands, with which string it is taken
PLACES = {
    "comment": LINE % b'{"syscall":"read","comment":%s}',
    "call": LINE % b'{"syscall":%s}',
    "key": LINE % b'{"syscall":"read",%s:null}',
    "name": b'{%s:{"mismatch_action":"trap","match_action":"allow","filter":[]}}',
    "action": b'{"t":{"mismatch_action":%s,"match_action":"allow","filter":[]}}',
    "operator": LINE % b'{"syscall":"read","args":[{"index":0,"type":"qword","op":%s,"val":1}]}',
}


class Tally:
    def __init__(self):
        self.passed, self.failed = 0, 0

    def check(self, good, what):
        self.passed += bool(good)
        self.failed += not good
        if not good and self.failed <= SHOWN:
            print(f"FAILED {what}")

    def group(self, name):
        print(f"{name}: {self.passed} passed so far, {self.failed} failed")


def program(rule_set):
    """The filter of a set; its length where it is too long."""
    length = model.set_model.length(rule_set)
    if length >= model.set_model.TOO_MANY:
        return length
    return b"".join(struct.pack("<HBBI", *step) for step in model.set_model.emitted(rule_set))


def answer(architecture, text):
    """The model's answer: (code, place, sets, programs by name)."""
    code, at, sets = model.read(text, names.KNOWN, architecture)
    return code, at, sets, {name: program(rule_set) for name, rule_set in sets}


# ---- texts

def escaped(text):
    return b'"' + b"".join(b"\\u%04x" % byte for byte in text) + b'"'


def strings():
    """The strings of RFC 8259 that are and are not; every byte in a string and behind a backslash; every way to begin a character of
    several bytes; and words by escapes alone."""
    taken, refused = examples.rfc_texts()
    yield from (text for text in taken + refused if text.startswith(b'"'))
    for byte in range(256):
        each = bytes([byte])
        yield from (b'"' + each + b'"', b'"a' + each + b'z"', b'"\\' + each + b'"')
        yield from (b'"\\u00' + each + b'0"', b'"\\ud8' + each + b'0\\udc00"')
    for lead, second in itertools.product(range(0x80, 0x100), (0x22, 0x7f, 0x80, 0x8f, 0x90, 0x9f, 0xa0, 0xbf, 0xc0)):
        yield from (b'"' + bytes([lead, second]) + tail + b'"' for tail in (b"", b"\x80", b"\x80\x80"))
    yield from map(escaped, (b"read", b"read\0", b"args", b"comment", b"syscall", b"trap", b"eq"))


def many_lines(instructions):
    """A filter of this many instructions: rules of one call, each of 5 instructions or 6, behind 7 of the head, the call and the end."""
    sixes = (instructions - 7) % 5
    fives = (instructions - 7 - 6 * sixes) // 5
    condition = b'{"syscall":"read","args":[{"index":0,"type":"dword","op":%s,"val":1}]}'
    return LINE % b",".join([condition % b'"eq"'] * fives + [condition % b'{"masked_eq":3}'] * sixes)


def large():
    small = LINE % b'{"syscall":"read"}'
    yield from (small.ljust(length) for length in (model.LONGEST_TEXT, model.LONGEST_TEXT + 1))
    yield from map(many_lines, (4095, 4096, 4097, 5000))


def drawn(seed, count):
    draw = Draw(seed)
    for _ in range(count):
        node = draw.filters()
        yield draw.text(node)
        yield draw.broken(node)


def all_texts(seed, count):
    taken, refused = examples.rfc_texts()
    yield from (text for *_, text in examples.faults())
    yield from (text for *_, text in examples.cases())
    yield from taken + refused
    for place, string in itertools.product(PLACES.values(), strings()):
        yield place % string
    yield from large()
    yield from drawn(seed, count)


# ---- what is held against what

def check_model(tally):
    """The model against the answers that the definitions compute, and against the cases."""
    example_calls = {b"close": 3, b"futex": 202, b"openat": 257, b"read": 0, b"write": 1}
    faults = examples.faults()
    tally.check(len(faults) == 82, f"{len(faults)} examples of faults were read")
    for code, at, text in faults:
        found = model.read(text, example_calls, 1)[:2]
        tally.check(found == (code, at), f"the definitions say {code} at {at}, the model {found} of {text}")
    taken, refused = examples.rfc_texts()
    tally.check((len(taken), len(refused)) == (58, 119), f"{len(taken)} and {len(refused)} texts of RFC 8259 were read")
    for text in taken:
        tally.check(model.value_of(text) is not None, f"the model refuses {text}")
    for text in refused:
        tally.check(model.value_of(text) is None, f"the model takes {text}")
    for code, at, _, text in examples.cases():
        found = model.read(text, names.KNOWN, 1)[:2]
        tally.check(found == (code, at), f"stored is {code} at {at}, the model says {found} of {text}")
    # what RFC 8259 has is taken where any string is, and the rest is 10
    for name, string in itertools.product(("comment", "name"), strings()):
        code = model.read(PLACES[name] % string, names.KNOWN, 1)[0]
        tally.check(code == (model.NOT_JSON if model.value_of(string) is None else 0), f"{code} for {string} as {name}")


def check_real(tally, oracle, frames, answers):
    """The model against the real front end."""
    cases = examples.cases()
    for (_, _, kind, text), said in zip(cases, real.ask(oracle, names.table(), [(1, text) for *_, text in cases])):
        tally.check(said[0] == kind, f"stored is {kind} of the real front end, it says {said[0]} of {text}")
    met = collections.Counter()
    for (architecture, text), (code, _, _, programs), said in zip(frames, answers, real.ask(oracle, names.table(), frames)):
        kinds, wrong = differences.compare(text, (code, programs), said, lambda other: answer(architecture, other)[::3])
        met.update(kinds)
        tally.check(not wrong, f"{wrong}: {text[:300]}")
    for kind in differences.ALL:
        print(f"    {met[kind]:6} times: {kind}")
        tally.check(met[kind], f"never met: {kind}")


def check_product(tally, frames, answers):
    """The proved reader against the model, also for native numbers only, which the real front end does not know."""
    flagged = [(model.set_model.native_only(architecture), text) for architecture, text in frames[::7]]
    asked, expected = frames + flagged, answers + [answer(*frame) for frame in flagged]
    for (_, text), ours, said in zip(asked, expected, product.ask(product.build(), names.table(), asked)):
        tally.check(product.expected(*ours) == said, f"the model says {ours[:2]}, the reader {said[:2]} of {text[:300]}")


def main():
    parser = argparse.ArgumentParser()
    parser.add_argument("--seed", type=int, default=1)
    parser.add_argument("--texts", type=int, default=6000)
    chosen = parser.parse_args()
    tally, skipped = Tally(), 0
    check_model(tally)
    tally.group("the model against the definitions and the cases")
    frames = [(1 + place % 3, text) for place, text in enumerate(all_texts(chosen.seed, chosen.texts))]
    answers = [answer(*frame) for frame in frames]
    try:
        check_real(tally, real.build(), frames, answers)
        tally.group("the model against the real front end")
    except real.Missing as missing:
        skipped += 1
        print(f"the real front end was not asked: {missing}")
    if product.is_there():
        check_product(tally, frames, answers)
        tally.group("the proved reader against the model")
    print(f"{tally.passed} passed, {tally.failed} failed" + (f", {skipped} skipped" if skipped else ""))
    return int(tally.failed > 0)


if __name__ == "__main__":
    sys.exit(main())
