#!/usr/bin/env python3
"""Compares a compiler that speaks the oracle's frames with the real compiler of seccompiler 0.5.0: answers and bytes of systematic and of
random rule sets, and what the filters return for calls drawn from the values in the rules. Of some sets the program also makes a search,
which seccompiler has not: it is held to the meaning, and never longer. A set for native numbers only, which seccompiler does not know, is
compiled by it without that flag: our filter has to be that one, but for the guard (and the load that it needs) on x86_64. It also tries the
listed differences on the real compiler. The last line is 'N passed, M failed'.

    compare.py --other PROGRAM [--sets N] [--seed N] [--calls N]

Exit status 3: the oracle cannot be built here, and nothing was compared."""
import argparse
import pathlib
import struct
import subprocess
import sys
import time

import build

sys.path.insert(0, str(build.ROOT / "tests" / "vectors"))
from draw import Draw  # noqa: E402
from model import (  # noqa: E402
    ALLOW, EQ, ERRNO, LONGEST_SET, NATIVE_ONLY, NOWHERE, TOO_MANY, X86_64, decode, encode, is_guarded, length, native_only)

BATCH = 500
PLENTY = 65536
SHOWN = 5
# of so many sets one is also compiled into a search
SEARCHED = 3
# of so many random sets one is for native numbers only
NATIVE = 3
BY_LENGTH = (0, 6, 7)


def heads():
    """Every short start, every value of every byte of the head, and all pairings of words next to known ones."""
    plain = encode((X86_64, ERRNO + 1, ALLOW, []))
    listed = encode((X86_64, ERRNO + 1, ALLOW, [(0, [])]))
    native = encode((native_only(X86_64), ERRNO + 1, ALLOW, [(0, [])]))
    for given in (plain, listed, native):
        for size in range(len(given) + 1):
            yield given[:size]
        for more in range(1, 26):
            yield given + bytes(more)
            yield given + bytes([1]) * more
    for byte in range(256):
        yield bytes([byte])
        for given in (plain, native):
            for place in range(16):
                yield given[:place] + bytes([byte]) + given[place + 1:]
    architectures = (0, 1, 2, 3, 4, 0x100, 0x101, 0x102, 0x103, 0x104, 0x201, 0x1000001, 2 ** 32 - 1)
    words = (0, 1, 0x30000, 0x30001, 0x50000, 0x5ffff, 0x60000, 0x7fc00000, 0x7fc00001, 0x7ff00001, 0x7ffc0000, 0x7ffc8000, 0x7fff0000, 0x80000000, 0x80000001)
    tails = (bytes(4), bytes(4) + bytes(8), struct.pack("<I", 1) + bytes(8), struct.pack("<I", 2 ** 32 - 1) + bytes(8))
    for architecture in architectures:
        for mismatch in words:
            for match in words:
                for tail in tails:
                    yield struct.pack("<III", architecture, mismatch, match) + tail


def longest():
    """Sets at the limit of 1 MiB, which are too large to store as vectors."""
    def plain(count, mismatch=ERRNO + 1):
        return encode((X86_64, mismatch, ALLOW, [(number, []) for number in range(count)]))

    whole = plain((LONGEST_SET - 16) // 8)
    assert len(whole) == LONGEST_SET
    yield whole
    yield whole + b"\0"
    yield whole[:-1]
    yield plain((LONGEST_SET - 16) // 8 + 1)
    yield plain((LONGEST_SET - 16) // 8, ALLOW)
    yield whole[:-8] + whole[-16:-8]
    # sizes are multiples of 4, so the nearest ones around the limit are 4 bytes away
    one_rule = [(2 ** 32 - 1, [[(0, 4, EQ, 0, 0)]])]
    for over in (-4, 4):
        count = (LONGEST_SET + over - 52) // 8
        made = encode((X86_64, ERRNO, ALLOW, [(number, []) for number in range(count)] + one_rule))
        assert len(made) == LONGEST_SET + over
        yield made
    empty_rules = (LONGEST_SET - 24) // 4
    yield encode((X86_64, ERRNO, ALLOW, [(0, [[]] * empty_rules)]))
    conditions = (LONGEST_SET - 28) // 24
    condition = (5, 4, EQ, 1, 0)
    yield encode((X86_64, ERRNO, ALLOW, [(0, [[condition] * conditions])]))
    yield encode((X86_64, ERRNO, ALLOW, [(0, [[condition] * (conditions - 1) + [(6, 4, EQ, 1, 0)]])]))
    yield encode((X86_64, ERRNO, ALLOW, [(0, [[condition]] * ((LONGEST_SET - 24) // 28))]))
    # a fault as far back as it can be
    yield encode((X86_64, ERRNO, ALLOW, [(0, [[condition]] * ((LONGEST_SET - 28) // 28) + [[]])]))
    yield encode((X86_64, ERRNO, ALLOW, [(number, []) for number in range((LONGEST_SET - 52) // 8)] + [(2 ** 32 - 1, [[(6, 4, EQ, 0, 0)]])]))


def drawn(seed, count):
    """Random frames (set, room). The flag is drawn apart, so that the other sets are the same whether or not there is one."""
    draw, flag = Draw(seed), Draw(seed + 2 ** 63)

    def sometimes_native(made):
        return flag.native(made) if flag.chance(NATIVE) else made

    for _ in range(count):
        kind = draw.below(20)
        if kind < 8:
            made = draw.small()
        elif kind < 12:
            made = draw.long_rules()
        elif kind < 14:
            made = draw.many_numbers()
        elif kind < 16:
            made = draw.exact(draw.between(4090, 4101))
        elif kind < 17:
            made = draw.exact(draw.between(100, 4090))
        else:
            made = None
        if made is None:
            source = sometimes_native(draw.of((draw.small, draw.small, draw.small, draw.long_rules, draw.many_numbers))())
            if draw.chance(2):
                yield encode(draw.refused(source)), draw.of((PLENTY, 0))
            else:
                yield draw.damaged(encode(source)), PLENTY
        else:
            made = sometimes_native(made)
            size = 8 * length(made)
            yield encode(made), draw.of((PLENTY,) * 8 + (size, size + 5, max(0, size - 1), draw.below(size), 0))


class Tally:
    def __init__(self):
        self.passed = self.calls = self.matched = self.raised = 0
        self.searches = self.searched = self.listed = self.turned = 0
        self.natives, self.guarded = {}, {}
        self.failures = []
        self.codes = {}

    def count_native(self, given, code):
        """How often each answer was one to a set with the flag, on an architecture with a second table or without."""
        head = int.from_bytes(given[:4], "little")
        if head & NATIVE_ONLY and code != 1:
            counts = self.guarded if is_guarded(head) else self.natives
            counts[code] = counts.get(code, 0) + 1


def answers_of(other, frames, *words):
    """One for each frame: none where the program had stopped."""
    given, trouble = build.ask(other, frames, *words)
    if trouble:
        print(f"the other program {trouble}")
    return given + [None] * (len(frames) - len(given))


def first_too_wide(given):
    """Where the first dword condition is that has more than 32 bits."""
    for entry, (_, rules) in enumerate(decode(given)[3]):
        for at, rule in enumerate(rules):
            for place, (_, width, _, value, mask) in enumerate(rule):
                if width == 4 and (value | mask) >> 32:
                    return entry, at, place
    return None


def search_answer(frame, wanted, got):
    """What a search is to be answered, where the list of comparisons has the wanted answer: it is refused for its own length only, and
    where that is none too many, for what comes behind the length."""
    given, room = frame
    if wanted[0] not in BY_LENGTH:
        return wanted[:-1]
    # of a refusal for something else there is no length, and 0 is never one
    count = min(got[1], wanted[1])
    code = 6 if count >= TOO_MANY else 7 if 8 * count > room else 0
    wide = None if code or wanted[0] == 0 else first_too_wide(given)
    # which entry makes it too long is asked of the program itself
    return (8, 0, *wide) if wide else (code, count, got[2] if code == 6 else NOWHERE, NOWHERE, NOWHERE)


def first_entries(given, count):
    *head, entries = decode(given)
    return encode((*head, entries[:count]))


def turning(frames, given, other):
    """Of each search that is too long, whether it is so with the entry that is told, and is not with those in front of it."""
    places = [place for place, answer in enumerate(given) if answer and answer[0] == 6]
    cuts = [(first_entries(frames[place][0], given[place][2] + more), PLENTY) for place in places for more in (0, 1)]
    codes = [answer and answer[0] for answer in answers_of(other, cuts, "search")]
    return {place: short != 6 and long == 6 for place, short, long in zip(places, codes[::2], codes[1::2])}


def compare_searches(frames, expected, other, judge, calls, seed, tally):
    given = answers_of(other, frames, "search")
    turns = turning(frames, given, other)
    tally.turned += len(turns)
    places = [place for place, answer in enumerate(given) if answer and answer[0] == 0]
    results, told = build.judge(judge, [(frames[place][0], given[place][-1]) for place in places], calls, seed)
    if told:
        print("\n".join(told[:SHOWN]))
    verdicts = dict(zip(places, results))
    for place, (frame, wanted, got) in enumerate(zip(frames, expected, given)):
        wrong, matched, refused = verdicts.get(place, (0, 0, 0))
        good = got and got[:-1] == search_answer(frame, wanted, got) and turns.get(place, True) and not wrong and not refused
        if place in verdicts:
            tally.searches += 1
            tally.searched += got[1]
            tally.listed += wanted[1]
            tally.calls += calls
            tally.matched += matched
        if good:
            tally.passed += 1
        else:
            tally.failures.append((frame, f"a search: answered {got and got[:-1]} where the list has {wanted[:-1]}; {wrong} of {calls} calls "
                                   "end wrong" + (", the kernel refuses it" if refused else "")))


def compare(frames, oracle, other, judge, calls, seed, tally):
    if oracle:
        expected, trouble = build.ask(oracle, frames)
        if trouble:
            raise build.Broken(f"the oracle {trouble}")
    else:
        expected, raised = build.ask_oracle(frames)
        tally.raised += raised
    given = answers_of(other, frames)
    if not oracle:
        compare_searches(frames[::SEARCHED], expected[::SEARCHED], other, judge, calls, seed, tally)

    # where both wrote the same there is one filter to run, else two
    to_run = {}
    for place, answers in enumerate(zip(expected, given)):
        for answer in answers:
            if answer and answer[0] == 0 and expected[place][0] == 0:
                to_run[place, answer[-1]] = None
    results, told = build.judge(judge, [(frames[place][0], code) for place, code in to_run], calls, seed)
    verdicts = {}
    for (place, _), (wrong, matched, refused) in zip(to_run, results):
        tally.calls += calls
        tally.matched += matched
        if wrong or refused:
            verdicts[place] = f"{wrong} of {calls} calls end wrong" + (", the kernel refuses it" if refused else "")
    if told:
        print("\n".join(told[:SHOWN]))

    for place, frame in enumerate(frames):
        wanted, got = expected[place], given[place]
        tally.codes[wanted[0]] = tally.codes.get(wanted[0], 0) + 1
        tally.count_native(frame[0], wanted[0])
        if wanted == got and place not in verdicts:
            tally.passed += 1
            continue
        if got is None:
            reason = f"no answer, expected {wanted[:-1]}"
        elif wanted[:-1] != got[:-1]:
            reason = f"answered {got[:-1]}, expected {wanted[:-1]}"
        elif wanted != got:
            at = next(at for at, (one, two) in enumerate(zip(wanted[-1], got[-1])) if one != two)
            reason = f"filters differ, first in instruction {at // 8}"
        else:
            reason = "filters agree"
        tally.failures.append((frame, reason + (f"; {verdicts[place]}" if place in verdicts else "")))


def differences(oracle, tally):
    lines = subprocess.run([str(oracle), "differences"], capture_output=True, text=True).stdout.splitlines()[:-1]
    for line in lines or ["FAILED nothing tried"]:
        if line.startswith("ok "):
            tally.passed += 1
        else:
            tally.failures.append(((b"", 0), f"difference not seen: {line}"))
    print(f"listed differences: {len(lines)} tried, {len(tally.failures)} failures")


def show(failures):
    """The smallest ones, since they are read first; whole, as files, since they may be long."""
    for place, ((given, room), reason) in enumerate(sorted(failures, key=lambda failure: len(failure[0][0]))[:SHOWN]):
        path = build.TARGET / f"failed-{place}.set"
        path.write_bytes(given)
        print(f"FAILED {reason}: set of {len(given)} bytes, room {room}, in {path.relative_to(build.ROOT)}: {given[:120].hex()}")


def main():
    parser = argparse.ArgumentParser()
    parser.add_argument("--other", required=True, type=pathlib.Path, help="the program to compare")
    parser.add_argument("--oracle", type=pathlib.Path, help="a program in the oracle's place, to try the judge alone")
    parser.add_argument("--sets", type=int, default=10000, help="how many random sets")
    parser.add_argument("--seed", type=int, default=20240501)
    parser.add_argument("--calls", type=int, default=40, help="calls to run through each filter")
    options = parser.parse_args()
    try:
        oracle, judge = options.oracle, build.build_judge()
        build.build_oracle(), build.build_oracle(raised=True)
    except build.Missing as missing:
        print(f"nothing compared: {missing}")
        print("0 passed, 0 failed")
        return build.MISSING

    print(f"seed {options.seed}, {options.sets} random sets")
    tally = Tally()
    start = time.monotonic()

    def part(name, frames):
        before = tally.passed + len(tally.failures)
        batch = []
        for frame in frames:
            batch.append(frame)
            if len(batch) == BATCH:
                compare(batch, oracle, options.other.resolve(), judge, options.calls, options.seed, tally)
                batch = []
        if batch:
            compare(batch, oracle, options.other.resolve(), judge, options.calls, options.seed, tally)
        count = tally.passed + len(tally.failures) - before
        print(f"{name}: {count} answers, {len(tally.failures)} failures so far, {time.monotonic() - start:.1f} s")

    if not oracle:
        differences(build.build_oracle(), tally)
    part("heads", ((given, PLENTY) for given in heads()))
    part("at 1 MiB", ((given, PLENTY) for given in longest()))
    part("random", drawn(options.seed, options.sets))

    def in_words(codes):
        return ", ".join(f"{code}: {codes[code]}" for code in sorted(codes))

    print(f"answers ({in_words(tally.codes)}); {tally.calls} calls run, {tally.matched} of them matching")
    print(f"for native numbers only, on x86_64 ({in_words(tally.guarded)}), elsewhere ({in_words(tally.natives)})")
    print(f"{tally.searches} searches, of {tally.searched} instructions where lists have {tally.listed}; {tally.turned} too long")
    print(f"{tally.raised} filters of 4,096 instructions, which seccompiler writes only with its limit raised by one")
    show(tally.failures)
    print(f"{tally.passed} passed, {len(tally.failures)} failed")
    return 1 if tally.failures else 0


if __name__ == "__main__":
    sys.exit(main())
