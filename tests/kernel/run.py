#!/usr/bin/env python3
"""Holds the proved functions to the kernel of this machine, by seccomp(2): random filters and calls, then compiled rule sets and calls,
then sets that hand calls to a supervisor, sets for native numbers only, and how many filters a process may stack.
Where a filter cannot be installed or the program not be built, that is a failure: nothing else here knows the real kernel.

    run.py [--seed N] [--programs N] [--sets N]
    run.py --seed N --program N      one filter again
    run.py --seed N --set N          one rule set again"""
import argparse
import pathlib
import re
import subprocess
import sys
import time

HERE = pathlib.Path(__file__).resolve().parent
sys.path.insert(0, str(HERE.parent))
import archive  # noqa: E402


def run(words, given=None):
    """The words' last line as (passed, failed, skipped), everything printed as it comes."""
    last, start = "", time.monotonic()
    with subprocess.Popen(list(map(str, words)), stdin=given, stdout=subprocess.PIPE, text=True) as process:
        for line in process.stdout:
            if last:
                print(last, flush=True)
            last = line.rstrip("\n")
    counts = re.fullmatch(r"(\d+) passed, (\d+) failed(?:, (\d+) skipped)?", last)
    print(f"{last}, {time.monotonic() - start:.1f} s", flush=True)
    if not counts or bool(process.returncode) != (counts[2] != "0"):
        print(f"FAILED: ended with status {process.returncode}")
        return 0, 1, 0
    return tuple(int(count or 0) for count in counts.groups())


def programs(compare, seed, first, count):
    print("-- random filters", flush=True)
    return run([compare, "programs", seed, first, count])


def sets(compare, seed, first, count):
    print("-- compiled rule sets", flush=True)
    with subprocess.Popen([sys.executable, HERE / "sets.py", *map(str, (seed, first, count))], stdout=subprocess.PIPE) as drawing:
        counts = run([compare, "sets", seed, first], drawing.stdout)
    if drawing.returncode:
        print(f"FAILED: the sets were not all drawn, status {drawing.returncode}")
        return 0, 1, 0
    return counts


def supervisor(compare):
    print("-- calls that are handed to a supervisor", flush=True)
    return run([compare, "supervisor"])


def native(compare):
    print("-- native numbers only", flush=True)
    return run([compare, "native"])


def stack(compare):
    print("-- filters on one process", flush=True)
    return run([compare, "stack"])


def main():
    parser = argparse.ArgumentParser()
    parser.add_argument("--seed", type=int, default=20240501)
    parser.add_argument("--programs", type=int, default=30000, help="how many random filters")
    parser.add_argument("--sets", type=int, default=1500, help="how many rule sets")
    parser.add_argument("--program", type=int, help="only the filter with this number")
    parser.add_argument("--set", type=int, help="only the rule set with this number")
    options = parser.parse_args()
    try:
        archive.build()
        compare = archive.program(archive.ROOT / "target" / "kernel" / "compare", *sorted(HERE.glob("*.c")))
    except (OSError, archive.Broken) as error:
        print(f"FAILED: nothing was compared with the kernel: {error}")
        print("0 passed, 1 failed")
        return 1
    if options.program is not None:
        results = [programs(compare, options.seed, options.program, 1)]
    elif options.set is not None:
        results = [sets(compare, options.seed, options.set, 1)]
    else:
        results = [programs(compare, options.seed, 0, options.programs), sets(compare, options.seed, 0, options.sets), supervisor(compare)]
        results += [native(compare), stack(compare)]
    passed, failed, skipped = map(sum, zip(*results))
    print(f"{passed} passed, {failed} failed" + (f", {skipped} skipped" if skipped else ""))
    return 1 if failed else 0


if __name__ == "__main__":
    sys.exit(main())
