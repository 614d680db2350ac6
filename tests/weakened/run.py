#!/usr/bin/env python3
"""Weakens one definition at a time and leaves everything else alone: the theorems must refuse it.

The prover's own must-fail edits try a definition inside its own crate, where worked examples refuse it. Here the examples are left
out, so that what refuses is the theorem, in the crate and file that refused-by.txt names. The copies stand outside the checkout, because
the gate wants no proof among its files that no crate has.

    run.py [--jobs N] [LABEL..]      every edit, or these alone; N at a time"""
import argparse
import concurrent.futures
import os
import pathlib
import queue
import re
import shutil
import subprocess
import sys
import tempfile

HERE = pathlib.Path(__file__).resolve().parent
ROOT = HERE.parent.parent
# a proof that could not be read, or that cites one that was refused, is no theorem that no longer holds
UNREAD = r"is not in scope|has no `|has no field|is no name|was not admitted|operand is missing|expected the end|cannot continue"


class Refused(Exception):
    """What must be proved for a try to say anything was not."""


def read_rows():
    """The edits, each with the crate and the file of proofs that must refuse it."""
    return [line.split() for line in (HERE / "refused-by.txt").read_text().splitlines() if line and not line.startswith("#")]


def edit_of(label):
    own = HERE / f"{label}.edit"
    return own if own.exists() else ROOT / "crates" / "definitions" / "must-fail" / f"{label}.edit"


def apply(edit, crate):
    """The replacements of a must-fail edit, in a copy of its crate."""
    name = old = None
    for line in edit.read_text().splitlines():
        if line.startswith("file: "):
            name = line[6:]
        elif line.startswith("old: "):
            old = line[5:]
        elif line.startswith("new: "):
            path = crate / name
            text = path.read_text()
            if text.count(old) != 1:
                raise Refused(f"{edit.name} cannot be applied: its old text is there {text.count(old)} times")
            path.write_text(text.replace(old, line[5:]))


def below(crate):
    """A crate and those that it depends on, each with its line of crates.txt, in order."""
    lines = [line.partition(":") for line in (ROOT / "crates.txt").read_text().splitlines() if line and not line.startswith("#")]
    needed = {crate, *next(names.split() for name, _, names in lines if name == crate)}
    return {name: f"{name}:{names}" for name, _, names in lines if name in needed}


def without_examples(folder):
    for file in folder.glob("*Examples.antt"):
        file.unlink()
    shutil.rmtree(folder / "Examples", ignore_errors=True)
    listing = folder / "Lib.antt"
    listing.write_text("".join(line + "\n" for line in listing.read_text().splitlines() if not line.endswith("Examples")))


def rt(verb, crate, *words):
    """The exit status, how the crate was judged (none where it was built before), and all that was said."""
    done = subprocess.run(["rt", verb, *words], cwd=crate, stdout=subprocess.PIPE, stderr=subprocess.STDOUT, text=True)
    return done.returncode, re.findall(r"(?m)^logic=(proved|not-proved)\b", done.stdout)[-1:], done.stdout


def must_prove(crate, *words):
    """A library is built only if it is proved."""
    status, _, said = rt("lib", crate, *words)
    if status:
        told = re.search(r"(?m)^\S+:\d+:\d+: error.*$", said)
        raise Refused(f"{crate.name} itself was refused: {told[0] if told else said[-2000:]}")


def prepare(base, rows):
    """The crates as they stand, but for examples, proved: each try begins with a copy of them, and is refused for its edit alone."""
    tried = {wanted.partition("/")[0] for _, wanted in rows}
    crates = {name: line for crate in tried for name, line in below(crate).items()}
    for name in crates:
        for part in ("src", "specs") if name == "definitions" else ("src", "specs", "proofs"):
            if (ROOT / "crates" / name / part).exists():
                shutil.copytree(ROOT / "crates" / name / part, base / "crates" / name / part)
    for name in tried:
        without_examples(base / "crates" / name / "proofs")
    (base / "crates.txt").write_text("".join(line + "\n" for line in crates.values()))
    for name in sorted(crates, key=lambda name: len(below(name))):
        must_prove(base / "crates" / name)


def refusal(base, folder, label, wanted):
    """By which of the crate's proofs the edit is refused."""
    crate, _, file = wanted.partition("/")
    crates = below(crate)
    shutil.rmtree(folder, ignore_errors=True)
    for name in crates:
        shutil.copytree(base / "crates" / name, folder / "crates" / name)
    (folder / "crates.txt").write_text("".join(line + "\n" for line in crates.values()))
    apply(edit_of(label), folder / "crates" / "definitions")
    for name in crates:
        if name != crate:
            must_prove(folder / "crates" / name, "--jobs", "1")
    status, verdict, said = rt("check", folder / "crates" / crate, "--jobs", "1")
    if (status, verdict) == (0, ["proved"]):
        raise Refused("NOT REFUSED")
    if (status, verdict) != (1, ["not-proved"]):
        raise Refused(f"{crate} was not judged (exit {status}): {said[-2000:]}")
    refusing = {name for name, why in re.findall(r"(?m)^(?:\./)?proofs/(\w+)\.antt:\d+:\d+: error: (`.*)$", said) if not re.search(UNREAD, why)}
    told = f"refused in {', '.join(sorted(refusing)) or 'no proof'}"
    if file not in refusing:
        raise Refused(f"{told}, and not in {wanted}")
    return told


def main():
    parser = argparse.ArgumentParser()
    parser.add_argument("--jobs", type=int, default=min(4, len(os.sched_getaffinity(0))), help="how many edits are tried at a time")
    parser.add_argument("labels", nargs="*", help="only these edits")
    given = parser.parse_args()
    rows = [row for row in read_rows() if not given.labels or row[0] in given.labels]
    listed = {label for label, _ in read_rows()}
    unlisted = sorted({edit.stem for edit in HERE.glob("*.edit")} - listed | set(given.labels) - listed)
    for label in unlisted:
        print(f"{label}: FAILED: refused-by.txt does not say what refuses it")
    passed, failed = 0, len(unlisted)
    with tempfile.TemporaryDirectory(prefix="callfilter-weakened-") as room:
        base, folders = pathlib.Path(room) / "base", queue.SimpleQueue()
        for number in range(given.jobs):
            folders.put(pathlib.Path(room) / str(number))

        def attempt(row):
            folder = folders.get()
            try:
                return True, refusal(base, folder, *row)
            except (Refused, OSError) as why:
                return False, f"FAILED: {why}"
            finally:
                folders.put(folder)

        try:
            prepare(base, rows)
        except Refused as why:
            print(f"nothing was tried: {why}")
            print("0 passed, 1 failed")
            return 1
        with concurrent.futures.ThreadPoolExecutor(given.jobs) as pool:
            for (label, _), (good, told) in zip(rows, pool.map(attempt, rows)):
                print(f"{label}: {told}", flush=True)
                passed, failed = passed + good, failed + (not good)
    print(f"{passed} passed, {failed} failed")
    return int(failed > 0)


if __name__ == "__main__":
    sys.exit(main())
