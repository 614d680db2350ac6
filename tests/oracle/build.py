#!/usr/bin/env python3
"""Builds the oracle (the real compiler of seccompiler 0.5.0 behind our main.rs) and the judge, and runs them on frames of bytes.

seccompiler's source is lent: it is looked for in ../shared/docs/src, or where CALLFILTER_SHARED says, copied unchanged into target/ and
never made part of this repository. Since it refuses filters of 4,096 instructions, which we compile, there is a second oracle, of a copy
in which that one number is raised: it is asked where the first refuses for 4,096. Exit status 3 says that the source, or rustc, is not
there."""
import hashlib
import os
import pathlib
import shutil
import struct
import subprocess
import sys

HERE = pathlib.Path(__file__).resolve().parent
ROOT = HERE.parent.parent
TARGET = ROOT / "target" / "oracle"
BACKEND = ("bpf", "condition", "filter", "mod", "rule")
LIMIT, RAISED_LIMIT = (f"pub const BPF_MAX_LEN: usize = {limit};".encode() for limit in (4096, 4097))
MISSING = 3


class Missing(Exception):
    """What the oracle is made from is not on this machine."""


class Broken(Exception):
    """A program ended early or said something that is not an answer."""


def lent_source():
    given = pathlib.Path(os.environ.get("CALLFILTER_SHARED", ROOT.parent / "shared"))
    for folder in (given, given / "docs" / "src"):
        if all((folder / f"src--backend--{name}.rs.txt").is_file() for name in BACKEND):
            return folder
    raise Missing(f"seccompiler's source is not in {given} (CALLFILTER_SHARED says where it is)")


def rustc(*arguments):
    subprocess.run(["rustc", "--edition", "2021", "-O", "--cap-lints", "allow", *map(str, arguments)], check=True)


def fresh(name, inputs):
    """Whether the program was already built from exactly these files."""
    digest = hashlib.sha256(b"".join(hashlib.sha256(path.read_bytes()).digest() for path in inputs)).hexdigest()
    stamp = TARGET / f"{name}.stamp"
    if (TARGET / name).is_file() and stamp.is_file() and stamp.read_text() == digest:
        return True, stamp, digest
    stamp.unlink(missing_ok=True)
    return False, stamp, digest


def need_rustc():
    if shutil.which("rustc") is None:
        raise Missing("rustc is not there")
    TARGET.mkdir(parents=True, exist_ok=True)


def build_oracle(raised=False):
    source = lent_source()
    need_rustc()
    name = "raised" if raised else "oracle"
    lent = {source / f"src--backend--{part}.rs.txt": f"backend/{part}.rs" for part in BACKEND}
    ours = {HERE / part: part for part in ("libc.rs", "format.rs", "convert.rs", "main.rs")}
    done, stamp, digest = fresh(name, [HERE / "build.py", *lent, *ours])
    if not done:
        folder = TARGET / ("raised-src" if raised else "src")
        for path, part in {**lent, **ours}.items():
            place = folder / part
            place.parent.mkdir(parents=True, exist_ok=True)
            text = path.read_bytes()
            if raised and part == "backend/bpf.rs":
                assert text.count(LIMIT) == 1, "seccompiler's limit is not where it was"
                text = text.replace(LIMIT, RAISED_LIMIT)
            place.write_bytes(text)
        library = TARGET / "liblibc.rlib"
        rustc("--crate-type", "rlib", "--crate-name", "libc", folder / "libc.rs", "-o", library)
        # distances are 8-bit numbers in seccompiler: one that does not fit must stop the oracle, not wrap around
        limit = ["--cfg", "raised"] if raised else []
        rustc(*limit, "-C", "overflow-checks=on", "--extern", f"libc={library}", folder / "main.rs", "-o", TARGET / name)
        stamp.write_text(digest)
    return TARGET / name


def build_judge():
    need_rustc()
    done, stamp, digest = fresh("judge", [HERE / name for name in ("build.py", "format.rs", "judge.rs")])
    if not done:
        rustc(HERE / "judge.rs", "-o", TARGET / "judge")
        stamp.write_text(digest)
    return TARGET / "judge"


def run(program, words, data, seconds):
    """Standard output, and what went wrong: an end by signal, by a status or by the clock."""
    try:
        done = subprocess.run([str(program), *words], input=data, capture_output=True, timeout=seconds)
    except subprocess.TimeoutExpired as late:
        return late.stdout or b"", f"stopped after {seconds} seconds"
    except OSError as error:
        return b"", f"did not start: {error}"
    said = done.stderr.decode(errors="replace").strip()
    return done.stdout, f"ended with status {done.returncode}: {said}" if done.returncode else ""


def ask(program, frames, *words, seconds=600):
    """The answers (code, count, entry, rule, condition, filter) of a program, called with these words, to frames of (set, room). A program
    that stops early leaves fewer answers."""
    data = b"".join(struct.pack("<II", len(given), room) + given for given, room in frames)
    output, trouble = run(program, words, data, seconds)
    answers, at = [], 0
    while len(answers) < len(frames) and at + 20 <= len(output):
        code, count, *place = struct.unpack_from("<5I", output, at)
        at += 20
        size = 8 * count if code == 0 else 0
        if at + size > len(output):
            break
        answers.append((code, count, *place, output[at:at + size]))
        at += size
    if not trouble and (len(answers) < len(frames) or at < len(output)):
        trouble = f"gave {len(answers)} answers to {len(frames)} frames, and {len(output) - at} bytes more"
    return answers, trouble


def ask_oracle(frames):
    """The real compiler's answers; where it refuses for 4,096 instructions, those of the copy with its limit raised, and how many."""
    answers, trouble = ask(build_oracle(), frames)
    places = [place for place, answer in enumerate(answers) if answer[:2] == (6, 4096)]
    more, more_trouble = ask(build_oracle(raised=True), [frames[place] for place in places])
    for place, answer in zip(places, more):
        answers[place] = answer
    if trouble or more_trouble:
        raise Broken(f"the oracle {trouble or more_trouble}")
    return answers, len(places)


def judge(program, frames, calls, seed):
    """For frames of (set, filter): (wrong calls, matching calls, refused by the kernel's checks) each, and what was told of wrong ones."""
    data = b"".join(
        struct.pack("<IIII", len(given), len(code), calls, (seed + place) % 2 ** 32) + given + code
        for place, (given, code) in enumerate(frames))
    done = subprocess.run([str(program)], input=data, capture_output=True)
    if done.returncode or len(done.stdout) != 12 * len(frames):
        raise Broken(f"the judge ended with status {done.returncode}: {done.stderr.decode(errors='replace')}")
    return list(struct.iter_unpack("<III", done.stdout)), done.stderr.decode().splitlines()


def main():
    try:
        print(build_oracle())
        print(build_judge())
    except Missing as missing:
        print(f"oracle not built: {missing}")
        return MISSING
    return 0


if __name__ == "__main__":
    sys.exit(main())
