#!/usr/bin/env python3
"""Builds the archive, the real seccompiler and the benchmark around both, and runs it. Not part of the gate: a time is not a test."""
import pathlib
import subprocess
import sys

HERE = pathlib.Path(__file__).resolve().parent
sys.path.insert(0, str(HERE.parent / "tests" / "oracle"))
import build  # noqa: E402
import sets  # noqa: E402

TARGET = build.ROOT / "target" / "bench"


def main():
    try:
        build.build_oracle()
    except build.Missing as missing:
        print(f"nothing measured: {missing}")
        return build.MISSING
    subprocess.run([build.ROOT / "host" / "archive.sh"], check=True, stdout=subprocess.DEVNULL, stderr=subprocess.DEVNULL)
    TARGET.mkdir(parents=True, exist_ok=True)
    program = TARGET / "bench"
    build.rustc(
        "-C", "opt-level=3", "-C", "codegen-units=1", "--extern", f"libc={build.TARGET / 'liblibc.rlib'}", HERE / "main.rs", "-o", program,
        "-C", f"link-arg={build.ROOT / 'target' / 'staticlib' / 'libcallfilter.a'}")
    listed = TARGET / "sets.txt"
    listed.write_text("\n".join(sets.write(TARGET)) + "\n")
    return subprocess.run([program, listed]).returncode


if __name__ == "__main__":
    sys.exit(main())
