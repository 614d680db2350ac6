#!/usr/bin/env python3
"""The gate's comparison with the real seccompiler 0.5.0: builds the proved compiler as an archive, a host around it and the oracle, and
has compare.py give both the same sets. Where the oracle cannot be built nothing is compared: that is one skipped, not a failure.
Arguments are compare.py's."""
import pathlib
import subprocess
import sys

sys.path.insert(0, str(pathlib.Path(__file__).resolve().parent.parent))
import archive
import build


def build_host():
    archive.build()
    return archive.program(build.TARGET / "host", build.HERE / "host.c")


def main():
    try:
        build.build_oracle()
        build.build_judge()
    except build.Missing as missing:
        print(f"nothing compared: {missing}")
        print("0 passed, 0 failed, 1 skipped")
        return 0
    try:
        host = build_host()
    except (OSError, archive.Broken) as error:
        print(f"the host was not built: {error}")
        print("0 passed, 1 failed")
        return 1
    return subprocess.run([sys.executable, build.HERE / "compare.py", "--other", host, *sys.argv[1:]]).returncode


if __name__ == "__main__":
    sys.exit(main())
