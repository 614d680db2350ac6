"""The proved library as an archive, and programs in C around it: what every outside test starts from."""
import pathlib
import subprocess

ROOT = pathlib.Path(__file__).resolve().parent.parent
ARCHIVE = ROOT / "target" / "staticlib" / "libcallfilter.a"


class Broken(Exception):
    """A program could not be built, ended early or said something that is not an answer."""


def command(*words):
    done = subprocess.run(list(map(str, words)), cwd=ROOT, stdout=subprocess.PIPE, stderr=subprocess.STDOUT, text=True)
    if done.returncode:
        raise Broken(f"{words[0]} ended with status {done.returncode}:\n{done.stdout}")


def build():
    """Always anew: it is quick, and an older archive must not be what is tested."""
    command(ROOT / "host" / "archive.sh")
    return ARCHIVE


def program(place, *sources, libraries=()):
    """A program in C, with the archive that was built."""
    place.parent.mkdir(parents=True, exist_ok=True)
    command("gcc", "-std=gnu11", "-O2", "-Wall", "-Wextra", "-Werror", "-I", ROOT / "host", *sources, ARCHIVE, *libraries, "-o", place)
    return place
