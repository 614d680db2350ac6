"""The product's side: the proved reader in its archive, with host.c around it. It must say of every text what the model says: code, place,
the bytes of the sets, and of each set the filter."""
import pathlib
import struct
import subprocess
import sys

HERE = pathlib.Path(__file__).resolve().parent
sys.path.insert(0, str(HERE.parent))
import archive
from model import encode_named

# buffers by the length of the text, of which each is enough
SCRATCH, OUT = 8, 1


def is_there():
    return "callfilter_read_json" in (archive.ROOT / "host" / "callfilter.h").read_text()


def build():
    archive.build()
    return archive.program(archive.ROOT / "target" / "json" / "host", HERE / "host.c")


class Answers:
    """What the host wrote, from front to back."""

    def __init__(self, output):
        self.output, self.at = output, 0

    def words(self, count):
        self.at += 4 * count
        return struct.unpack_from(f"<{count}I", self.output, self.at - 4 * count)

    def take(self, size):
        self.at += size
        return self.output[self.at - size:self.at]

    def answer(self):
        """(code, place, sets as bytes, programs by name)"""
        code, at, count, end = self.words(4)
        if code:
            return code, at, b"", {}
        sets, programs = self.take(end), {}
        while True:
            met, name, name_len, _, _, _ = self.words(6)
            if met:
                assert met == 2 and count == len(programs), "the sets do not end as they must"
                return code, at, sets, programs
            compiled, size, *_ = self.words(5)
            assert compiled in (0, 6), "a set that was read is refused"
            programs[sets[name:name + name_len]] = self.take(8 * size) if compiled == 0 else size


def ask(program, table, frames):
    data = b"".join(
        struct.pack("<4I", architecture, SCRATCH * len(text), OUT * len(text), len(text)) + text for architecture, text in frames)
    output = subprocess.run([str(program)], input=struct.pack("<I", len(table)) + table + data, stdout=subprocess.PIPE, check=True).stdout
    answers = Answers(output)
    return [answers.answer() for _ in frames]


def expected(code, at, sets, programs):
    """The model's answer in the same form."""
    return code, at, b"".join(encode_named(name, rule_set) for name, rule_set in sets), programs
