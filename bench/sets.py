"""The rule sets that the benchmark compiles: a few of everyday size, some near the longest filter that is taken, and sets of 1 MiB, which
are refused for their length only after all of them was read. Sets are made from a seed, so that every run has the same."""
import pathlib
import sys

sys.path.insert(0, str(pathlib.Path(__file__).resolve().parent.parent / "tests" / "vectors"))
from draw import Draw  # noqa: E402
from make import HEAD, WORKED_SET  # noqa: E402
from model import EQ, LONGEST_SET, MASKED_EQ, NE, encode, length, rule_length  # noqa: E402

LONGEST = 4095

# The x86_64 calls that containers are commonly allowed, as ranges of numbers: without modules, mounts, clocks, keys, tracing and what
# is gone. Three of them are allowed only with some arguments.
ALLOWED = (
    (0, 40), (42, 55), (57, 100), (102, 133), (137, 138), (140, 152), (157, 162), (186, 204), (206, 210), (213, 213), (216, 226),
    (228, 235), (240, 245), (247, 247), (251, 255), (257, 271), (273, 278), (280, 297), (299, 299), (301, 302), (306, 307), (309, 309),
    (314, 319), (322, 322), (324, 334), (424, 424), (434, 434), (436, 441), (444, 449))
WITH_CONDITIONS = [
    # socket, not to virtual machines; clone, without new namespaces; personality, the harmless ones
    (41, [[(0, 8, NE, 40, 0)]]),
    (56, [[(0, 8, MASKED_EQ, 0, 0x7e020000)]]),
    (135, [[(0, 8, EQ, value, 0)] for value in (0, 0x8, 0x20000, 0x20008, 0xffffffff)])]


def plain(numbers):
    return (*HEAD, [(number, []) for number in numbers])


def dword(value):
    return (value % 6, 4, EQ, value, 0)


def masked(count):
    return [(place % 6, 8, MASKED_EQ, place, 2 ** 33 + 3) for place in range(count)]


def allow_list():
    entries = WITH_CONDITIONS + [(number, []) for first, last in ALLOWED for number in range(first, last + 1)]
    return (*HEAD, sorted(entries))


def mixed_operators():
    draw, entries, left = Draw(1), [], LONGEST - 5
    while left > 40:
        rule = draw.rule(draw.between(1, 4))
        entries.append((len(entries), [rule]))
        left -= 2 + rule_length(rule)
    return (*HEAD, entries)


def compiled():
    """Sets that become filters."""
    yield "worked example", WORKED_SET
    yield "412 plain calls", plain(range(0, 824, 2))
    yield "allow list", allow_list()
    yield "plain calls", plain(range(818))
    yield "one-condition rules", (*HEAD, [(number, [[dword(number)]]) for number in range(584)])
    yield "mixed operators", mixed_operators()
    yield "long masked rules", (*HEAD, [(9, [masked(168)] * 4)])


def searched():
    """Sets of which only the two forms are compared: what makes a search longer is how many rows the numbers are in."""
    yield "calls 0 to 411", plain(range(412))
    yield "818 calls apart", plain(range(0, 1636, 2))


def refused():
    """Sets of 1 MiB, or of as many bytes less as the shape has to leave: (name, answer, set)."""
    room = LONGEST_SET - 24
    draw = Draw(2)
    yield "plain calls", 6, plain(range((LONGEST_SET - 16) // 8))
    yield "calls apart", 6, plain(range(0, (LONGEST_SET - 16) // 4, 2))
    # the row is walked over at every level of a search's tree, and it is the last entries that make the search too long
    row = (LONGEST_SET - 16) // 8 - 3500
    yield "a row, then calls apart", 6, plain([*range(row), *range(row + 1, row + 7001, 2)])
    yield "entries of one condition", 6, (*HEAD, [(number, [[dword(number)]]) for number in range((LONGEST_SET - 16) // 36)])
    yield "rules of one condition", 6, (*HEAD, [(0, [[dword(number)] for number in range(room // 28)])])
    yield "one rule, dword conditions", 6, (*HEAD, [(0, [[dword(number) for number in range(room // 24)]])])
    yield "one rule, masked qword conditions", 6, (*HEAD, [(0, [masked(room // 24)])])
    yield "16 rules, mixed operators", 6, (*HEAD, [(0, [draw.rule(room // 16 // 24 - 1) for _ in range(16)])])
    yield "rules without conditions", 4, (*HEAD, [(0, [[]] * (room // 4))])
    apart = [(number, []) for number in range(2, 18002, 2)]
    yield "rules without conditions, then calls apart", 4, (*HEAD, [(0, [[]] * (room // 4 - 2 * len(apart))), *apart])


def write(folder):
    """Writes the sets as files, and gives a line for each: what to do with it, its answer, its file and its name."""
    lines = []
    for kind, made_sets in (("compare", compiled()), ("forms", searched())):
        for name, made in made_sets:
            assert length(made) <= LONGEST
            lines.append((kind, 0, name, encode(made)))
    for name, answer, made in refused():
        data = encode(made)
        assert LONGEST_SET - 2048 < len(data) <= LONGEST_SET, (name, len(data))
        lines.append(("limit", answer, name, data))
    for place, (kind, answer, name, data) in enumerate(lines):
        path = folder / f"{place}.set"
        path.write_bytes(data)
        yield f"{kind}\t{answer}\t{path}\t{name}"
