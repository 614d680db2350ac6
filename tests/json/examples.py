"""Texts with known answers: those that the definitions compute in crates/json_theorems/proofs/Examples, read from there, and the stored
cases."""
import pathlib
import re

HERE = pathlib.Path(__file__).resolve().parent
EXAMPLES = HERE.parent.parent / "crates" / "json_theorems" / "proofs" / "Examples"
QUOTED = r'"((?:[^"\\]|\\.)*)"'
ESCAPES = {"n": "\n", "t": "\t", "r": "\r", "0": "\0"}


def unquoted(written):
    """The bytes of a string as antt writes it."""
    def meant(found):
        return chr(int(found[1], 16)) if found[1] else ESCAPES.get(found[2], found[2])
    return re.sub(r"\\(?:u\{([0-9a-f]+)\}|(.))", meant, written).encode()


def faults():
    """(code, place, text) of every text with a fault, and of some without."""
    source = (EXAMPLES / "Faults.antt").read_text()
    return [(int(code), int(at), unquoted(text)) for code, at, text in re.findall(rf"case (\d+) (\d+) {QUOTED}", source)]


def listed(source):
    """Byte strings: each a quoted text, or its bytes one by one."""
    found = re.findall(rf"\(bytes {QUOTED}\)|\(((?:0x[0-9a-f]+ ∷ )+)\[\]\)", source)
    return [bytes(int(byte, 16) for byte in each.replace("∷", " ").split()) if each else unquoted(text) for text, each in found]


def rfc_texts():
    """What RFC 8259 has, and what it has not."""
    source = (EXAMPLES / "Texts.antt").read_text()
    taken, refused = (source[source.index(f"abbrev {name} : List (List ℕ)"):] for name in ("texts", "none"))
    return listed(taken[:taken.index("\n\n")]), listed(refused[:refused.index("\n\n")])


def cases():
    """(code, place, code of the real front end, text) of the stored cases."""
    blocks = [block for place in sorted((HERE / "cases").glob("*.txt")) for block in place.read_bytes().split(b"\n----\n")[:-1]]
    return [(*map(int, head.split()), text) for head, _, text in (block.partition(b"\n") for block in blocks)]
