#!/usr/bin/env python3
"""Respells this repository's own definitions and lemmas in words joined by underscores, as today's Rattle spells them.

usage: respell.py [--check]        at the top of the repository, once, after the port's own script

Types, modules, names that Rattle makes for a proof, names of the library, and strings stay. It stops where two names would fall together.
"""
import pathlib, re, sys

root = pathlib.Path(".")
CRATES = {p.name for p in (root / "crates").iterdir() if (p / "src").is_dir()}
WORD = r"[^\s(){}.;,@\"«»\[\]\\]+"
TOKEN = re.compile(r"--[^\n]*|//[^\n]*|\"(?:[^\"\\]|\\.)*\"|«[^»]*»|" + WORD)
DECLARED = re.compile(r"^\s*(?:(?:abbrev|unfoldable|pub|let|ruleset)\s+)*(" + WORD + r")\s+[:=]", re.M)
SEVERAL = re.compile(r"^  ((?:" + WORD + r" )+): [A-Z]", re.M)
RULESET = re.compile(r"^\s*(?:pub\s+)?ruleset\s+(?:pub\s+)?(" + WORD + r")", re.M)
USE = re.compile(r"^\s*(?:ghost )?(?:pub )?use\s+([^\s{;]+?)\.?(?:\{([^}]*)\}|\s+as\s+(\S+?))?;?\s*$", re.M)
NAME = re.compile(r"[a-z][A-Za-z0-9_'₀-₉-]*\Z")
GOAL = re.compile(r"^(?:abbrev (?:pub )?|pub )?(" + WORD + r") :(?:[^\n]*[ (])?(?:tie\.|[\w-]*lts\.|\{M : Type 1\} → (?:[\w-]*)?statement)", re.M)


def spelled(name):
    name = re.sub(r"(?<=[a-z0-9'])([A-Z])", lambda m: "_" + m[1].lower(), name)
    name = re.sub(r"[A-Z]", lambda m: m[0].lower(), name)
    return re.sub(r"-+", "_", name)


def ours(path):
    parts = path.split(".")
    return len(parts) > 1 and parts[0] == "Rattle" and parts[1] in CRATES


def files():
    for crate in sorted(CRATES):
        for part in ("specs", "proofs", "src"):
            folder = root / "crates" / crate / part
            if folder.is_dir():
                yield from sorted(p for p in folder.rglob("*") if p.suffix in (".antt", ".rt"))


texts = {p: p.read_text() for p in files()}


def made(path, text):
    """The names that stand for goals of a function's own proof, which Rattle gives."""
    if path.name != "Proof.antt":
        return set()
    return {m[1] for m in GOAL.finditer(text)}


declared = {}
for path, text in texts.items():
    if path.suffix == ".antt":
        skip = made(path, text)
        bare = re.sub(r"--[^\n]*", "", text)
        several = {n for m in SEVERAL.finditer(bare) for n in m[1].split()}
        for name in {m[1] for m in DECLARED.finditer(bare)} | {m[1] for m in RULESET.finditer(bare)} | several:
            if name not in skip and NAME.match(name) and spelled(name) != name:
                declared.setdefault(name, set()).add(path)

# fields of records that the repository declares in antt
fields = set()
for path, text in texts.items():
    if path.suffix == ".antt":
        for m in re.finditer(r"^(?:pub )?(?:abbrev )?record[^\n]*where\n((?:[ \t]+[^\n]*\n|\n|--[^\n]*\n)*)", text, re.M):
            fields |= {n for n in re.findall(r"^\s+(?:pub )?(" + WORD + r") :", m[1], re.M)}


# One new name for each: a lemma that would have the name of what it is about gets `_lem`, as the library's do.
taken = set()
for path, text in texts.items():
    if path.suffix == ".antt":
        skip = made(path, text)
        taken |= {m[1] for m in DECLARED.finditer(re.sub(r"--[^\n]*", "", text)) if m[1] not in skip and spelled(m[1]) == m[1]}
# Lemmas that the port's own script already spelled as the definition that they are about will be spelled.
LEMMAS = set("entry_past is_word field_in one_later the_call read_answer keys_below none_or sets_of entry_read ends_by first_below".split())
CHOSEN = {"bit-and": "bit_and_odd", "bit-or": "bit_or_odd", "lines-given": "lines_given_lem", "onMatch": "on_match"}
taken -= LEMMAS
new_names = dict(CHOSEN)
for name in sorted(declared, key=lambda n: ("-" in n, n)):
    if name in CHOSEN:
        continue
    to = spelled(name)
    if to in taken and "-" in name:
        to += "_lem"
    if to in taken:
        problems_at_once = f"`{name}` and another name are both `{to}`"
        print("falls together:", problems_at_once)
    taken.add(to)
    new_names[name] = to

# which module aliases lead to modules of ours, and which names a file has of libraries
problems = []
changed = {}
for path, text in texts.items():
    foreign, aliases = set(), set()
    for m in USE.finditer(text):
        if m[2] is not None:
            for item in m[2].split(","):
                item = item.strip().split(" as ")[0].strip()
                if not ours(m[1]):
                    foreign.add(item)
        elif m[3]:
            if ours(m[1]):
                aliases.add(m[3])
        else:
            if ours(m[1]):
                aliases.add(m[1].split(".")[-1])
    skip = made(path, text) | foreign
    before = {m[0] for m in TOKEN.finditer(text) if not m[0].startswith(("--", "//")) and text[m.start() - 1 : m.start()] != "." and text[m.end() : m.end() + 1] != "."}
    turned = {}

    def each(m, path=path, text=text, skip=skip, foreign=foreign, aliases=aliases, turned=turned):
        token = m[0]
        if token.startswith(("--", "//")):
            return re.sub(r"`([^`\n]*)`", lambda q: "`" + re.sub(WORD, lambda w: new_names[w[0]] if w[0] in declared and w[0] not in foreign else w[0], q[1]) + "`", token)
        start = m.start()
        if token in LEMMAS and path.suffix == ".antt" and token not in skip and text[start - 1] != "." and text[m.end() : m.end() + 1] != ".":
            return token + "_lem"
        if token[0] in "\"«" or token not in declared or token in skip:
            return token
        if start and text[start - 1] == ".":
            head = re.search(r"([^\s(){};,@\"«»\[\]\\]+)\.\Z", text[:start])
            prefix = head[1] if head else ""
            first = prefix.split(".")[0]
            if not (ours(prefix) or prefix in aliases or first in aliases):
                # a field: of a record of ours, or a step of a function's own proof
                if path.name == "Proof.antt" or not token in fields:
                    return token
        turned[token] = new_names[token]
        return turned[token]

    changed[path] = (text, each, turned, before)


out = {}
for path, (text, each, turned, before) in changed.items():
    new = TOKEN.sub(each, text)
    if turned:
        targets = {}
        for a, b in turned.items():
            if targets.setdefault(b, a) != a:
                problems.append(f"{path}: `{a}` and `{targets[b]}` are both `{b}`")
            if b in before and b not in LEMMAS | {"on_match"} and (path.suffix == ".antt" or re.search(rf"\b{b}:(?!:)|\blet (mut )?{b}\b|\|{b}\b", text)):
                problems.append(f"{path}: `{a}` becomes `{b}`, which the file has already")
    if new != text:
        out[path] = new

for p in problems:
    print("falls together:", p)
print(f"{len(declared)} names, {len(out)} files, {len(problems)} that fall together")
# the pages name definitions and lemmas in backticks
for path in [root / "README.md", *sorted((root / "docs").glob("*.md"))]:
    text = path.read_text()
    new = re.sub(r"`([^`\n]*)`", lambda q: "`" + re.sub(r"[^\s(){}.;,@\"«»\[\]\\:/]+", lambda w: new_names.get(w[0], w[0]), q[1]) + "`", text)
    if new != text:
        out[path] = new

if "--check" not in sys.argv and not problems:
    for path, text in out.items():
        path.write_text(text)
raise SystemExit(1 if problems else 0)
