#!/usr/bin/env python3
"""Turns a function's Proof.antt, which walked through the code by hand, into Invariants.antt and Answers.antt.

usage: answers.py NAMES CRATE..     NAMES has a folder for each crate with the names.json that the check writes under --old-names
"""
import json, pathlib, re, sys

root = pathlib.Path(__file__).resolve().parent.parent
WORD = r"[^\s(){}.;,@\"«»\[\]\\]+"
short = lambda name: re.sub(r"[-_]+", "-", name)


def signatures():
    found = {}
    for crate in sorted((root / "crates").iterdir()):
        for path in sorted((crate / "src").glob("*.rt")) if (crate / "src").is_dir() else []:
            for m in re.finditer(r"\bfn (\w+)\(([^)]*)\)", path.read_text()):
                found[f"{crate.name}::{m[1]}"] = [(q.split(":")[0].replace("mut ", "").strip(), q.split(":", 1)[1].strip()) for q in m[2].split(",") if ":" in q]
    return found


def requires():
    """The names of the clauses of each function's `requires`, where there are several."""
    found = {}
    for crate in sorted((root / "crates").iterdir()):
        for path in sorted((crate / "src").glob("*.rt")) if (crate / "src").is_dir() else []:
            for m in re.finditer(r"\bfn (\w+)\([^)]*\)[^\n]*\n((?:    (?:requires|ensures)[^\n]*\n(?:        [^\n]*\n)*)*)", path.read_text()):
                names = re.findall(r"^    requires (\w+) \{", m[2], re.M)
                if names:
                    found[f"{crate.name}::{m[1]}"] = names
    return found


SIGNATURES, REQUIRES = signatures(), requires()


def declarations(text):
    """The head (comments and imports) and the declarations, each with its name."""
    lines = text.split("\n")
    head, decls, k = [], [], 0
    while k < len(lines) and (not lines[k].strip() or lines[k].startswith(("--", "use "))):
        head.append(lines[k])
        k += 1
    blocks, now = [], []
    for line in lines[k:]:
        if not line.strip() and now:
            now.append("")
            continue
        starts = line and not line[0].isspace() and re.match(r"(?:abbrev |pub |unfoldable )*(" + WORD + r") :(?:\s|$)", line)
        comment = line.startswith("--")
        if (starts or comment) and now and not (all(l.startswith("--") for l in now if l)):
            blocks.append(now)
            now = []
        now.append(line)
    if now:
        blocks.append(now)
    for b in blocks:
        while b and not b[-1].strip():
            b.pop()
        m = next((re.match(r"(?:abbrev |pub |unfoldable )*(" + WORD + r") :", l) for l in b if re.match(r"(?:abbrev |pub |unfoldable )*(" + WORD + r") :", l)), None)
        decls.append((m[1] if m else None, b))
    return head, decls


def split_tuple(term):
    """The parts of a term that is a tuple in brackets as a whole, else None."""
    term = term.strip()
    if not (term.startswith("(") and term.endswith(")")):
        return None
    depth, parts, at = 0, [], 1
    for k, ch in enumerate(term):
        if ch in "([{":
            depth += 1
        elif ch in ")]}":
            depth -= 1
            if depth == 0 and k != len(term) - 1:
                return None
        elif ch == "," and depth == 1:
            parts.append(term[at:k])
            at = k + 1
    last = term[at:-1]
    if last.strip():
        parts.append(last)
    return parts if len(parts) > 1 else None


def last_tuple(term):
    """The place of the tuple in which a term ends, behind its lets."""
    if split_tuple(term):
        return 0
    for m in reversed(list(re.finditer(r"\bin\b", term))):
        if split_tuple(term[m.end():]):
            return m.end()
    return None


class Function:
    def __init__(self, crate, name, table):
        self.crate, self.name, self.table = crate, name, table
        self.by_old = {p[0]: p for p in table["places"]}
        self.report = []

    def chain(self, old):
        while old:
            place = self.by_old[old]
            yield place
            old = place[1]

    def step(self, at, word):
        for place in self.chain(at):
            if place[2][0] and short(place[2][0]) == short(word):
                return place
        return None

    def anywhere(self, word):
        for place in self.table["places"]:
            if place[2][0] and short(place[2][0]) == short(word):
                return place
        return None

    def field(self, place, fields):
        """The new names of what follows a step."""
        callee = place[3]
        if place[2][0] == "match" and fields:
            if re.match(r"keys\d+\Z", fields[0]):
                return ["is", *fields[1:]]
            if fields[0] == "rest":
                return ["in_default-own", *fields]
        if fields and place[4]:
            for old, new in place[4]:
                if fields[0] == old:
                    return [new, *fields[1:]]
        if len(fields) > 1 and fields[0] in ("auto", "new") and fields[1].isdigit() and callee in SIGNATURES:
            slices = [n for n, t in SIGNATURES[callee] if t.startswith("&mut")]
            if int(fields[1]) < len(slices):
                return [fields[0], slices[int(fields[1])], *fields[2:]]
        if fields and fields[0] == "auto" and len(fields) > 1 and fields[1].isdigit() and not callee:
            mine = SIGNATURES.get(f"{self.crate}::{self.name}", [])
            slices = [n for n, t in mine if t.startswith("&mut [")]
            if int(fields[1]) < len(slices):
                return [fields[0], slices[int(fields[1])], *fields[2:]]
        return fields

    def paths(self, text, at, own):
        def each(m):
            var, rest = m[1], m[2]
            parts = [p for p in rest.split(".")[1:]]
            stripped = [p for k, p in enumerate(parts) if not (p == "before" and all(q == "before" for q in parts[:k]))]
            if var in self.lent and len(parts) and parts[0].isdigit():
                names = REQUIRES.get(f"{self.crate}::{self.name}") or []
                if int(parts[0]) < len(names):
                    return ".".join([var, names[int(parts[0])], *parts[1:]])
            if var != "c" and var not in own:
                return m[0]
            if not stripped:
                return var
            head = stripped[0]
            if head == "requires":
                names = REQUIRES.get(f"{self.crate}::{self.name}")
                if names and len(stripped) > 1 and stripped[1].isdigit() and int(stripped[1]) < len(names):
                    stripped[1] = names[int(stripped[1])]
                return ".".join([var, *stripped])
            if head == "args":
                return ".".join([var, *stripped])
            place = self.step(at, head) or self.anywhere(head)
            if place is None:
                if head not in ("ranges", "type_inv", "utf8", "well_formed"):
                    self.report.append(f"no step `{head}` in {m[0]}")
                return ".".join([var, *stripped])
            if stripped[1:2] == ["given"] and "slice_known" in place[0]:
                k = next(i for i, p in enumerate(self.table["places"]) if p[0] == at)
                name = next((n for n, o in self.table["typed"][k] if short(o) == short(place[2][0])), None)
                if name:
                    return ".".join([var, "type_inv", name, *stripped[2:]])
                self.report.append(f"no type of {m[0]}")
            if stripped[1:3] == ["given", "1"]:
                arm = next((p for p in self.chain(place[0]) if p[2][0] == "match"), None)
                if arm:
                    return ".".join([var, arm[2][1], "is", *stripped[3:]])
            return ".".join([var, place[2][1], *self.field(place, stripped[1:])])

        return re.sub(r"(?<![\w.'-])([a-z]\w*)((?:\.[^\s(){}.;,@\"«»\[\]\\]+)+)", each, text)


def turn(crate, folder, tables):
    path = folder / "Proof.antt"
    name = ".".join(folder.relative_to(root / "crates" / crate / "proofs").parts)
    if name.startswith("+"):
        return f"{crate}/{name}: a cycle, by hand"
    table = tables.get(f"Rattle-{crate}-proofs.{name}.Lts")
    if table is None:
        return f"{crate}/{name}: no table"
    f = Function(crate, name, table)
    text = path.read_text()
    head, decls = declarations(text)
    needs = {short(old): (old, new, table["asked_at"][k][0]) for k, (old, new) in enumerate(table["needs"])}
    answers, invariants, local = [], [], []
    goal_names = {}
    for decl_name, block in decls:
        signature = next((l for l in block if re.match(r"(?:abbrev |pub |unfoldable )*(" + WORD + r") :", l)), "")
        m = re.search(r"\btie\.Need-(" + WORD + r")", signature)
        if m:
            goal_names[decl_name] = m[1]
    for decl_name, block in decls:
        body = "\n".join(block)
        signature = next((l for l in block if re.match(r"(?:abbrev |pub |unfoldable )*(" + WORD + r") :", l)), "")
        if "tie.close" in body or re.search(r"→ statement\b|→ [\w-]+\.statement\b", signature):
            continue
        m = re.search(r"\btie\.Need-(" + WORD + r")", signature)
        if m:
            old = re.sub(r"^overflow-", "", m[1])
            found = needs.get(short(old)) or needs.get(short(m[1]))
            if not found:
                if not re.search(r"= search rules\s*\Z", body):
                    f.report.append(f"goal `{m[1]}` is gone: {' '.join(body.split())[:160]}")
                continue
            _, new, at = found
            if re.search(r"= search rules\s*\Z", body) and "unfolding" not in body:
                continue
            k = next(i for i, l in enumerate(block) if l == signature)
            rest = block[k + 1 :]
            # the line that defines it
            j = next(i for i, l in enumerate(rest) if l.startswith(decl_name + " ") or l == decl_name)
            line = rest[j]
            eq = line.index(" =") if " =" in line else None
            args = line[len(decl_name) : eq].split()
            if "κs" in args:
                args.remove("κs")
            var = args[0] if args else "c"
            term = line[eq + 2 :].strip() + ("\n" + "\n".join(rest[j + 1 :]) if rest[j + 1 :] else "")
            if var != "c":
                f.report.append(f"{decl_name} calls its facts `{var}`")
            f.lent = set(re.findall(r"let (\w+) = c(?:\.before)*\.requires(?= in\b)", term))
            own = set(re.findall(r"let (\w+) = c(?:\.before)*(?= in\b)", term))
            term = f.paths(term, at, own)
            term = re.sub(r"(?<![\w.'-])c(?:\.before)+(?![\w.'-])", "c", term)
            asked = table["asked"].get(new) or table["asked"].get(found[0])
            if asked:
                t = last_tuple(term)
                if t is None:
                    f.report.append(f"{new} wants a record of {asked}")
                else:
                    parts = split_tuple(term[t:])
                    if len(parts) == len(asked):
                        term = term[:t] + ("\n    " if t else "") + " record { " + "; ".join(f"{a} = {p.strip()}" for a, p in zip(asked, parts)) + " }"
                    else:
                        f.report.append(f"{new}: {len(parts)} parts for {asked}")
            sep = "" if term.startswith("\n") else " "
            lines = [l for l in block[:k]] + [f"pub {new} : goal.{new}"] + [l for l in rest[:j]] + [f"{new} {' '.join(args)} ={sep}{term}".rstrip()]
            answers.append("\n".join(lines))
            continue
        m = re.search(r"\btie\.((?:invariant|decreases)(?:-" + WORD + r")?)", signature)
        if m:
            kind, _, loop = m[1].partition("-")
            loops = table["loops"]
            entry = next((l for l in loops if short(l[0][0]) == short(loop)), None)
            if entry is None:
                f.report.append(f"no loop `{m[1]}`")
                invariants.append(body)
                continue
            changed = table["changed"][loops.index(entry)]
            variables = entry[1]
            k = next(i for i, l in enumerate(block) if l == signature)
            j = next(i for i in range(k + 1, len(block)) if block[i].startswith(decl_name + " "))
            line = block[j]
            eq = line.index(" =")
            params = line[len(decl_name) : eq].split()
            names = [f"l.initial.{v}" if changed[i] else f"l.{v}" for i, v in enumerate(variables)] + [f"l.{v}" for i, v in enumerate(variables) if changed[i]]
            if len(params) != len(names):
                f.report.append(f"{m[1]}: {params} against {names}")
            term = line[eq + 2 :].strip() + ("\n" + "\n".join(block[j + 1 :]) if block[j + 1 :] else "")
            table_of = dict(zip(params, names))
            term = re.sub(r"(?<![\w.'₀-₉-])([^\W\d][\w'₀-₉-]*)(?![\w'₀-₉-])", lambda q: table_of.get(q[1], q[1]), term)
            new = f"{kind}-{entry[0][1]}"
            sep = "" if term.startswith("\n") else " "
            invariants.append("\n".join([*block[:k], f"abbrev pub {new} : goal.{new}", *block[k + 1 : j], f"{new} l ={sep}{term}"]))
            continue
        local.append(body)
    comment = [l for l in head if l.startswith("--")]
    uses = [l for l in head if l.startswith("use ") and not re.search(r"\.(Statement\.\{statement\}|Tie as tie)\s*$", l)]
    module = f"Rattle.{crate}.proofs.{name}"
    made = []

    def importing(body):
        """The imports that a text may use."""
        kept = []
        for u in uses:
            m = re.match(r"use ([^{]*?)\.?\{([^}]*)\}", u)
            if not m:
                alias = u.split(" as ")[-1].strip() if " as " in u else u.split(".")[-1]
                if re.search(r"(?<![\w-])" + re.escape(alias) + r"\.", body):
                    kept.append(u)
                continue
            items = [i.strip() for i in m[2].split(",")]
            used = []
            for i in items:
                word = i.split(" as ")[-1].strip()
                parts = [p for p in word.split("◌") if p]
                if all(re.search((r"(?<![\w'-])" if re.match(r"\w", p) else "") + re.escape(p) + (r"(?![\w'-])" if re.search(r"\w$", p) else ""), body) for p in parts):
                    used.append(i)
            if used:
                kept.append(f"use {m[1]}.{{{', '.join(used)}}}")
        return kept

    if invariants:
        body = "\n\n".join(invariants)
        extra = []
        out = folder / "Invariants.antt"
        out.write_text("\n".join(comment + importing(body) + [f"use {module}.Given as goal", "", body, ""]))
        made.append(out)
    if answers or local:
        body = "\n\n".join(local + answers)
        out = folder / "Answers.antt"
        out.write_text("\n".join(comment + importing(body) + [f"use {module}.Goals as goal", "", body, ""]))
        made.append(out)
    path.unlink()
    return "".join(f"{crate}/{name}: {r}\n" for r in f.report).rstrip()


def main():
    names = pathlib.Path(sys.argv[1])
    for crate in sys.argv[2:]:
        tables = json.loads((names / crate / "names.json").read_text())
        for path in sorted((root / "crates" / crate / "proofs").rglob("Proof.antt")):
            said = turn(crate, path.parent, tables)
            if said:
                print(said)


main()
