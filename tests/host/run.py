#!/usr/bin/env python3
"""The gate's tests of what hosts get: the header against the archive, in C and C++; the Rust crate with its tests and the examples of its
documentation, wrong uses that must not compile among them; that neither links with an archive of another interface; a host that embeds its
filter; what the demo prints. The last line is 'N passed, M failed', with ', K skipped' behind it for what this machine has no tool for."""
import os
import pathlib
import re
import shutil
import subprocess
import sys

HERE = pathlib.Path(__file__).resolve().parent
sys.path.insert(0, str(HERE.parent))
import archive  # noqa: E402

ROOT = archive.ROOT
TARGET = ROOT / "target" / "host"
HEADER = ROOT / "host" / "callfilter.h"
CRATE = ROOT / "host" / "rust"
LIBRARY = TARGET / "libcallfilter.rlib"
RUST_COUNTS = r"test result: \w+\. (\d+) passed; (\d+) failed"
STRICT = ("-O2", "-Wall", "-Wextra", "-pedantic", "-Werror", "-I", HEADER.parent)


class Tally:
    def __init__(self):
        self.passed = self.failed = self.skipped = 0

    def check(self, name, good, why=""):
        if good:
            self.passed += 1
            print(f"ok {name}")
        else:
            self.failed += 1
            print(f"FAILED {name}{': ' if why else ''}{why}")

    def skip(self, name, why):
        self.skipped += 1
        print(f"skipped {name}: {why}")

    def counted(self, name, pattern, *words, **more):
        """Runs a program, and adds what it counted; one that counted nothing, or fails without counting a failure, is a failure itself."""
        status, said = run(*words, **more)
        counts = [tuple(map(int, found)) for found in re.findall(pattern, said)]
        passed, failed = (sum(count[place] for count in counts) for place in (0, 1))
        if not failed and (status or not passed):
            failed = 1
        if failed:
            print(said)
        self.passed += passed
        self.failed += failed
        print(f"{name}: {passed} passed, {failed} failed")


def run(*words, **more):
    """Exit status, and what was printed on both ways."""
    done = subprocess.run(list(map(str, words)), cwd=ROOT, stdout=subprocess.PIPE, stderr=subprocess.STDOUT, text=True, **more)
    return done.returncode, done.stdout


def built(tally, name, *words, **more):
    status, said = run(*words, **more)
    tally.check(name, status == 0, said)
    return status == 0


# ---- the header


def header(tally):
    text = HEADER.read_text()
    declared = re.findall(r"^\w+ (callfilter_\w+)\(", text, re.MULTILINE)
    promised = re.findall(r"^/\* [^\n]*\n \* [^\n]* \*/\n\w+ (callfilter_\w+)\(", text, re.MULTILINE)
    exported = re.findall(r" T (\w+)$", run("nm", "--extern-only", "--defined-only", archive.ARCHIVE)[1], re.MULTILINE)
    tally.check("the header declares what the archive exports, and nothing else", sorted(declared) == sorted(exported) and exported,
                f"declared {sorted(declared)}, exported {sorted(exported)}")
    tally.check("each function has its promise in two lines above it", promised == declared, set(declared) - set(promised))
    wanted = re.findall(r" U (\w+)$", run("nm", "--undefined-only", archive.ARCHIVE)[1], re.MULTILINE)
    sections = re.findall(r"\] (\S+)", run("readelf", "--section-headers", "--wide", archive.ARCHIVE)[1])
    tally.check("the archive needs memset and nothing else", wanted == ["memset"], wanted)
    notes = [name for name in sections if name.startswith((".note", ".eh_frame"))]
    tally.check("it has a note that its stack is not executed, no other, and nothing to unwind by", notes == [".note.GNU-stack"], notes)
    own = r"(?m)^\w[\w *]*\bcallfilter_\w+\([^;{]*\);|\}\s*callfilter_\w+;"
    apart = [path.name for path in (ROOT / "tests").rglob("*.[ch]") if re.search(own, path.read_text())]
    tally.check("tests in C have no declarations of their own", re.search(own, text) and not apart, apart)

    languages = (("C99", "gcc", "c", "c99"), ("C++", "g++", "c++", "c++11"))
    for name, compiler, language, standard in languages:
        if shutil.which(compiler) is None:
            tally.skip(f"the header in {name}", f"{compiler} is not there")
            continue
        program = TARGET / f"boundary-{standard}"
        if built(tally, f"the header and a host in {name}", compiler, f"-std={standard}", *STRICT, "-x", language, HERE / "boundary.c",
                 "-x", "none", archive.ARCHIVE, "-o", program):
            tally.counted(f"the boundary from {name}", r"(?m)^(\d+) passed, (\d+) failed$", program)


def wrong_uses(tally):
    """Each line is a use that must not compile where the others do."""
    good = ("(void)CALLFILTER_ERRNO(65535);", "(void)CALLFILTER_TRACE(0);", "if (callfilter_accepts(bytes, sizeof bytes)) return 1;")
    wrong = ("(void)CALLFILTER_ERRNO(65536);", "(void)CALLFILTER_TRACE(65536u);", "(void)CALLFILTER_ERRNO(-1);",
             "callfilter_accepts(bytes, sizeof bytes);", "callfilter_start(bytes, sizeof bytes, 1, CALLFILTER_TRAP, CALLFILTER_ALLOW);")
    # only gcc knows which lengths are those of which pointers
    lengths = ("if (callfilter_accepts(bytes, sizeof bytes + 1)) return 1;", "if (callfilter_accepts(NULL, 8)) return 1;")
    for compiler, language in (("gcc", "c"), ("g++", "c++"), ("clang", "c")):
        if shutil.which(compiler) is None:
            tally.skip(f"wrong uses of the header by {compiler}", f"{compiler} is not there")
            continue
        for line in (*good, *wrong, *(lengths if compiler != "clang" else ())):
            host = f'#include "callfilter.h"\nint main(void) {{ uint8_t bytes[64] = {{0}}; {line} return bytes[0]; }}\n'
            status, said = run(compiler, *STRICT, "-x", language, "-c", "-", "-o", TARGET / "wrong.o", input=host)
            tally.check(f"{line} by {compiler} {'compiles' if line in good else 'does not compile'}", (status == 0) == (line in good), said)


# ---- the version


def version(tally):
    number = int(re.search(r"define CALLFILTER_VERSION UINT32_C\((0x\w+)\)", HEADER.read_text())[1], 16)
    told = f"{number >> 16}.{number >> 8 & 255}.{number & 255}"
    manifest, changes = (CRATE / "Cargo.toml").read_text(), (ROOT / "CHANGELOG.md").read_text()
    named = [re.search(r'(?m)^version = "(.*)"$', manifest)[1], re.search(r"(?m)^## (\S+)$", changes)[1]]
    tally.check("header, crate and changes have one version", named == [told, told], f"{told} in the header, else {named}")
    licences = re.search(r'(?m)^license = "(.*)"$', manifest)[1].split(" OR ")
    missing = [name for name in licences if not (ROOT / f"LICENSE-{name}").is_file()]
    tally.check("each licence that the crate names is there", len(licences) == 2 and not missing, missing)


def clauses(crate):
    """What each public function of a crate asks and promises, word for word."""
    text = re.sub(r"(?m)^\s*//.*$", "", (ROOT / "crates" / crate / "src" / "lib.rt").read_text())
    found = re.findall(r'(?m)^pub (?:extern "C" )?fn (\w+)\(([^{]*?)\n((?:    (?:requires|ensures).*\n(?:        .*\n)*)*)\{', text)
    return {name: (re.sub(r"\s+|,(?=\s*\))", "", taken), promised.split()) for name, taken, promised in found}


def same_promises(tally):
    """The archive's functions and the library's are written down twice: neither may come to say less than the other."""
    library, exported = clauses("callfilter"), clauses("callfilter_c")
    promising = all(promised for _, promised in exported.values())
    differing = [name for name in {*library, *exported} if library.get(name) != exported.get(name)]
    tally.check("the archive's functions promise what the library's do", exported and promising and not differing, f"{sorted(differing)}")


def another_interface():
    """The archive as one of another binary interface would be, and the name that it does not have: that by which its version is asked."""
    [name] = set(re.findall(r"\bcallfilter_abi_\d+", HEADER.read_text()))
    another = TARGET / "another" / archive.ARCHIVE.name
    another.parent.mkdir(exist_ok=True)
    run("objcopy", "--redefine-sym", f"{name}={name}0", archive.ARCHIVE, another)
    return another, name


def kept_apart(tally, host, build):
    """That a host is built around the archive, and around one of another binary interface is not, for want of that name."""
    another, name = another_interface()
    (status, said), (refused, why) = build(archive.ARCHIVE), build(another)
    tally.check(f"{host} links with no archive of another interface", status == 0 and refused != 0 and name in why, said + why)


def header_kept_apart(tally):
    """A host that asks for no version, and leaves out of the program what it does not use."""
    host = '#include "callfilter.h"\nint main(void) { return callfilter_accepts((const uint8_t *)"", 0); }\n'
    for compiler, language in (("gcc", "c"), ("g++", "c++"), ("clang", "c")):
        if shutil.which(compiler) is None:
            tally.skip(f"the header by {compiler} beside another archive", f"{compiler} is not there")
            continue
        words = (compiler, *STRICT, "-ffunction-sections", "-fdata-sections", "-Wl,--gc-sections", "-x", language, "-", "-x", "none")
        kept_apart(tally, f"the header by {compiler}", lambda library: run(*words, library, "-o", TARGET / "apart", input=host))


def crate_kept_apart(tally, rustc):
    """The same of the crate, by the first function that such a host would call."""
    crates = {}

    def around(library):
        if library not in crates:
            crates[library] = TARGET / f"libapart{len(crates)}.rlib"
            link = ("-L", f"native={library.parent}", "-l", "static=callfilter")
            run(*rustc, "--crate-type", "rlib", "--crate-name", "callfilter", CRATE / "src" / "lib.rs", *link, "-o", crates[library])
        return crates[library]

    host = TARGET / "apart.rs"
    for called in ("Filter::accepted(&[])", "Filter::compile(&[]).is_ok()", "Filter::compile_search(&[]).is_ok()"):
        host.write_text(f"use callfilter::Filter;\nfn main() {{ println!(\"{{}}\", {called}) }}\n")
        kept_apart(tally, f"the crate, by {called.split('(')[0]},",
                   lambda library: run(*rustc, host, "--extern", f"callfilter={around(library)}", "-o", TARGET / "apart"))


# ---- the crate


def unsafe_code(tally):
    files = [path for path in CRATE.rglob("*.rs") if re.search(r"\bunsafe\b", re.sub(r"//.*", "", path.read_text()))]
    tally.check("only boundary.rs has unsafe code", [path.name for path in files] == ["boundary.rs"], files)
    text = (CRATE / "src" / "boundary.rs").read_text()
    blocks, reasons = text.count("unsafe {"), len(re.findall(r"// SAFETY: [^\n]+\n\s*unsafe \{", text))
    tally.check("each unsafe block has its reason above it", blocks == reasons > 0, f"{blocks} blocks, {reasons} reasons")


def crate(tally):
    unsafe_code(tally)
    rustc = ("rustc", "--edition", "2021", "-O", "-D", "warnings")
    link = ("-L", f"native={archive.ARCHIVE.parent}", "-l", "static=callfilter")
    source = CRATE / "src" / "lib.rs"
    if not built(tally, "the crate without a warning", *rustc, "--crate-type", "rlib", "--crate-name", "callfilter", source, *link, "-o", LIBRARY):
        return
    crate_kept_apart(tally, rustc)
    programs = [(source, (*link, "--crate-name", "callfilter"))]
    programs += [(path, ("--extern", f"callfilter={LIBRARY}")) for path in sorted((CRATE / "tests").glob("*.rs"))]
    for path, words in programs:
        program = TARGET / f"test-{path.stem}"
        if built(tally, f"the tests of {path.stem}", *rustc, "--test", path, *words, "-o", program):
            tally.counted(path.stem, RUST_COUNTS, program)
    # the codes that wrong uses must be refused with are looked at only by a rustdoc that takes unstable features
    tally.counted("examples of the documentation", RUST_COUNTS, "rustdoc", "--test", "--edition", "2021", "--crate-name", "callfilter", source,
                  "--extern", f"callfilter={LIBRARY}", env={**os.environ, "RUSTC_BOOTSTRAP": "1"})


def cargo(tally, expected):
    """That the manifest and build.rs are right: the demo once more, as those who have cargo run it."""
    if shutil.which("cargo") is None:
        tally.skip("the crate by cargo", "cargo is not there")
        return
    words = ("cargo", "run", "--quiet", "--offline", "--manifest-path", CRATE / "Cargo.toml", "--example", "demo")
    environment = {**os.environ, "CARGO_TARGET_DIR": str(TARGET / "cargo")}
    status, said = run(*words, env=environment)
    tally.check("the demo by cargo", status == 0 and said == expected, said)
    status, said = run(*words, env={**environment, "CALLFILTER_LIB": str(HERE)})
    tally.check("without the archive cargo says what to do", status != 0 and "make it by `host/archive.sh`" in said, said)
    status, said = run(*words, env={**environment, "CALLFILTER_LIB": "target/staticlib"})
    tally.check("a folder that is no whole path is refused with one that is", status != 0 and '"$PWD"/target/staticlib' in said, said)
    status, said = run(*words, env={**environment, "CALLFILTER_LIB": str(archive.ARCHIVE.parent)})
    tally.check("the demo by cargo, with a folder that is named", status == 0 and said == expected, said)
    embedded(tally, environment)


def embedded(tally, environment):
    """A host whose filter is made when it is built: its bytes, and that nothing of the archive is in it."""
    words = ("cargo", "run", "--quiet", "--offline", "--manifest-path", ROOT / "host" / "embedded" / "Cargo.toml")
    status, said = run(*words, env=environment)
    tally.check("the embedded filter is the one spelled out", status == 0 and said == (HERE / "embedded.txt").read_text(), said)
    status, said = run("nm", TARGET / "cargo" / "debug" / "embedded")
    tally.check("and the archive is no part of its host", status == 0 and "main" in said and "callfilter" not in said, said[:1000])


# ---- the demo


def demo(tally, expected):
    done = subprocess.run(["bash", ROOT / "host" / "demo.sh"], stdout=subprocess.PIPE, stderr=subprocess.PIPE, text=True)
    tally.check("the demo prints what is stored", done.returncode == 0 and done.stdout == expected, done.stdout + done.stderr)
    lines = shown_in_readme("jeq")
    tally.check("README shows lines of the demo", lines and all(line in expected.splitlines() for line in lines), lines)
    lines, example = shown_in_readme("RuleSet::new"), (CRATE / "src" / "lib.rs").read_text().splitlines()
    tally.check("README shows lines of the crate's example", lines and all(f"//! {line}" in example for line in lines), lines)


def shown_in_readme(word):
    """The lines of the indented block in README that has the word."""
    blocks = re.findall(r"(?m)(?:^ {4}.*\n|^\n)+", (ROOT / "README.md").read_text())
    return [line[4:] for block in blocks if word in block for line in block.splitlines() if line.strip()]


def main():
    tally = Tally()
    TARGET.mkdir(parents=True, exist_ok=True)
    try:
        archive.build()
    except (OSError, archive.Broken) as error:
        print(f"the archive was not built: {error}")
        print("0 passed, 1 failed")
        return 1
    header(tally)
    wrong_uses(tally)
    version(tally)
    same_promises(tally)
    header_kept_apart(tally)
    if shutil.which("rustc") is None:
        tally.skip("the crate and the demo", "rustc is not there")
    else:
        expected = (HERE / "demo.txt").read_text()
        crate(tally)
        demo(tally, expected)
        cargo(tally, expected)
    print(f"{tally.passed} passed, {tally.failed} failed" + (f", {tally.skipped} skipped" if tally.skipped else ""))
    return 1 if tally.failed else 0


if __name__ == "__main__":
    sys.exit(main())
