"""Builds the oracle, the real JSON front end and compiler of seccompiler 0.5.0 behind our main.rs, and asks it. seccompiler's source is
lent, as for tests/oracle, and copied unchanged into target/; serde and what it needs come from Debian by name, as the packages lay them.
Where one of them cannot be had, Missing says so."""
import hashlib
import os
import pathlib
import shutil
import struct
import subprocess
import sys

HERE = pathlib.Path(__file__).resolve().parent
sys.path.insert(0, str(HERE.parent / "oracle"))
from build import BACKEND, Missing, ROOT, lent_source

TARGET = ROOT / "target" / "json"
PROGRAM = TARGET / "oracle"
PACKAGES = [
    f"librust-{name}-dev"
    for name in ("serde", "serde-derive", "serde-json", "itoa", "ryu", "proc-macro2", "quote", "syn", "unicode-ident")]
# where these packages lay their sources
SOURCES = pathlib.Path("/usr/share/cargo/registry")
OURS = {"main.rs": HERE / "oracle" / "main.rs", "syscall_table.rs": HERE / "oracle" / "syscall_table.rs"}
MANIFEST = """[package]
name = "oracle"
version = "0.0.0"
edition = "2021"

[features]
default = ["json"]
json = []

[dependencies]
libc = { path = "../libc" }
serde = { version = "1", features = ["derive"] }
serde_json = "1"

# distances are 8-bit numbers in seccompiler: one that does not fit must stop the oracle, not wrap around
[profile.release]
overflow-checks = true
opt-level = 1
"""
LIBC_MANIFEST = """[package]
name = "libc"
version = "0.0.0"
edition = "2021"

[lib]
path = "libc.rs"
"""
SETTINGS = f"""[source.crates-io]
replace-with = "packages"

[source.packages]
directory = "{SOURCES}"
"""


def command(*words):
    done = subprocess.run(words, stdout=subprocess.PIPE, stderr=subprocess.STDOUT, text=True)
    if done.returncode:
        raise Missing(f"{words[0]} ended with status {done.returncode}: {done.stdout.strip()[-300:]}")


def install():
    if shutil.which("cargo") is None:
        raise Missing("cargo is not there")
    if not all(any(SOURCES.glob(f"{name}-1*")) for name in ("serde", "serde_derive", "serde_json")):
        command("apt-get", "-q", "update")
        command("apt-get", "-q", "install", "-y", "--no-install-recommends", *PACKAGES)


def lay_out(files):
    for place, data in files.items():
        place.parent.mkdir(parents=True, exist_ok=True)
        place.write_bytes(data)


def build():
    lent = lent_source()
    install()
    main = TARGET / "oracle-src"
    files = {main / "src" / "backend" / f"{part}.rs": (lent / f"src--backend--{part}.rs.txt").read_bytes() for part in BACKEND}
    files[main / "src" / "frontend" / "json.rs"] = (lent / "src--frontend--json.rs.txt").read_bytes()
    files |= {main / "src" / name: place.read_bytes() for name, place in OURS.items()}
    files |= {
        main / "Cargo.toml": MANIFEST.encode(),
        main / ".cargo" / "config.toml": SETTINGS.encode(),
        TARGET / "libc" / "Cargo.toml": LIBC_MANIFEST.encode(),
        TARGET / "libc" / "libc.rs": (HERE.parent / "oracle" / "libc.rs").read_bytes(),
    }
    digest = hashlib.sha256(b"".join(hashlib.sha256(data).digest() for data in files.values())).hexdigest()
    stamp = TARGET / "oracle.stamp"
    if not (PROGRAM.is_file() and stamp.is_file() and stamp.read_text() == digest):
        stamp.unlink(missing_ok=True)
        lay_out(files)
        quiet = {**os.environ, "RUSTFLAGS": "--cap-lints allow"}
        words = ["cargo", "build", "--quiet", "--release", "--offline", "--target-dir", TARGET / "cargo"]
        subprocess.run(words, cwd=main, env=quiet, check=True)
        shutil.copy(TARGET / "cargo" / "release" / "oracle", PROGRAM)
        stamp.write_text(digest)
    return PROGRAM


def ask(program, table, frames):
    """The real front end's answers to (architecture, text): (0 or the kind of its error, count, programs by name)."""
    asked = b"".join(struct.pack("<II", architecture, len(text)) + text for architecture, text in frames)
    data = struct.pack("<I", len(table)) + table + asked
    output = subprocess.run([str(program)], input=data, stdout=subprocess.PIPE, check=True).stdout
    answers, at = [], 0
    for _ in frames:
        kind, count = struct.unpack_from("<II", output, at)
        at += 8
        programs = {}
        for _ in range(count if kind == 0 else 0):
            name, size = struct.unpack_from("<II", output, at)
            at += 8
            programs[output[at:at + name]] = output[at + name:at + name + size]
            at += name + size
        answers.append((kind, count, programs))
    assert at == len(output), "the oracle said more than it was asked"
    return answers
