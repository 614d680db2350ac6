#!/usr/bin/env bash
# Builds the archive, the crate and the example host from nothing but the kit and rustc, and runs the host. How the building goes is told
# on standard error, so that standard output is the host's alone.
set -euo pipefail
cd "$(dirname "$0")/.."
for tool in rt rustc; do
    command -v "$tool" >/dev/null || { echo "the demo needs $tool" >&2; exit 1; }
done
mkdir -p target/host

echo "proving what the archive is made of; from nothing this takes some minutes" >&2
host/archive.sh 2>&1 | tee target/host/archive.log | sed -un 's/^rt: /  /p' >&2 ||
    { tail -n 30 target/host/archive.log >&2; exit 1; }
echo "building the host around it" >&2
rustc --edition 2021 -O --crate-type rlib --crate-name callfilter host/rust/src/lib.rs \
    -L native=target/staticlib -l static=callfilter --out-dir target/host
rustc --edition 2021 -O host/rust/examples/demo.rs --extern callfilter=target/host/libcallfilter.rlib -o target/host/demo
echo >&2
target/host/demo
