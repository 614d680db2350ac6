#!/usr/bin/env bash
# Makes target/staticlib/libcallfilter.a, the archive that hosts link: what the crate callfilter_c exports, proved before it is built, under
# the name that hosts know.
set -euo pipefail
cd "$(dirname "$0")/.."
# where the proof fails, no older archive may stand in its place
rm -f target/staticlib/libcallfilter.a
mkdir -p target/staticlib
# for every x86-64 processor: the kit's default is x86-64-v2, and an archive does not look at what it runs on
(cd crates/callfilter_c && rt lib --cpu x86-64)
# moved there whole, because a host may be linked while it is made anew
cp crates/callfilter_c/out/libcallfilter_c.a target/staticlib/new.a
mv target/staticlib/new.a target/staticlib/libcallfilter.a
