#!/usr/bin/env bash
# Proves and builds the library that C and Rust programs link, target/staticlib/libmogtriz.a, and the two programs, target/bin/lister and
# target/bin/refiller. They run on every x86-64: without --cpu the kit asks for x86-64-v2.
set -euo pipefail
cd "$(dirname "$0")"
mkdir -p target/staticlib target/bin
(cd crates/mogtriz && rt lib --cpu x86-64)
for program in lister refiller; do
    # rt builds a program to run it
    (cd "crates/$program" && rt run --cpu x86-64 <stdin >/dev/null)
done
cp crates/mogtriz/out/libmogtriz.a target/staticlib/
cp crates/lister/out/lister crates/refiller/out/refiller target/bin/
