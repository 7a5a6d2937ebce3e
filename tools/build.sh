#!/usr/bin/env bash
# build.sh CRATE..: proves and builds crates: a library for C goes to target/staticlib, a program to target/bin.
set -euo pipefail
cd "$(dirname "$0")/.."
mkdir -p target/bin target/staticlib
for crate in "$@"; do
    if [ -f "crates/$crate/src/main.rt" ]; then
        (cd "crates/$crate" && rt run </dev/null >/dev/null)
        cp "crates/$crate/out/$crate" target/bin/
    else
        (cd "crates/$crate" && rt lib)
        cp "crates/$crate/out/lib$crate.a" target/staticlib/
    fi
done
