#!/usr/bin/env bash
# The whole test. First the models written from the specification alone; then, from nothing, every crate proved, each must-fail edit tried,
# each program run; then what a C program meets, and the proved libraries, linked, and the calls program against the models, on what was
# proved just before. The last line is the verdict of `rt ci`, told again once everything after it has passed too.
set -euo pipefail
cd "$(dirname "$0")"
log=$(mktemp)
trap 'rm -f "$log"' EXIT
cargo test --quiet --release --offline --manifest-path model/Cargo.toml
rt ci 2>&1 | tee "$log"
# an edit that cannot be applied or read shows nothing, and rt ci passes all the same
if grep -Eq '^rt: ok.*, [1-9][0-9]* bad' "$log"; then
    echo "test.sh: a must-fail edit shows nothing" >&2
    exit 1
fi
tools/build.sh monitor_c origins_c desk_c calls calls_origins
examples/test-c.sh
cargo test --quiet --release --offline --manifest-path linked/Cargo.toml
cargo test --quiet --release --offline --manifest-path linked_origins/Cargo.toml
cargo test --quiet --release --offline --manifest-path linked_desk/Cargo.toml
cargo test --quiet --release --offline --manifest-path bench/Cargo.toml
cargo test --quiet --release --offline --manifest-path calls_text/Cargo.toml
tail -n 1 "$log"
