#!/usr/bin/env bash
# Times the linked libraries beside their peers and prints the tables; needs rt, cargo and a C compiler.
#   ./bench.sh                         about two minutes
#   ./bench.sh --quick                 fewer rounds
#   ./bench.sh --before BUILD          sets an earlier build beside this one, in the same program: a commit, or the archive of one
#   ./bench.sh --docs                  also puts tables and plot into docs/, all but the table of marks before and after
#   ./bench.sh --before BUILD --docs   also puts that table into docs/, and no other
# E-ACSL's library and valgrind take part where they are installed.
set -euo pipefail
cd "$(dirname "$0")"
out=target/bench
mkdir -p "$out"

words=()
before=
while [ $# -gt 0 ]; do
  case "$1" in
    --before) before=$2; shift ;;
    --quick | --docs) words+=("$1") ;;
    *) sed -n '2,8s/^# *//p' "$0"; exit 2 ;;
  esac
  shift
done

for crate in monitor_c origins_c desk_c; do
  tools/build.sh "$crate" > "$out/staticlib.log" 2>&1 || { cat "$out/staticlib.log"; exit 1; }
done
bench/eacsl/build.sh "$out"
unset BENCH_BEFORE
if [ -n "$before" ]; then
  bench/before.sh "$before" "$out"
  export BENCH_BEFORE="$PWD/$out"
fi
cargo build --quiet --release --offline --manifest-path bench/Cargo.toml
bench/versions.sh > "$out/versions"
if [ -n "$before" ]; then cat "$out/before-build" >> "$out/versions"; fi
exec bench/target/release/bench "${words[@]}"
