#!/usr/bin/env bash
# An earlier build of the library with other symbols, and a copy of this one, so that both can be linked into one program.
# The earlier one is given as an archive, or as a commit, which is built from its own sources in a folder of its own.
set -euo pipefail
build=$1
out=$(cd "$2" && pwd)
archive=$build
name="the archive ${build##*/}"
if [ ! -f "$archive" ]; then
  commit=$(git rev-parse --verify "$build^{commit}")
  name="commit $(git rev-parse --short "$commit"), built from its own sources"
  # Another toolchain makes another archive of the same sources.
  folder=$out/before-$commit-$(rt version | tr -cs 'A-Za-z0-9\n' -)
  archive=$folder/target/staticlib/libmonitor_c.a
  if [ ! -f "$archive" ]; then
    mkdir -p "$folder"
    git archive "$commit" | tar -x -C "$folder"
    (cd "$folder" && tools/build.sh monitor_c)
  fi
fi
this="commit $(git rev-parse --short HEAD)"
if [ -n "$(git status --porcelain -- crates crates.txt)" ]; then this="$this, with changes"; fi
printf -- '- Before: %s\n- After: %s\n' "$name" "$this" > "$out/before-build"
symbols() { nm --defined-only --extern-only "$1" | sed -n 's/^[0-9a-f]* [A-Z] //p' | sort; }

# Every symbol that the archive defines for others gets another name; what it uses of others keeps its own.
symbols "$archive" | sed 's/.*/& before_&/' > "$out/before-symbols"
# In both, each function begins at a multiple of 64 bytes: where a loop lies can alter its time by a fifth.
align='--set-section-alignment=.text.*=64'
rm -f "$out/libmonitor_before.a" "$out/libmonitor_this.a"
objcopy "$align" --redefine-syms="$out/before-symbols" "$archive" "$out/libmonitor_before.a"
objcopy "$align" target/staticlib/libmonitor_c.a "$out/libmonitor_this.a"

# A call that it did not have yet gets a stub, so that the program links; no case makes it.
comm -13 <(symbols "$archive") <(symbols target/staticlib/libmonitor_c.a) > "$out/before-lacks"
sed -i '/^block_monitor_begin$/d; /^block_monitor_access$/d; /^block_monitor_remove$/d' "$out/before-lacks"
sed 's/.*/void before_&(void) { __builtin_trap(); }/' "$out/before-lacks" > "$out/before-stubs.c"
has() { grep -qx "$1 before_$1" "$out/before-symbols"; }
# Before S-5 each way to record was a function of its own, valid was told less, and there were no literals.
if ! has block_monitor_begin; then
  echo literals >> "$out/before-lacks"
  cat bench/before_begin.c >> "$out/before-stubs.c"
fi
# Before S-7 free took stack blocks too.
if ! has block_monitor_remove; then cat bench/before_remove.c >> "$out/before-stubs.c"; fi
if [ -s "$out/before-stubs.c" ]; then
  cc -O2 -c "$out/before-stubs.c" -o "$out/before-stubs.o"
  ar r "$out/libmonitor_before.a" "$out/before-stubs.o"
fi
