#!/usr/bin/env bash
# Builds the libraries for C programs, of the plain form, the form with origins and the desk form, proved before they are built, and says where
# they and their headers are.
set -euo pipefail
cd "$(dirname "$0")"
echo "proving and building the libraries; the first time, with every crate below them, this takes minutes" >&2
for crate in monitor_c origins_c desk_c; do
    if ! log=$(tools/build.sh "$crate" 2>&1); then
        printf '%s\n' "$log" >&2
        echo "build-c.sh: the library $crate was not built" >&2
        exit 1
    fi
done
cat <<END
plain form
  library: $PWD/target/staticlib/libmonitor_c.a
  header:  $PWD/include/block_monitor.h
  compile: cc -std=c99 -I$PWD/include program.c $PWD/target/staticlib/libmonitor_c.a
form with origins
  library: $PWD/target/staticlib/liborigins_c.a
  header:  $PWD/include/block_monitor_origins.h
  compile: cc -std=c99 -I$PWD/include program.c $PWD/target/staticlib/liborigins_c.a
desk form
  library: $PWD/target/staticlib/libdesk_c.a
  header:  $PWD/include/block_monitor_desk.h
  compile: cc -std=c99 -I$PWD/include program.c $PWD/target/staticlib/libdesk_c.a
guide:     $PWD/docs/C-INTERFACE.md
END
