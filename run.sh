#!/usr/bin/env bash
# Builds a calls program and shows a run of it, input and output side by side in words: the worked example of the specification,
# or the calls of the file that is named (text if its name ends in .txt, else a calls file). The program is `calls`, or `calls_origins`
# for the form with origins, which a text says by its first line and a calls file is told to be by --origins.
set -euo pipefail

here=$(cd "$(dirname "${BASH_SOURCE[0]}")" && pwd)
worked=$here/examples/calls/worked.txt

fail() {
    printf '%s\n' "$*" >&2
    exit 1
}

calls_text() {
    cargo run --quiet --release --offline --manifest-path "$here/calls_text/Cargo.toml" -- "$@"
}

usage='./run.sh [[--origins] FILE]   a file of calls: text if its name ends in .txt, else a calls file; without one, the worked example;
                              --origins: a calls file of the form with origins (a text says so by its first line)'
form=plain
if [ "${1-}" = --origins ] && [ $# = 2 ]; then
    form=origins
    shift
fi
case $#:${1-} in
0: | 1:[!-]*) input=${1:-$worked} ;;
1:-h | 1:--help) printf '%s\n' "$usage" && exit ;;
*) fail "usage: $usage" ;;
esac
[ -f "$input" ] || fail "$input: no such file"
for tool in rt cargo; do
    command -v "$tool" >/dev/null || fail "$tool is not on the PATH (README, \"Two commands\", says what is needed)"
done

room=$(mktemp -d)
trap 'rm -rf "$room"' EXIT

# Text is read before the program is built: a mistake in it is told at once.
case $input in
*.txt)
    calls_text encode "$input" >"$room/calls"
    form=$(calls_text form "$input")
    ;;
*) cp -- "$input" "$room/calls" ;;
esac
program=calls
show=(show)
if [ "$form" = origins ]; then
    program=calls_origins
    show=(show --origins)
fi

[ -x "$here/target/bin/$program" ] || printf 'Proving and building the calls program; the first time takes some minutes.\n' >&2
"$here/tools/build.sh" "$program" >"$room/check" 2>&1 || {
    cat "$room/check" >&2
    fail "building $program failed"
}

"$here/target/bin/$program" <"$room/calls" >"$room/lines"
calls_text "${show[@]}" "$input" "$room/lines"
if [ "$input" = "$worked" ]; then
    cmp "$room/lines" "$here/crates/calls/stdout"
    printf '\nThe output is that of the specification (crates/calls/stdout).\n'
fi
