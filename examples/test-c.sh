#!/usr/bin/env bash
# Tests what a C program meets, in the plain form, the form with origins and the desk form: the headers against the exported functions, the
# examples of docs/C-INTERFACE.md, and the lesson, clean and with each of its mistakes, without origins with either allocator, against stored
# output. Needs all libraries (./build-c.sh). Ends with 1 at the first difference. CC and CXX name other compilers than cc and c++.
set -euo pipefail
cd "$(dirname "$0")/.."

forms=(plain origins desk)
declare -A crate=([plain]=monitor_c [origins]=origins_c [desk]=desk_c)
declare -A header=([plain]=block_monitor.h [origins]=block_monitor_origins.h [desk]=block_monitor_desk.h)
declare -A flag=([origins]=-DORIGINS [desk]=-DDESK)
libraries=$PWD/target/staticlib
include=$PWD/include
out=$PWD/target/examples
cc=${CC:-cc}
cpp=${CXX:-c++}
strict=(-Wall -Wextra -Wpedantic -Werror)
passed=0

fail() {
    echo "test-c.sh: $*" >&2
    exit 1
}

pass() {
    passed=$((passed + 1))
}

# same EXPECTED ACTUAL WHAT: the two files must be equal.
same() {
    diff -u "$1" "$2" >&2 || fail "$3: different, see above (- expected, + actual)"
    pass
}

# The library of a form.
library() {
    echo "$libraries/lib${crate[$1]}.a"
}

# One line for each exported function of a form, as C declares it, from the library's source.
exported() {
    tr '\n' ' ' <"crates/${crate[$1]}/src/lib.rt" | grep -o 'pub extern "C" fn [^)]*) -> [a-z0-9]*' | sed -E '
        s/ +/ /g
        s/([a-z_]+): &\[u32; ([0-9]+)\]/const uint32_t \1[\2]/g
        s/([a-z_]+): &mut \[u32; ([0-9]+)\]/uint32_t \1[\2]/g
        s/([a-z_]+): &\[u8\]/const uint8_t *\1, size_t \1_length/g
        s/([a-z_]+): &mut \[u8\]/uint8_t *\1, size_t \1_length/g
        s/([a-z_]+): u32/uint32_t \1/g
        s/([a-z_]+): u8/uint8_t \1/g
        s/([a-z_]+): bool/bool \1/g
        s/([a-z_]+): &mut u64/uint64_t *\1/g
        s/^pub extern "C" fn ([a-z_]+)\( ?(.*[^, ]),? ?\) -> u32$/uint32_t \1(\2);/'
}

declared() {
    tr '\n' ' ' <"$include/${header[$1]}" | grep -o 'uint32_t block_monitor_[a-z_]*([^)]*);' | sed -E 's/ +/ /g'
}

test_header() {
    local count source=crates/${crate[$1]}/src/lib.rt
    exported "$1" >"$out/exported-$1"
    declared "$1" >"$out/declared-$1"
    count=$(grep -c '#\[unsafe(no_mangle)\]' "$source")
    [ "$(wc -l <"$out/exported-$1")" -eq "$count" ] ||
        fail "$source has $count exported functions, but not all could be read: $out/exported-$1"
    same "$out/exported-$1" "$out/declared-$1" "include/${header[$1]} against $source"
    echo "#include \"${header[$1]}\"" >"$out/header.c"
    "$cc" -std=c99 "${strict[@]}" -I"$include" -c "$out/header.c" -o "$out/header.o" || fail "${header[$1]} is not clean C99"
    pass
}

# The shadows of one form are refused where a call means those of another.
test_forms_apart() {
    cat >"$out/apart.c" <<'END'
#include "block_monitor.h"
#include "block_monitor_desk.h"
uint32_t mixed(const struct block_monitor_desk *desk, struct block_monitor_block *block);
uint32_t mixed(const struct block_monitor_desk *desk, struct block_monitor_block *block)
{
    return ASK(desk, 4096, block);
}
END
    "$cc" -std=c99 "${strict[@]}" -DASK=monitor_desk_ask -I"$include" -c "$out/apart.c" -o "$out/apart.o" || fail "two headers are not clean C99"
    ! "$cc" -std=c99 "${strict[@]}" -DASK=monitor_ask -I"$include" -c "$out/apart.c" -o "$out/apart.o" 2>/dev/null ||
        fail "a call of the plain form takes the shadows of the desk form"
    pass
}

# All forms in one program.
test_header_cpp() {
    if ! command -v "$cpp" >/dev/null; then
        echo "test-c.sh: no C++ compiler, C++ is not tested"
        return
    fi
    cat >"$out/header.cpp" <<'END'
#include "block_monitor.h"
#include "block_monitor_desk.h"
#include "block_monitor_origins.h"
int main()
{
    static uint8_t heap[16], desk_heap[32], primary[16], secondary[16], heap_cells[32], stack_cells[32];
    const struct block_monitor monitor = {{8, 16, 24, 16}, heap, 16, primary, 16, secondary, 16};
    uint32_t readable;
    if (monitor_record_literal(&monitor, 24, 4) != BLOCK_MONITOR_ACCEPTED || monitor_valid_read(&monitor, 24, 4, 24, &readable) != BLOCK_MONITOR_ACCEPTED)
        return 1;
    if (readable != 1 || monitor_free(&monitor, 24) != BLOCK_MONITOR_NOT_HEAP || monitor_remove(&monitor, 24) != BLOCK_MONITOR_ACCEPTED)
        return 1;
    if (monitor_clear(&monitor) != BLOCK_MONITOR_ACCEPTED)
        return 1;
    struct block_monitor_room room;
    if (monitor_place(&monitor, 8, 1, &room) != BLOCK_MONITOR_ACCEPTED || room.base != 16 || room.gaps != 1 || room.surplus != 0)
        return 1;
    const struct block_monitor_desk desk = {{16, 32, 48, 16}, desk_heap, 32, primary, 16, secondary, 16};
    if (monitor_desk_place(&desk, 16, 1, &room) != BLOCK_MONITOR_ACCEPTED || room.base != 32 || room.gaps != 1 || room.surplus != 0)
        return 1;
    if (monitor_desk_record(&desk, 32, 16) != BLOCK_MONITOR_ACCEPTED || monitor_desk_free(&desk, 32) != BLOCK_MONITOR_ACCEPTED)
        return 1;
    struct block_monitor_origins origins = {{8, 16, 24, 16}, heap, 16, primary, 16, secondary, 16, heap_cells, 32, stack_cells, 32, 1};
    if (monitor_origins_record(&origins, 16, 4) != BLOCK_MONITOR_ACCEPTED || origins.counter != 2)
        return 1;
    if (monitor_origins_record(&origins, 24, 4) != BLOCK_MONITOR_ACCEPTED || monitor_origins_remove(&origins, 24) != BLOCK_MONITOR_ACCEPTED)
        return 1;
    return monitor_origins_point(&origins, 16, 16) == BLOCK_MONITOR_ACCEPTED ? 0 : 1;
}
END
    "$cpp" "${strict[@]}" -I"$include" "$out/header.cpp" "${all[@]}" -o "$out/header" || fail "a header is not clean C++"
    "$out/header" || fail "a call from C++ was refused"
    pass
}

# The code blocks of the page as one program for each form, whose section parts them: the first, and those with a function, at file level, the
# others in main. Errors name the page's own lines.
page_program() {
    awk -v form="$1" '
        BEGIN { here = "plain" }
        /^## The form with origins$/ { here = "origins" }
        /^## The desk form$/ { here = "desk" }
        here != form { next }
        /^```c$/ { inside = 1; outer = outside == ""; code = "#line " NR + 1 " \"docs/C-INTERFACE.md\"\n"; next }
        /^```$/ && inside { inside = 0; if (outer) outside = outside code; else body = body code }
        inside && $0 == "{" { outer = 1 }
        inside { code = code $0 "\n" }
        END { printf "%sint main(void)\n{\n%sreturn 0;\n}\n", outside, body }' docs/C-INTERFACE.md
}

# Each program is linked with all libraries: that of the form with origins uses the plain form's too.
test_page() {
    local name page=$out/page-$1
    page_program "$1" >"$page.c"
    while read -r name; do
        grep -q "(${name}(" "$page.c" || fail "docs/C-INTERFACE.md has no example of $name"
    done < <(sed -nE 's/^static inline uint32_t (monitor_[a-z_]+)\(.*/\1/p' "$include/${header[$1]}")
    "$cc" -std=c99 "${strict[@]}" -I"$include" "$page.c" "${all[@]}" -o "$page" ||
        fail "an example of docs/C-INTERFACE.md does not compile"
    "$page" || fail "an example of docs/C-INTERFACE.md does not hold"
    pass
}

# parts FORM ALLOCATOR FLAG..: compiles what the lesson has with every mistake.
parts() {
    local form=$1 allocator=$2 part
    shift 2
    for part in checks.c areas.c "$allocator"; do
        "$cc" -std=c99 "${strict[@]}" ${flag[$form]:+"${flag[$form]}"} "$@" -I"$include" -c "examples/lesson/$part" -o "$out/${part%.c}.o" ||
            fail "$part of the lesson does not compile (${flag[$form]:-} $*)"
    done
}

# lesson FORM ALLOCATOR MISTAKE EXPECTED STATUS FLAG..: builds the lesson with these parts, runs it, compares output and exit status.
lesson() {
    local form=$1 allocator=$2 mistake=$3 expected=examples/lesson/$4 status=$5 got=0
    local parts=("$out/checks.o" "$out/areas.o" "$out/${allocator%.c}.o" "$(library "$form")")
    shift 5
    set -- ${flag[$form]:+"${flag[$form]}"} "$@"
    (cd examples/lesson && "$cc" -std=c99 "${strict[@]}" "$@" -DMISTAKE="$mistake" -I"$include" lesson.c "${parts[@]}" -o "$out/lesson") ||
        fail "the lesson with mistake $mistake and $allocator does not compile ($*)"
    "$out/lesson" >"$out/lesson.out" || got=$?
    same "$expected" "$out/lesson.out" "$expected ($allocator $*)"
    [ "$got" -eq "$status" ] || fail "$expected ($allocator $*): exit status $got, expected $status"
}

# stored FORM MISTAKE: the file of a mistake's output. In the desk form heap blocks lie elsewhere: where a line names one, that form has a file.
stored() {
    local own=mistake-$2-$1.expected
    if [ -f "examples/lesson/$own" ]; then echo "$own"; else echo "mistake-$2.expected"; fi
}

# All mistakes but the eighth are found in all forms; without origins that is taken for good, and the lesson runs to its end. placed.c is not for
# the form with origins, and puts each block where first_fit.c does: whenever one is asked for, what is free is one gap.
test_lesson() {
    local built form allocator n
    for built in "plain first_fit.c" "plain placed.c" "origins first_fit.c" "desk first_fit.c" "desk placed.c"; do
        read -r form allocator <<<"$built"
        parts "$form" "$allocator" "$@"
        lesson "$form" "$allocator" 0 lesson.expected 0 "$@"
        for n in 1 2 3 4 5 6 7 9 10; do
            lesson "$form" "$allocator" $n "$(stored "$form" $n)" 1 "$@"
        done
        case $form in
        plain | desk) lesson "$form" "$allocator" 8 mistake-8-plain.expected 0 "$@" ;;
        origins) lesson origins "$allocator" 8 mistake-8.expected 1 "$@" ;;
        esac
    done
}

command -v "$cc" >/dev/null || fail "no C compiler ($cc)"
all=()
for form in "${forms[@]}"; do
    [ -f "$(library "$form")" ] || fail "no $(library "$form"): run ./build-c.sh"
    all+=("$(library "$form")")
done
mkdir -p "$out"
for form in "${forms[@]}"; do
    test_header "$form"
    test_page "$form"
done
test_forms_apart
test_header_cpp
test_lesson -O0
test_lesson -O2
sanitize=(-O1 -g -fsanitize=address -fsanitize=undefined -fno-sanitize-recover=all)
if echo 'int main(void) { return 0; }' | "$cc" "${sanitize[@]}" -x c - -o "$out/sanitized" 2>/dev/null && "$out/sanitized" 2>/dev/null; then
    test_lesson "${sanitize[@]}"
else
    echo "test-c.sh: no sanitizers, the lesson runs without"
fi
echo "test-c.sh: $passed checks passed"
