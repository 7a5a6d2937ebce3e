#!/usr/bin/env bash
# The machine and the versions of what is compared, as a list in Markdown.
set -u
first() { "$@" 2> /dev/null | head -n 1; }
package() { dpkg-query -W -f '${Version}' "$1" 2> /dev/null || echo 'not there'; }
echo "- Processor: $(sed -n 's/^model name[^:]*: //p' /proc/cpuinfo | head -n 1) (family $(sed -n 's/^cpu family[^:]*: //p' /proc/cpuinfo | head -n 1), model $(sed -n 's/^model[^n:]*: //p' /proc/cpuinfo | head -n 1)), $(nproc) cores, $(uname -sm)"
echo "- Load before the run: $(cut -d ' ' -f 1-3 /proc/loadavg)"
echo "- Library: $(first rt --version)"
echo "- Models and measuring program: $(first rustc --version), release"
echo "- E-ACSL: Debian's frama-c-base $(package frama-c-base), $(first cc --version), -O2"
echo "- memset: glibc $(getconf GNU_LIBC_VERSION | cut -d ' ' -f 2)"
echo "- Counted by: $(first valgrind --version || echo 'valgrind is not there')"
