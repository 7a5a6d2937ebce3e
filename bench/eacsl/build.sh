#!/usr/bin/env bash
# Builds the server with E-ACSL's shadow ("segment") model and with its trie ("bittree") model, from the sources that Debian installs.
# None of these sources is kept here: the trie's copy, with its one line mended, lies in the folder of built things.
set -euo pipefail
here=$(cd "$(dirname "$0")" && pwd)
out=$1
sources=/usr/share/frama-c/e-acsl
allocator=/usr/lib/frama-c/e-acsl/libeacsl-dlmalloc.a

rm -f "$out/eacsl-shadow" "$out/eacsl-trie"
if [ ! -f "$sources/e_acsl_rtl.c" ] || [ ! -f "$allocator" ] || ! echo '#include <gmp.h>' | cc -E - > /dev/null 2>&1; then
  echo "E-ACSL's library takes no part: it comes with Debian's packages (apt-get install frama-c-base libgmp-dev)"
  exit 0
fi

# Its pt_lookup assigns no result where it finds the block.
rm -rf "$out/trie-sources"
cp -r "$sources" "$out/trie-sources"
sed -i '/^pt_leaf_t pt_lookup/,/^}/ s/if (pt->get_ptr_fct(tmp->leaf) != ptr) {/res = tmp->leaf;\n  &/' \
  "$out/trie-sources/observation_model/internals/e_acsl_patricia_trie.c"

own=(-std=gnu99 -O2 -Wall -Wextra -Wpedantic)
cc "${own[@]}" -c "$here/server.c" -o "$out/server.o"
cc "${own[@]}" -c "$here/auxval.c" -o "$out/auxval.o"

# Model, its macro, its sources.
build() {
  cc -std=gnu99 -O2 -w "-D$2" "-I$3" -c "$here/rtl.c" -o "$out/rtl-$1.o"
  cc "$out/server.o" "$out/auxval.o" "$out/rtl-$1.o" -Wl,--wrap=getauxval "$allocator" -lgmp -lpthread -lm -o "$out/eacsl-$1"
}
build shadow E_ACSL_SEGMENT_MMODEL "$sources"
build trie E_ACSL_BITTREE_MMODEL "$out/trie-sources"
