#!/bin/sh
# The sizes that the header asserts are those that crates/header/proofs/Sizes.antt proves of the card's structs.
set -eu
root=$(cd "$(dirname "$0")/.." && pwd)
proved=$(sed -n 's/^pub wekshurag-\([a-z-]*\) : size .* ≡ \([0-9]*\)$/\1 \2/p' "$root/crates/header/proofs/Sizes.antt" | tr - _ | sort)
asserted=$(sed -n 's/.*sizeof(struct wekshurag_\([a-z_]*\)) == \([0-9]*\).*/\1 \2/p' "$root/include/wekshurag.h" | sort)
test -n "$proved"
if [ "$proved" != "$asserted" ]; then
    printf 'size_test: proved\n%s\nbut the header asserts\n%s\n' "$proved" "$asserted" >&2
    exit 1
fi
echo "size_test: $(echo "$proved" | wc -l) structs have the sizes that are proved"
