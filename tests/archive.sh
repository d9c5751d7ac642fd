#!/usr/bin/env bash
# The archive that a record maker links, as an auditor looks at it: what it needs, what it exports, that it keeps
# nothing between calls, and that a build in another folder gives the same bytes. It needs
# target/staticlib/libnutrameza.a as 'tools/built library' left it.
#
# The second folder has a copy of the crates and, not to prove them all again, of the libraries that the first build
# proved (rt takes one only where it was proved from the same sources). There the top crate is proved anew and the whole
# archive, the code of every crate below it, is compiled anew. What is not made again are the proofs of the lower
# crates.
. "$(dirname "${BASH_SOURCE[0]}")/it.sh"
export LC_ALL=C
archive=$root/target/staticlib/libnutrameza.a
second=$work/another/folder
rt=${RT:-rt}

# The exported calls, in the order of their names.
calls='nutrameza_ask nutrameza_check nutrameza_clauses nutrameza_close nutrameza_explain nutrameza_loop nutrameza_narrow nutrameza_obstacle
  nutrameza_open nutrameza_short_ask nutrameza_show nutrameza_stopped nutrameza_table nutrameza_tidy nutrameza_turn nutrameza_unturn
  nutrameza_widen'

# symbols OPTION..: the names that nm lists of the archive's members
symbols() {
  nm -A -P "$@" "$archive" | awk '{ print $2 }' | sort -u
}

# The C functions that a host's C library must have: clang writes copies and fills as calls of these two.
needs() {
  diff <(comm -23 <(symbols -u) <(symbols -g --defined-only)) <(printf '%s\n' memcpy memset)
}

exports() {
  diff <(symbols -g --defined-only) <(printf '%s\n' $calls)
}

declared() {
  local call
  for call in $calls; do grep -q "^uint64_t $call(" "$root/include/nutrameza.h" || { echo "$call is not declared"; return 1; }; done
}

# No member has a byte of writable data, zeroed or not.
keeps_nothing() {
  size "$archive" |
    awk 'NR > 1 { members++; data += $2 + $3 } END { print members " members, " data " bytes"; exit !(members > 0 && data == 0) }'
}

# The second build: a folder of another name and length, another home, another time zone.
built_again() {
  mkdir -p "$second/tools" && cp -R "$root/crates" "$root/crates.txt" "$second" && cp "$root/tools/built" "$second/tools" &&
    rm -rf "$second/crates/nutrameza_c/out" && cd "$second" &&
    TZ=Asia/Tokyo HOME=$work RT=$rt tools/built library > "$work/again" 2>&1 || { cat "$work/again"; return 1; }
}

same_bytes() {
  test -s "$archive" && cmp "$archive" "$second/target/staticlib/libnutrameza.a"
}

it 'the library is there' test -s "$archive"
it 'it needs memcpy and memset of the C library and nothing else' needs
it 'its global symbols are the exported calls' exports
it 'the header declares each exported call' declared
it 'it has no writable data' keeps_nothing
it 'it is built again in another folder' built_again
it 'both builds are the same bytes' same_bytes
counted
