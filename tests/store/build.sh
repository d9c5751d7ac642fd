# What builds the store and its tests, to be sourced: it needs $root and $lib.
store_cflags="-std=c99 -g -Wall -Wextra -Wpedantic -I$root/include -I$(pg_config --includedir 2> /dev/null)"

# compiled OUT STORE FLAG..: the store of the folder STORE and the tests, with these flags, as OUT/test
compiled() {
  local out=$1 store=$2
  shift 2
  mkdir -p "$out" || return 1
  printf '%s\n' "$store"/*.c "$root"/tests/store/*.c | xargs -P 2 -I{} sh -c 'cc '"$store_cflags"' -I'"$store"' '"$*"' -c {} -o '"$out"'/$(basename {} .c).o' || return 1
  cc "$@" "$out"/*.o "$lib/libnutrameza.a" -lsqlite3 -lpq -lpthread -o "$out/test"
}
