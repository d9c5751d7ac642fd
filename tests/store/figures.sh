#!/usr/bin/env bash
# figures.sh FOLDER LIB: the store's figures as rows of a table, with the kit and without it in turn, for 1, 4 and 16
# clients over 1 and 100 wards, on SQLite and on a PostgreSQL server, all data below FOLDER; FIGURES seconds each (3).
# tests/store.sh figures runs it.
set -u
root=$(cd "$(dirname "${BASH_SOURCE[0]}")/../.." && pwd)
folder=$1
lib=$2
seconds=${FIGURES:-3}
. "$root/tests/store/build.sh"

mkdir -p "$folder/with" || exit 1
for file in "$root"/store/*.c "$root/tests/store/figures/bench.c"; do
  cc $store_cflags "-I$root/store" -O2 -c "$file" -o "$folder/with/$(basename "$file" .c).o" || exit 1
done
cc $store_cflags -O2 "$folder"/with/*.o "$lib/libnutrameza.a" -lsqlite3 -lpq -o "$folder/with_kit" || exit 1
cc $store_cflags -O2 "$folder"/with/*.o "$root/tests/store/figures/without_kit.c" -lsqlite3 -lpq -o "$folder/without_kit" || exit 1
STORE_SETTINGS='' "$root/tests/store/server.sh" make "$folder/pg" || exit 1
lite=sqlite:$folder/figures.db
post="postgresql://store@/postgres?host=$folder/pg&port=5499"

for engine in lite post; do
  for limits in 0 1; do
    for wards in 1 100; do
      for clients in 1 4 16; do
        for kit in with without; do
          store=$lite.$kit
          if [ "$engine" = post ]; then
            psql -qX "$post" -c "CREATE DATABASE ${kit}_kit" > /dev/null 2>&1
            store="${post/\/postgres\?//${kit}_kit?}"
          fi
          printf '| %s | %s | %s | %s | %s | %s |\n' "$engine" "$([ $limits = 1 ] && echo limits || echo none)" "$wards" "$clients" "$kit" \
            "$("$folder/${kit}_kit" "$store" "$wards" "$limits" "$clients" "$seconds" 2>&1)"
        done
      done
    done
  done
done
"$folder/with_kit" "$lite.with" verify free-0
"$folder/with_kit" "${post/\/postgres\?//with_kit?}" verify free-0
"$folder/with_kit" "${post/\/postgres\?//with_kit?}" verify limited-0
psql -AtqX "${post/\/postgres\?//with_kit?}" -c "SELECT 'bytes an entry, keys included: ' || pg_total_relation_size('journal') / count(*) FROM journal" \
  -c "SELECT 'bytes a line, keys included: ' || pg_total_relation_size('line') / count(*) FROM line"
"$root/tests/store/server.sh" stop "$folder/pg"
