#!/usr/bin/env bash
# The store on SQLite and on a PostgreSQL server of its own, below a temporary folder: the ten groups of tests, faults
# at every step of a call, sanitizers, and wrong versions, each of which a test must refuse. It needs libnutrameza.a
# (target/staticlib, or the folder that NUTRAMEZA_LIB names), a C compiler, SQLite and libpq with headers; a part whose
# program is missing is named in one line and left out. The last line is 'N passed, M failed'.
#
#   tests/store.sh               all of it, as in the gate
#   tests/store.sh ward          the ward's two windows, raced a thousand times on each engine
#   tests/store.sh soak SECONDS  stress with kills and crashes, so long on each ward and engine
#   tests/store.sh figures       calls a second, on the disk of the folder STORE_DISK (this one)
. "$(dirname "${BASH_SOURCE[0]}")/it.sh"
lib=$(cd "$root" && realpath -m "${NUTRAMEZA_LIB:-target/staticlib}")
. "$root/tests/store/build.sh"
server=$root/tests/store/server.sh

# Without a disk below it a sync takes no time; what a crash of a program loses is the same.
place=$work
if [ "${1:-}" = figures ]; then
  place=$(mktemp -d "--tmpdir=${STORE_DISK:-$PWD}")
elif [ -w /dev/shm ]; then
  place=$(mktemp -d --tmpdir=/dev/shm)
fi
chmod 755 "$work" "$place"
pg=$place/pg
background=''
ended() {
  [ -z "$background" ] || kill $background 2> /dev/null
  [ ! -d "$pg/data" ] || "$server" stop "$pg"
  for mounted in "$place"/small*; do mountpoint -q "$mounted" && umount "$mounted"; done 2> /dev/null
  rm -rf "$work" "$place"
}
trap ended EXIT

if ! printf '#include <sqlite3.h>\n#include <libpq-fe.h>\n' | cc $store_cflags -fsyntax-only -x c - 2> /dev/null; then
  echo 'tests/store.sh: the headers of SQLite or libpq are missing; the store is not tested'
  echo '0 passed, 0 failed'
  exit 0
fi
lite=sqlite:$place/a.db
post="postgresql://store@/postgres?host=$pg&port=5499"
export STORE_SERVER=$server STORE_SERVER_FOLDER=$pg STORE_PROXY="postgresql://store@/postgres?host=$place/px&port=5499"
control=$place/px/control
if [ -n "${PGBIN:-}" ] || ls /usr/lib/postgresql/*/bin/initdb > /dev/null 2>&1; then
  engines='lite post'
else
  engines=lite
  echo 'tests/store.sh: no PostgreSQL server on this machine (PGBIN); its tests are left out'
fi

# on ENGINE TEST WORD..: a test of the built program
on() {
  local store=${!1}
  shift
  timeout 290 "$work/build/test" "$store" "$@"
}
# audited ENGINE WARD: every answer that was logged is in the journal as it was given
audited() { on "$1" audit "$2" "$place/log" && rm -f "$place"/log.*; }
stressed() { rm -f "$place"/log.*; on "$1" stress "$2" 8 "$3" "$place/log" && audited "$1" "$2"; }
killed() { rm -f "$place"/log.*; on "$1" kill "$2" 6 "$3" "$place/log" && audited "$1" "$2"; }
flipped() { rm -f "$place"/log.*; on "$1" flip "$2" "$3" "$place/log" && audited "$1" "$2"; }

# crashing WARD SECONDS: the same while the server is stopped at once, over and over
crashing() {
  local end=$((SECONDS + $2)) pid status=0
  rm -f "$place"/log.*
  on post kill "$1" 4 $(($2 + 4)) "$place/log" & # it lasts longer than the crashes
  pid=$!
  while [ $SECONDS -lt $end ] && sleep 1.$((RANDOM % 9)); do "$server" crash "$pg" || status=1; done
  wait $pid && [ $status -eq 0 ] && audited post "$1"
}

proxied() { # the proxy in the background, once
  [ ! -d "$place/px" ] || return 0
  mkdir "$place/px" && { python3 "$root/tests/store/proxy.py" "$place/px/.s.PGSQL.5499" "$pg/.s.PGSQL.5499" "$control" > "$work/proxy" 2>&1 & } &&
    background="$background $!" && sleep 0.5
}

# full ENGINE: on a disk of its own that is filled up
full_lite() {
  lite=sqlite:$place/small/a.db
  mkdir -p "$place/small" && mount -t tmpfs -o size=2m none "$place/small" && on lite wards && on lite full free "$place/small/filler"
}
full_post() {
  local status
  mkdir -p "$place/small_pg" && mount -t tmpfs -o size=80m none "$place/small_pg" && chmod 777 "$place/small_pg" || return 1
  pg=$place/small_pg/pg
  post="postgresql://store@/postgres?host=$pg&port=5499"
  export STORE_SERVER_FOLDER=$pg
  STORE_INITDB=--wal-segsize=1 STORE_SETTINGS='max_wal_size = 2MB' "$server" make "$pg" && on post wards && on post full free "$place/small_pg/filler"
  status=$?
  "$server" stop "$pg"
  return $status
}

cases() { # ENGINE
  local e=$1 w
  it "$e: no tables, tables of another version" on "$e" schema
  it "$e: the wards are made" on "$e" wards
  it "$e: eight make a ward at once" on "$e" makers
  it "$e: wrong use, and a host's day" on "$e" usage
  it "$e: repeats by token" on "$e" repeats
  it "$e: windows released, adopted and gone" on "$e" windows
  it "$e: policies changed with windows open" on "$e" policy
  it "$e: rows changed behind the store's back are refused at once, told and mended" on "$e" damage
  it "$e: ledgers imported and exported" on "$e" import
  it "$e: the lists and the journal" on "$e" journal
  it "$e: the journal cut at a verified moment" on "$e" cut
  it "$e: a handle in a child of fork and in its own callback" on "$e" fork
  it "$e: one handle in four threads" on "$e" one_handle 200
  it "$e: a handle in each thread" on "$e" threads 60
  it "$e: two windows of one doctor, never both" on "$e" race 300
  it "$e: a role that two windows may hold, never three" on "$e" limit 8 40
  it "$e: windows released while their host opens and asks" on "$e" rivals 100
  for w in free limited; do
    it "$e: one token twice at once, ward $w" on "$e" twice $w 100
    it "$e: eight processes, ward $w; as many entries as requests, no failure, every answer as given" stressed "$e" $w 150
    it "$e: clients killed and their windows released, ward $w" killed "$e" $w 3
    it "$e: the client killed at every step of each call, ward $w" on "$e" steps $w
  done
  it "$e: policies with and without limits while others work" flipped "$e" free 30
  it "$e: a policy changed beside a client that is stopped at every step of an ask" on "$e" changed free
  it "$e: no memory grows" on "$e" memory "$2"
}

faults() {
  local w
  for w in free limited; do
    it "post: what was told is there after a crash, ward $w" on post durable $w 30
    it "post: the connection cut at every message of an ask, ward $w" on post cuts $w "$control" 2
    it "post: a commit answered by ROLLBACK was not done, ward $w" on post rolled $w "$control"
    it "post: the server crashes again and again, clients are killed, ward $w" crashing $w 5
  done
  it 'post: the server stopped at once at every step of an ask' on post server free crash 0 1
  it 'post: its first process killed at steps of an ask' on post server limited kill 2 4
  it 'post: clients stopped at every step; the others go on' on post stopped free 0 2 3 4 5 6 7 8 9
  it 'post: a client stopped with the ward locked; the others go on' on post stopped limited 8
  it 'post: a pooler is refused' on post pool "$control"
  it 'post: a server without fsync and a replica are refused' on post unfit
}

# One build of the checkers, over the cases of one process.
sanitized() {
  local t
  [ -x "$work/asan/test" ] ||
    compiled "$work/asan" "$root/store" -O1 -fsanitize=address,undefined -fno-sanitize-recover=all -fno-omit-frame-pointer || return 1
  for t in usage repeats windows policy damage import journal "threads 10"; do
    ASAN_OPTIONS=detect_leaks=0 "$work/asan/test" "${!1}" $t || return 1
  done
}
race_checked() {
  { [ -x "$work/tsan/test" ] || compiled "$work/tsan" "$root/store" -O1 -fsanitize=thread; } &&
    TSAN_OPTIONS=halt_on_error=1 setarch -R "$work/tsan/test" "${!1}" threads 20
}
grinded() {
  local t
  for t in usage repeats policy import; do
    valgrind -q --error-exitcode=9 --leak-check=full --errors-for-leak-kinds=definite,indirect "$work/build/test" "${!1}" $t || return 1
  done
}

# clean COMPILER: every source without a warning
clean() {
  local file
  for file in "$root"/store/*.c; do
    "$1" $store_cflags -Wconversion -Werror -O2 -c "$file" -o "$work/clean.o" || return 1
  done
}
header() { printf '#include <nutrameza_store.h>\n' | "$1" -x "$2" "-std=$3" -Wall -Wextra -Werror -pedantic "-I$root/include" -fsyntax-only -; }
short_functions() {
  awk 'FNR == 1 { open = 0 } /^{/ { open = FNR } /^}/ && open { if (FNR - open > 40) { print FILENAME ":" open; bad = 1 } open = 0 } END { exit bad }' \
    "$root"/store/*.c
}
alone() { # ENGINE= SYMBOLS: a build without that engine, which needs none of its symbols
  make -s -C "$root" store "store_out=$work/alone_$1" "NUTRAMEZA_LIB=$lib" "$1" && ! nm -u "$work/alone_$1/libnutrameza_store.a" | grep -q "$2"
}
installed() {
  make -s -C "$root" install-store "PREFIX=$work/prefix" "store_out=$work/out" "NUTRAMEZA_LIB=$lib" > /dev/null &&
    nm -D --defined-only "$work/prefix/lib/libnutrameza_store.so" | awk '{ print $3 }' | grep -v '^nutrameza_store_' | wc -l | grep -qx 0 &&
    for call in $(sed -nE 's/^(uint64_t|void|const char \*)\*?(nutrameza_store_[a-z_]+)\(.*/\2/p' "$root/include/nutrameza_store.h"); do
      nm -D --defined-only "$work/prefix/lib/libnutrameza_store.so" | grep -q " $call$" || { echo "$call is not there"; return 1; }
      grep -q "$call(" "$work/prefix/share/man/man3/nutrameza_store.3" || { echo "the man page has no $call"; return 1; }
    done
}
removed() {
  make -s -C "$root" uninstall-store "PREFIX=$work/prefix" "NUTRAMEZA_LIB=$lib" > /dev/null && test -e "$work/prefix/lib/libnutrameza.a" &&
    ! find "$work/prefix" -name '*nutrameza_store*' | grep .
}
static_words() { # what a program is linked with by the archives
  PKG_CONFIG_PATH=$work/prefix/lib/pkgconfig pkg-config --cflags --libs nutrameza_store-static 2> /dev/null ||
    echo "$flags -l:libnutrameza_store.a -lsqlite3 -lpq -l:libnutrameza.a"
}
example() { # the ten lines, from an install alone: archive and shared library
  local flags="-I$work/prefix/include -L$work/prefix/lib"
  mkdir -p "$work/example" && cd "$work/example" && "$root/tools/policy" build "$root/examples/ward.policy" -o policy.img &&
    cc -std=c99 -Wall -Wextra -Werror -pedantic $flags "$root/examples/store.c" -lnutrameza_store -o shared &&
    cc -std=c99 "$root/examples/store.c" $(static_words) -o static &&
    LD_LIBRARY_PATH=$work/prefix/lib ./shared "sqlite:$work/example/1.db" policy.img > said && ./static "sqlite:$work/example/2.db" policy.img > too &&
    diff said too && cat said && awk '/^```text store$/ { on = 1; next } /^```$/ { on = 0 } on' "$root/docs/STORE.md" | diff - said &&
    awk '/^```c store$/ { on = 1; next } /^```$/ { on = 0 } on' "$root/docs/STORE.md" > page && test -s page &&
    python3 -c 'import sys; sys.exit(open("page").read() not in open(sys.argv[1]).read())' "$root/examples/store.c"
}

# wrong PATCH: a copy of the store with the patch, in which the test that it names fails and says what it names
wrong() {
  local patch=$1 copy=$work/wrong file test engine says status
  test=$(sed -nE 's/^# refused by: //p' "$patch")
  says=$(sed -nE 's/^# says: //p' "$patch")
  engine=${test%% *}
  rm -rf "$copy" && mkdir -p "$copy/build" && cp -r "$root/store" "$copy/store" && (cd "$copy" && patch -s -p1 < "$patch") || return 1
  cp "$work"/build/*.o "$copy/build"
  for file in "$copy"/store/*.c; do
    if cmp -s "$file" "$root/store/$(basename "$file")" && cmp -s "$copy/store/engine.h" "$root/store/engine.h"; then continue; fi
    cc $store_cflags "-I$copy/store" -O1 -c "$file" -o "$copy/build/$(basename "$file" .c).o" || return 1
  done
  cc "$copy"/build/*.o "$lib/libnutrameza.a" -lsqlite3 -lpq -lpthread -o "$copy/test" || return 1
  local store=${!engine} words=${test#* }
  if [ "$engine" = lite ]; then store=sqlite:$copy/a.db; else "$server" up "$pg" && fresh_database && store="${post/\/postgres\?//wrong?}"; fi
  words=${words//CONTROL/$control}
  export STORE_PROXY="${STORE_PROXY/\/postgres\?//wrong?}"
  rm -f "$place"/log.*
  timeout 100 "$copy/test" "$store" wards || return 1
  timeout 100 "$copy/test" "$store" ${words//LOG/$place/log}  > "$work/refused" 2>&1
  status=$?
  cat "$work/refused"
  rm -f "$control"
  [ $status -ne 0 ] && [ $status -ne 2 ] && grep -q -- "$says" "$work/refused"
}
fresh_database() {
  psql -qX "$post" -c 'DROP DATABASE IF EXISTS wrong WITH (FORCE)' -c 'CREATE DATABASE wrong' 2>&1
}

built() { compiled "$work/build" "$root/store" -O1; }

ward_raced() { for e in $engines; do on "$e" wards && echo "$e: $(on "$e" race 1000)" || return 1; done; }

test -s "$lib/libnutrameza.a" || { echo "tests/store.sh: no $lib/libnutrameza.a (make lib)"; echo '0 passed, 1 failed'; exit 1; }
case ${1:-} in
  ward)
    built && case $engines in *post*) "$server" make "$pg" ;; esac && ward_raced
    exit ;;
  soak)
    it 'the tests are built' built
    case $engines in *post*) it 'a server is started' "$server" make "$pg" && proxied ;; esac
    for e in $engines; do
      it "$e: the wards are made" on "$e" wards
      for w in free limited; do
        it "$e: killed, ward $w" killed "$e" $w "$2"
        it "$e: stress, ward $w" stressed "$e" $w $((20 * $2))
        it "$e: one token twice, ward $w" on "$e" twice $w $((10 * $2))
      done
      it "$e: race" on "$e" race $((50 * $2))
      it "$e: limit" on "$e" limit 8 $((5 * $2))
    done
    case $engines in *post*)
      for w in free limited; do
        it "post: crashing, ward $w" crashing $w "$2"
        it "post: cuts, ward $w" on post cuts $w "$control" 100
        it "post: killed server at every step, ward $w" on post server $w kill 0 1
        for step in 0 2 4 6 8; do it "post: a client stopped at step $step, ward $w" on post stopped $w $step; done
      done ;;
    esac
    it 'lite: no memory grows' on lite memory 100000
    counted
    exit ;;
  figures)
    built && bash "$root/tests/store/figures.sh" "$place" "$lib"
    exit ;;
esac

it 'the store and its tests are built' built
(lite=sqlite:$place/busy.db; on lite wards && on lite stopped free 4) > "$work/busy" 2>&1 &
busy=$!
for compiler in gcc clang; do
  if command -v $compiler > /dev/null; then it "no warning of $compiler, conversions among them" clean $compiler; else echo "tests/store.sh: no $compiler; left out"; fi
done
it 'the header compiles by itself as C99' header cc c c99
it 'the header compiles by itself as C++17' header c++ c++ c++17
it 'no function has more than 40 lines' short_functions
it 'a build without SQLite' alone SQLITE= sqlite3_
it 'a build without PostgreSQL' alone POSTGRESQL= ' PQ'
it 'an install has the header, both libraries, pkg-config and the man page; the shared one shows the calls of the header alone' installed
it 'the ten lines of docs/STORE.md run from an install, over both libraries, and print what is written there' example
it 'make uninstall-store takes the store away and leaves the kit' removed
cases lite 30000
case $engines in *post*)
  it 'a PostgreSQL server is started, on a socket, as another user' "$server" make "$pg"
  proxied
  cases post 6000
  faults ;;
esac
if [ "$(id -u)" -eq 0 ] && mkdir -p "$place/small" && mount -t tmpfs -o size=1m none "$place/small" 2> /dev/null; then
  umount "$place/small"
  it 'lite: a full disk' full_lite
  case $engines in *post*) it 'post: a full disk' full_post ;; esac
else
  echo 'tests/store.sh: a small file system can not be mounted here; the full disk is left out'
fi
for e in $engines; do
  it "$e: address and undefined behaviour" sanitized "$e"
  it "$e: the thread checker" race_checked "$e"
done
if command -v valgrind > /dev/null; then it 'lite: valgrind' grinded lite; else echo 'tests/store.sh: no valgrind; left out'; fi
for patch in "$root"/tests/store/wrong/*.patch; do
  case "$engines $(sed -nE 's/^# refused by: ([a-z]+).*/\1/p' "$patch")" in 'lite post') continue ;; esac
  it "refused: $(sed -nE 's/^# wrong: //p' "$patch")" wrong "$patch"
done
wait $busy && busy=0 || busy=1
it "lite: a client stopped within a call: the others are told busy, then go on" test $busy -eq 0
[ $busy -eq 0 ] || cat "$work/busy"
counted
