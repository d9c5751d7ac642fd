#!/usr/bin/env bash
# The kit as a record maker meets it: the header in three languages, an install into a fresh prefix, hosts that are
# built from pkg-config alone and outside the repository. It needs libnutrameza.a (target/staticlib, or the folder that
# NUTRAMEZA_LIB names) and target/bin/nutrameza_survey; without them the tests fail. The last line is 'N passed, M
# failed'.
. "$(dirname "${BASH_SOURCE[0]}")/it.sh"
lib=$(cd "$root" && realpath -m "${NUTRAMEZA_LIB:-target/staticlib}")
prefix=$work/prefix
strict='-O2 -Wall -Wextra -Werror -pedantic'

# flags OPTION..: what pkg-config says of the installed kit, its archive; where the tool is missing, the .pc file is
# read here
flags() {
  if command -v pkg-config > /dev/null; then
    PKG_CONFIG_LIBDIR=$prefix/lib/pkgconfig PKG_CONFIG_PATH= pkg-config "$@" nutrameza-static
  else
    read_pc nutrameza-static "$@"
  fi
}

# read_pc MODULE OPTION..: Cflags and Libs of the .pc file, with its variables put in
read_pc() {
  local pc=$prefix/lib/pkgconfig/$1.pc line field out=''
  shift
  local -A variable=()
  while IFS= read -r line; do
    while [[ $line =~ \$\{([a-z_]+)\} ]]; do line=${line//"${BASH_REMATCH[0]}"/${variable[${BASH_REMATCH[1]}]-}}; done
    if [[ $line =~ ^([a-z_]+)=(.*)$ ]]; then variable[${BASH_REMATCH[1]}]=${BASH_REMATCH[2]}; fi
    for field in "$@"; do
      case $field:$line in
        --cflags:Cflags:*) out+=" ${line#*:}" ;;
        --libs:Libs:*) out+=" ${line#*:}" ;;
        --modversion:Version:*) out+=" ${line#*:}" ;;
      esac
    done
  done < "$pc" && echo $out
}

# compiled LANGUAGE STANDARD: the header's functions in a language, run, with the ward's image as what they write
compiled() {
  local compiler=cc
  [ "$1" = c ] || compiler=g++
  $compiler -x "$1" "-std=$2" $strict "-I$root/include" "$root/tests/host/words.c" -o "$work/words_$2" &&
    "$work/words_$2" "$work/words_$2.img" && cmp "$work/words_$2.img" "$work/ward.img"
}

# alone LANGUAGE STANDARD: a file that includes the header and nothing else
alone() {
  local compiler=cc
  [ "$1" = c ] || compiler=g++
  echo '#include <nutrameza.h>' | $compiler -x "$1" "-std=$2" $strict "-I$root/include" -fsyntax-only -
}

ward_image() {
  "$root/tools/policy" build "$root/examples/ward.policy" -o "$work/ward.img"
}

installed() {
  make -s -C "$root" install "PREFIX=$prefix" "NUTRAMEZA_LIB=$lib" &&
    cmp "$lib/libnutrameza.a" "$prefix/lib/libnutrameza.a" && cmp "$root/include/nutrameza.h" "$prefix/include/nutrameza.h" &&
    test -s "$prefix/lib/pkgconfig/nutrameza.pc" && ! grep -q '@' "$prefix/lib/pkgconfig/nutrameza.pc"
}

# Each program comes along if it is built, and nothing else stands in bin/.
programs_installed() {
  local p
  test -d "$prefix/lib" || return 1
  for p in nutrameza_script nutrameza_survey; do
    if [ -x "$root/target/bin/$p" ]; then
      cmp "$root/target/bin/$p" "$prefix/bin/$p" || return 1
    elif [ -e "$prefix/bin/$p" ]; then
      return 1
    fi
  done
}

staged() {
  make -s -C "$root" install "DESTDIR=$work/stage" PREFIX=/opt/kit "NUTRAMEZA_LIB=$lib" &&
    test -s "$work/stage/opt/kit/lib/libnutrameza.a" && grep -qx 'prefix=/opt/kit' "$work/stage/opt/kit/lib/pkgconfig/nutrameza.pc"
}

same_flags() {
  [ "$(read_pc nutrameza --cflags --libs)" = "-I$prefix/include -L$prefix/lib -lnutrameza" ] &&
    [ "$(read_pc nutrameza-static --cflags --libs)" = "-I$prefix/include -L$prefix/lib -l:libnutrameza.a" ] &&
    [ "$(flags --cflags --libs | xargs)" = "$(read_pc nutrameza-static --cflags --libs)" ] &&
    [ "$(flags --modversion)" = "$(cat "$root/VERSION")" ] && [ "$(read_pc nutrameza --modversion)" = "$(cat "$root/VERSION")" ]
}

# host NAME SOURCE FLAG..: a host built in its own folder with nothing of the kit but what pkg-config says
host() {
  local name=$1 source=$2
  shift 2
  mkdir -p "$work/$name" && cd "$work/$name" && cc -std=c99 $strict $(flags --cflags) "$source" $(flags --libs) "$@" -o host
}

# block PAGE NAME NUMBER: of the blocks of that name in a page of docs/, the one of that number, from 1
block() {
  awk -v open="\`\`\`$2" -v number="$3" \
    '$0 == "```" { inside = 0 } inside { print } $0 == open { inside = ++seen == number }' "$root/docs/$1"
}

# shown PAGE NAME NUMBER FILE: the block is a part of the file
shown() {
  block "$1" "$2" "$3" > part && test -s part &&
    python3 -c 'import sys; sys.exit(open(sys.argv[1]).read() not in open(sys.argv[2]).read())' part "$4"
}

# The commands of the first page, by what pkg-config says; what the page shows of the program and of the policy is
# theirs.
first_host() {
  local cflags libs
  cflags=$(flags --cflags) && libs=$(flags --libs) && mkdir -p "$work/first" && cd "$work/first" && ln -s "$root/tools" "$root/examples" . &&
    block START.md 'text first' 1 > page && test -s page &&
    (pkg-config() { case $1 in --cflags) echo $cflags ;; --libs) echo $libs ;; esac } && replayed < page) > said &&
    diff said page &&
    shown START.md 'c first' 1 examples/first.c && shown START.md 'c first' 2 examples/first.c &&
    shown START.md 'text policy' 1 examples/ward.policy
}

# Every piece of C that a page shows under a name stands in the example of that name, and there are as many as now.
shown_everywhere() {
  local page block count=0
  cd "$root/docs" && for page in *.md; do
    for block in $(sed -nE 's/^```c ([a-z_]+)$/\1/p' "$page" | sort -u); do
      for number in $(seq "$(grep -c "^\`\`\`c $block\$" "$page")"); do
        (cd "$work" && shown "$page" "c $block" "$number" "$root/examples/$block.c") || { echo "$page: $block $number"; return 1; }
        count=$((count + 1))
      done
    done
  done && [ "$count" -ge 7 ]
}

# The pieces of the reference, run.
pieces() {
  host pieces "$root/examples/pieces.c" && ./host > said && head -3 said | diff - <(printf '%s\n' '32 bytes, tidy 28' \
    'Head may prescribe: 1; roles that may: 3' 'through Head, granted to Doctor') && sed -n 4p said | grep -q '^p wcnf '
}

# After it the ledger has the second window open and both roles in the user's history.
first_ledger() {
  [ "$(od -An -v -tx8 "$work/first/site/ledger" | xargs)" = "$(printf '%016x ' 2 3 0 0 2 2 0 0 0 0 0 0 0 0 0 0 0 0 | xargs)" ]
}

# It is strict C99 and a C++ program too, and prints the same.
first_strict() {
  host first_c "$root/examples/first.c" && cp "$work/first/site/policy.img" . && ./host > c.out && rm ledger &&
    g++ -x c++ -std=c++17 $strict $(flags --cflags) "$root/examples/first.c" $(flags --libs) -o cxx && ./cxx > cxx.out &&
    diff c.out cxx.out && sed '1,/^\$ .*\/first site$/d' "$work/first/page" | diff - c.out
}

# Started again it takes up the ledger and closes the window that was left open; with a ledger of another length it says
# so and leaves it.
first_again() {
  cd "$work/first_c" && ./host > again.out && diff <(echo 'close: window 1' && cat c.out) again.out &&
    head -c 143 ledger > cut && cp cut ledger && ! ./host > cut.out && grep -q '^ledger: ' cut.out && cmp cut ledger
}

# Without an image it is told so.
first_without_image() {
  mkdir -p "$work/bare" && cd "$work/bare" && ! "$work/first/first" > said && grep -qx 'policy: refused, 1 length (0)' said
}

# The ledger's file and then its folder are on disk before the program says that roles go live, and no name is put in
# place elsewhere.
first_synced() {
  mkdir -p "$work/traced" && cd "$work/traced" && cp "$work/first/site/policy.img" . &&
    strace -e trace=openat,renameat,renameat2,rename,fsync,write -o trace "$work/first_c/host" . > said &&
    [ "$(grep -c '^fsync' trace)" = $((2 * $(grep -c '^rename' trace))) ] && [ "$(grep -c '^rename' trace)" -gt 4 ] && ! grep -q '^rename(' trace
}

# Each kind of obstacle, told by the example under the policy beside it; what the page shows of it stands in it.
why_not() {
  host why_not "$root/examples/why_not.c" && "$root/tools/policy" build "$root/examples/clinic.policy" -o policy.img &&
    block OPERATIONS.md 'text why_not' 1 > page && test -s page && ./host policy.img > said && diff said page &&
    shown OPERATIONS.md 'c why_not' 1 "$root/examples/why_not.c"
}

why_not_cxx() {
  g++ -x c++ -std=c++17 $strict $(flags --cflags) "$root/examples/why_not.c" $(flags --libs) -o "$work/why_not_cxx" &&
    cd "$work/why_not" && "$work/why_not_cxx" policy.img | diff - page
}

why_not_sanitized() {
  cc -std=c99 $strict -g -fsanitize=address,undefined -fno-sanitize-recover=all $(flags --cflags) "$root/examples/why_not.c" $(flags --libs) \
    -o "$work/why_not_sanitized" && cd "$work/why_not" && "$work/why_not_sanitized" policy.img | diff - page
}

# The help desk's command of the page, on a ledger in which ANNA's window 0 holds Doctor and her window 1 is open.
why_at_the_desk() {
  mkdir -p "$work/desk" && cd "$work/desk" && ln -s "$root/tools" "$root/examples" . &&
    block OPERATIONS.md 'text why' 1 > page && test -s page &&
    numbers 3 1 1 1 0 0 0 0 0 0 0 0 0 0 0 0 0 0 0 0 0 0 0 0 0 0 0 0 0 0 0 0 0 0 0 0 > ledger &&
    NUTRAMEZA_LIB=$lib replayed < page > said && diff said page
}

# numbers N..: a file of numbers below 256, eight bytes each
numbers() {
  local number
  for number in "$@"; do printf "\\x$(printf %02x "$number")\\0\\0\\0\\0\\0\\0\\0"; done
}

# replayed: the commands of a transcript, each with what it prints
replayed() {
  local line
  while IFS= read -r line; do
    case $line in '$ '*) echo "$line" && eval "${line#?}" ;; esac
  done
}

# The commands of the officer's page, by the installed program.
surveyed() {
  mkdir -p "$work/survey" && cd "$work/survey" && ln -s "$root/tools" "$root/examples" . &&
    block SURVEY.md text 1 > page && test -s page &&
    test -x "$prefix/bin/nutrameza_survey" && PATH=$prefix/bin:$PATH replayed < page > said && diff said page
}

# A ledger of four windows, and one of eight with window 4 open beside window 1.
carrying() {
  block OPERATIONS.md 'text carry' 1 > "$work/carry.out" && test -s "$work/carry.out" &&
    host carry "$root/examples/carry.c" && mv host carry && mkdir site && cp "$work/ward.img" site/policy.img &&
    numbers 2 3 0 0 2 2 0 0 0 0 > site/ledger.4 && numbers 18 3 0 0 2 2 0 0 0 0 0 0 0 0 0 0 0 0 > site/busy.8 &&
    replayed < "$work/carry.out" > said && diff said "$work/carry.out"
}

# The ledger over and back is the old one byte for byte, and so is the busy one once its window 4 is closed; the files
# carried stay.
carried() {
  cd "$work/carry/site" && numbers 2 3 0 0 2 2 0 0 0 0 | cmp - ledger.4 && cmp ledger.4 ledger.back && cmp ledger.4 busy.4 &&
    numbers 2 3 0 0 2 2 0 0 0 0 0 0 0 0 0 0 0 0 | cmp - ledger.8 && numbers 18 3 0 0 2 2 0 0 0 0 0 0 0 0 0 0 0 0 | cmp - busy.8
}

carrying_cxx() {
  g++ -x c++ -std=c++17 $strict $(flags --cflags) "$root/examples/carry.c" $(flags --libs) -o "$work/carry_cxx" &&
    cd "$work/carry" && "$work/carry_cxx" over site ledger.4 ledger.cxx && cmp site/ledger.8 site/ledger.cxx
}

# A policy put in place while the user has a window open with a role that is taken away.
changing() {
  block CHANGING.md text 1 > "$work/change.out" && test -s "$work/change.out" &&
    host change "$root/examples/change.c" && mv host change &&
    ln -s "$root/tools" "$root/examples" . && numbers 1 2 2 2 0 0 0 0 0 0 0 0 0 0 0 0 0 0 > ledger &&
    NUTRAMEZA_LIB=$lib replayed < "$work/change.out" > said && diff said "$work/change.out"
}

# The ledger has a second line, and of the first the window is closed and the past is left.
changed() {
  cd "$work/change" && numbers 0 2 0 0 0 0 0 0 0 0 0 0 0 0 0 0 0 0 0 0 0 0 0 0 0 0 0 0 0 0 0 0 0 0 0 0 | cmp - ledger
}

# What it refuses leaves the ledger: fewer users, an image that is refused, a ledger of another length.
changed_not() {
  cd "$work/change" && cp ledger kept && ! ./change new.img old.img ledger && ! ./change old.img ledger ledger &&
    ! ./change old.img new.img ledger && cmp kept ledger
}

changing_cxx() {
  g++ -x c++ -std=c++17 $strict $(flags --cflags) "$root/examples/change.c" $(flags --libs) -o "$work/change_cxx" &&
    cd "$work/change" && cp ledger again && "$work/change_cxx" new.img new.img again && cmp ledger again
}

judged() {
  mkdir -p "$work/images" && python3 "$root/tests/host/images.py" "$work/images" 3000 &&
    host judge "$root/tests/host/judge.c" && cd "$work/images" && "$work/judge/host" [0-9]* > "$work/judged" &&
    diff "$work/judged" expected && [ "$(cut -d' ' -f1 expected | sort -nu | xargs)" = '0 1 2 3 4 5 6 7 8 22 23' ]
}

# The tidy images of the images above, by the kit and by the rules written again.
tidied() {
  mkdir -p "$work/tidied" && host tidy "$root/tests/host/tidy.c" && cd "$work/images" && "$work/tidy/host" "$work/tidied" [0-9]* &&
    diff -r tidy "$work/tidied" && [ "$(ls tidy | wc -l)" -gt 400 ]
}

# quiet STATUS: what 'make lib' says, and its exit status, where the prover says three lines and ends with STATUS
quiet() {
  printf '%s\n' '#!/bin/sh' 'echo "library sets: loaded"' 'echo "rt: sets proved (8 s)"' 'echo logic=proved >&2' "exit $1" > "$work/rt" &&
    chmod +x "$work/rt" && make -s -C "$root" lib "RT=$work/rt" > "$work/quiet" 2>&1
}

quiet_done() {
  quiet 0 && grep -v '^make' "$work/quiet" | diff - <(echo 'rt: sets proved (8 s)') &&
    diff <(sort "$root/target/make/lib") <(printf '%s\n' 'library sets: loaded' 'logic=proved' 'rt: sets proved (8 s)')
}

quiet_failed() {
  ! quiet 3 && grep -q 'exit status 3' "$work/quiet" && grep -qx 'library sets: loaded' "$work/quiet" &&
    grep -qx 'logic=proved' "$work/quiet"
}

small_stack() {
  host stack "$root/tests/host/stack.c" -pthread && timeout 300 ./host
}

# An ask as clauses, solved by a program that tries every assignment: Doctor, with four permissions of weight 3 and
# itself.
clauses_solved() {
  local form
  for form in '' --row; do
    NUTRAMEZA_LIB=$lib PMAXSAT="python3 $root/tests/host/pmaxsat.py $form" bash "$root/examples/clauses.sh" > "$work/solved" || return 1
    diff "$work/solved" <(printf '%s\n' 'target/ward/ask.wcnf: p wcnf 11 26 18, 258 bytes' 'roles 0; violated weight 13') || return 1
  done
}

# The text of the example is the page's.
clauses_listed() {
  sed -n '/^```wcnf$/,/^```$/p' "$root/docs/CLAUSES.md" | sed '1d;/^```$/,$d' | cmp - "$root/target/ward/ask.wcnf"
}

# Bounds that no role set meets: the text has no model.
clauses_without_a_set() {
  NUTRAMEZA_LIB=$lib PMAXSAT="python3 $root/tests/host/pmaxsat.py" bash "$root/examples/clauses.sh" 3 3 1 1 | tail -1 | grep -qx 'no role set'
}

it 'the library is there' test -s "$lib/libnutrameza.a"
it 'the ward policy builds' ward_image
it 'make shows a line for each crate that is proved and keeps the rest' quiet_done
it 'make fails where the prover does, and shows all that it said' quiet_failed
for standard in c99 c11; do
  it "the header compiles by itself as $standard" alone c $standard
  it "the inline functions are right as $standard" compiled c $standard
done
it 'the header compiles by itself as c++17' alone c++ c++17
it 'the inline functions are right as c++17' compiled c++ c++17
it 'make install puts library, header and nutrameza.pc into a fresh prefix' installed
it 'make install puts each program there exactly if it is built' programs_installed
it 'make install with DESTDIR keeps the prefix in nutrameza.pc' staged
it 'pkg-config says where the header and the library are' same_flags
it 'the commands of docs/START.md build a host from pkg-config alone and print what is written there' first_host
it 'the C that the pages show is that of the examples' shown_everywhere
it 'the pieces of docs/REFERENCE.md do what is written there' pieces
it 'the first host leaves the ledger on disk' first_ledger
it 'the first host is strict C99 and a C++ program' first_strict
it 'the first host takes up its ledger, and refuses one that is cut' first_again
it 'the first host without an image says so' first_without_image
if strace -o /dev/null true 2> /dev/null; then
  it 'the first host has the ledger and its folder on disk each time' first_synced
else
  echo 'not installed, or not permitted: strace'
fi
it 'the example of obstacles tells of each kind what docs/OPERATIONS.md writes, and the page shows a part of it' why_not
it 'the example of obstacles is a C++ program too' why_not_cxx
it 'the example of obstacles runs with sanitizers' why_not_sanitized
it 'the policy tool explains a refused ask as docs/OPERATIONS.md writes it' why_at_the_desk
it 'the survey of docs/SURVEY.md is what the installed program prints' surveyed
it 'the program that carries ledgers does what docs/OPERATIONS.md writes' carrying
it 'a ledger carried over and back comes out byte for byte' carried
it 'the program that carries ledgers is a C++ program too' carrying_cxx
it 'the change of docs/CHANGING.md, with a window open, does what is written there' changing
it 'the changed ledger has the added line and the past, and no window' changed
it 'a change that is refused leaves the ledger' changed_not
it 'the program that changes a policy is a C++ program too' changing_cxx
it 'the check and the rules written again in Python judge 3,000 images alike, each number from 0 to 8, 22 and 23 among them' judged
it 'the kit and the rules written again write the same tidy images of those that are accepted' tidied
it 'long and deep asks, their clause texts and obstacles, the longest moves and the calls over the image fit a stack of 64 KiB' small_stack
it 'the clauses of an ask are solved and the roles read back, from literals and from a row of digits' clauses_solved
it 'the text of the example is that of docs/CLAUSES.md' clauses_listed
it 'an ask without a role set has a text without a model' clauses_without_a_set
counted
