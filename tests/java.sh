#!/usr/bin/env bash
# The binding for Java: the jar and a second build of it, its tests with the checks of the virtual machine on
# (-Xcheck:jni, of which no warning is let pass), generated calls beside the separate solver's answers, the store on
# SQLite and on a PostgreSQL server of its own, where the libraries are loaded from, the pages' examples. It needs
# libnutrameza.a (target/staticlib, or the folder that NUTRAMEZA_LIB names), cargo and a JDK (JAVA_HOME, or that of the
# path); a part whose program is missing is named in one line and left out. The last line is 'N passed, M failed'.
. "$(dirname "${BASH_SOURCE[0]}")/it.sh"
. "$root/tests/golden.sh"
export LC_ALL=C.UTF-8
unset JAVA_TOOL_OPTIONS _JAVA_OPTIONS JDK_JAVA_OPTIONS LD_LIBRARY_PATH
lib=$(cd "$root" && realpath -m "${NUTRAMEZA_LIB:-target/staticlib}")
home=${JAVA_HOME:-$(dirname "$(dirname "$(realpath "$(command -v javac || echo /none/none/none)")")")}
server=$root/tests/store/server.sh

if [ ! -x "$home/bin/javac" ]; then
  echo 'not installed: a JDK; the binding for Java is not tested'
  echo '0 passed, 0 failed'
  exit 0
fi
jar=$work/out/nutrameza.jar
native=META-INF/native/linux-x86_64
# Without a disk below it a sync takes no time.
place=$(mktemp -d --tmpdir="$([ -w /dev/shm ] && echo /dev/shm || echo "${TMPDIR:-/tmp}")")
chmod 755 "$place"
ended() {
  [ ! -d "$place/pg/data" ] || "$server" stop "$place/pg"
  rm -rf "$work" "$place"
}
trap ended EXIT

# made FOLDER [WORD..]: the jars in that folder
made() {
  local out=$1
  shift
  make -s -C "$root" java "java_out=$out" "NUTRAMEZA_LIB=$lib" "JAVA_HOME=$home" "$@"
}
built() { made "$work/out" $without && mkdir -p "$work/tests" && "$home/bin/javac" -Xlint:all -Werror -cp "$jar" -d "$work/tests" "$root"/tests/java/*.java; }
same_jar() { made "$work/again" $without && cmp "$jar" "$work/again/nutrameza.jar" && cmp "$work/out/nutrameza-sources.jar" "$work/again/nutrameza-sources.jar"; }

# Class files of version 55, which is Java 11's.
old_classes() {
  local class
  find "$work/out/classes" -name '*.class' | while read -r class; do
    [ "$(od -An -t u1 -j 6 -N 2 "$class" | tr -d ' \n')" = 055 ] || { echo "$class"; return 1; }
  done
}
needs() { readelf -d "$work/out/classes/$native/$1" | sed -nE 's/.*\(NEEDED\).*\[(.*)\]/\1/p' | sed 's/\.so.*//' | sort | tr '\n' ' '; }
natives() {
  [ "$(needs libnutrameza_java.so)" = 'libc ' ] && { [ -n "$without" ] || [ "$(needs libnutrameza_store_java.so)" = 'libc libpq libsqlite3 ' ]; } &&
    for file in "$work/out/classes/$native"/*.so; do ! nm -D --defined-only "$file" | awk '{ print $3 }' | grep -v '^Java_nutrameza_' || return 1; done
}
clean() { # COMPILER
  local file
  for file in kit store; do
    "$1" -std=c99 -O2 -fPIC -Wall -Wextra -Wpedantic -Wconversion -Werror "-I$root/include" "-I$work/out/include" "-I$home/include" \
      "-I$home/include/linux" -c "$root/java/native/$file.c" -o "$work/clean.o" || return 1
  done
}
short_functions() {
  awk 'FNR == 1 { open = 0 } /^{/ { open = FNR } /^}/ && open { if (FNR - open > 40) { print FILENAME ":" open; bad = 1 } open = 0 } END { exit bad }' \
    "$root"/java/native/*.c &&
    awk 'FNR == 1 { open = 0 } /^    [a-zA-Z<].*\) ?(throws [A-Za-z, ]+)?\{$/ { open = FNR } /^    }$/ && open { if (FNR - open > 40) { print FILENAME ":" open; bad = 1 } open = 0 }
      END { exit bad }' "$root"/java/src/nutrameza/*.java
}
documented() { make -s -C "$root" javadoc "java_out=$work/out" "JAVA_HOME=$home" && test -s "$work/out/javadoc/nutrameza/nutrameza/Store.html"; }

# run WORD.. : the tests of these classes, checked by the virtual machine; what it warns of is a failure
run() {
  timeout 290 "$home/bin/java" -Xcheck:jni -Xmx256m "-Djava.io.tmpdir=$work" "-Dnutrameza.root=$root" "-Dnutrameza.golden=$work/golden" \
    "-Dnutrameza.damage=$root/tests/java/damage" $native_access -cp "$jar:$work/tests" "$@" > "$work/ran" 2>&1
  local status=$?
  sed '$d' "$work/ran"
  if grep -iE '^(warning|fatal)|jni' "$work/ran" > "$work/warned"; then
    echo "FAILED  the virtual machine warns of $(wc -l < "$work/warned") things"
    tail -n 1 "$work/ran" | awk '{ print $1 " passed, " $3 + 1 " failed" }'
  else
    tail -n 1 "$work/ran"
  fi
  return $status
}
# Java 24 and later warn where a library is loaded without leave.
native_access=$("$home/bin/java" --enable-native-access=ALL-UNNAMED -version > /dev/null 2>&1 && echo --enable-native-access=ALL-UNNAMED)
tests='nutrameza.tests.Run nutrameza.HeaderTest nutrameza.tests.KitTest nutrameza.tests.BufferTest nutrameza.tests.GoldenTest'
stores='nutrameza.tests.Run nutrameza.tests.StoreTest nutrameza.tests.RaceTest'

# loads WORDS EXPECTED [FLAG..]: what loading says
loads() {
  local which=$1 expected=$2 said
  shift 2
  said=$("$home/bin/java" $native_access "$@" -cp "$jar:$work/tests" nutrameza.tests.Loading "$which" 2>&1) || { echo "$said"; return 1; }
  echo "$said"
  grep -qE -- "$expected" <<< "$said"
}
loading() {
  mkdir -p "$work/tmp" "$work/natives" "$work/empty" && cp "$work/out/classes/$native"/*.so "$work/natives" &&
    loads kit '^loaded$' "-Djava.io.tmpdir=$work/tmp" && rmdir "$work/tmp" &&
    loads kit '^loaded$' "-Dnutrameza.library.path=$work/natives" "-Djava.io.tmpdir=$work/nowhere" &&
    loads kit "not loaded: $work/empty/libnutrameza_java.so: no such file, and the property nutrameza.library.path" "-Dnutrameza.library.path=$work/empty" &&
    loads kit 'not loaded: this jar has no libnutrameza_java.so for linux-sparc; -Dnutrameza.library.path=FOLDER' -Dos.arch=sparc &&
    loads kit "not loaded: it can't be copied out of the jar" "-Djava.io.tmpdir=$work/nowhere" &&
    loads twice '^not loaded' -Dos.name=Plan9 && [ "$(loads twice . -Dos.name=Plan9 | grep -c 'for plan9-x86_64')" -eq 2 ]
}
loading_store() { loads store '^loaded with databases$' "-Djava.io.tmpdir=$work"; }
another_version() { # a library of another version is refused
  sed 's/define NUTRAMEZA_VERSION_MINOR 0/define NUTRAMEZA_VERSION_MINOR 7/' "$root/include/nutrameza.h" > "$work/out/include/nutrameza.h" &&
    mkdir -p "$work/other" && cc -std=c99 -shared -fPIC "-I$work/out/include" "-I$home/include" "-I$home/include/linux" "-I$root/java/native" \
    "$root/java/native/kit.c" "$lib/libnutrameza.a" -o "$work/other/libnutrameza_java.so" && rm "$work/out/include/nutrameza.h" &&
    loads kit 'not loaded: libnutrameza_java.so is of version 1.7.0, and this jar of' "-Dnutrameza.library.path=$work/other"
}
as_module() { "$home/bin/java" -p "$jar" --describe-module nutrameza > "$work/module" && grep -qx 'exports nutrameza' "$work/module" && ! grep requires "$work/module" | grep -v java.base; }
installed() {
  make -s -C "$root" install-java "PREFIX=$work/prefix" "java_out=$work/out" "NUTRAMEZA_LIB=$lib" "JAVA_HOME=$home" $without &&
    cmp "$jar" "$work/prefix/share/java/nutrameza.jar" && test -s "$work/prefix/share/java/nutrameza-sources.jar"
}
removed() { make -s -C "$root" uninstall-java "PREFIX=$work/prefix" && ! find "$work/prefix" -name '*.jar' | grep .; }

# block FENCE PAGE: the page's block with this fence
block() { awk -v fence="\`\`\`$1" '$0 == fence { on = 1; next } /^```/ { if (on) exit } on' "$root/docs/$2"; }

# shown FENCE PAGE FILE: the page shows ten lines or so of the file as they are there
shown() {
  block "$1" "$2" > "$work/block" && [ "$(wc -l < "$work/block")" -ge 10 ] && [ "$(wc -l < "$work/block")" -le 11 ] &&
    python3 -c 'import sys; sys.exit(open(sys.argv[1]).read() not in open(sys.argv[2]).read())' "$work/block" "$root/examples/$3"
}
policy() {
  make -s -C "$root" install "PREFIX=$work/kit" "NUTRAMEZA_LIB=$lib" && "$work/kit/bin/nutrameza" build "$root/examples/ward.policy" -o "$work/policy.img"
}
ward_in_java() {
  "$home/bin/java" $native_access -cp "$jar" "$root/examples/Ward.java" "$work/policy.img" > "$work/ward_says" && diff "$work/ward_says" <(block 'text java' LANGUAGES.md) &&
    diff "$work/ward_says" <(block 'text ward' JAVA.md) && shown 'java ward' LANGUAGES.md Ward.java && shown 'java ward' JAVA.md Ward.java
}
ward_in_c() {
  cc -std=c99 -Wall -Wextra -Werror -pedantic "-I$root/include" "$root/examples/ward.c" "$lib/libnutrameza.a" -o "$work/ward" &&
    "$work/ward" < "$work/policy.img" > "$work/ward_says" && diff "$work/ward_says" <(block 'text c' LANGUAGES.md) && shown 'c ward' LANGUAGES.md ward.c
}
ward_in_python() {
  PYTHONDONTWRITEBYTECODE=1 PYTHONPATH=$work/kit/lib/python3 python3 "$root/examples/ward.py" > "$work/ward_says" && diff "$work/ward_says" <(block 'text python' LANGUAGES.md) &&
    shown 'python ward' LANGUAGES.md ward.py
}
# The page's lines on the store, in a class around them.
store_lines() {
  mkdir -p "$work/page" && cd "$work/page" && {
    echo 'import nutrameza.*; public class Page { public static void main(String[] words) throws Exception {'
    echo 'Policy policy = Policy.read(java.nio.file.Path.of(words[0]));'
    block 'java store' JAVA.md | sed 's/^}$/System.out.println(answer.roles());\n}/'
    echo '} }'
  } > Page.java && [ "$("$home/bin/java" $native_access -cp "$jar" Page.java "$work/policy.img")" = '{1}' ] &&
    python3 -c 'import sys; lines = [" * " + l for l in sys.stdin]; sys.exit("".join(lines) not in open(sys.argv[1]).read())' \
      "$root/java/src/nutrameza/Store.java" < <(block 'java store' JAVA.md)
}

without=JAVA_STORE=
if has_engines; then without=''; else echo 'not installed: headers of SQLite or PostgreSQL; the store is not called'; fi
it 'the jar and the tests are built, without a warning' built
it 'generated calls with the answers of the separate solver' golden_calls 500
[ -s "$jar" ] || { counted; exit; }
if "$home/bin/jar" --help 2>&1 | grep -q -e --date; then it 'a second build gives the same jars' same_jar; else echo 'not installed: a jar that takes a date (JDK 17)'; fi
it 'the classes are of Java 11' old_classes
it 'the kit needs the C library alone, the store its databases too; they show the native methods alone' natives
for compiler in gcc clang; do
  if command -v $compiler > /dev/null; then it "no warning of $compiler, conversions among them" clean $compiler; else echo "not installed: $compiler"; fi
done
it 'no function has more than 40 lines' short_functions
it 'javadoc has nothing to say' documented
it 'the jar is a module that needs java.base alone' as_module
it 'the kit is loaded from the jar or a folder without the databases, leaves no file, and says what is missing' loading
it 'a library of another version is not taken' another_version
tally run $tests
if [ -z "$without" ]; then
  it 'the store brings the databases along' loading_store
  tally run "-Dnutrameza.store=sqlite:$place/a.db" $stores nutrameza.StoreHeaderTest
  if [ -n "${PGBIN:-}" ] || ls /usr/lib/postgresql/*/bin/initdb > /dev/null 2>&1; then
    it 'a PostgreSQL server is started' "$server" make "$place/pg"
    tally run "-Dnutrameza.store=postgresql://store@/postgres?host=$place/pg&port=5499" $stores
  else
    echo 'not installed: a PostgreSQL server'
  fi
fi
it "an image of the ward's text" policy
it 'the ward of ten lines in Java, as the pages have it, says what they say' ward_in_java
it 'the ward of ten lines in C' ward_in_c
it 'the ward of ten lines in Python' ward_in_python
[ -n "$without" ] || it 'the lines on the store of docs/JAVA.md run, and the class shows the same' store_lines
it 'make install-java puts the jars there' installed
it 'make uninstall-java takes them away' removed
counted
