#!/usr/bin/env bash
# The kit as a package: what an install has and an uninstall leaves, programs built against it in every way that is
# offered, the shared library as an auditor looks at it, man pages, tarballs, and every call under sanitizers and
# valgrind. It needs what tests/host.sh needs. A tool that is missing is named in one line, and what it is for is left
# out.
. "$(dirname "${BASH_SOURCE[0]}")/it.sh"
export LC_ALL=C
lib=$(cd "$root" && realpath -m "${NUTRAMEZA_LIB:-target/staticlib}")
prefix=$work/prefix
version=$(cat "$root/VERSION")
shared=$prefix/lib/libnutrameza.so.$version
every_call=$root/tests/host/every_call.c
strict='-O2 -Wall -Wextra -Werror -pedantic'
calls=$(sed -nE 's/^uint64_t (nutrameza_[a-z_]+)\(.*/\1/p' "$root/include/nutrameza.h" | sort)

# has TOOL: whether a tool is there; if not it is named
has() {
  command -v "$1" > /dev/null || { echo "not installed: $1"; return 1; }
}

# to_prefix TARGET..: a target of the Makefile, for the prefix of these tests
to_prefix() {
  make -s -C "$root" "$@" "PREFIX=$prefix" "NUTRAMEZA_LIB=$lib"
}

# flags MODULE: what pkg-config says of a module of the install
flags() {
  PKG_CONFIG_LIBDIR=$prefix/lib/pkgconfig PKG_CONFIG_PATH= pkg-config --cflags --libs "$1"
}

# needs_shared PROGRAM: whether the loader has to find the library for it
needs_shared() {
  readelf -d "$1" | grep -q 'NEEDED.*\[libnutrameza\.so\.1\]'
}

one_version() {
  grep -qx "#define NUTRAMEZA_VERSION_STRING \"$version\"" "$root/include/nutrameza.h" &&
    [ "$(sed -nE 's/^## ([0-9.]+) \(.*/\1/p' "$root/CHANGELOG.md" | head -1)" = "$version" ] &&
    grep -qx "NAME = \"libnutrameza.so.${version%%.*}\"" "$root/python/nutrameza/library.py" &&
    grep -qx "__version__ = \"$version\"" "$root/python/nutrameza/__init__.py"
}

# Whatever is in the prefix: files and links.
contents() {
  (cd "$prefix" && find . ! -type d | sort)
}

installed() {
  local call
  to_prefix install && contents > "$work/contents" && [ "$(readlink "$prefix/lib/libnutrameza.so")" = libnutrameza.so.1 ] &&
    [ "$(readlink "$prefix/lib/libnutrameza.so.1")" = "libnutrameza.so.$version" ] && cmp "$lib/libnutrameza.a" "$prefix/lib/libnutrameza.a" &&
    cmp "$root/CHANGELOG.md" "$prefix/share/doc/nutrameza/CHANGELOG.md" && cmp "$root/docs/START.md" "$prefix/share/doc/nutrameza/docs/START.md" &&
    cmp "$root/examples/first.c" "$prefix/share/doc/nutrameza/examples/first.c" &&
    ! grep -rq '@[A-Z]*@' "$prefix/lib/pkgconfig" "$prefix/lib/cmake" &&
    for call in $calls; do test -s "$prefix/share/man/man3/$call.3" || { echo "$call has no page"; return 1; }; done
}

# Installed twice it is the same; what the site put there itself stays when the rest is taken away.
uninstalled() {
  to_prefix install && contents | diff - "$work/contents" && echo ours > "$prefix/share/doc/nutrameza/notes" && to_prefix uninstall &&
    [ "$(contents)" = ./share/doc/nutrameza/notes ] && rm "$prefix/share/doc/nutrameza/notes" && to_prefix uninstall &&
    ! test -e "$prefix/share/doc/nutrameza" && ! test -e "$prefix/lib/cmake/nutrameza" && to_prefix install
}

# A source that is newer than the archive or a program has it made again.
stale() {
  export -n NUTRAMEZA_LIB && make -n -C "$root" -W crates/nutrameza/src/lib.rt target/staticlib/libnutrameza.a | grep -q 'tools/built library' &&
    make -n -C "$root" -W crates/nutrameza/src/lib.rt install "PREFIX=$prefix" | grep -q 'tools/built program nutrameza_survey'
}

# The installed policy tool calls the installed library, whatever else is on the machine.
policy_tool() {
  mkdir -p "$work/elsewhere" && cd "$work/elsewhere" && head -c 144 /dev/zero > ledger &&
    env -u NUTRAMEZA_LIB CC=no-such-compiler "$prefix/bin/nutrameza-policy" stopped "$root/examples/ward.policy" ledger | grep -qx 'nobody is stopped'
}

exports() {
  diff <(nm -D --defined-only "$shared" | awk '$2 != "A" { print $3 }' | sed 's/@.*//' | sort) \
    <(printf '%s\n' $calls nutrameza_shared_version | sort)
}

needs() {
  diff <(nm -D -u "$shared" | awk '{ print $2 }' | sed 's/@.*//' | sort) <(printf '%s\n' memcpy memset)
}

soname() {
  readelf -d "$shared" | grep -q 'SONAME.*\[libnutrameza\.so\.1\]' && ! readelf -d "$shared" | grep -q TEXTREL
}

# Every member of the archive is in it, and another link gives the same bytes.
same_link() {
  cp "$shared" "$work/first.so" && rm "$root/target/shared/libnutrameza.so.$version" && to_prefix install && cmp "$work/first.so" "$shared"
}

# built NAME COMPILER MODULE: every call by a compiler, with a module of pkg-config, run
built() {
  local name=$1 compiler=$2 module=$3
  $compiler $strict "$every_call" $(flags "$module") -o "$work/$name" && LD_LIBRARY_PATH=$prefix/lib "$work/$name" &&
    case $module in
      *-static) ! needs_shared "$work/$name" && env -u LD_LIBRARY_PATH "$work/$name" ;;
      *) needs_shared "$work/$name" ;;
    esac
}

cmake_project() {
  local kind
  cmake -S "$root/tests/package" -B "$work/cmake" "-DCMAKE_PREFIX_PATH=$prefix" "-DEVERY_CALL=$every_call" -DWANTED=1 > /dev/null &&
    cmake --build "$work/cmake" > /dev/null && cd "$work/cmake" &&
    for kind in nutrameza_c nutrameza_cxx static_c static_cxx; do ./$kind || return 1; done &&
    needs_shared nutrameza_cxx && ! needs_shared static_cxx && [ "$(./version)" = "$version $(at_run_time) $(at_run_time)" ]
}

# The version as one number.
at_run_time() {
  local part
  IFS=. read -r -a part <<< "$version" && echo $((1000000 * part[0] + 1000 * part[1] + part[2]))
}

# cmake_refuses VERSION: a project that asks for that version is not configured
cmake_refuses() {
  ! cmake -S "$root/tests/package" -B "$work/cmake_$1" "-DCMAKE_PREFIX_PATH=$prefix" "-DEVERY_CALL=$every_call" "-DWANTED=$1" > "$work/refused" 2>&1 &&
    grep -q 'compatible with requested' "$work/refused"
}

# warned COMPILER WHAT TEXT: the compiler refuses a statement, with a warning of that name where it has one
warned() {
  printf '#include <nutrameza.h>\nuint8_t buffer[2048];\nvoid use(void);\nvoid use(void) { %s }\n' "$3" > "$work/warned.c" &&
    ! $1 -std=c99 -Wall -Wextra -Werror "-I$prefix/include" -c "$work/warned.c" -o /dev/null 2> "$work/warnings" && grep -q "$2" "$work/warnings"
}

every_call_called() {
  cc -std=c99 "-I$root/include" -c "$every_call" -o "$work/every_call.o" &&
    diff <(nm -u "$work/every_call.o" | awk '{ print $2 }' | grep '^nutrameza_' | sort) <(printf '%s\n' $calls)
}

# sanitized SOURCE [ARGUMENT..]: a program with address and undefined behaviour sanitizers, run
sanitized() {
  local source=$1
  shift
  cc -std=c99 -g -Wall -Wextra -Werror -fsanitize=address,undefined -fno-sanitize-recover=all "-I$root/include" "$source" "$lib/libnutrameza.a" \
    -o "$work/sanitized" && "$work/sanitized" "$@"
}

# under_valgrind SOURCE [ARGUMENT..]: a program under valgrind, without an error and without a leak
under_valgrind() {
  local source=$1
  shift
  cc -std=c99 -g "-I$root/include" "$source" "$lib/libnutrameza.a" -o "$work/grinding" &&
    valgrind -q --error-exitcode=9 --leak-check=full --show-leak-kinds=all "$work/grinding" "$@"
}

# first_under HOW: the first host, sanitized or under valgrind, in a folder of its own
first_under() {
  mkdir -p "$work/site_$1" && "$root/tools/policy" build "$root/examples/ward.policy" -o "$work/site_$1/policy.img" && "$1" "$root/examples/first.c" "$work/site_$1"
}

# A page for each call and the overview, without a word from groff, with the declaration of the header.
man_pages() {
  local page
  for page in "$prefix"/share/man/man?/*; do
    groff -man -Tutf8 -K utf8 -ww -z "$page" > "$work/groff" 2>&1 && ! test -s "$work/groff" || { echo "$page"; cat "$work/groff"; return 1; }
  done
}

man_page() {
  MANPATH=$prefix/share/man MANWIDTH=80 man 3 nutrameza_short_ask > "$work/page" && grep -q 'nutrameza_short_ask - ' "$work/page" &&
    grep -q 'uint8_t \*restrict ledger, size_t ledger_len,$' "$work/page" && MANPATH=$prefix/share/man man 7 nutrameza | grep -q 'nutrameza-policy build' &&
    MANPATH=$prefix/share/man man 1 nutrameza-policy | grep -q '^ *nutrameza-policy build FILE' && MANPATH=$prefix/share/man man 1 nutrameza_script > /dev/null
}

# dist FOLDER: the tarballs of the commit, made in a clone there, with the programs that are built
dist() {
  git clone -q "$root" "$1" && mkdir -p "$1/target" && { [ ! -d "$root/target/bin" ] || cp -R "$root/target/bin" "$1/target"; } &&
    make -s -C "$1" dist "NUTRAMEZA_LIB=$lib" > "$work/sums"
}

same_tarballs() {
  (umask 077 && TZ=Asia/Tokyo dist "$work/one") && (umask 022 && dist "$work/another/place") &&
    cmp "$work/one/target/dist/nutrameza-$version.tar.gz" "$work/another/place/target/dist/nutrameza-$version.tar.gz" &&
    cmp "$work/one/target/dist/nutrameza-$version-x86_64-linux.tar.gz" "$work/another/place/target/dist/nutrameza-$version-x86_64-linux.tar.gz"
}

# The sources are the commit's, and what is unpacked below a prefix is what an install puts there.
tarballs() {
  local sources=$work/sources unpacked=$work/unpacked
  mkdir -p "$sources" "$unpacked" && cd "$work/one/target/dist" && sha256sum -c --quiet SHA256SUMS &&
    tar -xzf "nutrameza-$version.tar.gz" -C "$sources" && tar -xzf "nutrameza-$version-x86_64-linux.tar.gz" -C "$unpacked" &&
    diff <(cd "$sources/nutrameza-$version" && find . ! -type d | sort) <(cd "$work/one" && git ls-files | sed 's|^|./|' | sort) &&
    make -s -C "$work/one" install "PREFIX=$work/fresh" "NUTRAMEZA_LIB=$lib" &&
    diff -r --exclude=pkgconfig "$unpacked" "$work/fresh" && grep -qx 'prefix=/usr/local' "$unpacked/lib/pkgconfig/nutrameza.pc"
}

# A working tree that differs from the commit makes none.
no_tarball_of_changes() {
  echo >> "$work/one/README.md" && ! make -s -C "$work/one" dist "NUTRAMEZA_LIB=$lib" > "$work/refused" 2>&1 && grep -q 'differs from the commit' "$work/refused"
}

it 'header, VERSION, CHANGELOG.md and the Python package name one version' one_version
it 'make install puts libraries, header, documents, examples and a page for each call there' installed
it 'make uninstall takes all of it away and leaves what is not its own' uninstalled
it 'make install makes again what is older than its sources' stale
it 'the installed policy tool calls the installed library' policy_tool
it 'the shared library exports the calls and its version, and nothing else' exports
it 'the shared library needs memcpy and memset of the C library and nothing else' needs
it 'the shared library has its soname and no text relocation' soname
it 'the shared library is linked again to the same bytes' same_link
if has pkg-config; then
  for module in nutrameza nutrameza-static; do
    it "every call by gcc as C99, $module" built c99 'cc -std=c99' $module
    it "every call by g++ as C++17, $module" built cxx 'g++ -x c++ -std=c++17' $module
    if has clang; then
      it "every call by clang as C99, $module" built clang 'clang -std=c99' $module
      it "every call by clang as C++17, $module" built clangxx 'clang++ -x c++ -std=c++17' $module
    fi
  done
fi
if has cmake; then
  it 'every call from a CMake project, C and C++, shared and static, and the version at run time' cmake_project
  it 'a CMake project that asks for the next MAJOR is refused' cmake_refuses 2
  it 'a CMake project that asks for a later version is refused' cmake_refuses 1.999
fi
for compiler in cc clang; do
  if has $compiler; then
    it "$compiler warns of a result that is not used" warned $compiler 'unused-result' 'nutrameza_check(buffer, 4);'
    it "$compiler knows no refusal without its prefix" warned $compiler 'NUTRAMEZA_SESSION' 'int n = NUTRAMEZA_SESSION; (void)n;'
  fi
done
it 'cc warns of buffers that overlap' warned cc 'restrict' 'if (nutrameza_turn(buffer, 2048, buffer, 2048)) use();'
it 'every call of the header is called by tests/host/every_call.c' every_call_called
it 'every call runs with sanitizers' sanitized "$every_call"
it 'the first host runs with sanitizers' first_under sanitized
if has valgrind; then
  it 'every call runs under valgrind' under_valgrind "$every_call"
  it 'the first host runs under valgrind' first_under under_valgrind
fi
if has groff; then it 'groff has nothing to say of the man pages' man_pages; fi
if has man; then it 'man shows the page of a call, with its declaration' man_page; fi
if has git && git -C "$root" rev-parse -q --verify HEAD > /dev/null; then
  it 'make dist gives the same tarballs in two folders' same_tarballs
  it 'the tarballs hold the sources, and what an install has' tarballs
  it 'make dist makes none of a tree that differs from its commit' no_tarball_of_changes
fi
counted
