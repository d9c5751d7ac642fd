# What the tests of the bindings share, to be sourced behind it.sh.

# golden_calls RUNS: so many images with calls, about 21 each, and the separate solver's answers, as $work/golden. The
# features are those of the gate, so that cargo has it built already.
golden_calls() {
  cargo run --quiet --release --offline --manifest-path "$root/tests/Cargo.toml" --features asks,script,survey --bin golden_calls "$1" \
    > "$work/golden"
}

# has_engines: the headers of both databases are there
has_engines() {
  printf '#include <sqlite3.h>\n#include <libpq-fe.h>\n' | cc -E "-I$(pg_config --includedir 2> /dev/null)" - > /dev/null 2>&1
}
