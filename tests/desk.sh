#!/usr/bin/env bash
# The desk: its views, its server and its report, then the whole of it in a real browser (Chromium through its driver).
# It needs libnutrameza.a (target/staticlib, or the folder that NUTRAMEZA_LIB names) and target/bin; without Chromium,
# its driver or Selenium it says 'not installed' and runs what needs no browser. PYTHON names another interpreter. The
# last line is 'N passed, M failed'.
. "$(dirname "${BASH_SOURCE[0]}")/it.sh"
export LC_ALL=C.UTF-8 PYTHONDONTWRITEBYTECODE=1
unset LD_LIBRARY_PATH
python=${PYTHON:-python3}
lib=$(cd "$root" && realpath -m "${NUTRAMEZA_LIB:-target/staticlib}")
prefix=$work/prefix
export NUTRAMEZA_LIBRARY=$prefix/lib/libnutrameza.so.1 NUTRAMEZA_COMMAND=$prefix/bin/nutrameza
export NUTRAMEZA_PROGRAM=$root/target/bin/nutrameza_script NUTRAMEZA_SURVEY=$root/target/bin/nutrameza_survey
export PYTHONPATH=$root/python:$root/tests/desk

installed() {
  make -s -C "$root" install "PREFIX=$prefix" "NUTRAMEZA_LIB=$lib" &&
    diff -r -x __pycache__ "$root/python/nutrameza/desk" "$prefix/lib/python3/nutrameza/desk"
}

# An interpreter that has Selenium, beside a browser and its driver; nothing where one of them is missing.
with_selenium() {
  local one
  command -v chromium > /dev/null && command -v chromedriver > /dev/null || return 1
  for one in "$python" /usr/bin/python3; do
    if "$one" -c 'import selenium' 2> /dev/null; then echo "$one"; return; fi
  done
  return 1
}

it 'make install puts the desk and its page there' installed
tally "$python" "$root/tests/python/run.py" test_views
tally "$python" "$root/tests/python/run.py" test_server
if browsing=$(with_selenium); then
  tally "$browsing" "$root/tests/python/run.py" test_browser
else
  echo "not installed: chromium, chromium-driver or python3-selenium ('make desk-test' installs them); the desk is not driven"
fi
counted
