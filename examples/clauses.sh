#!/usr/bin/env bash
# An ask of the ward's doctor as clauses, given to a PMaxSAT program, and the roles read back.
#
#     examples/clauses.sh [LOWER UPPER PERMISSION_AIM ROLE_AIM]
#
# Bounds are hex numbers whose bit p is permission p; without words the ask is that of docs/CLAUSES.md. The text stays
# in target/ward/ask.wcnf. The program is the one that PMAXSAT names, else the first that is installed of those below;
# it gets the text's file as its last word. Without one the text is all there is.
set -eu
cd "$(dirname "${BASH_SOURCE[0]}")/.."
lib=${NUTRAMEZA_LIB:-target/staticlib}
[ $# -eq 4 ] || set -- 2 f 1 1

mkdir -p target/ward
tools/policy build examples/ward.policy -o target/ward/policy.img > /dev/null
${CC:-cc} -std=c99 -O2 -Wall -Wextra -Iinclude examples/clauses.c "$lib/libnutrameza.a" -o target/ward/clauses
target/ward/clauses target/ward/policy.img new 0 0 "$@" > target/ward/ask.wcnf
echo "target/ward/ask.wcnf: $(head -1 target/ward/ask.wcnf), $(wc -c < target/ward/ask.wcnf) bytes"

program=${PMAXSAT:-}
for name in clasp open-wbo rc2.py maxhs cashwmaxsat uwrmaxsat; do
  [ -n "$program" ] || ! command -v "$name" > /dev/null || program=$name
done
if [ -z "$program" ]; then
  echo 'no PMaxSAT program is installed: the text is yours to solve'
  exit 0
fi

# Such programs give other exit statuses than 0 for what they find; what they print decides.
$program target/ward/ask.wcnf > target/ward/solved || true
if grep -q '^s UNSAT' target/ward/solved; then
  echo 'no role set'
  exit 0
fi

# The last line or lines 'v ..': literals, or a row with a digit for each variable. Roles are the first R variables; R
# is in the head.
roles=$(($(od -An -tu4 -N4 target/ward/policy.img) >> 14 & 127))
awk -v roles="$roles" '
  /^o /  { weight = $2; given = 0 }
  /^v/   { if (!given) { split("", true); at = 0 } given = 1
           for (i = 2; i <= NF; i++)
             if ($i ~ /^[01]+$/ && (length($i) > 1 || NF == 2)) for (j = 1; j <= length($i); j++) true[++at] = substr($i, j, 1)
             else if ($i > 0) true[$i + 0] = 1 }
  END    { if (!given) { print "the program gave no assignment"; exit 1 }
           line = "roles"
           for (r = 0; r < roles; r++) if (true[r + 1] == 1) line = line " " r
           print line (weight == "" ? "" : "; violated weight " weight) }' target/ward/solved
