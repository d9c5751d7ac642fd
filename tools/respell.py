#!/usr/bin/env python3
"""Brings the repository's own definitions and lemmas to the spelling of the language's library: words in snake case, a
dash between the names of two definitions only, types and modules in camel case.

usage: python3 tools/respell.py KIT [--list]     at the top of the repository, once, behind port.py

Names go over as whole words, the same word in the same way everywhere: in specs/, proofs/, the contracts of src/ and
the texts of must-fail/. Words of the library, functions and values of src/ and the goals' generated names stay.
"""
import collections
import os
import re
import sys

WORD = re.compile(r"[^\s(){}.,;\[\]@\"`:|=→×λ≡≢≤<>+*%^&$#!?]+")
GHOST = re.compile(r"^\s*ghost use |^\s*(requires|ensures)\b")
FOLDERS = ("out", "target")


def files(root, endings):
    for folder, dirs, names in os.walk(os.path.join(root, "crates")):
        dirs[:] = sorted(d for d in dirs if d not in FOLDERS)
        for n in sorted(names):
            if n.endswith(endings):
                yield os.path.join(folder, n)


def text(path):
    with open(path, encoding="utf-8") as f:
        return f.read()


def bare(t):
    """A text of antt without its comments."""
    return re.sub(r"(^|\s)--(\s.*)?$", r"\1", t, flags=re.M)


def library(kit):
    """Each word of the library."""
    found = set()
    for folder, dirs, names in os.walk(os.path.join(kit, "rattle")):
        dirs[:] = [d for d in dirs if d not in FOLDERS]
        for n in names:
            if n.endswith(".antt"):
                found.update(WORD.findall(bare(text(os.path.join(folder, n)))))
    return found


DECLARED = re.compile(r"^\s*(?:(?:abbrev|unfoldable|pub|data|record|ruleset)\s+)*((?:[^\s(){}:,;]+\s+)+?)(?:[({][^=]*[)}]\s*)?:(?:\s|$)")
BOUND = re.compile(r"[({]\s*((?:[^\s(){}:,;]+\s+)+):\s")
LAMBDA = re.compile(r"λ\s+([^.(){}]+)\.")
LET = re.compile(r"\blet\s+([^\s(){}:,;]+)")
FIELD = re.compile(r"(?:^|[{;,])\s*([^\s(){}:,;=]+)\s*=\s")
GOALS = re.compile(r":\s*(tie\.|goal\.|statement)")


def snake(word):
    return re.sub(r"(?<=[a-z0-9'])([A-Z])", lambda m: "_" + m.group(1).lower(), word)


def names(root, kit):
    """Of each name that is turned the new one; the functions of src/; new names that were words before."""
    taken = library(kit)
    words, declared, definitions, spoken, inner = collections.Counter(), set(), set(), set(), set()
    for p in files(root, (".antt",)):
        t = bare(text(p))
        words.update(WORD.findall(t))
        parts = p.split(os.sep)
        folder = "proofs" in parts and parts.index("proofs") < len(parts) - 2
        for line in t.split("\n"):
            m = DECLARED.match(line)
            if m and not (folder and GOALS.search(line)):
                for w in m.group(1).split():
                    declared.add(w)
                    if "specs" in parts:
                        spoken.add(w)
                        if re.match(r"(abbrev |unfoldable )*pub |(abbrev |unfoldable )", line):
                            definitions.add(w)
            for r in (BOUND, LAMBDA, LET, FIELD):
                for g in r.findall(line):
                    (inner if folder else declared).update(w for w in g.split())
    named = {snake(w) for w in definitions if "-" not in w and re.match(r"^[a-z][\w']*$", w)} | NAMED
    functions = set()
    for p in files(root, (".rt",)):
        t = text(p)
        functions.update(re.findall(r"\bfn (\w+)", t))
        words.update(w for a, b in ghost_parts(t) for w in WORD.findall(t[a:b]) if re.search(r"[a-z][A-Z]", w))
    new = {}
    for w in words:
        if not re.match(r"^[a-z]", w) or "\u25cc" in w or w in taken:
            continue
        camel = re.search(r"[a-z0-9'][A-Z]", w)
        if "-" not in w:
            if camel:
                new[w] = snake(w)
            continue
        if w.startswith(GENERATED) or w not in declared and not camel:
            continue
        parts = [snake(x) for x in w.split("-")]
        parts = [x[0].lower() + x[1:] if x else x for x in parts]
        new[w] = ("-" if w not in spoken and all(x in named for x in parts) else "_").join(parts)
    new = {w: s for w, s in new.items() if s != w}
    new.update(GIVEN)
    # No two names fall together, and none falls together with a word that stays: of a lemma and a definition of one
    # name the lemma gets _lem.
    again = True
    while again:
        again = False
        stays = {w for w in words if w not in new}
        by = collections.defaultdict(list)
        for w, s in new.items():
            by[s].append(w)
        for s, ws in by.items():
            lemmas = [w for w in ws if "-" in w and w not in GIVEN]
            if (len(ws) > 1 or s in stays or s in functions) and lemmas:
                for w in lemmas:
                    new[w] = s + "_lem"
                again = True
            elif len(ws) > 1:
                raise SystemExit(f"{ws} fall together as {s}")
    left = sorted((s, w) for w, s in new.items() if s in stays and s not in functions)
    return new, functions, left


# A word of the library that stands in names of lemmas.
NAMED = {"length", "map", "take", "drop", "replicate", "get_or", "set", "reverse", "sum", "bit_and", "bit_or", "bit_xor"}
# Names that the goals of a function have, or had.
GENERATED = ("returns", "loop-", "invariant-", "decreases-", "if-", "then-", "else-", "in-", "overflow", "Need-")
# Constructors, and lemmas that a definition's new name falls on.
GIVEN = {
    "not-Carried": "not_carried", "open-session": "open_session", "close-session": "close_session",
    "short-ask": "short_ask", "not-below": "not_below",
    "moves_so": "moves_so_lem", "one_later": "one_later_lem", "only_at": "only_at_lem", "row_words": "row_words_lem",
    "sum_below": "sum_below_lem", "told_with": "told_with_lem",
}
# The same, in one file, where a function of src/ has the name too or a variable has it.
GIVEN_AT = {
    "model_register/proofs/CallsProof.antt": {"best_of": "best_of_lem"},
    "model_clauses/proofs/ReadingProof.antt": {"digits_from": "digits_from_lem"},
    "model_runs/proofs/EndLaws.antt": {"last_line": "last_line_lem"},
    "grant_table_turned/proofs/CallProof.antt": {"left_by": "left_by_lem"},
    "grant_table/proofs/TableCallProof.antt": {"left_by": "left_by_lem"},
    "model_laws/proofs/Agreeing.antt": {"met_at": "met_at_lem"},
    "model_laws/proofs/TwentyProof.antt": {"step_by": "step_by_lem"},
    "calls_stopped/proofs/Telling.antt": {"stopped_by": "stopped_by_lem"},
    "calls_stopped/proofs/tell_stopped/Proof.antt": {"stopped_by": "stopped_by_lem"},
}


def turned_words(t, new, functions=None):
    """A text with its words turned; of a path, a step that a function names keeps the function's spelling."""
    def turn(m):
        w = m.group(0)
        s = new.get(w, w)
        if functions is not None and s.endswith("_lem") and w not in GIVEN and m.start() and t[m.start() - 1] == "." and s[:-4] in functions:
            return s[:-4]
        return s
    return WORD.sub(turn, t)


def turned_antt(path, t, new, functions):
    own = dict(new)
    for end, given in GIVEN_AT.items():
        if path.endswith(end):
            own.update(given)
    folder = path.split(os.sep)
    inside = "proofs" in folder and folder.index("proofs") < len(folder) - 2
    lines = []
    for line in t.split("\n"):
        m = re.match(r"^(.*?(?:^|\s))--(\s.*|)$", line)
        if m and '"' not in m.group(1):
            said = re.sub(r"`([^`]*)`", lambda k: "`" + turned_words(k.group(1), own) + "`", m.group(2))
            lines.append(turned_words(m.group(1), own, functions if inside else None) + "--" + said)
        else:
            lines.append(turned_words(line, own, functions if inside else None))
    t = "\n".join(lines)
    if inside:
        t = re.sub(r"\b(\w[\w-]*)[-_]spec(?![\w'-])", lambda m: m.group(1).replace("-", "_") + "_spec", t)
    return t


def ghost_parts(t):
    """The parts of a source file that are read by antt, as (begin, end): imports, clauses, ghost members."""
    parts = []
    for m in re.finditer(r"^[ \t]*ghost use [^;]*;", t, re.M):
        parts.append((m.start(), m.end()))
    for m in re.finditer(r"^[ \t]*(?:requires|ensures|decreases)(?: \w+)? \{|^[ \t]*ghost \w+: \{|#!?\[tactic", t, re.M):
        k, depth = m.end() - 1, 0
        if t[k] not in "{[":
            k = t.index("[", m.start())
        opening = t[k]
        closing = {"{": "}", "[": "]"}[opening]
        for j in range(k, len(t)):
            depth += (t[j] == opening) - (t[j] == closing)
            if depth == 0:
                break
        parts.append((m.start(), j + 1))
    return sorted(parts)


def turned_source(t, new):
    parts = ghost_parts(t)
    ghost = "".join(t[a:b] for a, b in parts)
    code = t
    for a, b in reversed(parts):
        code = code[:a] + code[b:]
    code = re.sub(r"//.*", "", code)
    names = set(re.findall(r"\b[a-z_]\w*\b", code))
    aliased, own = set(), dict(new)
    for m in re.finditer(r"ghost use ([^;{]*)\{([^}]*)\};", ghost):
        for item in m.group(2).split(","):
            item = item.strip()
            if " as " not in item and item in new and new[item] in names:
                aliased.add(item)
    out, at = [], 0
    for a, b in parts:
        out.append(t[at:a])
        p = t[a:b]
        if p.lstrip().startswith("ghost use "):
            def item(m):
                w = m.group(0)
                return f"{new[w]} as {new[w]}_of" if w in aliased else new.get(w, w)
            p = WORD.sub(item, p)
        else:
            p = WORD.sub(lambda m: new[m.group(0)] + "_of" if m.group(0) in aliased else new.get(m.group(0), m.group(0)), p)
        out.append(p)
        at = b
    out.append(t[at:])
    t = "".join(out)
    return re.sub(r"^(\s*//.*)$", lambda m: re.sub(r"`([^`]*)`", lambda k: "`" + turned_words(k.group(1), new) + "`", m.group(1)), t, flags=re.M)


def turned_edit(t, new, folder):
    lines, source = [], False
    for line in t.split("\n"):
        if line.startswith("file: "):
            source = line.rstrip().endswith(".rt")
        elif line.startswith(("old: ", "new: ")):
            head, rest = line[:5], line[5:]
            if not source or re.match(r"\s*(ghost use|requires|ensures)", rest):
                rest = turned_words(rest, new)
            line = head + rest
        elif line.startswith("expect: "):
            line = "expect: " + turned_words(line[8:], new)
        lines.append(line)
    return "\n".join(lines)


def main(argv):
    kit, listing = argv[0], "--list" in argv
    new, functions, left = names(".", kit)
    if listing:
        for w in sorted(new):
            print(w, new[w])
        for s, w in left:
            print("left:", w, s)
        return 0
    for p in files(".", (".antt", ".rt", ".edit")):
        t = text(p)
        if p.endswith(".antt"):
            u = turned_antt(p, t, new, functions)
        elif p.endswith(".rt"):
            u = turned_source(t, new)
        else:
            u = turned_edit(t, new, p)
        if u != t:
            with open(p, "w", encoding="utf-8") as f:
                f.write(u)
    for s, w in left:
        print(f"look: {w} is {s} now, a word that was there")
    print(f"respell: {len(new)} names")
    return 0


if __name__ == "__main__":
    sys.exit(main(sys.argv[1:]))
