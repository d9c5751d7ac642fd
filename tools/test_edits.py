#!/usr/bin/env python3
"""tools/edits: which refusals of a wrong version pass, on lines as rt writes them.

The last line is 'N passed, M failed'.
"""
import importlib.machinery
import importlib.util
import os
import sys

HERE = os.path.dirname(os.path.abspath(__file__))
loader = importlib.machinery.SourceFileLoader("edits", os.path.join(HERE, "edits"))
edits = importlib.util.module_from_spec(importlib.util.spec_from_loader("edits", loader))
loader.exec_module(edits)

EDIT = "# A wrong version.\nexpect: specs/Facts.antt sum_bits\nfile: specs/Image.antt\nold: 28\nnew: 27\n"
OPEN = EDIT.replace("specs/Facts.antt sum_bits", "src/check.rt returns-then-set-seniors-ne0")
TRIED = "rt: must-fail model/sum_of_27_bits.edit: "
FACT = "refused, as it must be: ./specs/Facts.antt:9:18: error: `sum_bits`: expected type `length_right 8 ≡ false`, but this"
UNMET = "refused, as it must be: note: src/check.rt:29:9: it is not proved that what the function ensures holds when it returns "

# what a case is called, the edit, the lines that rt wrote of it, words of the complaint ('': none)
CASES = [
    ("the fact that is named", EDIT, [FACT], ""),
    ("a fact before it, of an earlier try", EDIT, [FACT.replace("sum_bits", "place_told"), FACT], ""),
    ("another declaration", EDIT, [FACT.replace("sum_bits", "place_told")], "specs/Facts.antt sum_bits was expected"),
    ("another file", EDIT, [FACT.replace("specs/Facts", "proofs/Facts")], "was expected"),
    ("a goal that has no answer", OPEN, [UNMET + "(`returns-then-set-seniors-ne0`)"], ""),
    ("such a goal's name, cut short", OPEN, [UNMET + "(`returns-then-set-sen"], ""),
    ("another goal", OPEN, [UNMET + "(`returns-then-set-ne0`)"], "was expected"),
    ("another goal, cut short", OPEN, [UNMET + "(`returns-then-other"], "was expected"),
    ("a goal at which a tactic gave up", OPEN, [UNMET + "(`returns-then-set-seniors-ne0`); `search` gave up at one of its limits"], ""),
    ("a name that is not there", EDIT, ["refused, as it must be: ./specs/Facts.antt:9:1: error: `sum_bits`: `betwixt` is not in scope"],
     "no fact"),
    ("a field that is not there", EDIT, ["refused, as it must be: ./specs/Facts.antt:9:1: error: `sum_bits`: record `R` has no field `x`"],
     "no fact"),
    ("a goal that cannot be named", EDIT,
     ["refused, as it must be: ./specs/Facts.antt:9:1: error: `sum_bits`: module `Goals` has no `x` that can be named"], "no fact"),
    ("what follows from another refusal", EDIT,
     ["refused, as it must be: ./specs/Facts.antt:9:1: error: `sum_bits`: `sum` was not admitted"], "no fact"),
    ("a whole name that another begins with", OPEN, [UNMET + "(`returns-then-set`)"], "was expected"),
    ("a name that was taken away", EDIT,
     ["refused, as it must be (only because a proof file names what the edit took away, so this says little of the contract)"], "took away"),
    ("a limit of the prover", EDIT, ["refused, as it must be (only by a limit of the prover, which gave no verdict)"], "limit"),
    ("no fact that is named", EDIT, ["refused, as it must be"], "refused, as it must be"),
    ("a text that is not there", EDIT, ["BAD EDIT: an 'old:' text is in specs/Image.antt 0 times, and not once"], "BAD EDIT"),
    ("still proved", EDIT, ["NOT REFUSED: the crate is still proved with this edit"], "NOT REFUSED"),
    ("no line that names a fact", EDIT.replace("expect: specs/Facts.antt sum_bits\n", ""), [FACT], "no line 'expect:"),
    ("two lines that do", EDIT + "expect: specs/Facts.antt sum_bits\n", [FACT], "no line 'expect:"),
    ("not tried", EDIT, [], "not tried"),
]


def main():
    failed = 0
    for name, edit, said, words in CASES:
        lines = ["rt: model: trying its must-fail edits (98)", *(TRIED + line for line in said), "rt: model proved"]
        found = edits.complaint(edit, edits.tried(lines).get("model/sum_of_27_bits")) or ""
        good = found == "" if words == "" else words in found
        if not good:
            failed += 1
            print("FAILED: %s: %r" % (name, found))
    print("%d passed, %d failed" % (len(CASES) - failed, failed))
    return 1 if failed else 0


if __name__ == "__main__":
    sys.exit(main())
