#!/usr/bin/env python3
"""The fuzzer's first inputs, as tests/fuzz/fuzz.c reads them: each policy of examples/ and tests/golden, with calls on
an empty ledger.

usage: tests/fuzz/seeds.py FOLDER
"""
import glob
import os
import subprocess
import sys
import tempfile

ROOT = os.path.dirname(os.path.dirname(os.path.dirname(os.path.realpath(__file__))))
(CHECK, LOOP, TIDY, TABLE, TURN, UNTURN, OPEN, CLOSE, ASK, SHORT_ASK, SHOW, EXPLAIN, OBSTACLE, STOPPED, WIDEN, NARROW, CLAUSES) = range(17)
WHOLE = b"\0"


def call(kind, user=0, session=0, rest=b""):
    """A call with the right sizes: its kind, its numbers, then what it has beside them."""
    return bytes([kind, user, session]) + rest


def bounded(kind, user, session, lower, room=WHOLE):
    """An ask, a text or an obstacle with all that the policy has as its upper bound, fewest by both aims."""
    return call(kind, user, session, b"\0" + WHOLE + lower.to_bytes(32, "little") + b"\1\1" + room)


def day(user):
    """A window, what is in the way of each of the first permissions, and the window closed."""
    yield call(OPEN, user)
    for permission in (0, 1, 2, 4):
        yield bounded(OBSTACLE, user, 0, 1 << permission)
        yield bounded(ASK, user, 0, 1 << permission)
        yield call(SHOW, user, 0, WHOLE)
        yield call(EXPLAIN, user, 0, bytes([permission]))
    yield bounded(CLAUSES, user, 0, 3)
    yield call(OPEN, user)
    yield bounded(SHORT_ASK, user, 1, 16)
    yield call(CLOSE, user, 0)


def over_image():
    """The calls that name nobody."""
    for kind in (CHECK, LOOP, TIDY, TABLE, STOPPED, NARROW, WIDEN):
        yield call(kind, 0, 0, b"" if kind == CHECK else WHOLE)
    for kind in (TURN, UNTURN):
        yield call(kind, 0, 0, WHOLE + bytes(range(64)))


def images():
    for path in sorted(glob.glob(os.path.join(ROOT, "tests", "golden", "*", "policy.img"))):
        with open(path, "rb") as file:
            yield os.path.basename(os.path.dirname(path)), file.read()
    with tempfile.TemporaryDirectory() as folder:
        for path in sorted(glob.glob(os.path.join(ROOT, "examples", "*.policy"))):
            image = os.path.join(folder, "policy.img")
            subprocess.run([os.path.join(ROOT, "tools", "policy"), "build", path, "-o", image], check=True, stdout=subprocess.DEVNULL)
            with open(image, "rb") as file:
                yield os.path.basename(path), file.read()


def main():
    folder = sys.argv[1]
    os.makedirs(folder, exist_ok=True)
    for name, image in images():
        if len(image) < 1024:
            for part, calls in (("users", day(0)), ("image", over_image())):
                text = b"\3" + bytes([len(image) % 256, len(image) // 256]) + image + b"\0" + b"".join(calls)
                with open(os.path.join(folder, f"{name}-{part}"), "wb") as file:
                    file.write(text)
    return 0


if __name__ == "__main__":
    sys.exit(main())
