"""The session kit in Python: the calls of the proved library, and policies as text.

    from nutrameza import policy
    image = policy.build(open("ward.policy").read())    # bytes
    ledger = nutrameza.new_ledger(image)                # bytearray, which the calls change in place
    answer = nutrameza.open(image, ledger, 0)
    if answer.done: ...

A refusal is told by the answer's number and word and never raised. docs/PYTHON.md is where to begin."""

from .answers import (Answer, Carried, Chosen, Explained, Looped, NotDone, Obstacle, Opened, Stopped, Table, Text, Tidied,
                      Turned)
from .calls import (ask, check, clauses, close, explain, image_users, loop, narrow, new_ledger, obstacle, open,
                    open_sessions, short_ask, show, stopped, table, tidy, turn, unsound_user, unturn, widen)
from .library import NoLibrary, version
from .limits import Aim, ExclusionKind, Number, ObstacleKind, word_of

__version__ = "1.0.0"

__all__ = [
    "Aim", "Answer", "Carried", "Chosen", "ExclusionKind", "Explained", "Looped", "NoLibrary", "NotDone", "Number", "Obstacle",
    "ObstacleKind", "Opened", "Stopped", "Table", "Text", "Tidied", "Turned", "ask", "check", "clauses", "close", "explain",
    "image_users", "loop", "narrow", "new_ledger", "obstacle", "open", "open_sessions", "short_ask", "show", "stopped", "table",
    "tidy", "turn", "unsound_user", "unturn", "version", "widen", "word_of",
]
