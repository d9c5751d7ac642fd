"""Two policies beside each other: the same or what was added and taken, who may do more or less, and whom the new one
stops on a ledger."""

from typing import Any, Dict, List, Optional

from .. import calls, limits, policy, why
from ..policy import called
from .view import Loaded, closed, may_do


def named(loaded: Loaded, sort: str, number: int) -> str:
    """A name with its number in brackets."""
    return f"{called(sort, number, loaded.names)} ({number})"


def compared(old: Loaded, new: Loaded, ledger: Optional[bytes]) -> Dict[str, Any]:
    """The comparison; without a ledger nobody is looked up."""
    lines = policy.differences(old.policy, new.policy, new.names, old.names)
    return {
        "old": old.file, "new": new.file, "same": not lines,
        "taken": [line[2:] for line in lines if line[0] == "-"], "added": [line[2:] for line in lines if line[0] == "+"],
        "moved": policy.moved(old.names, new.names), "people": people(old, new),
        "stopped": None if ledger is None else stopped(new, ledger),
    }


def people(old: Loaded, new: Loaded) -> List[Dict[str, Any]]:
    """Whoever may do more or less, by number: the permissions that roles which the person may switch on carry, by the
    closed tables."""
    before, after = closed(old.policy), closed(new.policy)
    found = []
    for user in range(max(old.policy.counts[0], new.policy.counts[0])):
        had = may_do(before, user) if user < old.policy.counts[0] else frozenset()
        has = may_do(after, user) if user < new.policy.counts[0] else frozenset()
        if had != has:
            whose = new if user < new.policy.counts[0] else old
            found.append({"person": named(whose, "user", user), "more": [named(new, "permission", one) for one in sorted(has - had)],
                          "less": [named(old, "permission", one) for one in sorted(had - has)],
                          "new": user >= old.policy.counts[0], "gone": user >= new.policy.counts[0]})
    return found


def stopped(new: Loaded, ledger: bytes) -> Dict[str, Any]:
    """Whom the new policy stops on a ledger, and why."""
    ledger, added = why.grown(new.policy, ledger)
    answer = calls.stopped(new.image, ledger)
    if not answer.done:
        users, line = new.policy.counts[0], limits.LINE_BYTES
        return {"refused": f"{len(ledger)} bytes are no ledger of {users} people: theirs has {line * users}", "people": [], "added": 0}
    lines = [{"person": named(new, "user", user), "reasons": why.reasons(new.policy, user, why.line_of(ledger, user), new.names)}
             for user in sorted(answer.users)]
    return {"refused": "", "people": lines, "added": added}
