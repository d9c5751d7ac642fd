"""A policy as plain data, ready for JSON: people, roles, permissions, exclusions and limits with what the library says
of them; and what is known of a policy that it refuses."""

import hashlib
from typing import Any, Dict, FrozenSet, List, NamedTuple, Optional, Sequence, Set, Tuple

from .. import calls, policy
from ..answers import Table
from ..limits import Number, word_of
from ..policy import ASSIGNMENT, EXCLUSION, EXCLUSION_KINDS, GRANT, LIMIT, SENIOR, Entry, Errors, Names, Policy, Refused
from . import survey

View = Dict[str, Any]

# What an exclusion of each kind counts, in words.
COUNTED = {
    "ss-dmer": "active together in one window",
    "ms-dmer": "active together in the open windows of one person",
    "ss-hmer": "active in one window at any time since it was opened",
    "ms-hmer": "active in any window of one person at any time, closed ones too",
}


class Loaded(NamedTuple):
    """A policy that the library accepts: its file's name, what it says, its names, its image."""

    file: str
    policy: Policy
    names: Names
    image: bytes


def load(file: str, data: bytes, names: Optional[Names] = None) -> Loaded:
    """The policy of a text or of an image, which takes its names from elsewhere; raises Errors or Refused."""
    if policy.is_text(data):
        said, own = policy.parse(policy.text_of(data, file), file)
    else:
        said = policy.read(policy.check(data, names))
        own = filled_up(names, said.counts)
    return Loaded(file, said, own, said.image())


def filled_up(names: Optional[Names], counts: Sequence[int]) -> Names:
    """Names for each number of an image: those given, and plain ones where they end."""
    plain = policy.plain_names(counts)
    return {sort: [*(names or policy.no_names())[sort][:len(plain[sort])], *plain[sort][len((names or policy.no_names())[sort]):]]
            for sort in plain}


# ---- accepted policies ----

class Closed(NamedTuple):
    """What follows from a policy by the library's tables: what each role carries, the roles at or below each role, and
    for each person the assigned roles and those that the person may switch on."""

    carried: Table
    lower: Table
    assigned: List[FrozenSet[int]]
    reached: List[FrozenSet[int]]


def closed(said: Policy) -> Closed:
    """The tables of an accepted policy."""
    lower = policy.lower_roles(said)
    assigned = [frozenset(roles) for roles in seconds(said, ASSIGNMENT)]
    reached = [frozenset(role for own in roles for role in lower.carried_by(own)) for roles in assigned]
    return Closed(calls.table(said.image()), lower, assigned, reached)


def seconds(said: Policy, kind: int) -> List[List[int]]:
    """Of each first number what the entries of a kind name beside it: a person's roles, a role's permissions, a role's
    juniors."""
    found: List[Set[int]] = [set() for _ in range(said.counts[0] if kind == ASSIGNMENT else said.counts[1])]
    for entry in said.entries:
        if entry[0] == kind:
            found[entry[1]].add(entry[2])
    return [sorted(one) for one in found]


def may_do(tables: Closed, user: int) -> FrozenSet[int]:
    """The permissions that some role which a person may switch on carries, by the closed table."""
    return frozenset(permission for role in tables.reached[user] for permission in tables.carried.carried_by(role))


def accepted(loaded: Loaded) -> View:
    """The view of an accepted policy."""
    said, tables = loaded.policy, closed(loaded.policy)
    return {
        "file": loaded.file, "accepted": True, "counts": said.counts, "words": len(said.words()),
        "sum": hashlib.sha256(calls.tidy(loaded.image).image).hexdigest(), "names": loaded.names, "seniors": senior_pairs(said),
        "people": [person(tables, user) for user in range(said.counts[0])], "roles": role_views(said, tables),
        "exclusions": exclusions(loaded), "limits": limits_view(said, tables),
    }


def senior_pairs(said: Policy) -> List[Entry]:
    """The pairs of a senior and its junior, each once."""
    return sorted({entry[1:] for entry in said.entries if entry[0] == SENIOR})


def person(tables: Closed, user: int) -> View:
    """A person's assigned roles, those reached besides, and what they carry in all."""
    return {"assigned": sorted(tables.assigned[user]), "reached": sorted(tables.reached[user] - tables.assigned[user]),
            "permissions": sorted(may_do(tables, user))}


def role_views(said: Policy, tables: Closed) -> List[View]:
    """Each role: who may switch it on, its seniors and juniors, its grants, and what comes through each role below."""
    grants, juniors, views = seconds(said, GRANT), seconds(said, SENIOR), []
    for role in range(said.counts[1]):
        below = sorted(tables.lower.carried_by(role) - {role})
        views.append({
            "assigned": [user for user, roles in enumerate(tables.assigned) if role in roles],
            "reached": [user for user, roles in enumerate(tables.reached) if role in roles - tables.assigned[user]],
            "juniors": juniors[role], "seniors": [senior for senior, under in enumerate(juniors) if role in under],
            "below": below, "granted": grants[role], "carried": sorted(tables.carried.carried_by(role)),
            "through": [{"role": lower, "permissions": grants[lower]} for lower in below if grants[lower]],
        })
    return views


def exclusions(loaded: Loaded) -> List[View]:
    """The exclusions in the order of the image, with the survey's figures where the program is there."""
    found = [entry for entry in loaded.policy.entries if entry[0] == EXCLUSION]
    figures = survey.allowed(loaded.image, len(found)) if found else []
    views = []
    for place, (_, kind, n, members) in enumerate(found):
        word = EXCLUSION_KINDS[kind]
        views.append({"kind": word, "counts": COUNTED[word], "n": n, "members": sorted(members),
                      "figure": in_words(figures[place], len(members)) if figures is not None else None})
    return views


def in_words(allowed: int, members: int) -> str:
    """A figure of the survey beside the number of all sets of the members."""
    return f"{allowed:,} of {2 ** members:,} combinations are allowed"


def limits_view(said: Policy, tables: Closed) -> List[View]:
    """The limits, of several for a role the one that the tidy image keeps, with who may switch the role on."""
    found = [entry for entry in policy.tidied(said).entries if entry[0] == LIMIT]
    return [{"role": role, "t": t, "people": [user for user, roles in enumerate(tables.reached) if role in roles]}
            for _, role, t in found]


# ---- refused policies ----

def refused(file: str, data: bytes, names: Optional[Names] = None) -> View:
    """The view of a text or image that is refused: the reasons with their lines, the text, and the hierarchy as far as
    it is said."""
    try:
        if policy.is_text(data):
            return refused_text(file, policy.text_of(data, file))
        policy.check(data, names)
    except Errors as wrong:
        return told(file, wrong.found, data.decode("utf-8", "replace"))
    except Refused as wrong:
        view = told(file, [(0, str(wrong))], "")
        if wrong.number in (Number.LOOP, Number.REACH):
            said = policy.read(policy.to_words(data))
            view.update(drawn(said, filled_up(names, said.counts), wrong.number, wrong.extra))
        return view
    raise ValueError(f"{file} is accepted")


def refused_text(file: str, text: str) -> View:
    """The view of a text with errors."""
    parser, judgement, errors = policy.understood(text)
    view = told(file, errors, text)
    said = Policy(judgement.counts, [one.entry for one in judgement.said])
    if parser.names["role"]:
        view.update(drawn(said, parser.declared(), judgement.answer.number, judgement.answer.extra))
    return view


def told(file: str, errors: Sequence[Tuple[int, str]], text: str) -> View:
    """What every refused policy has: the errors, and the text line by line."""
    return {"file": file, "accepted": False, "errors": [{"line": line, "reason": reason} for line, reason in errors],
            "text": text.rstrip("\n").split("\n") if text else [], "counts": [], "seniors": [], "loop": [], "person": None}


def drawn(said: Policy, names: Names, number: int, extra: int) -> View:
    """What a picture of a refused policy needs: its roles and senior pairs, its loop, and whoever reaches too far."""
    person_told = None
    if number == Number.REACH:
        person_told = {"user": extra, "name": policy.called("user", extra, names), "roles": sorted(policy.reached(said, extra))}
    return {"counts": said.counts, "names": names, "seniors": senior_pairs(said),
            "loop": policy.chain_of(said.image()) if number == Number.LOOP else [], "person": person_told,
            "assignments": sorted({entry[1:] for entry in said.entries if entry[0] == ASSIGNMENT}),
            "refusal": f"{number} {word_of(number)}" if number else ""}


def view_of(file: str, data: bytes, names: Optional[Names] = None) -> Tuple[View, Optional[Loaded]]:
    """The view of a text or image, and the policy where it is accepted."""
    try:
        loaded = load(file, data, names)
    except (Errors, Refused):
        return refused(file, data, names), None
    return accepted(loaded), loaded
