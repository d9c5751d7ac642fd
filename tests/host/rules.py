"""01's check of an image and its tidy form written once more, in Python: a separate judge for the tests, which the
library's answers are held against. No product uses it."""

import struct

# The kinds of words, and the widths of their fields from bit 27 down; the rest of a word is spare.
HEAD, ASSIGNMENT, GRANT, SENIOR, EXCLUSION, MEMBER, LIMIT, END = 1, 2, 3, 4, 5, 6, 7, 15
FIELDS = {HEAD: (7, 7, 9), ASSIGNMENT: (6, 6), GRANT: (6, 8), SENIOR: (6, 6), EXCLUSION: (2, 7, 7), MEMBER: (6,), LIMIT: (6, 9),
          END: (28,)}

# The most that an image may hold. SORTS are the three sorts of names, each with its most.
SORTS = {"user": 64, "role": 64, "permission": 256}
MOST_WORDS, MOST_EXCLUSIONS, MOST_ROLES_OF_A_USER, MOST_LIMIT = 4096, 32, 16, 256

REFUSALS = {1: "length", 2: "head", 3: "kind", 4: "spare", 5: "range", 6: "repeat", 7: "crowd", 8: "balance", 22: "loop", 23: "reach"}


# ---- words ----

def encode(kind, *values):
    """The word of a kind with these fields."""
    word, free = kind, 28
    for width, value in zip(FIELDS[kind], values):
        if not 0 <= value < 1 << width:
            raise ValueError(f"{value} does not fit {width} bits")
        word, free = word << width | value, free - width
    return word << free


def kind_of(word):
    return word >> 28


def decode(word):
    """The fields of a word of a known kind, and its spare bits."""
    values, free = [], 28
    for width in FIELDS[kind_of(word)]:
        free -= width
        values.append(word >> free & (1 << width) - 1)
    return values, word & (1 << free) - 1


def end_word(words):
    """The end word that balances these words."""
    return encode(END, -sum(words) % (1 << 28))


def to_bytes(words):
    return struct.pack(f"<{len(words)}I", *words)


def to_words(data):
    return list(struct.unpack(f"<{len(data) // 4}I", data))


# ---- policies ----

class Policy:
    """A policy: how many of each sort there are, and the entries in image order.

    An entry is (ASSIGNMENT, user, role), (GRANT, role, permission), (SENIOR, senior, junior),
    (EXCLUSION, kind, n, members) or (LIMIT, role, t).
    """

    def __init__(self, counts, entries):
        self.counts, self.entries = counts, entries

    def words(self):
        """The image's words, head and end included."""
        words = [encode(HEAD, *self.counts)]
        for entry in self.entries:
            words += words_of(entry)
        return words + [end_word(words)]


def words_of(entry):
    """The words of one entry."""
    if entry[0] != EXCLUSION:
        return [encode(*entry)]
    _, kind, n, members = entry
    return [encode(EXCLUSION, kind, n, len(members))] + [encode(MEMBER, role) for role in members]


def read(words):
    """The policy that the words of an accepted image say."""
    entries = []
    for word in words[1:-1]:
        values, _ = decode(word)
        if kind_of(word) == EXCLUSION:
            entries.append((EXCLUSION, values[0], values[1], []))
        elif kind_of(word) == MEMBER:
            entries[-1][3].append(values[0])
        else:
            entries.append((kind_of(word), *values))
    return Policy(decode(words[0])[0], entries)


# ---- tidy images ----

def meant(policy):
    """The set of a policy's entries, an exclusion's members ascending and of a role's limits the smallest: order and
    repeats are gone."""
    limits = {}
    for _, role, t in (entry for entry in policy.entries if entry[0] == LIMIT):
        limits[role] = min(t, limits.get(role, t))
    entries = {entry for entry in policy.entries if entry[0] not in (EXCLUSION, LIMIT)}
    entries |= {(*entry[:3], tuple(sorted(entry[3]))) for entry in policy.entries if entry[0] == EXCLUSION}
    return entries | {(LIMIT, role, t) for role, t in limits.items()}


def tidy_place(entry):
    """What the entries of a tidy image ascend by: the kind of word, then the fields, the members as their set
    number."""
    return (*entry[:3], sum(1 << role for role in entry[3])) if entry[0] == EXCLUSION else entry


def tidied(policy):
    """The policy with each entry once, in the order of its tidy image."""
    return Policy(policy.counts, sorted(meant(policy), key=tidy_place))


# ---- loops ----

def shortest_chain(juniors, role):
    """A shortest chain of senior pairs from a role back to it, the lowest role by role; None if there is none.

    The roles are visited in the order of the chains that lead to them: shorter ones first, of those as short the lower
    ones.
    """
    visited, chains = set(), [[role]]
    while chains:
        longer = []
        for chain in chains:
            for junior in sorted(juniors.get(chain[-1], ())):
                if junior == role:
                    return [*chain, role]
                if junior not in visited:
                    visited.add(junior)
                    longer.append([*chain, junior])
        chains = longer
    return None


def find_loop(pairs):
    """The lowest role that these (senior, junior) pairs lead back to, and the roles on the way, it among them as first
    and last; None if they close no loop."""
    juniors = {}
    for senior, junior in pairs:
        juniors.setdefault(senior, set()).add(junior)
    for role in sorted(juniors):
        chain = shortest_chain(juniors, role)
        if chain:
            return chain
    return None


# ---- reach ----

def reached(roles, pairs):
    """The roles that these (senior, junior) pairs reach from a set of roles, themselves among them."""
    juniors = {}
    for senior, junior in pairs:
        juniors.setdefault(senior, set()).add(junior)
    found, waiting = set(roles), list(roles)
    while waiting:
        below = juniors.get(waiting.pop(), set()) - found
        found |= below
        waiting += below
    return found


def find_reach(assigned, pairs):
    """The lowest user who may switch on too many roles, by (user, role) and (senior, junior) pairs, and how many; None
    if none may."""
    pairs, roles_of = list(pairs), {}
    for user, role in assigned:
        roles_of.setdefault(user, set()).add(role)
    for user in sorted(roles_of):
        count = len(reached(roles_of[user], pairs))
        if count > MOST_ROLES_OF_A_USER:
            return user, count
    return None


# ---- the check ----

class Refused(Exception):
    """A refusal of an image: its number and its extra, the place of the refused word, for 22 a role, for 23 a user."""

    def __init__(self, number, extra):
        super().__init__(f"{number} {REFUSALS[number]} {extra}")
        self.number, self.extra = number, extra


def check(data):
    """The words of an accepted image; raises Refused for any other."""
    if len(data) % 4 != 0 or not 8 <= len(data) <= 4 * MOST_WORDS:
        raise Refused(1, 0)
    words = to_words(data)
    scan = Scan(words[0])
    for place, word in enumerate(words[1:], start=1):
        scan.take(place, word, place == len(words) - 1)
    if sum(words) % (1 << 28) != 0:
        raise Refused(8, len(words) - 1)
    pairs = {kind: [decode(word)[0] for word in words if kind_of(word) == kind] for kind in (ASSIGNMENT, SENIOR)}
    chain = find_loop(pairs[SENIOR])
    if chain:
        raise Refused(22, chain[0])
    wide = find_reach(pairs[ASSIGNMENT], pairs[SENIOR])
    if wide:
        raise Refused(23, wide[0])
    return words


class Scan:
    """What is known after some words of an image: the counts, the roles of each user, the members due."""

    def __init__(self, head):
        if kind_of(head) != HEAD:
            raise Refused(2, 0)
        self.counts, spare = decode(head)
        if spare or not all(1 <= count <= most for count, most in zip(self.counts, SORTS.values())):
            raise Refused(2, 0)
        self.assigned = [set() for _ in range(self.counts[0])]
        self.exclusions, self.due, self.members = 0, 0, set()

    def take(self, place, word, last):
        """Takes the word at a place up, or refuses it by the lowest number that fits."""
        tests = ((3, lambda: self.wrong_kind(word, last)), (4, lambda: decode(word)[1] != 0), (5, lambda: self.outside(word)),
                 (6, lambda: self.repeated(word)), (7, lambda: self.crowded(word)))
        for number, test in tests:
            if test():
                raise Refused(number, place)
        values, _ = decode(word)
        if kind_of(word) == ASSIGNMENT:
            self.assigned[values[0]].add(values[1])
        elif kind_of(word) == EXCLUSION:
            self.exclusions, self.due, self.members = self.exclusions + 1, values[2], set()
        elif kind_of(word) == MEMBER:
            self.due -= 1
            self.members.add(values[0])

    def wrong_kind(self, word, last):
        """A kind that there is not, a member that is not due or none where one is, an end that is not last."""
        kind = kind_of(word)
        return kind not in FIELDS or kind == HEAD or (kind == MEMBER) != (self.due > 0) or (kind == END) != last

    def outside(self, word):
        """A number that is not below its count; for an exclusion m or n out of range, for a limit t."""
        kind, (values, _) = kind_of(word), decode(word)
        if kind == EXCLUSION:
            _, n, m = values
            return m > self.counts[1] or not 2 <= n <= m
        sorts = {ASSIGNMENT: (0, 1), GRANT: (1, 2), SENIOR: (1, 1), MEMBER: (1,), LIMIT: (1,)}.get(kind, ())
        beyond = any(value >= self.counts[sort] for sort, value in zip(sorts, values))
        return beyond or kind == LIMIT and not 2 <= values[1] <= MOST_LIMIT

    def repeated(self, word):
        """A role senior over itself, a member twice."""
        values, _ = decode(word)
        return kind_of(word) == SENIOR and values[0] == values[1] or kind_of(word) == MEMBER and values[0] in self.members

    def crowded(self, word):
        """A 17th role of a user, a 33rd exclusion."""
        values, _ = decode(word)
        if kind_of(word) == ASSIGNMENT:
            return len(self.assigned[values[0]] | {values[1]}) > MOST_ROLES_OF_A_USER
        return kind_of(word) == EXCLUSION and self.exclusions == MOST_EXCLUSIONS
