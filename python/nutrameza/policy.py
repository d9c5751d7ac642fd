"""Policies as text, and as images.

The text has one entry a line. '#' starts a comment. A name is a word without blanks and without '#'.

  user NAME..              declares users
  role NAME..              declares roles
  permission NAME..        declares permissions
  assign USER ROLE..       the user may switch these roles on, and every role below one of them
  grant ROLE PERMISSION..  the role carries these permissions
  senior ROLE JUNIOR..     the role carries what its juniors carry, and whoever may switch it on may switch them on; no
                           chain of these may lead from a role back to it
  exclude KIND N ROLE..    fewer than N of these roles may be counted together; N is at least 2. KIND says over what:
                             ss-dmer  active in the session
                             ms-dmer  active in any open session of the user
                             ss-hmer  active in the session at any time since it was opened
                             ms-hmer  active in any session of the user at any time
  limit ROLE T             fewer than T sessions, over all users, may hold the role at a time; T is 2 to 256, and of
                           several for a role the smallest counts

An N of 1 would bar each of its roles from everyone, and is refused: whoever writes it means 2, no two of these roles
together. The same goes for a T of 1: 2 lets one session at a time hold the role.

A loop of senior lines is refused and named: 'loop: Doctor over Consultant over Doctor', a shortest one from the lowest
role on a loop. Build reports it at the line that closes it; check gives 22 with that role's number, and the names that
NAMES declares.

A user may switch on at most 16 roles, assigned ones and those below them together. More are refused: 'reach: ANNA may
switch on 17 roles, and 16 is the most', for the lowest such user. Build reports it at the line that makes them too
many; check gives 23 with that user's number, and the name that NAMES declares.

Users, roles and permissions are numbered from 0 in the order of their declarations, which may stand anywhere. The other
lines become the image's words in the order of the file; a repeated one is written again and adds nothing to the
meaning. So an image that is listed and built again is the same, byte for byte.

A tidy image has head, assignments, grants, seniors, exclusions and limits, each group ascending by its fields and
nothing twice; exclusions by kind, n, then the number of the member set (role r counts 2 to the power r), members
ascending; of a role's limits the smallest. Two images mean the same if their heads and their sets of assignments,
grants, senior pairs, exclusions and smallest limits are the same, whatever the order and the repeats.

This module writes and reads texts and words. It judges none: whether an image is accepted, what is wrong with one, its
loop and its tidy image come from the library."""

import difflib
import struct
from typing import Any, Dict, FrozenSet, Iterable, List, Optional, Sequence, Set, Tuple

from . import calls, limits
from .answers import Table
from .limits import Number

# The kinds of words, and the widths of their fields from bit 27 down; the rest of a word is spare.
HEAD, ASSIGNMENT, GRANT, SENIOR, EXCLUSION, MEMBER, LIMIT, END = 1, 2, 3, 4, 5, 6, 7, 15
FIELDS = {HEAD: (7, 7, 9), ASSIGNMENT: (6, 6), GRANT: (6, 8), SENIOR: (6, 6), EXCLUSION: (2, 7, 7), MEMBER: (6,), LIMIT: (6, 9),
          END: (28,)}

# The sorts of the numbers that a word names, in the order of its fields.
NAMED = {ASSIGNMENT: ("user", "role"), GRANT: ("role", "permission"), SENIOR: ("role", "role"), MEMBER: ("role",), LIMIT: ("role",)}

# An exclusion's kinds in the order of their numbers.
EXCLUSION_KINDS = ("ss-dmer", "ms-dmer", "ss-hmer", "ms-hmer")

# The three sorts of names, each with its most.
SORTS = {"user": limits.MAX_USERS, "role": limits.MAX_ROLES, "permission": limits.MAX_PERMISSIONS}

# The lines that become words; those of JOINED take several names behind the first one.
ENTRIES = ("assign", "grant", "senior", "exclude", "limit")
JOINED = ("assign", "grant", "senior")

# The widest line of a listing, where a line may be broken.
WIDTH = 100

# An entry is (ASSIGNMENT, user, role), (GRANT, role, permission), (SENIOR, senior, junior),
# (EXCLUSION, kind, n, members) or (LIMIT, role, t). Names are those of each sort in the order of their numbers.
Entry = Tuple[Any, ...]
Names = Dict[str, List[str]]


# ---- words ----

def encode(kind: int, *values: int) -> int:
    """The word of a kind with these fields."""
    word, free = kind, 28
    for width, value in zip(FIELDS[kind], values):
        if not 0 <= value < 1 << width:
            raise ValueError(f"{value} does not fit {width} bits")
        word, free = word << width | value, free - width
    return word << free


def kind_of(word: int) -> int:
    """A word's kind."""
    return word >> 28


def decode(word: int) -> Tuple[List[int], int]:
    """The fields of a word of a known kind, and its spare bits."""
    values: List[int] = []
    free = 28
    for width in FIELDS[kind_of(word)]:
        free -= width
        values.append(word >> free & (1 << width) - 1)
    return values, word & (1 << free) - 1


def end_word(words: Iterable[int]) -> int:
    """The end word that balances these words."""
    return encode(END, -sum(words) % (1 << 28))


def to_bytes(words: Sequence[int]) -> bytes:
    """Words as the bytes of an image."""
    return struct.pack(f"<{len(words)}I", *words)


def to_words(data: bytes) -> List[int]:
    """The words of an image."""
    return list(struct.unpack(f"<{len(data) // 4}I", data))


# ---- policies ----

class Policy:
    """A policy: how many of each sort there are, and the entries in image order."""

    def __init__(self, counts: Sequence[int], entries: Sequence[Entry]) -> None:
        self.counts, self.entries = list(counts), list(entries)

    def words(self) -> List[int]:
        """The image's words, head and end included."""
        words = [encode(HEAD, *self.counts)]
        for entry in self.entries:
            words += words_of(entry)
        return words + [end_word(words)]

    def image(self) -> bytes:
        """The image, which the library has not judged yet."""
        return to_bytes(self.words())


def words_of(entry: Entry) -> List[int]:
    """The words of one entry."""
    if entry[0] != EXCLUSION:
        return [encode(*entry)]
    _, kind, n, members = entry
    return [encode(EXCLUSION, kind, n, len(members))] + [encode(MEMBER, role) for role in members]


def read(words: Sequence[int]) -> Policy:
    """The policy that the words of an accepted image say."""
    entries: List[Entry] = []
    for word in words[1:-1]:
        values, _ = decode(word)
        if kind_of(word) == EXCLUSION:
            entries.append((EXCLUSION, values[0], values[1], []))
        elif kind_of(word) == MEMBER:
            entries[-1][3].append(values[0])
        else:
            entries.append((kind_of(word), *values))
    return Policy(decode(words[0])[0], entries)


# ---- names ----

def no_names() -> Names:
    """No name of any sort."""
    return {sort: [] for sort in SORTS}


def plain_names(counts: Sequence[int]) -> Names:
    """Names for an image that comes without any: user0, role0, permission0 and so on."""
    return {sort: [f"{sort}{k}" for k in range(count)] for sort, count in zip(SORTS, counts)}


def names_in(text: str) -> Names:
    """The names that a policy text declares, whatever is wrong with its other lines."""
    lines = [line.split("#", 1)[0].split() for line in text.split("\n")]
    return {sort: [name for line in lines if line[:1] == [sort] for name in line[1:]] for sort in SORTS}


def called(sort: str, number: int, names: Names) -> str:
    """The name of a user, role or permission; one without a name is called by its number."""
    return names[sort][number] if number < len(names[sort]) else f"{sort}{number}"


def similar(word: str, known: Iterable[str]) -> str:
    """A hint at a known word that the writer may have meant."""
    close = difflib.get_close_matches(word, list(known), n=1)
    return f" (did you mean {close[0]}?)" if close else ""


def over(chain: Sequence[int], names: Names) -> str:
    """A chain in words, by the roles' names."""
    return " over ".join(called("role", role, names) for role in chain)


# ---- refusals of images ----

class Refused(Exception):
    """A refusal of an image: its number, its extra (the place of the refused word, for 22 a role, for 23 a user) and
    the reason in words."""

    def __init__(self, number: int, extra: int, reason: str) -> None:
        sort = "role" if number == Number.LOOP else "user" if number == Number.REACH else "place"
        super().__init__(f"{number} {limits.word_of(number)} at {sort} {extra}: {reason}")
        self.number, self.extra = number, extra


def check(data: bytes, names: Optional[Names] = None) -> List[int]:
    """The words of an accepted image; raises Refused for any other, a loop and a reach by the names as far as they are
    given."""
    answer = calls.check(data)
    if not answer.done:
        raise Refused(answer.number, answer.extra, reason(data, answer.number, answer.extra, names or no_names()))
    return to_words(data)


def reason(data: bytes, number: int, extra: int, names: Names) -> str:
    """The library's refusal of an image in words."""
    if number == Number.LENGTH:
        wrong = " are not a multiple of 4" if len(data) % 4 else f"; an image has 8 to {limits.MAX_IMAGE_BYTES}"
        return f"{len(data)} bytes{wrong}"
    words = to_words(data)
    if number == Number.HEAD:
        return head_reason(words[0])
    if number == Number.BALANCE:
        return f"the low 28 bits of the sum are {sum(words) % (1 << 28):07x}"
    if number == Number.LOOP:
        return over(chain_of(data), names)
    if number == Number.REACH:
        return too_many(extra, len(reached(read(words), extra)), names)
    if number > Number.BALANCE:
        return "refused"
    return f"{word_reason(words, number, extra)} ({words[extra]:08x})"


def head_reason(head: int) -> str:
    """What is wrong with a refused head."""
    if kind_of(head) != HEAD:
        return f"the first word {head:08x} is of kind {kind_of(head)}"
    for (sort, most), count in zip(SORTS.items(), decode(head)[0]):
        if not 1 <= count <= most:
            return f"{count} {sort}s; there are 1 to {most}"
    return f"spare bits in {head:08x}"


def word_reason(words: Sequence[int], number: int, place: int) -> str:
    """What is wrong with a word that is refused by 3 to 7."""
    kind = kind_of(words[place])
    if number == Number.KIND:
        return kind_reason(kind, place == len(words) - 1)
    values, _ = decode(words[place])
    if number == Number.SPARE:
        return "spare bits are set"
    if number == Number.RANGE:
        return range_reason(kind, values, decode(words[0])[0])
    if number == Number.REPEAT:
        return f"role {values[0]} is senior over itself" if kind == SENIOR else f"role {values[0]} is already a member"
    if kind == ASSIGNMENT:
        return f"user {values[0]} has {limits.MAX_USER_ROLES} roles already"
    return f"{limits.MAX_EXCLUSIONS} exclusions stand before"


def kind_reason(kind: int, last: bool) -> str:
    """Why a word of a kind may not stand at its place."""
    if kind not in FIELDS or kind == HEAD:
        return f"no word after the head is of kind {kind}"
    if kind == MEMBER:
        return "the last word is not the end" if last else "a member that is not due"
    if last != (kind == END):
        return "the last word is not the end" if last else "the end before the last word, or where a member is due"
    return "no member where one is due"


def range_reason(kind: int, values: Sequence[int], counts: Sequence[int]) -> str:
    """Which number of a word is out of its range."""
    if kind == EXCLUSION:
        _, n, m = values
        return f"{m} members of {counts[1]} roles" if m > counts[1] else n_reason(n, m)
    count_of = dict(zip(SORTS, counts))
    for sort, value in zip(NAMED[kind], values):
        if value >= count_of[sort]:
            return f"{sort} {value} is not below {count_of[sort]}"
    return t_reason(values[1])


def n_reason(n: int, m: int) -> str:
    """Why an exclusion of m members may not have n."""
    if n == 1:
        return f"n is 1, which bars its roles from everyone (did you mean {'2' if m > 1 else '2, of more roles'}?)"
    if m < 2:
        return f"{m} member{'' if m == 1 else 's'}; an exclusion has at least 2"
    return f"n is {n}; it is 2 to {m}, the number of members"


def t_reason(t: int) -> str:
    """Why t is no limit of a role."""
    if t == 1:
        return "t is 1, which bars the role from everyone (did you mean 2?)"
    return f"t is {t}; it is 2 to {limits.MAX_LIMIT}"


def chain_of(data: bytes) -> List[int]:
    """The roles of an image's loop, its lowest role first and last."""
    chain = calls.loop(data).chain
    return [chain[-1], *chain]


def lower_roles(policy: Policy) -> Table:
    """The roles at or below each role: the library's table of a policy in which each role grants itself."""
    roles = policy.counts[1]
    pairs = sorted({entry for entry in policy.entries if entry[0] == SENIOR})
    return calls.table(Policy([1, roles, roles], [(GRANT, role, role) for role in range(roles)] + pairs).image())


def assigned(policy: Policy, user: int) -> FrozenSet[int]:
    """The roles that a user's assignments name."""
    return frozenset(entry[2] for entry in policy.entries if entry[:2] == (ASSIGNMENT, user))


def reached(policy: Policy, user: int) -> FrozenSet[int]:
    """The roles that a user may switch on: the assigned ones and those below them."""
    table = lower_roles(policy)
    return frozenset(lower for role in assigned(policy, user) for lower in table.carried_by(role))


def too_many(user: int, count: int, names: Names) -> str:
    """A reach in words."""
    return f"{called('user', user, names)} may switch on {count} roles, and {limits.MAX_USER_ROLES} is the most"


# ---- tidy images ----

def tidied(policy: Policy) -> Policy:
    """The policy with each entry once, in the order of its tidy image; raises Refused where the library refuses it."""
    image = policy.image()
    check(image)
    return read(to_words(calls.tidy(image).image))


def meant(policy: Policy) -> Set[Entry]:
    """The set of a policy's entries, an exclusion's members ascending and of a role's limits the smallest: order and
    repeats are gone."""
    return {(*entry[:3], *(tuple(part) for part in entry[3:])) for entry in tidied(policy).entries}


def tidy_place(entry: Entry) -> Entry:
    """What entries are told by: the kind of word, then the fields, the members as their set number."""
    return (*entry[:3], sum(1 << role for role in entry[3])) if entry[0] == EXCLUSION else entry


def differences(first: Policy, second: Policy, names: Names, before: Optional[Names] = None) -> List[str]:
    """A line for each thing that two policies don't share, '-' for the first and '+' for the second; none if they mean
    the same. Before: the names of the first, where it has names of its own."""
    one, other = meant(first), meant(second)
    first_names = names if before is None else before
    lines = []
    if first.counts != second.counts:
        lines += [f"- {counted(first.counts)}", f"+ {counted(second.counts)}"]
    for entry in sorted(one ^ other, key=tidy_place):
        lines.append(f"- {' '.join(named(entry, first_names))}" if entry in one else f"+ {' '.join(named(entry, names))}")
    return lines


def counted(counts: Sequence[int]) -> str:
    """Numbers of users, roles and permissions, and of words if a fourth is there, in words."""
    return ", ".join(f"{count} {sort}{'' if count == 1 else 's'}" for count, sort in zip(counts, [*SORTS, "word"]))


def moved(old: Names, new: Names) -> List[str]:
    """A line for each name of a sort that has another number in the new text than in the old one, or is gone."""
    lines = []
    for sort in SORTS:
        for number, name in enumerate(old[sort]):
            if number >= len(new[sort]) or new[sort][number] != name:
                now = f"has {new[sort].index(name)} now" if name in new[sort] else "is gone"
                lines.append(f"{sort} {name} had number {number} and {now}")
    return lines


# ---- reading a text ----

class Wrong(Exception):
    """An error in one line of a text."""


class Errors(Exception):
    """All errors of a text, each as 'FILE:LINE: what is wrong'; `found` has them as line and reason, the line 0 for
    what is about no line."""

    def __init__(self, told: str, found: Sequence[Tuple[int, str]] = ()) -> None:
        super().__init__(told)
        self.found = list(found)


def understood(text: str) -> Tuple["Parser", "Judgement", List[Tuple[int, str]]]:
    """What the lines of a text declare and say, how the library judges it, and every error: its line, or 0, and what is
    wrong."""
    parser = Parser()
    lines = [(number, line.split("#", 1)[0].split()) for number, line in enumerate(text.split("\n"), start=1)]
    lines = [(number, words) for number, words in lines if words]
    errors = []
    for declaring in (True, False):
        for number, (keyword, *words) in lines:
            try:
                if (keyword in SORTS) == declaring:
                    parser.line(number, keyword, words)
            except Wrong as wrong:
                errors.append((number, str(wrong)))
    judgement = Judgement(parser)
    errors = sorted(errors + judgement.errors, key=lambda error: error[0])
    return parser, judgement, errors + [(0, f"declares no {sort}") for sort in SORTS if not parser.names[sort]]


def parse(text: str, name: str = "policy") -> Tuple[Policy, Names]:
    """The policy that a text says, which the library accepts, and its names; `name` is how the errors call the file."""
    parser, _, errors = understood(text)
    if errors:
        raise Errors("\n".join(f"{name}{f':{line}' if line else ''}: {what}" for line, what in errors), errors)
    return Policy(parser.counts(), [said.entry for said in parser.said]), parser.declared()


def build(text: str, name: str = "policy") -> bytes:
    """The image that a text says; raises Errors for a text that is wrong."""
    return parse(text, name)[0].image()


def is_text(data: bytes) -> bool:
    """Bytes are taken for a policy text, and not for an image, where a line of them declares a name."""
    lines = [line.split() for line in data.split(b"\n")]
    return any(line and line[0].decode("latin-1") in SORTS for line in lines)


def text_of(data: bytes, name: str) -> str:
    """The text that bytes are; raises Errors with the line that is no UTF-8."""
    try:
        return data.decode("utf-8-sig")
    except UnicodeDecodeError as wrong:
        line = data.count(b"\n", 0, wrong.start) + 1
        raise Errors(f"{name}:{line}: not UTF-8 text", [(line, "not UTF-8 text")]) from None


def read_text(path: str) -> str:
    """A text file; raises Errors with the line that is no UTF-8."""
    with open(path, "rb") as file:
        return text_of(file.read(), path)


def load(path: str) -> Tuple[Policy, Names]:
    """The policy that a text file says, and its names; raises Errors for a text that is wrong."""
    return parse(read_text(path), path)


class Said:
    """An entry with its line, its words, and the n or t that the line has, which its field may not hold."""

    def __init__(self, line: int, entry: Entry, written: int = 0) -> None:
        self.line, self.entry, self.words, self.written = line, entry, words_of(entry), written


class Parser:
    """What the lines so far declare and say: each name's number and line, and the entries."""

    def __init__(self) -> None:
        self.names: Dict[str, Dict[str, Tuple[int, int]]] = {sort: {} for sort in SORTS}
        self.said: List[Said] = []

    def line(self, number: int, keyword: str, words: List[str]) -> None:
        """Takes a line up; raises Wrong for what is no line of the text form."""
        if keyword in SORTS:
            self.declare(keyword, words, number)
        elif keyword in ("assign", "grant", "senior"):
            self.pairs(number, keyword, words)
        elif keyword == "exclude":
            self.exclude(number, words)
        elif keyword == "limit":
            self.limit(number, words)
        else:
            raise Wrong(f"unknown word {keyword}{similar(keyword, [*SORTS, *ENTRIES])}")

    def counts(self) -> List[int]:
        """How many names of each sort are declared."""
        return [len(known) for known in self.names.values()]

    def declared(self) -> Names:
        """The declared names by sort, in the order of their numbers."""
        return {sort: list(known) for sort, known in self.names.items()}

    def declare(self, sort: str, words: List[str], line: int) -> None:
        """Takes names of a sort up, as many as a head can name."""
        if not words:
            raise Wrong(f"a name is missing: {sort} NAME..")
        known = self.names[sort]
        for word in words:
            if not word.isprintable():
                raise Wrong(f"{word!a} is no name: it holds a character that can't be printed")
            if word in known:
                raise Wrong(f"{sort} {word} is declared twice, first in line {known[word][1]}")
            if len(known) == SORTS[sort]:
                raise Wrong(f"{sort} {word} is one too many: there are at most {SORTS[sort]} {sort}s")
            known[word] = (len(known), line)

    def number(self, sort: str, word: str) -> int:
        """The number of a declared name."""
        if word in self.names[sort]:
            return self.names[sort][word][0]
        for other in SORTS:
            if word in self.names[other]:
                raise Wrong(f"unknown {sort} {word} (there is a {other} of that name)")
        raise Wrong(f"unknown {sort} {word}{similar(word, self.names[sort])}")

    def pairs(self, line: int, keyword: str, words: List[str]) -> None:
        """The first name with each other name."""
        kind, usage = {"assign": (ASSIGNMENT, "USER ROLE.."), "grant": (GRANT, "ROLE PERMISSION.."),
                       "senior": (SENIOR, "ROLE JUNIOR..")}[keyword]
        if len(words) < 2:
            raise Wrong(f"a name is missing: {keyword} {usage}")
        first, other = NAMED[kind]
        numbers = [self.number(first, words[0])] + [self.number(other, word) for word in words[1:]]
        self.said += [Said(line, (kind, numbers[0], number)) for number in numbers[1:]]

    def exclude(self, line: int, words: List[str]) -> None:
        """An exclusion; an n beyond its field is written as the field's largest, which no check accepts."""
        if len(words) < 3:
            raise Wrong("too few words: exclude KIND N ROLE..")
        kind, n, *roles = words
        if kind.lower() not in EXCLUSION_KINDS:
            raise Wrong(f"unknown kind {kind} of exclusion: it is one of {', '.join(EXCLUSION_KINDS)}")
        members = [self.number("role", role) for role in roles]
        for place, role in enumerate(roles):
            if role in roles[:place]:
                raise Wrong(f"role {role} is a member twice")
        if not (n.isascii() and n.isdigit() and len(n) <= 3):
            raise Wrong(f"n is {n}; it is a number from 2 to the number of members")
        entry = (EXCLUSION, EXCLUSION_KINDS.index(kind.lower()), min(int(n), 127), members)
        self.said.append(Said(line, entry, int(n)))

    def limit(self, line: int, words: List[str]) -> None:
        """A limit; a t beyond its field is written as the field's largest, which no check accepts."""
        if len(words) != 2:
            raise Wrong(f"too {'few' if len(words) < 2 else 'many'} words: limit ROLE T")
        role, t = self.number("role", words[0]), words[1]
        if not (t.isascii() and t.isdigit() and len(t) <= 3):
            raise Wrong(f"t is {t}; it is a number from 2 to {limits.MAX_LIMIT}")
        self.said.append(Said(line, (LIMIT, role, min(int(t), 511)), int(t)))


class Judgement:
    """The library's refusals of what a text says, each as the line that it is about and the reason: what is refused is
    left out, with what stands behind it in its line, and the rest judged again. A loop or a reach ends it; `answer` is
    the library's last one, on the entries that `said` still has."""

    def __init__(self, parser: Parser) -> None:
        self.counts = [max(1, count) for count in parser.counts()]
        self.names, self.said = parser.declared(), list(parser.said)
        self.errors: List[Tuple[int, str]] = []
        while self.refused():
            pass

    def image(self, said: Iterable[Said]) -> bytes:
        """The image of these entries."""
        words = [encode(HEAD, *self.counts)]
        for one in said:
            words += one.words
        return to_bytes([*words, end_word(words)])

    def refused(self) -> bool:
        """Tells one refusal, if there is one; whether there may be more."""
        image = self.image(self.said)
        self.answer = answer = calls.check(image)
        if answer.number == Number.LOOP:
            self.errors.append(self.loop(image))
        elif answer.number == Number.REACH:
            self.errors.append(self.reach(answer.extra))
        elif answer.number == Number.LENGTH:
            self.shorten()
            return True
        elif not answer.done:
            self.leave_out(answer.number, answer.extra)
            return True
        return False

    def shorten(self) -> None:
        """Leaves out the lines for which an image has no room."""
        size = 2
        for one in self.said:
            size += len(one.words)
            if size > limits.MAX_WORDS:
                break
        self.errors.append((one.line, f"too many words: with this line the image has {size}, and {limits.MAX_WORDS} is the most"))
        self.said = [other for other in self.said if other.line < one.line]

    def leave_out(self, number: int, place: int) -> None:
        """Leaves out the entry that has the word at a place."""
        at = 1
        for index, one in enumerate(self.said):
            at += len(one.words)
            if place < at:
                break
        self.errors.append((one.line, self.fault(number, one)))
        self.said = self.said[:index] + [other for other in self.said[index:] if other.line != one.line]

    def fault(self, number: int, one: Said) -> str:
        """An entry's refusal in words."""
        if one.entry[0] == EXCLUSION:
            if number == Number.RANGE:
                return n_reason(one.written, len(one.entry[3]))
            return f"one exclusion too many: there are at most {limits.MAX_EXCLUSIONS}"
        if one.entry[0] == LIMIT:
            return t_reason(one.written)
        if one.entry[0] == SENIOR:
            return f"role {called('role', one.entry[1], self.names)} can't be senior over itself"
        user, role = called("user", one.entry[1], self.names), called("role", one.entry[2], self.names)
        return f"role {role} is one too many for {user}: a user has at most {limits.MAX_USER_ROLES} roles"

    def loop(self, image: bytes) -> Tuple[int, str]:
        """The loop that the senior lines close, at the last line that it needs."""
        chain = chain_of(image)
        lines: Dict[Entry, int] = {}
        for one in self.said:
            lines.setdefault(one.entry[:3], one.line)
        line = max(lines[(SENIOR, *pair)] for pair in zip(chain, chain[1:]))
        return line, f"loop: {over(chain, self.names)}"

    def reach(self, user: int) -> Tuple[int, str]:
        """A user who may switch on too many roles, at the line that makes them too many."""
        of_user = [one for one in self.said if one.entry[0] == SENIOR or one.entry[:2] == (ASSIGNMENT, user)]
        lines = sorted({one.line for one in of_user})
        low, high = 0, len(lines) - 1
        while low < high:
            middle = (low + high) // 2
            if calls.check(self.image(one for one in of_user if one.line <= lines[middle])).done:
                low = middle + 1
            else:
                high = middle
        count = len(reached(Policy(self.counts, [one.entry for one in of_user]), user))
        return lines[low], f"reach: {too_many(user, count, self.names)}"


# ---- the listing ----

def listing(policy: Policy, names: Names) -> str:
    """The text of a policy; the number of each name stands beside its declaration."""
    lines: List[str] = []
    for sort in SORTS:
        lines += [f"{sort} {name}  # {number}" for number, name in enumerate(names[sort])] + [""]
    line, last = "", ("", "")
    for entry in policy.entries:
        keyword, *words = named(entry, names)
        opened = keyword, words[0]
        if last == opened and keyword in JOINED and len(line) + 1 + len(words[1]) <= WIDTH:
            line += f" {words[1]}"
        else:
            lines += [line] if line else []
            line = " ".join([keyword, *words])
        last = opened
    return "\n".join(lines + ([line] if line else [])).rstrip("\n") + "\n"


def named(entry: Entry, names: Names) -> Tuple[str, ...]:
    """An entry as the words of its line."""
    def name(sort: str, number: int) -> str:
        return called(sort, number, names)

    if entry[0] == EXCLUSION:
        _, kind, n, members = entry
        return ("exclude", EXCLUSION_KINDS[kind], str(n), *(name("role", role) for role in members))
    if entry[0] == LIMIT:
        return "limit", name("role", entry[1]), str(entry[2])
    keyword = {ASSIGNMENT: "assign", GRANT: "grant", SENIOR: "senior"}[entry[0]]
    return (keyword, *(name(sort, number) for sort, number in zip(NAMED[entry[0]], entry[1:])))
