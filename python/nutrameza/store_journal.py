"""The journal of a ward as lines for a reader or as CSV, by time, and followed as it grows."""

import argparse
import collections
import csv
import heapq
import sys
from typing import Callable, Dict, Iterable, Iterator, List, Sequence, Tuple

from . import limits
from .answers import members
from .limits import Aim, Number
from .policy import called
from .progress import Progress, ctrl_c, folded
from .store import Entry, Store, word_of
from .store_ward import Ward, counted, counts_of, local_time, plain, utc_time

# Entries that are read at once: few at first, since behind a user's last entry those of the next one come.
FIRST_PAGE, PAGE = 16, 1024

# Lines that are told before a journal is followed, and seconds between two looks.
LAST, EVERY = 10, 1.0

COLUMNS = ("time", "user", "name", "order", "call", "window", "new_window", "lower", "upper", "permission_aim", "role_aim", "number",
           "word", "extra", "roles", "permissions", "version", "turn", "host", "token")


# ---- an entry ----

class Read:
    """What the bytes of an entry say."""

    def __init__(self, entry: Entry) -> None:
        self.number, self.extra = entry.returned % 256, entry.returned // 256
        asks = entry.call in ("ask", "short ask")
        self.lower, self.upper = (members(entry.args[at:at + limits.SET_BYTES]) if asks else frozenset()
                                  for at in (0, limits.SET_BYTES))
        aims = entry.args[2 * limits.SET_BYTES:] if entry.call == "ask" else b""
        self.aims = [int.from_bytes(aims[at:at + 8], "little") for at in range(0, len(aims), 8)]
        self.roles = members(entry.answer[:limits.ROLES_BYTES])
        self.permissions = members(entry.answer[limits.ROLES_BYTES:])
        done, given = self.number == Number.DONE, limits.SESSIONS * entry.order
        self.window = given + self.extra if entry.call == "open" and done else entry.window
        self.new_window = given + entry.window % limits.SESSIONS if entry.call == "adopt" and done else 0


def aim_word(aim: int) -> str:
    """An aim in a word; a number that is none as it stands."""
    return Aim(aim).name.lower() if aim in list(Aim) else str(aim)


class Lines:
    """Entries as lines, by the names of a ward."""

    def __init__(self, ward: Ward) -> None:
        self.ward = ward
        self.permissions = {each.version: counts_of(each.image)[2] for each in ward.images}

    def asked(self, entry: Entry, read: Read) -> str:
        """What an ask asks for; an upper bound that has every permission is not told."""
        said = f" for {self.ward.list('permission', read.lower, ' and ') or 'nothing'}"
        every = range(self.permissions.get(entry.version, limits.MAX_PERMISSIONS))
        if not read.upper.issuperset(every):
            said += f" within {self.ward.list('permission', read.upper, ' and ') or 'nothing'}"
        return said + ("" if not read.aims else f" ({aim_word(read.aims[0])} permissions, {aim_word(read.aims[1])} roles)")

    def told(self, entry: Entry) -> str:
        """The call of an entry and its answer."""
        read, roles = Read(entry), ""
        if entry.call in ("import", "mend"):
            return "line imported" if entry.call == "import" else "line mended"
        what = entry.call.replace("short ask", "ask") + (f" window {read.window}" if read.window else "")
        if entry.call in ("ask", "short ask"):
            what += self.asked(entry, read)
            roles = self.ward.list("role", read.roles, " and ") or "no role"
        elif read.new_window:
            roles = f"window {read.new_window}"
        if read.number != Number.DONE:
            roles = f"refused: {read.number} {word_of(read.number)}"
        return f"{what}: {roles}" if roles else what

    def line(self, entry: Entry) -> str:
        """An entry for a reader."""
        return f"{local_time(entry.at)} {self.ward.name('user', entry.user)} {self.told(entry)} [{plain(entry.host)}]"

    def row(self, entry: Entry) -> List[str]:
        """An entry as the cells of COLUMNS; where there is nothing a cell is empty."""
        read = Read(entry)

        def listed(sort: str, numbers: Iterable[int]) -> str:
            return " ".join(called(sort, number, self.ward.names) for number in sorted(numbers))

        aims = [aim_word(aim) for aim in read.aims] or ["", ""]
        return [utc_time(entry.at), str(entry.user), called("user", entry.user, self.ward.names), str(entry.order), entry.call,
                str(read.window or ""), str(read.new_window or ""), listed("permission", read.lower), listed("permission", read.upper),
                *aims, str(read.number), word_of(read.number), str(read.extra), listed("role", read.roles),
                listed("permission", read.permissions), str(entry.version), str(entry.turn), entry.host, entry.token.hex()]


# ---- entries by time ----

def place(entry: Entry) -> Tuple[int, int, int]:
    """What entries are put in order by."""
    return entry.at, entry.user, entry.order


def entries_of(ward: Ward, user: int, order: int, page: int = FIRST_PAGE) -> Iterator[Entry]:
    """A user's entries from this one on."""
    while True:
        read = ward.listed(ward.store.journal_from, user, order, page)
        own = [entry for entry in read if entry.user == user]
        yield from own
        if len(own) < page:
            return
        order, page = own[-1].order + 1, min(PAGE, 4 * page)


def by_time(ward: Ward, users: Sequence[int]) -> Iterable[Entry]:
    """The entries of these users in the order of their times, a user's own in the order of the journal."""
    return heapq.merge(*(entries_of(ward, user, 0) for user in users), key=place)


class Following:
    """Where each user's journal has been read to; users that a new policy adds are found by their first entry."""

    def __init__(self, ward: Ward, users: Sequence[int], grows: bool) -> None:
        self.ward, self.grows = ward, grows
        self.next: Dict[int, int] = {user: 0 for user in users}

    def seen(self, entries: Iterable[Entry]) -> Iterator[Entry]:
        """The entries, each noted as it goes by."""
        for entry in entries:
            self.next[entry.user] = entry.order + 1
            yield entry

    def new(self) -> List[Entry]:
        """What has come since."""
        if self.grows:
            for entry in self.ward.listed(self.ward.store.journal_from, len(self.next), 0, 1):
                self.next.update({user: 0 for user in range(len(self.next), entry.user + 1)})
        found = [entry for user, order in self.next.items() for entry in entries_of(self.ward, user, order, 1)]
        return list(self.seen(sorted(found, key=place)))


# ---- the sub-command ----

def printing(ward: Ward, as_csv: bool) -> Callable[[Entry], None]:
    """How an entry is printed."""
    lines = Lines(ward)
    if not as_csv:
        return lambda entry: print(folded(lines.line(entry), sys.stdout, indent="  "))
    writer = csv.writer(sys.stdout, lineterminator="\n")
    writer.writerow(COLUMNS)
    return lambda entry: writer.writerow(lines.row(entry)) and None


def follow(following: Following, tell: Callable[[Entry], None]) -> None:
    """Tells what comes until Ctrl-C."""
    with ctrl_c() as pressed:
        sys.stdout.flush()
        while not pressed.wait(EVERY):
            for entry in following.new():
                tell(entry)
            sys.stdout.flush()


def journal(arguments: argparse.Namespace, store: Store) -> int:
    """The journal, all of it or its last lines, and what comes."""
    ward = Ward(store, arguments)
    users = sorted({ward.number("user", word) for word in arguments.users}) or range(counts_of(ward.image)[0])
    last = LAST if arguments.lines is None and arguments.follow else arguments.lines
    following = Following(ward, users, grows=not arguments.users)
    with Progress("reading the journal", shown=not sys.stdout.isatty()) as progress:
        tell, count = printing(ward, arguments.csv), 0
        entries = following.seen(by_time(ward, users))
        for entry in entries if last is None else collections.deque(entries, maxlen=last):
            tell(entry)
            count += 1
            progress.words = counted(count, "entry", "entries")
    if arguments.follow:
        follow(following, tell)
    return 0
