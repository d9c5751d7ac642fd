"""A ward of a store as the command has it: connected, with the names of its policy, and refusals in words.

Exit status: 1 a refusal, by the kit or by the store, or the answer is no; 2 wrong usage, a name that is not declared, a
ward that is not there, a file; 3 the storage failed and nothing is changed; 4 it failed within the commit, so that
nobody knows yet."""

import argparse
import contextlib
import getpass
import os
import re
import time
from typing import Callable, Dict, FrozenSet, Iterable, Iterator, List, Optional, Tuple, TypeVar

from . import cli, limits, policy, why
from .answers import Obstacle
from .limits import Number
from .policy import Names, Policy, Refused
from .store import Image, Session, Store, StoreAnswer, StoreFailed, StoreNumber

# The variables that stand in for options.
STORE_VARIABLE, NAMES_VARIABLE = "NUTRAMEZA_STORE", "NUTRAMEZA_NAMES"

REFUSED, USAGE, STORAGE, UNKNOWN = 1, 2, 3, 4
STATUS: Dict[int, int] = {
    StoreNumber.WARD: USAGE, StoreNumber.BUSY: STORAGE, StoreNumber.FAILED: STORAGE, StoreNumber.SCHEMA: STORAGE,
    StoreNumber.UNFIT: STORAGE, StoreNumber.UNKNOWN: UNKNOWN}

# How many of the entries in which a text differs from a ward's policy are told; the longest name of a ward or a host.
DIFFERENCES = 6
NAME_BYTES = 63

MICRO = 1000000

Told = TypeVar("Told")


class Failed(Exception):
    """What is told on standard error in place of an answer, and the exit status."""

    def __init__(self, words: str, status: int) -> None:
        super().__init__(words)
        self.status = status


# ---- words ----

def plain(text: str) -> str:
    """A name out of a database as a terminal may have it."""
    return text if text.isprintable() else ascii(text)[1:-1]


def counted(count: int, one: str, many: str = "") -> str:
    """So many of something; 'no' for none."""
    return f"{count:,} {one if count == 1 else many or one + 's'}" if count else f"no {one}"


def counts_of(image: bytes) -> List[int]:
    """How many users, roles and permissions an image has, off its head."""
    return policy.decode(policy.to_words(image[:limits.WORD_BYTES])[0])[0]


def local_time(micros: int) -> str:
    """A time by the clock of the reader."""
    return time.strftime("%Y-%m-%d %H:%M:%S", time.localtime(micros // MICRO))


def utc_time(micros: int) -> str:
    """A time in UTC, to the microsecond."""
    return time.strftime("%Y-%m-%dT%H:%M:%S", time.gmtime(micros // MICRO)) + f".{micros % MICRO:06d}Z"


def table(rows: List[List[str]]) -> List[str]:
    """Rows as lines of columns that stand below each other."""
    widths = [max(len(row[column]) for row in rows) for column in range(len(rows[0]))]
    return ["  ".join(cell.ljust(width) for cell, width in zip(row, widths)).rstrip() for row in rows]


# ---- connecting ----

def default_host() -> str:
    """The host of windows that the command opens: who runs it, and where. No role is live in them."""
    try:
        login = getpass.getuser()
    except (KeyError, OSError):
        login = str(os.getuid())
    return f"nutrameza:{login}@{os.uname().nodename}".encode()[:NAME_BYTES].decode(errors="ignore")


def without_password(name: str) -> str:
    """A store's name as it may be shown."""
    return re.sub(r"(?<=[?&]password=)[^&]*", "***", re.sub(r"(?<=://)([^/@:]*):[^/@]*@", r"\1:***@", name))


def store_name(arguments: argparse.Namespace) -> str:
    """The store that the command line or the environment names."""
    name: str = arguments.store or os.environ.get(STORE_VARIABLE, "")
    if not name:
        raise Failed(f"no store is named: --store or {STORE_VARIABLE}, as sqlite:PATH or postgresql://..", USAGE)
    if not name.startswith(("sqlite:", "postgresql://", "postgres://")):
        raise Failed(f"{name} names no store: sqlite:PATH or postgresql://..", USAGE)
    return name


@contextlib.contextmanager
def connected(arguments: argparse.Namespace, making: bool = False) -> Iterator[Store]:
    """A handle; without tables only where they are to be made. No file is made by looking for one."""
    name, host = store_name(arguments), arguments.host
    path = name[len("sqlite:"):]
    if name.startswith("sqlite:") and not making and not os.path.exists(path):
        raise Failed(f"{path}: No such file or directory; 'nutrameza store make' makes a store", USAGE)
    for what, word in (("the host", host), ("the ward", getattr(arguments, "ward", "-"))):
        if not 1 <= len(word.encode()) <= NAME_BYTES:
            raise Failed(f"the name of {what} has {len(word.encode())} bytes; it has 1 to {NAME_BYTES}", USAGE)
    with Store(name, host) as store:
        told, unmade = store.connected, (StoreNumber.SCHEMA, 0)
        if not told.done and not (making and (told.number, told.extra) == unmade):
            raise Failed(f"{without_password(name)}: {failure(told)}", STATUS.get(told.number, REFUSED))
        yield store


def failure(answer: StoreAnswer) -> str:
    """A failure of the storage in words."""
    said: Dict[int, str] = {
        StoreNumber.BUSY: "busy: others have held the lock for 10 s, and nothing is changed; try again",
        StoreNumber.FAILED: "the storage failed, and nothing is changed",
        StoreNumber.UNKNOWN: "the storage failed within the commit, so that it may be done or not",
        StoreNumber.UNFIT: "unfit storage"}
    if answer.number == StoreNumber.SCHEMA:
        return "no tables; 'nutrameza store make' makes them" if answer.extra == 0 else f"tables of version {answer.extra}, for another library"
    return said.get(answer.number, answer.word) + (f": {plain(answer.error.strip())}" if answer.error else "")


# ---- a ward ----

class Ward(why.Named):
    """A ward with its policies; the names are those of the text that is named, which must fit the policy in place."""

    def __init__(self, store: Store, arguments: argparse.Namespace) -> None:
        self.store, self.called = store, arguments.ward
        path = os.environ.get(NAMES_VARIABLE, "") if arguments.names is None else arguments.names
        self.images: List[Image] = self.listed(store.policies)
        self.image = self.images[-1].image
        super().__init__(self.fitting(path) if path else policy.no_names())

    def listed(self, call: Callable[..., Told], *more: int) -> Told:
        """What the store tells of this ward."""
        try:
            return call(self.called, *more)
        except StoreFailed as failed:
            raise self.failed(failed.answer) from None

    def said(self) -> Policy:
        """The policy that is in place."""
        try:
            return policy.read(policy.check(self.image))
        except Refused as refused:
            raise Failed(f"refused: the policy image of {plain(self.called)} is damaged: {refused}", REFUSED) from None

    def fitting(self, path: str) -> Names:
        """The names that a text declares; it says what the ward's policy says."""
        said, names = policy.load(path)
        others = policy.differences(said, self.said(), names)
        if not others:
            return names
        more = [f".. and {counted(len(others) - DIFFERENCES, 'more line')}"] if len(others) > DIFFERENCES else []
        raise Failed("\n".join([
            f"{path} is not the policy of {plain(self.called)}, version {self.images[-1].version}.", "Only the text has '-', only the ward '+':",
            *others[:DIFFERENCES], *more, "Name the text that is in place by --names, or none: --names ''"]), USAGE)

    def number(self, sort: str, word: str) -> int:
        """The number that a name or a number stands for."""
        most = limits.MAX_PERMISSIONS - 1 if sort == "permission" else cli.MOST_NUMBER
        return cli.called_so(self.names, sort, word, most)

    def sessions(self, users: Optional[Iterable[int]] = None) -> List[Session]:
        """The open windows, of these users alone if some are named."""
        wanted = None if users is None else frozenset(users)
        return [each for each in self.listed(self.store.sessions) if wanted is None or each.user in wanted]

    def active(self, user: int, window: int) -> FrozenSet[int]:
        """The active roles of a window; none of one that is not open."""
        shown = self.store.show(self.called, user, window)
        return shown.roles if shown.done else frozenset()

    def failed(self, answer: StoreAnswer, repeat: str = "") -> Failed:
        """A refusal by the store in words; repeat says what to do where nobody knows whether it is done."""
        status = STATUS.get(answer.number, REFUSED)
        if answer.number == StoreNumber.WARD:
            return Failed(f"there is no ward {plain(self.called)}{self.similar()}", status)
        if status != REFUSED:
            return Failed(failure(answer) + (f"\n{repeat}" if answer.number == StoreNumber.UNKNOWN and repeat else ""), status)
        reasons: Dict[int, str] = {
            StoreNumber.TOKEN: "this token is on record for another request",
            StoreNumber.OVERTAKEN: "it was done, and what it gave is no longer in force",
            StoreNumber.SHRINKS: f"the ward has {self.said().counts[0]} users; one who leaves keeps the number"}
        if answer.number == StoreNumber.DAMAGED and answer.extra:
            reasons[StoreNumber.DAMAGED] = (f"the line of {self.name('user', answer.extra - 1)} is not as the store wrote it;\n"
                                            "see 'nutrameza store verify' and 'nutrameza store mend'")
        reason = reasons.get(answer.number) or plain(answer.error) or f"{answer.extra}"
        return Failed(f"refused: {answer.number} {answer.word}: {reason}", status)

    def similar(self) -> str:
        """A ward that may have been meant."""
        try:
            return policy.similar(self.called, [plain(ward.name) for ward in self.store.wards()])
        except StoreFailed:
            return ""


class WindowAsk(why.Ask):
    """A user's ask in a window of a store: what stands in its way, by the store's own looks."""

    def __init__(self, ward: Ward, user: int, window: int) -> None:
        ward.said()
        super().__init__(ward.image, b"", ward.names, user, window)
        self.ward = ward

    def windows(self, users: Iterable[int]) -> List[Tuple[int, int]]:
        return [(each.user, each.window) for each in self.ward.sessions(users)]

    def active(self, user: int, session: int) -> FrozenSet[int]:
        return self.ward.active(user, session)

    def obstacle(self, lower: Iterable[int], upper: Iterable[int]) -> Obstacle:
        found = self.ward.store.obstacle(self.ward.called, self.user, self.session, lower, upper)
        if found.number >= StoreNumber.BUSY:
            raise self.refusal(found)
        return found

    def refusal(self, answer: StoreAnswer, repeat: str = "") -> Failed:
        """A refused call in words, the kit's or the store's; of an ask that finds no role set, what stands in its
        way is not among them."""
        if answer.number == StoreNumber.GONE:
            return Failed(f"refused: {answer.number} {answer.word}: window {self.session} was closed, released or taken over", REFUSED)
        if answer.number >= StoreNumber.BUSY:
            return self.ward.failed(answer, repeat)
        reason = self.reason(answer) if answer.number != Number.NONE else ""
        return Failed(f"refused: {answer.number} {answer.word}" + (f": {reason}" if reason else ""), REFUSED)
