"""The store: wards (a policy and its ledger) in SQLite or PostgreSQL, one call of the kit as one transaction.

    from nutrameza.store import Store
    with Store("sqlite:ward.db", host="desk-7") as store:
        store.make()
        store.create("ward 3", image)
        window = store.open("ward 3", user=0)
        answer = store.short_ask("ward 3", 0, window.window, lower=[1], upper=[0, 1, 2, 3, 4])
        if answer.done: ...                         # the answer is on disk

An answer below 128 is the kit's own judgement, one of 128 and above the store's: nothing may be switched on. Both are
told and never raised; only what no call can take is raised, and a handle that is used wrongly (StoreUsage). A handle
belongs to one thread at a time; open one for each. The interpreter's lock is given back while a call waits."""

import ctypes
import dataclasses
import enum
import functools
import os
from typing import Any, Callable, Dict, FrozenSet, List, Optional, Tuple, Type, TypeVar

from . import limits
from .answers import Answer, Chosen, Explained, Obstacle, members
from .calls import Bound, Ledger, bound_bytes, image_bytes, number, read_bytes
from .library import NoLibrary, Shared

STORE = Shared("libnutrameza_store.so.0", "NUTRAMEZA_STORE_LIBRARY")
TOKEN_BYTES = 16


class StoreNumber(enum.IntEnum):
    """The store's own answer numbers."""

    BUSY = 128
    FAILED = 129
    UNKNOWN = 130
    WARD = 131
    TOKEN = 132
    GONE = 133
    OVERTAKEN = 134
    STOPS = 135
    SHRINKS = 136
    DAMAGED = 137
    USAGE = 138
    SCHEMA = 139
    UNFIT = 140
    ENDED = 141


class GoOn(enum.IntEnum):
    """What a policy change does about those whom it stops: it is refused; or closes their windows, and is refused if
    that does not free them; or closes their windows and is put in place even so."""

    IF_NONE = 0
    CLOSING = 1
    REGARDLESS = 2


class StoreUsage(RuntimeError):
    """A handle was used wrongly: closed, in two calls at once, over a fork, or with a name that is none."""


# ---- what C has ----

class Reply(ctypes.Structure):
    """nutrameza_store_reply."""

    _fields_ = [("window", ctypes.c_uint64), ("answer", ctypes.c_uint8 * limits.ANSWER_BYTES), ("order", ctypes.c_uint64),
                ("version", ctypes.c_uint64), ("again", ctypes.c_int), ("token", ctypes.c_uint8 * TOKEN_BYTES)]


class SessionRow(ctypes.Structure):
    """nutrameza_store_session."""

    _fields_ = [("user", ctypes.c_uint64), ("window", ctypes.c_uint64), ("was", ctypes.c_uint64), ("host", ctypes.c_char_p),
                ("at", ctypes.c_int64)]


class EntryRow(ctypes.Structure):
    """nutrameza_store_entry."""

    _fields_ = [("user", ctypes.c_uint64), ("order", ctypes.c_uint64), ("version", ctypes.c_uint64), ("window", ctypes.c_uint64),
                ("returned", ctypes.c_uint64), ("turn", ctypes.c_uint64), ("call", ctypes.c_char_p), ("host", ctypes.c_char_p),
                ("at", ctypes.c_int64), ("token", ctypes.c_void_p), ("args", ctypes.c_void_p), ("answer", ctypes.c_void_p),
                ("args_len", ctypes.c_size_t)]


class WardRow(ctypes.Structure):
    """nutrameza_store_ward."""

    _fields_ = [("name", ctypes.c_char_p), ("version", ctypes.c_uint64)]


class ImageRow(ctypes.Structure):
    """nutrameza_store_image."""

    _fields_ = [("version", ctypes.c_uint64), ("image", ctypes.c_void_p), ("image_len", ctypes.c_size_t), ("host", ctypes.c_char_p),
                ("at", ctypes.c_int64)]


class ReportRow(ctypes.Structure):
    """nutrameza_store_report."""

    _fields_ = [("calls", ctypes.c_uint64), ("differences", ctypes.c_uint64), ("incidents", ctypes.c_uint64), ("words", ctypes.c_char * 400)]


class FindingRow(ctypes.Structure):
    """nutrameza_store_finding."""

    _fields_ = [("user", ctypes.c_uint64), ("order", ctypes.c_uint64), ("incident", ctypes.c_int), ("words", ctypes.c_char_p)]


STEP = ctypes.CFUNCTYPE(ctypes.c_int, ctypes.c_void_p, ctypes.POINTER(ReportRow))
FOUND = ctypes.CFUNCTYPE(None, ctypes.c_void_p, ctypes.POINTER(FindingRow))


class WatchRow(ctypes.Structure):
    """nutrameza_store_watch."""

    _fields_ = [("context", ctypes.c_void_p), ("step", STEP), ("found", FOUND)]


# The parameters behind the handle: t text, n a number, b a buffer and its length, p a pointer, i an int, f a function
# and its context.
PARAMETERS = {
    "make": "", "create": "tbb", "open": "tnpp", "ask": "tnnppnnpp", "short_ask": "tnnpppp", "close": "tnnpp",
    "adopt": "tnnpp", "show": "tnnp", "explain": "tnnnp", "obstacle": "tnnpppp", "wards": "f", "sessions": "tf",
    "policies": "tf", "journal": "tf", "journal_from": "tnnnf", "release": "tt", "adopt_all": "ttf", "policy": "tbip",
    "verify": "tp", "verify_watched": "tpp", "mend": "tnp", "cut": "tnp", "export": "tpppp",
}
TYPES: Dict[str, List[Any]] = {"t": [ctypes.c_char_p], "n": [ctypes.c_uint64], "b": [ctypes.c_void_p, ctypes.c_size_t], "p": [ctypes.c_void_p],
         "i": [ctypes.c_int], "f": [ctypes.c_void_p, ctypes.c_void_p]}


@functools.lru_cache(maxsize=None)
def library() -> ctypes.CDLL:
    """The store's library, its functions typed; looked for at the first handle."""
    path = STORE.found()
    try:
        made = ctypes.CDLL(path)
        for name, parameters in PARAMETERS.items():
            function = getattr(made, f"nutrameza_store_{name}")
            function.restype = ctypes.c_uint64
            function.argtypes = [ctypes.c_void_p] + [each for parameter in parameters for each in TYPES[parameter]]
        made.nutrameza_store_connect.restype = ctypes.c_uint64
        made.nutrameza_store_connect.argtypes = [ctypes.c_char_p, ctypes.c_char_p, ctypes.POINTER(ctypes.c_void_p)]
        made.nutrameza_store_disconnect.restype, made.nutrameza_store_disconnect.argtypes = None, [ctypes.c_void_p]
        made.nutrameza_store_error.restype, made.nutrameza_store_error.argtypes = ctypes.c_char_p, [ctypes.c_void_p]
        made.nutrameza_store_word_of.restype, made.nutrameza_store_word_of.argtypes = ctypes.c_char_p, [ctypes.c_uint]
    except (OSError, AttributeError) as wrong:
        raise STORE.missing(path, wrong) from None
    return made


def word_of(answer: int) -> str:
    """The word for an answer number, the kit's or the store's."""
    said: bytes = library().nutrameza_store_word_of(answer)
    return said.decode()


# ---- what is told ----

@dataclasses.dataclass(frozen=True)
class Told:
    """What a call of the store tells beside number and extra: the engine's words where the storage failed, the call's
    number among the user's, the image's version, whether the token was recorded before, and the token."""

    error: str = ""
    window: int = 0
    order: int = 0
    version: int = 0
    again: bool = False
    token: bytes = b""


@dataclasses.dataclass(frozen=True)
class StoreAnswer(Answer):
    """A call's number and extra, and what the store tells beside them."""

    told_by_store: Told = Told()

    @property
    def word(self) -> str:
        return word_of(self.number)

    @property
    def error(self) -> str:
        """The engine's own words for a failure; empty where there was none."""
        return self.told_by_store.error

    @property
    def token(self) -> bytes:
        """The request's token: the host's, or the one made for it."""
        return self.told_by_store.token

    @property
    def again(self) -> bool:
        """The token was recorded before, and this is the record."""
        return self.told_by_store.again

    @property
    def order(self) -> int:
        """The call's number among the user's."""
        return self.told_by_store.order

    @property
    def version(self) -> int:
        """The version of the image that the call was made under."""
        return self.told_by_store.version


@dataclasses.dataclass(frozen=True)
class StoreOpened(StoreAnswer):
    """An open."""

    @property
    def window(self) -> int:
        """The window's number."""
        self.told("window")
        return self.told_by_store.window


@dataclasses.dataclass(frozen=True)
class StoreChosen(StoreAnswer, Chosen):
    """An ask, a short ask or a show."""


@dataclasses.dataclass(frozen=True)
class StoreAdopted(StoreOpened, Chosen):
    """A window taken over: its new number, and what is active in it."""


@dataclasses.dataclass(frozen=True)
class StoreExplained(StoreAnswer, Explained):
    """An explain."""


@dataclasses.dataclass(frozen=True)
class StoreObstacle(StoreAnswer, Obstacle):
    """What stands in the way of an ask."""


@dataclasses.dataclass(frozen=True)
class StorePolicy(StoreAnswer):
    """A policy change: of a done one the extra is the new version."""

    @property
    def stopped(self) -> FrozenSet[int]:
        """The users whom it stops, or those who are left where windows were closed."""
        return members(self.filled)


@dataclasses.dataclass(frozen=True)
class Ward:
    """A ward and the version of its policy."""

    name: str
    version: int


@dataclasses.dataclass(frozen=True)
class Session:
    """An open window: 'was' is its number before it was taken over, else 0; 'at' microseconds since 1970."""

    user: int
    window: int
    was: int
    host: str
    at: int


@dataclasses.dataclass(frozen=True)
class Entry:
    """An entry of the journal."""

    user: int
    order: int
    version: int
    window: int
    returned: int
    turn: int
    call: str
    host: str
    at: int
    token: bytes
    args: bytes
    answer: bytes


@dataclasses.dataclass(frozen=True)
class Image:
    """A policy that a ward has or had."""

    version: int
    image: bytes
    host: str
    at: int


@dataclasses.dataclass(frozen=True)
class Report:
    """What a replay of the journal found."""

    calls: int
    differences: int
    incidents: int
    words: str


@dataclasses.dataclass(frozen=True)
class Finding:
    """A difference, or an incident."""

    user: int
    order: int
    incident: bool
    words: str


@dataclasses.dataclass(frozen=True)
class Verified(StoreAnswer):
    """A verify, a mend or a cut, with what the replay found."""

    report: Report = Report(0, 0, 0, "")


Made = TypeVar("Made", bound=StoreAnswer)
Row = TypeVar("Row")


def copied(place: Optional[int], length: int) -> bytes:
    """The bytes at a place that C lends; none where there is none."""
    return ctypes.string_at(place, length) if place else b""


def session_of(row: SessionRow) -> Session:
    """A window as it is told."""
    return Session(row.user, row.window, row.was, (row.host or b"").decode(), row.at)


def entry_of(row: EntryRow) -> Entry:
    """An entry as it is told."""
    return Entry(row.user, row.order, row.version, row.window, row.returned, row.turn, (row.call or b"").decode(),
                 (row.host or b"").decode(), row.at, copied(row.token, TOKEN_BYTES), copied(row.args, row.args_len),
                 copied(row.answer, limits.ANSWER_BYTES))


def image_of(row: ImageRow) -> Image:
    """A policy as it is told."""
    return Image(row.version, copied(row.image, row.image_len), (row.host or b"").decode(), row.at)


def report_of(row: ReportRow) -> Report:
    """A report as it is filled."""
    return Report(row.calls, row.differences, row.incidents, row.words.decode())


def text(what: str, value: str) -> bytes:
    """A name that C takes."""
    if not isinstance(value, str):
        raise TypeError(f"{what} is text, not {type(value).__name__}")
    if "\0" in value:
        raise ValueError(f"{what} has a zero byte")
    return value.encode()


def sized(what: str, value: bytes, size: int) -> bytes:
    """Bytes of which C takes exactly so many."""
    if len(value) != size:
        raise ValueError(f"{what} has {len(value)} bytes; it has {size}")
    return value


def run_of_host() -> str:
    """A name for this run of this program, which no other has."""
    return f"{os.uname().nodename[:24]}-{os.getpid()}-{os.urandom(6).hex()}"


# ---- a handle ----

class Store:
    """A handle: "sqlite:PATH" or "postgresql://..". 'connected' is what connecting told; where there are no tables yet
    (139, extra 0), make is the one call that it takes."""

    def __init__(self, name: str, host: Optional[str] = None) -> None:
        self.handle = ctypes.c_void_p()
        named = text("the store's name", name), text("host", run_of_host() if host is None else host)
        self.connected = self.judged(StoreAnswer, "connect", library().nutrameza_store_connect(*named, ctypes.byref(self.handle)))

    def __enter__(self) -> "Store":
        return self

    def __exit__(self, *_: object) -> None:
        self.disconnect()

    def disconnect(self) -> None:
        """Gives the handle back; a second time nothing happens."""
        if self.handle.value:
            library().nutrameza_store_disconnect(self.handle)
        self.handle = ctypes.c_void_p()

    def judged(self, kind: Type[Made], name: str, returned: int, reply: Optional[Reply] = None, filled: bytes = b"", **more: Any) -> Made:
        """The answer of what C returned; raises StoreUsage for a handle used wrongly. A refused policy too tells whom
        it stops."""
        answer, extra = returned % 256, returned // 256
        said = library().nutrameza_store_error(self.handle) if answer >= StoreNumber.BUSY and self.handle.value else b""
        told = Told((said or b"").decode(errors="replace"))
        if answer == StoreNumber.USAGE:
            raise StoreUsage(f"{name}: {told.error or word_of(answer)}")
        if reply is not None:
            told = Told(told.error, reply.window, reply.order, reply.version, bool(reply.again), bytes(reply.token))
        return kind(name, answer, extra, filled if answer == 0 or kind is StorePolicy else b"", told, **more)

    def called(self, name: str, *arguments: Any) -> int:
        """What C returns."""
        if not self.handle.value:
            raise StoreUsage(f"{name}: the handle was given back")
        returned: int = getattr(library(), f"nutrameza_store_{name}")(self.handle, *arguments)
        return returned

    def replied(self, kind: Type[Made], name: str, *arguments: Any) -> Made:
        """A call with a reply."""
        reply = Reply()
        returned = self.called(name, *arguments, ctypes.byref(reply))
        return self.judged(kind, name, returned, reply, bytes(reply.answer))

    def listed(self, name: str, row: Any, made: Callable[[Any], Row], *arguments: Any) -> List[Row]:
        """What a call tells one by one; raises StoreFailed where it is refused."""
        found: List[Row] = []
        each = ctypes.CFUNCTYPE(None, ctypes.c_void_p, ctypes.POINTER(row))(lambda _, place: found.append(made(place.contents)))
        answer = self.judged(StoreAnswer, name, self.called(name, *arguments, each, None))
        if not answer.done:
            raise StoreFailed(answer)
        return found

    # ---- wards ----

    def make(self) -> StoreAnswer:
        """Makes the tables where there are none."""
        return self.judged(StoreAnswer, "make", self.called("make"))

    def create(self, ward: str, image: bytes, ledger: Optional[Ledger] = None) -> StoreAnswer:
        """A ward under a policy: with a zero ledger, or with one of 80 or 144 bytes a user."""
        first = bytes(read_bytes("a ledger", ledger)) if ledger is not None else None
        returned = self.called("create", text("ward", ward), image_bytes(image), len(image), first, len(first or b""))
        return self.judged(StoreAnswer, "create", returned)

    def wards(self) -> List[Ward]:
        """The wards by name."""
        return self.listed("wards", WardRow, lambda row: Ward((row.name or b"").decode(), row.version))

    def export(self, ward: str) -> Tuple[bytes, bytes]:
        """Image and ledger as they stand at one moment."""
        image, ledger = bytearray(limits.MAX_IMAGE_BYTES), bytearray(limits.LINE_BYTES * limits.MAX_USERS)
        sizes = [ctypes.c_size_t(len(image)), ctypes.c_size_t(len(ledger))]
        places = [(ctypes.c_char * len(each)).from_buffer(each) for each in (image, ledger)]
        returned = self.called("export", text("ward", ward), places[0], ctypes.byref(sizes[0]), places[1], ctypes.byref(sizes[1]))
        answer = self.judged(StoreAnswer, "export", returned)
        if not answer.done:
            raise StoreFailed(answer)
        return bytes(image[:sizes[0].value]), bytes(ledger[:sizes[1].value])

    # ---- the calls ----

    def open(self, ward: str, user: int, token: Optional[bytes] = None) -> StoreOpened:
        """A window of a user; the same token tells the same window again."""
        return self.replied(StoreOpened, "open", text("ward", ward), number("user", user), self.token(token))

    def close(self, ward: str, user: int, window: int, token: Optional[bytes] = None) -> StoreAnswer:
        """Ends a window."""
        return self.replied(StoreAnswer, "close", *self.named(ward, user, window), self.token(token))

    def ask(self, ward: str, user: int, window: int, lower: Bound, upper: Bound, permission_aim: int, role_aim: int,
            token: Optional[bytes] = None) -> StoreChosen:
        """Asks for roles by two aims."""
        aims = number("permission_aim", permission_aim), number("role_aim", role_aim)
        return self.replied(StoreChosen, "ask", *self.named(ward, user, window), *self.bounds(lower, upper), *aims, self.token(token))

    def short_ask(self, ward: str, user: int, window: int, lower: Bound, upper: Bound, token: Optional[bytes] = None) -> StoreChosen:
        """Asks for the fewest permissions, then the fewest roles."""
        return self.replied(StoreChosen, "short_ask", *self.named(ward, user, window), *self.bounds(lower, upper), self.token(token))

    def adopt(self, ward: str, user: int, window: int, token: Optional[bytes] = None) -> StoreAdopted:
        """Takes a window over for this host, under a new number."""
        return self.replied(StoreAdopted, "adopt", *self.named(ward, user, window), self.token(token))

    def show(self, ward: str, user: int, window: int) -> StoreChosen:
        """What is active in a window."""
        return self.replied(StoreChosen, "show", *self.named(ward, user, window))

    def explain(self, ward: str, user: int, window: int, permission: int) -> StoreExplained:
        """Through which roles a window has a permission."""
        return self.replied(StoreExplained, "explain", *self.named(ward, user, window), number("permission", permission))

    def obstacle(self, ward: str, user: int, window: int, lower: Bound, upper: Bound) -> StoreObstacle:
        """What stands in the way of an ask."""
        roles, reply = bytearray(limits.OBSTACLE_BYTES), Reply()
        place = (ctypes.c_char * len(roles)).from_buffer(roles)
        returned = self.called("obstacle", *self.named(ward, user, window), *self.bounds(lower, upper), place, ctypes.byref(reply))
        return self.judged(StoreObstacle, "obstacle", returned, reply, bytes(roles))

    # ---- windows and hosts ----

    def sessions(self, ward: str) -> List[Session]:
        """The open windows by user."""
        return self.listed("sessions", SessionRow, session_of, text("ward", ward))

    def release(self, ward: str, host: str) -> StoreAnswer:
        """Closes the windows of a host that died; the extra is how many."""
        return self.judged(StoreAnswer, "release", self.called("release", text("ward", ward), text("host", host)))

    def adopt_all(self, ward: str, host: str) -> List[Session]:
        """Takes over the windows of a host that died."""
        return self.listed("adopt_all", SessionRow, session_of, text("ward", ward), text("host", host))

    # ---- policies and the journal ----

    def policy(self, ward: str, image: bytes, go_on: GoOn = GoOn.IF_NONE) -> StorePolicy:
        """A new policy between two calls of everybody."""
        users = ctypes.c_uint64()
        returned = self.called("policy", text("ward", ward), image_bytes(image), len(image), int(GoOn(go_on)), ctypes.byref(users))
        return self.judged(StorePolicy, "policy", returned, None, users.value.to_bytes(8, "little"))

    def policies(self, ward: str) -> List[Image]:
        """The policies that the ward had, by version."""
        return self.listed("policies", ImageRow, image_of, text("ward", ward))

    def journal(self, ward: str) -> List[Entry]:
        """The journal by user and order."""
        return self.listed("journal", EntryRow, entry_of, text("ward", ward))

    def journal_from(self, ward: str, user: int, order: int, most: int) -> List[Entry]:
        """At most so many entries from this one on."""
        return self.listed("journal_from", EntryRow, entry_of, text("ward", ward), number("user", user), number("order", order), number("most", most))

    def verify(self, ward: str, step: Optional[Callable[[Report], bool]] = None, found: Optional[Callable[[Finding], None]] = None) -> Verified:
        """Replays the journal through the kit; step is told the report so far and ends the replay by False, found is
        told each finding."""
        def stepped(_: Any, place: Any) -> int:
            return 0 if step is None or step(report_of(place.contents)) is not False else 1

        def told(_: Any, place: Any) -> None:
            row = place.contents
            if found is not None:
                found(Finding(row.user, row.order, bool(row.incident), (row.words or b"").decode()))

        watch, report = WatchRow(None, STEP(stepped), FOUND(told)), ReportRow()
        returned = self.called("verify_watched", text("ward", ward), ctypes.byref(watch), ctypes.byref(report))
        return self.judged(Verified, "verify", returned, report=report_of(report))

    def mend(self, ward: str, user: int) -> Verified:
        """Writes a damaged line anew from the replay of the journal; the extra is 1 if it was damaged."""
        report = ReportRow()
        returned = self.called("mend", text("ward", ward), number("user", user), ctypes.byref(report))
        return self.judged(Verified, "mend", returned, report=report_of(report))

    def cut(self, ward: str, seconds: int) -> Verified:
        """Cuts the journal at a verified moment; the extra is how many entries went."""
        report = ReportRow()
        returned = self.called("cut", text("ward", ward), number("seconds", seconds), ctypes.byref(report))
        return self.judged(Verified, "cut", returned, report=report_of(report))

    # ---- arguments ----

    def named(self, ward: str, user: int, window: int) -> Tuple[bytes, int, int]:
        """Ward, user and window."""
        return text("ward", ward), number("user", user), number("window", window)

    def bounds(self, lower: Bound, upper: Bound) -> Tuple[bytes, bytes]:
        """Both bounds, of which the store takes 32 bytes each."""
        return sized("lower", bound_bytes("lower", lower), limits.SET_BYTES), sized("upper", bound_bytes("upper", upper), limits.SET_BYTES)

    def token(self, token: Optional[bytes]) -> Optional[bytes]:
        """The request's token; none, and the store makes one."""
        if token is not None and not isinstance(token, bytes):
            raise TypeError(f"a token is bytes, not {type(token).__name__}")
        return None if token is None else sized("a token", token, TOKEN_BYTES)


class StoreFailed(Exception):
    """A list that could not be told, with the answer."""

    def __init__(self, answer: StoreAnswer) -> None:
        super().__init__(f"{answer}{': ' + answer.error if answer.error else ''}")
        self.answer = answer


__all__ = ["Entry", "Finding", "GoOn", "Image", "NoLibrary", "Report", "Session", "Store", "StoreAnswer", "StoreFailed", "StoreNumber",
           "StoreUsage", "Ward", "word_of"]
