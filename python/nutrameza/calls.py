"""The calls of the session kit. The library judges: each call takes any image, ledger and numbers, and answers one
refusal by number where it does not do what it is for; a refused call changes no byte.

Images are bytes. A ledger that a call changes is a bytearray, one that is only read may be bytes too. A bound is the
permissions in it, as numbers from 0 to 255, or the bytes of a permission set. What no call can take is raised before
the library is called: TypeError for what is of another type, ValueError for a number below 0 or over 64 bits, for a
permission that no set can have, and for a room below 0."""

from typing import Iterable, Optional, Tuple, Type, TypeVar, Union

from . import limits
from .answers import (Answer, Carried, Chosen, Explained, Looped, Obstacle, Opened, Stopped, Table, Text, Tidied, Turned)
from .library import Argument, call

Bound = Union[bytes, bytearray, Iterable[int]]
Ledger = Union[bytes, bytearray]
Made = TypeVar("Made", bound=Answer)

# The clause text's buffer where the caller names none: longer than most texts, and twice as long until one fits.
FIRST_ROOM = 1 << 16


# ---- arguments ----

def number(what: str, value: int) -> int:
    """A number that a call takes."""
    if not isinstance(value, int) or isinstance(value, bool):
        raise TypeError(f"{what} is a number, not {type(value).__name__}")
    if not 0 <= value < 1 << 64:
        raise ValueError(f"{what} is {value}; it has 64 bits and no sign")
    return int(value)


def read_bytes(what: str, value: Ledger) -> Ledger:
    """Bytes that a call reads."""
    if not isinstance(value, (bytes, bytearray)):
        raise TypeError(f"{what} is bytes or a bytearray, not {type(value).__name__}")
    return value


def image_bytes(value: bytes) -> bytes:
    """An image."""
    if not isinstance(value, bytes):
        raise TypeError(f"an image is bytes, not {type(value).__name__}")
    return value


def changed(value: bytearray) -> bytearray:
    """A ledger that a call changes."""
    if not isinstance(value, bytearray):
        raise TypeError(f"a ledger that the call changes is a bytearray, not {type(value).__name__}")
    return value


def bound_bytes(what: str, value: Bound) -> bytes:
    """A bound: the bytes of a set as they are, or those of the permissions named."""
    if isinstance(value, (bytes, bytearray)):
        return bytes(value)
    if isinstance(value, (str, int)) or not hasattr(value, "__iter__"):
        raise TypeError(f"{what} is permissions or the bytes of a set, not {type(value).__name__}")
    members = 0
    for permission in value:
        if number(f"a permission of {what}", permission) >= limits.MAX_PERMISSIONS:
            raise ValueError(f"a permission of {what} is {permission}; a set has those from 0 to 255")
        members |= 1 << permission
    return members.to_bytes(limits.SET_BYTES, "little")


# ---- making a call ----

def made(kind: Type[Made], name: str, *arguments: Argument) -> Made:
    """A call that fills nothing."""
    returned = call(name, *arguments)
    return kind(name, returned % 256, returned // 256)


def filled(kind: Type[Made], name: str, room: int, *arguments: Argument) -> Made:
    """A call that fills a last buffer of this many bytes."""
    out = bytearray(room)
    returned = call(name, *arguments, out)
    return kind(name, returned % 256, returned // 256, b"" if returned % 256 else bytes(out))


# ---- images ----

def check(image: bytes) -> Answer:
    """Judges an image."""
    return made(Answer, "check", image_bytes(image))


def loop(image: bytes) -> Looped:
    """Why an image is refused by 22: a shortest chain of senior words from the lowest role on a loop back to it; 20
    where there is no loop."""
    return filled(Looped, "loop", limits.CHAIN_BYTES, image_bytes(image))


def tidy(image: bytes, room: Optional[int] = None) -> Tidied:
    """The tidy image, which all images of the same meaning share; 19 where a room is named and it has more bytes."""
    size = len(image_bytes(image)) if room is None else number("room", room)
    answer = filled(Tidied, "tidy", size, image)
    return Tidied("tidy", answer.number, answer.extra, answer.filled[:limits.WORD_BYTES * answer.extra])


def table(image: bytes) -> Table:
    """The closed grant table: what each role carries, after seniority."""
    return filled(Table, "table", limits.TABLE_BYTES, image_bytes(image))


def turn(source: Ledger) -> Turned:
    """A grant table turned: the roles of each permission; 19 for another size."""
    return filled(Turned, "turn", limits.TABLE_BYTES, read_bytes("a table", source))


def unturn(source: Ledger) -> Table:
    """A turned grant table turned back; 19 for another size."""
    return filled(Table, "unturn", limits.TABLE_BYTES, read_bytes("a table", source))


# ---- ledgers ----

def image_users(image: bytes) -> int:
    """How many users the head of an image names; of a refused image whatever stands there. Nothing is judged."""
    head = image_bytes(image)[:limits.WORD_BYTES]
    return int.from_bytes(head, "little") >> 21 & 127 if len(head) == limits.WORD_BYTES else 0


def new_ledger(image: bytes) -> bytearray:
    """The ledger of a new site: a zero line for each user that the image's head names."""
    return bytearray(limits.LINE_BYTES * image_users(image))


def open_sessions(ledger: Ledger, user: int) -> Tuple[int, ...]:
    """The sessions of a user that a ledger has open; none where it has no line for the user. Nothing is judged."""
    place = limits.LINE_BYTES * number("user", user)
    line = read_bytes("a ledger", ledger)[place:place + limits.LINE_BYTES]
    whole = len(line) == limits.LINE_BYTES
    return tuple(session for session in range(limits.SESSIONS) if whole and line[0] >> session & 1)


def open(image: bytes, ledger: bytearray, user: int) -> Opened:  # noqa: A001 - the kit's word
    """Takes the user's lowest closed session, empty."""
    return made(Opened, "open", image_bytes(image), changed(ledger), number("user", user))


def close(image: bytes, ledger: bytearray, user: int, session: int) -> Answer:
    """Ends a session; what was active in it stays in the user's history."""
    return made(Answer, "close", image_bytes(image), changed(ledger), number("user", user), number("session", session))


def ask(image: bytes, ledger: bytearray, user: int, session: int, lower: Bound, upper: Bound, permission_aim: int,
        role_aim: int) -> Chosen:
    """Replaces the session's active roles by the best set that carries all of the lower bound and nothing outside the
    upper."""
    return filled(Chosen, "ask", limits.ANSWER_BYTES, image_bytes(image), changed(ledger), number("user", user),
                  number("session", session), bound_bytes("the lower bound", lower), bound_bytes("the upper bound", upper),
                  number("permission_aim", permission_aim), number("role_aim", role_aim))


def short_ask(image: bytes, ledger: bytearray, user: int, session: int, lower: Bound, upper: Bound) -> Chosen:
    """An ask whose aims are both fewest."""
    return filled(Chosen, "short_ask", limits.ANSWER_BYTES, image_bytes(image), changed(ledger), number("user", user),
                  number("session", session), bound_bytes("the lower bound", lower), bound_bytes("the upper bound", upper))


def show(image: bytes, ledger: Ledger, user: int, session: int) -> Chosen:
    """The session's active roles and what they carry."""
    return filled(Chosen, "show", limits.ANSWER_BYTES, image_bytes(image), read_bytes("a ledger", ledger),
                  number("user", user), number("session", session))


def explain(image: bytes, ledger: Ledger, user: int, session: int, permission: int) -> Explained:
    """Through which roles an open session carries a permission; 20 where it does not."""
    return made(Explained, "explain", image_bytes(image), read_bytes("a ledger", ledger), number("user", user),
                number("session", session), number("permission", permission))


def obstacle(image: bytes, ledger: Ledger, user: int, session: int, lower: Bound, upper: Bound) -> Obstacle:
    """What stands in the way of an ask with these bounds; 20 where nothing does."""
    return filled(Obstacle, "obstacle", limits.OBSTACLE_BYTES, image_bytes(image), read_bytes("a ledger", ledger),
                  number("user", user), number("session", session), bound_bytes("the lower bound", lower),
                  bound_bytes("the upper bound", upper))


def stopped(image: bytes, ledger: Ledger) -> Stopped:
    """Whom an image would stop: the users whose line of the ledger is not sound under it."""
    return filled(Stopped, "stopped", limits.USERS_BYTES, image_bytes(image), read_bytes("a ledger", ledger))


def widen(image: bytes, old_ledger: Ledger) -> Carried:
    """A ledger of four sessions a user carried over into one of eight."""
    room = limits.LINE_BYTES * image_users(image)
    return filled(Carried, "widen", room, image_bytes(image), read_bytes("a ledger", old_ledger))


def narrow(image: bytes, old_ledger: Ledger) -> Carried:
    """A ledger of eight sessions a user carried back into one of four."""
    room = limits.OLD_LINE_BYTES * image_users(image)
    return filled(Carried, "narrow", room, image_bytes(image), read_bytes("a ledger", old_ledger))


def clauses(image: bytes, ledger: Ledger, user: int, session: int, lower: Bound, upper: Bound, permission_aim: int,
            role_aim: int, room: Optional[int] = None) -> Text:
    """An ask as weighted clauses for a PMaxSAT program; 19 where a room is named and the text has more bytes."""
    arguments = (image_bytes(image), bytes(read_bytes("a ledger", ledger)), number("user", user), number("session", session),
                 bound_bytes("the lower bound", lower), bound_bytes("the upper bound", upper),
                 number("permission_aim", permission_aim), number("role_aim", role_aim))
    size = FIRST_ROOM if room is None else number("room", room)
    answer = filled(Text, "clauses", size, *arguments)
    while room is None and answer.number == limits.Number.ROOM and size < limits.MAX_CLAUSES_BYTES:
        size *= 2
        answer = filled(Text, "clauses", size, *arguments)
    return Text("clauses", answer.number, answer.extra, answer.filled[:answer.extra])


def unsound_user(answer: Answer, user: int) -> int:
    """Whose line an ask, a clause text or an obstacle by a user was refused for by 11: the user's own, or another's."""
    return user if answer.extra == 0 else answer.extra - 1
