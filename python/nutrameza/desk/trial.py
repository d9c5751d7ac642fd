"""A policy tried on a scratch ledger in memory: windows opened and closed, permissions asked for, each answered by the
kit. What was done is a script that nutrameza_script plays to the same answers."""

import re
from typing import Any, Dict, FrozenSet, Iterable, List, NamedTuple, Optional, Tuple

from .. import calls, why
from ..answers import Answer, Chosen, members
from ..limits import ROLES_BYTES, SET_BYTES, Aim, Number
from .view import Loaded, closed

# The lines of a script, as docs/REFERENCE.md has them.
LINE = re.compile(r"(?:(?P<call>open) (?P<user>\d{1,9})"
                  r"|(?P<call2>close|show) (?P<user2>\d{1,9}) (?P<session2>\d{1,9})"
                  r"|(?P<call3>ask) (?P<user3>\d{1,9}) (?P<session3>\d{1,9}) (?P<lower>[0-9a-fA-F]{1,64}) (?P<upper>[0-9a-fA-F]{1,64})"
                  r"(?: (?P<first>\d{1,9}) (?P<second>\d{1,9}))?)", re.ASCII)

# The most lines that a script may have here.
MOST_LINES = 2000

# The aims in words.
AIMS: Dict[int, str] = {Aim.ANY: "any", Aim.FEWEST: "the fewest", Aim.MOST: "the most"}


class Unreadable(Exception):
    """A line that is no line of a script."""


class Call(NamedTuple):
    """A line of a script: bounds are bytes, aims are None for a short ask."""

    name: str
    user: int
    session: int = 0
    lower: bytes = b""
    upper: bytes = b""
    aims: Optional[Tuple[int, int]] = None

    def line(self) -> str:
        """The call as a script has it."""
        if self.name == "open":
            return f"open {self.user}"
        words = [self.name, str(self.user), str(self.session)]
        if self.name == "ask":
            words += [f"{int.from_bytes(bound, 'little'):x}" for bound in (self.lower, self.upper)] + [str(aim) for aim in self.aims or ()]
        return " ".join(words)


def read_line(line: str) -> Call:
    """The call of a line; raises Unreadable."""
    found = LINE.fullmatch(line)
    if found is None:
        raise Unreadable(line)
    part = found.groupdict()
    name = part["call"] or part["call2"] or part["call3"]
    user, session = int(part["user"] or part["user2"] or part["user3"]), int(part["session2"] or part["session3"] or 0)
    if name != "ask":
        return Call(name, user, session)
    lower, upper = (int(part[bound], 16).to_bytes(SET_BYTES, "little") for bound in ("lower", "upper"))
    return Call(name, user, session, lower, upper, (int(part["first"]), int(part["second"])) if part["first"] else None)


def make(image: bytes, ledger: bytearray, call: Call) -> Answer:
    """The kit's answer to a call."""
    if call.name == "open":
        return calls.open(image, ledger, call.user)
    if call.name == "close":
        return calls.close(image, ledger, call.user, call.session)
    if call.name == "show":
        return calls.show(image, ledger, call.user, call.session)
    if call.aims is None:
        return calls.short_ask(image, ledger, call.user, call.session, call.lower, call.upper)
    return calls.ask(image, ledger, call.user, call.session, call.lower, call.upper, *call.aims)


class Step(NamedTuple):
    """A call that was made: its answer, in words what was done and what came of it, and the windows in the way."""

    call: Call
    answer: Answer
    done: str
    told: str
    in_the_way: List[why.Holder]

    def output(self, number: int) -> str:
        """The line that nutrameza_script answers."""
        sets = (self.answer.filled[:ROLES_BYTES], self.answer.filled[ROLES_BYTES:])
        return " ".join([str(number), str(self.answer.number), str(self.answer.extra), *(f"{int.from_bytes(one, 'little'):x}" for one in sets)])


class Wish(NamedTuple):
    """How the next permission is asked for: in whose window, beside what the window's last ask was for, with an upper
    bound of everything or of what is asked, and with which aims."""

    user: int
    window: Optional[int]
    add: bool = False
    narrow: bool = False
    aims: Optional[Tuple[int, int]] = None


def set_of(permissions: Iterable[int]) -> bytes:
    """The bytes of a permission set."""
    return calls.bound_bytes("a bound", permissions)


def outcome(words: why.Ask, call: Call, answer: Answer) -> Tuple[str, List[why.Holder]]:
    """What came of a call, in words, and the windows that stood in its way."""
    if isinstance(answer, Chosen) and answer.done:
        return f"live: {words.list('role', answer.roles) or 'no role'}", []
    if answer.done:
        return "no role is live in it yet" if call.name == "open" else "its roles are off, its past stays", []
    if call.name == "ask" and answer.number == Number.NONE:
        bounds = (members(call.lower), members(call.upper))
        return words.why(*bounds) or "", words.in_the_way(words.obstacle(*bounds))
    return words.reason(answer) or f"extra {answer.extra}", []


class Trial:
    """What was done on a policy, with the ledger before and after each step."""

    def __init__(self, loaded: Loaded) -> None:
        self.loaded, self.image = loaded, loaded.image
        self.everything = set_of(range(loaded.policy.counts[2]))
        self.reached = closed(loaded.policy).reached
        self.steps: List[Step] = []
        self.ledgers: List[bytes] = [bytes(calls.new_ledger(self.image))]
        self.words = why.Ask(self.image, self.ledgers[0], loaded.names, 0, 0)

    # ---- doing ----

    def do(self, call: Call) -> Step:
        """Makes a call and takes it into the list."""
        ledger = bytearray(self.ledgers[-1])
        answer = make(self.image, ledger, call)
        words = self.words.at(self.ledgers[-1], call.user, call.session)
        told, in_the_way = outcome(words, call, answer)
        self.steps.append(Step(call, answer, self.described(words, call, answer), told, in_the_way))
        self.ledgers.append(bytes(ledger))
        return self.steps[-1]

    def undo(self) -> None:
        """Takes the last step back."""
        if self.steps:
            self.steps.pop()
            self.ledgers.pop()

    def script(self) -> str:
        """All that was done, as a script."""
        return "".join(f"{step.call.line()}\n" for step in self.steps)

    def play(self, text: str) -> None:
        """Starts over with the lines of a script; raises Unreadable, and nothing is played, where one can't be read."""
        lines = text.split("\n")
        if lines[-1] == "":
            lines.pop()
        if len(lines) > MOST_LINES:
            raise Unreadable(f"the script has {len(lines)} lines, and {MOST_LINES} is the most")
        made = []
        for number, line in enumerate(lines, start=1):
            try:
                made.append(read_line(line))
            except Unreadable:
                raise Unreadable(f"line {number} is no line of a script: {line[:60]}") from None
        self.steps, self.ledgers = [], self.ledgers[:1]
        for call in made:
            self.do(call)

    def ask(self, wish: Wish, permission: int) -> Step:
        """Asks for a permission."""
        lower, upper = self.bounds(wish, self.kept(wish), permission)
        return self.do(Call("ask", wish.user, wish.window or 0, lower, upper, wish.aims))

    def kept(self, wish: Wish) -> FrozenSet[int]:
        """What is asked for beside the next permission."""
        return self.asked(wish.user, wish.window) if wish.add else frozenset()

    def bounds(self, wish: Wish, kept: FrozenSet[int], permission: int) -> Tuple[bytes, bytes]:
        """The bounds of an ask for a permission."""
        lower = set_of({permission, *kept})
        return lower, lower if wish.narrow else self.everything

    def asked(self, user: int, window: Optional[int]) -> FrozenSet[int]:
        """What the last done ask in a window was for; nothing since it was opened last."""
        for step in reversed(self.steps):
            if step.answer.done and step.call.user == user:
                if step.call.name == "open" and step.answer.extra == window:
                    break
                if step.call.name == "ask" and step.call.session == window:
                    return members(step.call.lower)
        return frozenset()

    # ---- telling ----

    def described(self, words: why.Ask, call: Call, answer: Answer) -> str:
        """What a call does, in words."""
        who = words.name("user", call.user)
        if call.name == "open":
            return f"{who} opens window {answer.extra}" if answer.done else f"{who} opens a window"
        if call.name != "ask":
            return f"{who} {call.name}s window {call.session}"
        what = words.list("permission", members(call.lower), " and ") or "no permission"
        told = f"{who} asks in window {call.session} for {what}"
        if call.upper == call.lower:
            told += " and nothing else"
        elif call.upper != self.everything:
            told += f", within {len(members(call.upper))} permissions"
        if call.aims is not None:
            told += f", with {AIMS.get(call.aims[0], 'unknown')} permissions, then {AIMS.get(call.aims[1], 'unknown')} roles"
        return told

    def state(self, wish: Wish) -> Dict[str, Any]:
        """All that the page shows of the trial for one person and window."""
        ledger = self.ledgers[-1]
        people = [self.windows(user, ledger) for user in range(self.loaded.policy.counts[0])]
        last = self.steps[-1] if self.steps else None
        return {
            "steps": [{"line": step.call.line(), "output": step.output(number), "done": step.answer.done, "what": step.done, "told": step.told,
                       "number": step.answer.number, "word": step.answer.word} for number, step in enumerate(self.steps, start=1)],
            "people": people, "user": wish.user, "window": wish.window, "own": sorted(self.reached[wish.user]),
            "permissions": self.permissions(wish, ledger), "asked": sorted(self.asked(wish.user, wish.window)),
            "in_the_way": [[user, session, sorted(roles)] for user, session, roles in last.in_the_way] if last else [],
        }

    def settled(self, wish: Wish, opened: bool) -> Wish:
        """The wish for a window that is open: the one just opened, else the one at hand, else the person's first."""
        windows = calls.open_sessions(self.ledgers[-1], wish.user)
        if opened and self.steps[-1].answer.done:
            return wish._replace(window=self.steps[-1].answer.extra)
        return wish if wish.window in windows else wish._replace(window=windows[0] if windows else None)

    def windows(self, user: int, ledger: bytes) -> List[Dict[str, Any]]:
        """A person's open windows with the roles that are live in them."""
        return [{"window": session, "roles": sorted(calls.show(self.image, ledger, user, session).roles)}
                for session in calls.open_sessions(ledger, user)]

    def permissions(self, wish: Wish, ledger: bytes) -> List[Dict[str, Any]]:
        """Of each permission: through which roles it is live, or whether an ask for it would be answered now."""
        if wish.window is None or wish.window not in calls.open_sessions(ledger, wish.user):
            return []
        live = calls.show(self.image, ledger, wish.user, wish.window).permissions
        kept, found = self.kept(wish), []
        for permission in range(self.loaded.policy.counts[2]):
            obstacle = calls.obstacle(self.image, ledger, wish.user, wish.window, *self.bounds(wish, kept, permission))
            by = calls.explain(self.image, ledger, wish.user, wish.window, permission) if permission in live else None
            found.append({"free": obstacle.number == Number.NONE, "by": [] if by is None else [by.role, by.granting_role]})
        return found
