"""What stands in the way of an ask, and why a policy stops a user, in words and by names. All that is said comes from
calls of the library, on the policy or on a part of it."""

import copy
from typing import AbstractSet, Dict, FrozenSet, Iterable, List, Optional, Sequence, Tuple

from . import calls, limits
from .answers import Answer, Obstacle, members
from .limits import Aim, ExclusionKind, Number, ObstacleKind
from .policy import (ASSIGNMENT, EXCLUSION, EXCLUSION_KINDS, LIMIT, SENIOR, Entry, Names, Policy, called, meant, named, read,
                     tidied, to_words)


# A window that holds roles: its user, its session, those roles.
Holder = Tuple[int, int, FrozenSet[int]]


class CallRefused(Exception):
    """A call's refusal: its number, its word and the reason in words, or its extra where the number says all."""

    def __init__(self, number: int, extra: int, reason: str = "") -> None:
        said = f"refused: {number} {limits.word_of(number)}"
        super().__init__(f"{said}: {reason}" if reason else f"{said} ({extra})")


class Named:
    """What is said of users, roles and permissions by the names of a policy."""

    def __init__(self, names: Names) -> None:
        self.names = names

    def name(self, sort: str, number: int) -> str:
        """A name with its number in brackets."""
        return f"{called(sort, number, self.names)} ({number})"

    def list(self, sort: str, numbers: Iterable[int], last: str = ", ") -> str:
        """Names in the order of their numbers, with this between the last two."""
        named_ones = [self.name(sort, number) for number in sorted(numbers)]
        return last.join([", ".join(named_ones[:-1]), named_ones[-1]] if len(named_ones) > 1 else named_ones)


# ---- why not ----

class Ask(Named):
    """A user's ask in a window under an image, with the names of its policy; the ledger is copied."""

    def __init__(self, image: bytes, ledger: calls.Ledger, names: Names, user: int, session: int) -> None:
        super().__init__(names)
        answer = calls.check(image)
        if not answer.done:
            raise CallRefused(answer.number, answer.extra)
        self.image, self.ledger, self.user, self.session = image, bytes(ledger), user, session
        self.policy = read(to_words(image))

    def at(self, ledger: calls.Ledger, user: int, session: int) -> "Ask":
        """An ask under the same image and by the same names, on another ledger, of another user or window."""
        other = copy.copy(self)
        other.ledger, other.user, other.session = bytes(ledger), user, session
        return other

    def everything(self) -> FrozenSet[int]:
        """The policy's permissions."""
        return frozenset(range(self.policy.counts[2]))

    def windows(self, users: Iterable[int]) -> List[Tuple[int, int]]:
        """The windows that these users may have, each behind its user."""
        return [(user, session) for user in users for session in range(limits.SESSIONS)]

    def active(self, user: int, session: int) -> FrozenSet[int]:
        """The active roles of a session; none of one that is not open."""
        shown = calls.show(self.image, self.ledger, user, session)
        return shown.roles if shown.done else frozenset()

    def holders(self, roles: AbstractSet[int], users: Iterable[int]) -> List[Holder]:
        """The windows, this one left out, in which one of these roles is active, each with those that are."""
        held = [(user, session, self.active(user, session) & roles) for user, session in self.windows(users)]
        return [one for one in held if one[2] and one[:2] != (self.user, self.session)]

    def holding(self, roles: AbstractSet[int], users: Iterable[int]) -> str:
        """The same in words."""
        found = []
        for user, session, held in self.holders(roles, users):
            whose = "" if user == self.user else f" of {self.name('user', user)}"
            found.append(f"window {session}{whose} holds {self.list('role', held, ' and ')}")
        return " and ".join(found)

    def in_the_way(self, found: Obstacle) -> List[Holder]:
        """The windows by which an exclusion or a limit stands in the way; none where it is no window that does."""
        if found.kind == ObstacleKind.LIMIT:
            return self.holders(found.roles, range(self.policy.counts[0]))
        if found.kind != ObstacleKind.EXCLUSION or found.exclusion_kind != ExclusionKind.MS_DMER:
            return []
        return self.holders(found.roles, [self.user])

    def obstacle(self, lower: AbstractSet[int], upper: AbstractSet[int]) -> Obstacle:
        """The obstacle of an ask with these bounds."""
        return calls.obstacle(self.image, self.ledger, self.user, self.session, lower, upper)

    def why(self, lowest: Iterable[int], highest: Iterable[int]) -> Optional[str]:
        """What stands in the way of these bounds, in words; None where nothing does. Raises CallRefused for a call that
        is refused otherwise."""
        lower, upper = frozenset(lowest), frozenset(highest)
        found = self.obstacle(lower, upper)
        if found.number == Number.NONE:
            return None
        if not found.done:
            raise CallRefused(found.number, found.extra, self.reason(found))
        if found.kind == ObstacleKind.EXCLUSION:
            return self.excluded(lower, upper, found)
        if not found.roles:
            return f"no role carries {self.name('permission', found.permission)}"
        needs = f"{self.name('permission', found.permission)} needs {self.list('role', found.roles, ' or ')}, "
        if found.kind == ObstacleKind.OWN:
            return needs + f"which {self.name('user', self.user)} may not switch on"
        return needs + (self.wide(found.roles, upper) if found.kind == ObstacleKind.UPPER else self.limited(found.roles))

    def reason(self, refused: Answer) -> str:
        """What a refusal says of the names."""
        if refused.number == Number.LINE:
            return f"the line of {self.name('user', calls.unsound_user(refused, self.user))} is not sound"
        users, _, permissions = self.policy.counts
        reasons: Dict[int, str] = {
            Number.LEDGER: f"{len(self.ledger)} bytes are no ledger of {users} users", Number.PERSON: f"there is no user {self.user}",
            Number.SESSION: f"there is no window {self.session}", Number.CLOSED: f"window {self.session} is not open",
            Number.FULL: f"{self.name('user', self.user)} has {limits.SESSIONS} windows open, and that is the most",
            Number.PERMISSION: f"permissions are numbered below {permissions}",
            Number.BOUNDS: "what is asked for is not within the upper bound", Number.AIM: f"an aim is at most {int(Aim.MOST)}"}
        return reasons.get(refused.number, "")

    def wide(self, roles: AbstractSet[int], upper: AbstractSet[int]) -> str:
        """What the roles carry outside the upper bound."""
        table = calls.table(self.image)
        more = [f"{self.name('role', role)} carries {self.list('permission', table.carried_by(role) - upper, ' and ')}"
                for role in sorted(roles)]
        return f"and outside the upper bound {' and '.join(more)}"

    def limited(self, roles: AbstractSet[int]) -> str:
        """The limits that bar the roles, and who holds them."""
        of_role = {entry[1]: entry[2] for entry in meant(self.policy) if entry[0] == LIMIT}
        users = range(self.policy.counts[0])
        bars = [f"limit {of_role[role]} bars {self.name('role', role)} while {self.holding({role}, users)}" for role in sorted(roles)]
        return f"and {' and '.join(bars)}"

    def excluded(self, lower: FrozenSet[int], upper: AbstractSet[int], found: Obstacle) -> str:
        """The exclusion, what it counts already, and the fewest permissions that need more."""
        for permission in sorted(lower):
            if self.obstacle(lower - {permission}, upper) == found:
                lower = lower - {permission}
        rule = f"{EXCLUSION_KINDS[found.exclusion_kind]} {found.n} of {self.list('role', found.members)}"
        since = self.since(found.exclusion_kind, found.roles)
        if len(lower) > 1:
            return f"{self.list('permission', lower, ' and ')} together need more than {rule} allows{since}"
        table = calls.table(self.image)
        ways = {role for role in self.own_roles() if lower <= table.carried_by(role)}
        barred = ways & found.members - found.roles
        said = f"{self.list('permission', lower)} needs {self.list('role', barred, ' or ')}, which {rule} bars{since}"
        if ways - barred:
            said += f"; {self.list('role', ways - barred, ' and ')} would do, but for another rule or the upper bound"
        return said

    def since(self, kind: ExclusionKind, counted: AbstractSet[int]) -> str:
        """What is counted already, and where."""
        if not counted:
            return ""
        if kind == ExclusionKind.MS_DMER:
            return f" while {self.holding(counted, [self.user])}"
        who = f"window {self.session}" if kind == ExclusionKind.SS_HMER else self.name("user", self.user)
        return f" since {who} has had {self.list('role', counted, ' and ')}"

    def own_roles(self) -> FrozenSet[int]:
        """The roles that the user may activate: those of an ask for the most roles under the policy without exclusions
        and limits."""
        entries = [entry for entry in self.policy.entries if entry[0] not in (EXCLUSION, LIMIT)]
        image = Policy(self.policy.counts, entries).image()
        ledger = calls.new_ledger(image)
        session = calls.open(image, ledger, self.user).session
        return calls.ask(image, ledger, self.user, session, (), self.everything(), Aim.ANY, Aim.MOST).roles


# ---- whom a policy stops ----

# A user's line of a ledger: eight bytes of open sessions, eight of the past, then for each session eight of active
# roles and eight of its past.

def line_of(ledger: bytes, user: int) -> bytes:
    """A user's line of a ledger."""
    return ledger[limits.LINE_BYTES * user:limits.LINE_BYTES * (user + 1)]


def grown(policy: Policy, ledger: bytes) -> Tuple[bytes, int]:
    """A ledger that is shorter than a policy's by whole lines, with zero lines for the new users, and how many."""
    lines, rest = divmod(len(ledger), limits.LINE_BYTES)
    added = policy.counts[0] - lines
    return (ledger + bytes(limits.LINE_BYTES * added), added) if rest == 0 and added > 0 else (ledger, 0)


def roles_at(line: bytes, place: int) -> List[int]:
    """The roles of the set that stands at a place of a line, ascending."""
    return sorted(members(line[place:place + limits.ROLES_BYTES]))


def line_with(role: int) -> bytes:
    """A line with one session open and one role active in it."""
    role_bytes, zeros = (1 << role).to_bytes(8, "little"), bytes(limits.LINE_BYTES - 32)
    return (1).to_bytes(8, "little") + role_bytes * 3 + zeros


def stops(policy: Policy, user: int, line: bytes) -> Optional[bool]:
    """The policy stops the user with this line, all other lines zero; None where the library refuses the policy."""
    zeros = bytes(limits.LINE_BYTES)
    answer = calls.stopped(policy.image(), b"".join(line if other == user else zeros for other in range(policy.counts[0])))
    return user in answer.users if answer.done else None


def reasons(policy: Policy, user: int, line: bytes, names: Names, windows: Sequence[int] = range(limits.SESSIONS)) -> List[str]:
    """Why a policy stops a user with this line, a reason each line: asked of the library by parts of the policy and of
    the line. Windows are how the line's sessions are called."""
    active = {session: roles_at(line, 16 + 16 * session) for session in range(limits.SESSIONS)}
    held = sorted({role for roles in active.values() for role in roles})
    users, roles, permissions = policy.counts

    def stopping(entries: List[Entry], line: bytes) -> Optional[bool]:
        return stops(Policy([users, limits.MAX_ROLES, permissions], entries), user, line)

    own = [entry for entry in policy.entries if entry[0] in (ASSIGNMENT, SENIOR)]
    found = [f"window {windows[session]} has {called('role', role, names)}, which is not {called('user', user, names)}'s"
             for session in active for role in active[session] if stopping(own, line_with(role))]
    free: List[Entry] = [(ASSIGNMENT, user, role) for role in held]
    if stopping(free, line) is not False:
        return found + ["the line is damaged: no call leaves such a line"]
    found += [" ".join(named(entry, names)) for entry in tidied(policy).entries
              if entry[0] == EXCLUSION and stopping([*free, entry], line)]
    beyond = [role for role in roles_at(line, 8) if role >= roles]
    return found + ([f"the past has role {', '.join(map(str, beyond))}, and the policy has {roles} roles"] if beyond else [])
