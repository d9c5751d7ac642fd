"""What the calls answer: number and extra of each, and of a done call what it filled.

An answer is neither true nor false: 'done' says whether the call did what it is for. What only a done call has (roles,
session, text and so on) raises NotDone where the call was refused, so that no refusal is taken for an empty set."""

import dataclasses
from typing import FrozenSet, Tuple

from .limits import (MAX_PERMISSIONS, MAX_ROLES, ROLES_BYTES, SET_BYTES, ExclusionKind, ObstacleKind, word_of)


class NotDone(AttributeError):
    """What a refused call does not have was read."""


def members(data: bytes) -> FrozenSet[int]:
    """The numbers in a set: number k is bit k mod 8 of byte k div 8."""
    return frozenset(8 * place + bit for place, byte in enumerate(data) if byte for bit in range(8) if byte >> bit & 1)


@dataclasses.dataclass(frozen=True)
class Answer:
    """A call's number and extra. 'filled' has the bytes that a done call filled, and none of a refused one."""

    call: str
    number: int
    extra: int
    filled: bytes = dataclasses.field(default=b"", repr=False)

    @property
    def done(self) -> bool:
        """The call did what it is for."""
        return self.number == 0

    @property
    def word(self) -> str:
        """The register's word for the number."""
        return word_of(self.number)

    def __bool__(self) -> bool:
        raise TypeError(f"an answer is neither true nor false: ask {self.call}'s .done")

    def __str__(self) -> str:
        if self.done:
            return f"{self.call}: done ({self.extra})" if self.extra else f"{self.call}: done"
        return f"{self.call}: refused: {self.number} {self.word}" + (f" ({self.extra})" if self.extra else "")

    def told(self, what: str) -> None:
        """Raises NotDone where the call was refused."""
        if not self.done:
            raise NotDone(f"no {what}: {self}")


@dataclasses.dataclass(frozen=True)
class Opened(Answer):
    """An open."""

    @property
    def session(self) -> int:
        """The session that it took."""
        self.told("session")
        return self.extra


@dataclasses.dataclass(frozen=True)
class Chosen(Answer):
    """An ask, a short ask or a show."""

    @property
    def roles(self) -> FrozenSet[int]:
        """The session's active roles."""
        self.told("roles")
        return members(self.filled[:ROLES_BYTES])

    @property
    def permissions(self) -> FrozenSet[int]:
        """All that these roles carry."""
        self.told("permissions")
        return members(self.filled[ROLES_BYTES:])


@dataclasses.dataclass(frozen=True)
class Explained(Answer):
    """An explain."""

    @property
    def role(self) -> int:
        """The lowest active role that carries the permission."""
        self.told("role")
        return self.extra // MAX_ROLES

    @property
    def granting_role(self) -> int:
        """The role at or below it that holds the grant."""
        self.told("granting role")
        return self.extra % MAX_ROLES


@dataclasses.dataclass(frozen=True)
class Obstacle(Answer):
    """What stands in the way of an ask; the number 20 where nothing does."""

    @property
    def kind(self) -> ObstacleKind:
        """What sort of thing stands in the way."""
        self.told("kind")
        return ObstacleKind(self.extra % 8)

    @property
    def roles(self) -> FrozenSet[int]:
        """The first set: the roles that carry the permission; of an exclusion the members that are counted already."""
        self.told("roles")
        return members(self.filled[:ROLES_BYTES])

    @property
    def members(self) -> FrozenSet[int]:
        """The second set: an exclusion's members."""
        self.told("members")
        return members(self.filled[ROLES_BYTES:])

    @property
    def permission(self) -> int:
        """Of the kinds own, upper and limit: the permission that it is about."""
        if self.kind == ObstacleKind.EXCLUSION:
            raise AttributeError("an exclusion in the way is about no one permission")
        return self.extra // 8

    @property
    def exclusion_kind(self) -> ExclusionKind:
        """Of the kind exclusion: what it counts."""
        self.of_exclusion("kind of exclusion")
        return ExclusionKind(self.extra // 8 % 4)

    @property
    def n(self) -> int:
        """Of the kind exclusion: fewer than n of its members may be counted."""
        self.of_exclusion("n")
        return self.extra // 32

    def of_exclusion(self, what: str) -> None:
        """Raises AttributeError where no exclusion stands in the way."""
        if self.kind != ObstacleKind.EXCLUSION:
            raise AttributeError(f"no {what}: it is no exclusion that stands in the way")


@dataclasses.dataclass(frozen=True)
class Stopped(Answer):
    """Whom an image would stop."""

    @property
    def users(self) -> FrozenSet[int]:
        """The users whose line is not sound under the image."""
        self.told("users")
        return members(self.filled)


@dataclasses.dataclass(frozen=True)
class Looped(Answer):
    """A loop of senior words; the number 20 where there is none."""

    @property
    def chain(self) -> Tuple[int, ...]:
        """The roles from the first below the lowest role on a loop down to that role, which stands last."""
        self.told("chain")
        return tuple(self.filled[:self.extra])


@dataclasses.dataclass(frozen=True)
class Tidied(Answer):
    """A tidy image."""

    @property
    def image(self) -> bytes:
        """The image that all images of the same meaning share."""
        self.told("image")
        return self.filled


@dataclasses.dataclass(frozen=True)
class Table(Answer):
    """A grant table: the permissions of each role, after seniority."""

    @property
    def table(self) -> bytes:
        """Its bytes: 32 for each of 64 roles."""
        self.told("table")
        return self.filled

    def carried_by(self, role: int) -> FrozenSet[int]:
        """What a role carries."""
        if not 0 <= role < MAX_ROLES:
            raise ValueError(f"a grant table has no role {role}")
        return members(self.table[SET_BYTES * role:SET_BYTES * (role + 1)])


@dataclasses.dataclass(frozen=True)
class Turned(Answer):
    """A turned grant table: the roles of each permission."""

    @property
    def table(self) -> bytes:
        """Its bytes: 8 for each of 256 permissions."""
        self.told("table")
        return self.filled

    def carrying(self, permission: int) -> FrozenSet[int]:
        """The roles that carry a permission."""
        if not 0 <= permission < MAX_PERMISSIONS:
            raise ValueError(f"a turned table has no permission {permission}")
        return members(self.table[ROLES_BYTES * permission:ROLES_BYTES * (permission + 1)])


@dataclasses.dataclass(frozen=True)
class Carried(Answer):
    """A ledger carried over by widen or narrow."""

    @property
    def ledger(self) -> bytearray:
        """The new ledger, a bytearray of its own at each reading."""
        self.told("ledger")
        return bytearray(self.filled)


@dataclasses.dataclass(frozen=True)
class Text(Answer):
    """An ask as weighted clauses."""

    @property
    def text(self) -> str:
        """The text, in the DIMACS form."""
        self.told("text")
        return self.filled.decode("ascii")
