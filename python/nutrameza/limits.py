"""The header's numbers: limits of a policy, sizes of buffers, aims, kinds, and the register's words."""

import enum

MAX_USERS = 64
MAX_ROLES = 64
MAX_PERMISSIONS = 256
MAX_WORDS = 4096
WORD_BYTES = 4
MAX_IMAGE_BYTES = 16384
MAX_EXCLUSIONS = 32
MAX_USER_ROLES = 16
MAX_LIMIT = 256
SESSIONS = 8
LINE_BYTES = 144
SET_BYTES = 32
ROLES_BYTES = 8
ANSWER_BYTES = 40
OBSTACLE_BYTES = 16
USERS_BYTES = 8
OLD_SESSIONS = 4
OLD_LINE_BYTES = 80
CHAIN_BYTES = 64
TABLE_BYTES = 2048
MAX_CLAUSES_BYTES = 8388608

# The register's words by their numbers.
WORDS = (
    "done", "length", "head", "kind", "spare", "range", "repeat", "crowd", "balance", "ledger", "person", "line",
    "session", "closed", "full", "set", "permission", "bounds", "aim", "room", "none", "script", "loop", "reach",
    "upper sessions",
)


class Number(enum.IntEnum):
    """Answer numbers: done, or why a call is refused. Later versions may add some."""

    DONE = 0
    LENGTH = 1
    HEAD = 2
    KIND = 3
    SPARE = 4
    RANGE = 5
    REPEAT = 6
    CROWD = 7
    BALANCE = 8
    LEDGER = 9
    PERSON = 10
    LINE = 11
    SESSION = 12
    CLOSED = 13
    FULL = 14
    SET = 15
    PERMISSION = 16
    BOUNDS = 17
    AIM = 18
    ROOM = 19
    NONE = 20
    SCRIPT = 21
    LOOP = 22
    REACH = 23
    UPPER_SESSIONS = 24


class Aim(enum.IntEnum):
    """Aims of an ask."""

    ANY = 0
    FEWEST = 1
    MOST = 2


class ExclusionKind(enum.IntEnum):
    """What an exclusion counts: its members active in the session; in any open session of the user; in the session at
    any time since it was opened; in any session of the user at any time."""

    SS_DMER = 0
    MS_DMER = 1
    SS_HMER = 2
    MS_HMER = 3


class ObstacleKind(enum.IntEnum):
    """What stands in the way of an ask."""

    OWN = 1
    UPPER = 2
    LIMIT = 3
    EXCLUSION = 4


def word_of(number: int) -> str:
    """The register's word for an answer number; 'unknown' for one that this version does not know."""
    return WORDS[number] if 0 <= number < len(WORDS) else "unknown"
