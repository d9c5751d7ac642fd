"""The command 'nutrameza store': its sub-commands, their arguments, help and examples, and how they end."""

import argparse
import functools
import shutil
import sys
import textwrap
from typing import Any, Callable, Dict, List, NamedTuple, Sequence

from . import cli, store_journal, store_wards, store_windows
from .progress import folded
from .store import Store, StoreFailed, StoreUsage
from .store_ward import NAMES_VARIABLE, REFUSED, STATUS, STORE_VARIABLE, USAGE, Failed, connected, default_host, failure

DESCRIPTION = f"""Wards in SQLite or PostgreSQL: make and change them, see who has windows open, why an ask was
refused, what was done. STORE is "sqlite:PATH" or "postgresql://..", by --store or {STORE_VARIABLE}; a password is
better kept in the environment or in ~/.pgpass than among the words of a command. Users, roles and permissions are
named by the policy text that the ward is made with, by --names or {NAMES_VARIABLE}; it must say what the ward's
policy says. Without a text their numbers do. The store judges, and has what it answers on disk; docs/OPERATORS.md
shows a day with the command. Nothing is closed, written anew, cut or overwritten without its flag.

Exit status: 0 done; 1 a refusal, or the answer is no; 2 wrong usage, a name or a ward that is not there, a file or a
library; 3 the storage failed or is busy, and nothing is changed; 4 it failed within the commit, and the message says
how to learn whether it is done."""


class Argument(NamedTuple):
    """An argument: its names, and what argparse is to know of it."""

    names: Sequence[str]
    more: Dict[str, Any]


def argument(*names: str, **more: Any) -> Argument:
    """An argument of a sub-command."""
    return Argument(names, more)


def flag(*names: str, **more: Any) -> Argument:
    """An option without a value."""
    return Argument(names, {"action": "store_true", **more})


class Sub(NamedTuple):
    """A sub-command: its arguments as usage says them, what it is for in a line and in full, an example, what it runs,
    its arguments."""

    usage: str
    help: str
    text: str
    example: str
    run: Callable[[argparse.Namespace, Store], int]
    arguments: List[Argument]


WARD = argument("ward", metavar="WARD", help="the ward's name")
POLICY = argument("image", metavar="POLICY", help="a policy text, or an image")
USER = argument("user", metavar="USER", help="a name, or a number")
USERS = argument("users", metavar="USER", nargs="*", help="these users alone")
WINDOW = argument("window", metavar="WINDOW", type=cli.window, help="the window's number")
LOWER = argument("lower", metavar="PERMISSION", nargs="+", help="what is asked for")
UPPER = argument("--upper", metavar="PERMISSION", nargs="+", help="what the window may have at most, beside it (everything)")
TOKEN = argument("--token", metavar="HEX", help="repeat the request that has this token")
ANY_HOST = flag("--any-host", help="the window may be another host's")
YES = flag("-y", "--yes", help="do it; without this it is only told")
FORCE = flag("-f", "--force", help="overwrite files that are there already")

MAKE = """Makes the tables of a store where there are none: for SQLite the file too, for PostgreSQL in a database that
is there. Where they are there already nothing happens."""

WARDS = """The wards of a store by name, with the version of their policy."""

CREATE = """Makes a ward under a policy, a text or an image, with nobody's window open and no past."""

IMPORT = """Makes a ward under a policy with the ledger of a file: 144 bytes a user, or 80 as versions before 0.6 have
it. Windows that are open in it belong to the host that --host names; 'nutrameza store who' tells their numbers."""

EXPORT = """Writes a ward's policy image and its ledger, as they stand at one moment, to two files. With --narrow the
ledger has 80 bytes a user, for versions before 0.6; it is refused while somebody has a fifth window open."""

POLICY_TEXT = """Puts another policy in place between two calls of everybody. First it tells which names have another
number than in the text in place (--names), whom the policy would stop and why, and which windows they have open. If
it stops nobody it is put in place; otherwise nothing is changed, unless --close-windows has their windows closed
under the old policy first, or --regardless puts it in place even if that does not free them. The roles in those
windows must be off at their hosts before. With --dry-run all is told, with what the two policies don't share, and
nothing is changed: the exit status is 1 where somebody is stopped or a number is not kept. docs/CHANGING.md says
which changes stop whom."""

POLICIES = """The policies that a ward has had: version, since when, and by which host it was put in place."""

WHO = """The open windows of a ward, by user: window, user, since when, and the host that has it."""

RELEASE = """Closes the windows of a host that died. Without --yes it only lists them. The store can't reach into a
host: be sure that it is dead or has switched the roles of these windows off."""

JOURNAL = """The journal of a ward by time, all users' or those named: a line each call, with its answer and the host
that made it. Times are those of the reader's clock; with --csv they are UTC, every field has a column of its own, and
the first line names the columns. An upper bound that has every permission is not told, and an ask without aims asks
for the fewest permissions, then the fewest roles. With --follow the last lines are told and then those that come,
until Ctrl-C, which ends it with status 0."""

VERIFY = """Replays the whole journal through the kit, locking nothing, and compares every answer, line and window. A
difference means that journal and lines do not belong together; an incident is on record and well again. Ctrl-C ends
it, and it tells how far it came.

Exit status: 0 no difference; 1 differences; otherwise as above."""

MEND = """Writes a user's damaged line anew from the journal, as an entry of its own. Without --yes it tells what is
wrong with the line, and nothing is written. It is refused where the journal itself does not replay."""

CUT = """Verifies the journal and replaces what is older than AGE by one entry a user. AGE is a number of seconds, or
of minutes, hours, days or weeks with m, h, d or w behind it. A request that is repeated after that is a new one, so
hosts stop repeating long before. If verify finds a difference nothing is cut."""

OPEN = """Opens a window for a user and prints its number. The window belongs to the host that --host names, or to
'nutrameza:LOGIN@MACHINE'."""

ASK = """Asks for permissions in a window, and prints the roles that are active then and all that they carry, one each
line. Without --permissions and --roles the fewest permissions are chosen, then the fewest roles. An ask that finds no
role set tells what stands in its way. A window that another host has is left alone unless --any-host is given: that
host would not learn what is active."""

CLOSE = """Closes a window. One that another host has is left alone unless --any-host is given: switch its roles off
there first."""

SHOW = """The roles that are active in a window, and all permissions that they carry, one each line."""

EXPLAIN = """Through which active role a window has a permission, and which role at or below it grants it."""

OBSTACLE = """What stands in the way of an ask, in one line, or that nothing does; nothing is changed. It says what
'nutrameza why' says, of a window in the store."""

SUBS = {
    "make": Sub("", "make the tables of a store", MAKE, "--store sqlite:ward.db", store_wards.make, []),
    "wards": Sub("[-q]", "list the wards", WARDS, "", store_wards.wards, [flag("-q", "--quiet", help="names alone")]),
    "create": Sub("WARD POLICY", "make a ward under a policy", CREATE, "'ward 3' ward.policy", store_wards.create, [WARD, POLICY]),
    "import": Sub("WARD POLICY LEDGER", "make a ward with a ledger that is there", IMPORT, "'ward 3' ward.policy ledger --host desk-7",
                  store_wards.create, [WARD, POLICY, argument("ledger", metavar="LEDGER", help="a file with a ledger's bytes")]),
    "export": Sub("WARD IMAGE LEDGER [--narrow] [--force]", "a ward's image and ledger to files", EXPORT, "'ward 3' policy.img ledger",
                  store_wards.export, [WARD, argument("to_image", metavar="IMAGE", help="the file to write"),
                                       argument("to_ledger", metavar="LEDGER", help="the file to write"),
                                       flag("--narrow", help="a ledger of 80 bytes a user"), FORCE]),
    "policy": Sub("WARD POLICY [--dry-run] [--close-windows | --regardless] [--renamed]", "put another policy in place", POLICY_TEXT,
                  "'ward 3' ward_next.policy --dry-run", store_wards.change_policy,
                  [WARD, POLICY, flag("-n", "--dry-run", help="only tell"),
                   flag("--close-windows", help="close the windows of those whom it stops"),
                   flag("--regardless", help="the same, and put it in place even so"),
                   flag("--renamed", help="names of the new text may have other numbers")]),
    "policies": Sub("WARD", "the policies that a ward has had", POLICIES, "'ward 3'", store_wards.policies, [WARD]),
    "who": Sub("WARD [USER..] [--roles]", "who has windows open", WHO, "'ward 3'", store_windows.who,
               [WARD, USERS, flag("--roles", help="the roles that are active in each, too")]),
    "release": Sub("WARD HOST [--yes]", "close the windows of a host that died", RELEASE, "'ward 3' desk-7 --yes", store_windows.release,
                   [WARD, argument("dead", metavar="HOST", help="the host as 'who' lists it"), YES]),
    "journal": Sub("WARD [USER..] [--csv] [--lines N] [--follow]", "what was called and answered", JOURNAL, "'ward 3' ANNA --csv",
                   store_journal.journal, [WARD, USERS, flag("--csv", help="comma-separated values, for other programs"),
                                           argument("-n", "--lines", metavar="N", type=store_wards.count, help="the last N entries (followed: 10)"),
                                           flag("-f", "--follow", help="go on with what comes, until Ctrl-C")]),
    "verify": Sub("WARD", "replay the journal and compare", VERIFY, "'ward 3'", store_wards.verify, [WARD]),
    "mend": Sub("WARD USER [--yes]", "write a damaged line anew", MEND, "'ward 3' ANNA --yes", store_wards.mend, [WARD, USER, YES]),
    "cut": Sub("WARD AGE [--yes]", "cut the journal's oldest entries", CUT, "'ward 3' 4w --yes", store_wards.cut,
               [WARD, argument("age", metavar="AGE", type=store_wards.age, help="how old an entry is that goes"), YES]),
    "open": Sub("WARD USER [--token HEX]", "open a window", OPEN, "'ward 3' ANNA", store_windows.open_window, [WARD, USER, TOKEN]),
    "ask": Sub("WARD USER WINDOW PERMISSION.. [--upper PERMISSION..] [--any-host]", "ask for permissions in a window", ASK,
               "'ward 3' ANNA 8 Prescribe", store_windows.ask,
               [WARD, USER, WINDOW, LOWER, UPPER, argument("--permissions", choices=list(store_windows.AIMS), help="how many of them (fewest)"),
                argument("--roles", choices=list(store_windows.AIMS), help="how many of them (fewest)"), TOKEN, ANY_HOST]),
    "close": Sub("WARD USER WINDOW [--token HEX] [--any-host]", "close a window", CLOSE, "'ward 3' ANNA 8", store_windows.close,
                 [WARD, USER, WINDOW, TOKEN, ANY_HOST]),
    "show": Sub("WARD USER WINDOW", "what is active in a window", SHOW, "'ward 3' ANNA 8", store_windows.show, [WARD, USER, WINDOW]),
    "explain": Sub("WARD USER WINDOW PERMISSION", "through which role a window has a permission", EXPLAIN, "'ward 3' ANNA 8 Read_id",
                   store_windows.explain, [WARD, USER, WINDOW, argument("permission", metavar="PERMISSION")]),
    "obstacle": Sub("WARD USER WINDOW PERMISSION.. [--upper PERMISSION..]", "what stands in the way of an ask", OBSTACLE,
                    "'ward 3' ANNA 17 Send_data", store_windows.obstacle, [WARD, USER, WINDOW, LOWER, UPPER]),
}

# What every sub-command takes.
COMMON = [
    argument("-s", "--store", metavar="STORE", help=f"sqlite:PATH or postgresql://.. ({STORE_VARIABLE})"),
    argument("--names", metavar="FILE", help=f"the policy text that gives the names ({NAMES_VARIABLE}); '' for none"),
    argument("--host", metavar="NAME", help="the host that windows and entries are put down to (nutrameza:LOGIN@MACHINE)"),
]


def usage_of(program: str, name: str) -> str:
    """How a sub-command is called."""
    return f"{program} store {name} {SUBS[name].usage}".rstrip()


def run(sub: str, arguments: argparse.Namespace) -> int:
    """Runs a sub-command on the store that is named."""
    arguments.host = arguments.host or default_host()
    try:
        with connected(arguments, making=sub == "make") as store:
            return SUBS[sub].run(arguments, store)
    except Failed as failed:
        words, status = str(failed), failed.status
    except StoreFailed as failed:
        words, status = failure(failed.answer), STATUS.get(failed.answer.number, REFUSED)
    except (StoreUsage, UnicodeEncodeError) as failed:
        words, status = str(failed) if isinstance(failed, StoreUsage) else "a word of the command line is no UTF-8", USAGE
    sys.stdout.flush()
    print(folded(words if status == REFUSED else f"nutrameza: {words}", sys.stderr), file=sys.stderr)
    return status


def add(commands: Any, program: str) -> None:
    """Adds 'store' and its sub-commands to a command line."""
    width = shutil.get_terminal_size().columns - len("usage: ")
    made = commands.add_parser("store", help="wards in SQLite or PostgreSQL: windows, policies, journal", description=DESCRIPTION,
                               formatter_class=cli.Paragraphs, allow_abbrev=False, usage=f"{program} store SUB ..",
                               epilog=f"example:\n  {program} store who 'ward 3' --store sqlite:ward.db")
    subs = made.add_subparsers(required=True, metavar="SUB", dest="sub")
    for name, sub in SUBS.items():
        usage = textwrap.wrap(usage_of(program, name), max(40, width), break_on_hyphens=False, break_long_words=False)
        one = subs.add_parser(name, help=sub.help, description=sub.text, formatter_class=cli.Paragraphs, allow_abbrev=False,
                              usage="\n       ".join(usage), epilog=f"example:\n  {program} store {name} {sub.example}".rstrip())
        for each in [*sub.arguments, *COMMON]:
            one.add_argument(*each.names, **each.more)
        one.set_defaults(run=functools.partial(run, name))
