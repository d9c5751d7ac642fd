"""The windows of a ward, for operators and help desks: who has one open, the calls of one window by names, and the
windows of a host that died. The store makes every call; nothing is judged here."""

import argparse
import sys
from typing import List, Optional, Tuple

from .answers import Chosen
from .limits import Aim, Number
from .progress import folded
from .store import Session, Store, StoreAnswer
from .store_ward import REFUSED, USAGE, Failed, Ward, WindowAsk, counted, local_time, plain, table

AIMS = {"any": Aim.ANY, "fewest": Aim.FEWEST, "most": Aim.MOST}


# ---- who, and the windows of a host ----

def window_rows(ward: Ward, sessions: List[Session], roles: bool = False) -> List[str]:
    """Open windows as lines, the roles that are active in them too if they are asked for."""
    rows = [["WINDOW", "USER", "SINCE", "HOST"] + (["ROLES"] if roles else [])]
    for each in sessions:
        row = [str(each.window), ward.name("user", each.user), local_time(each.at), plain(each.host)]
        rows.append(row + ([ward.list("role", ward.active(each.user, each.window)) or "-"] if roles else []))
    return table(rows)


def who(arguments: argparse.Namespace, store: Store) -> int:
    """The open windows."""
    ward = Ward(store, arguments)
    users = [ward.number("user", word) for word in arguments.users] or None
    sessions = ward.sessions(users)
    print("\n".join(window_rows(ward, sessions, arguments.roles)) if sessions else "no window is open")
    return 0


def release(arguments: argparse.Namespace, store: Store) -> int:
    """Closes the windows of a host that died; without --yes it only tells them."""
    ward, host = Ward(store, arguments), plain(arguments.dead)
    sessions = ward.sessions()
    own = [each for each in sessions if each.host == arguments.dead]
    if not own:
        others = sorted({plain(each.host) for each in sessions})
        print(f"{host} has no open window" + (f"; these have: {', '.join(others)}" if others else ""))
        return 0
    print("\n".join(window_rows(ward, own, roles=True)))
    if not arguments.yes:
        print(f"Nothing is changed. --yes closes {counted(len(own), 'window')}.\nBe sure that {host} is dead, or that every role in "
              f"{'it' if len(own) == 1 else 'them'} is off there.", file=sys.stderr)
        return REFUSED
    answer = store.release(ward.called, arguments.dead)
    if not answer.done:
        raise ward.failed(answer, "Release again: what is closed stays closed.")
    print(f"closed {counted(answer.extra, 'window')} of {host}")
    return 0


# ---- the calls of a window ----

def named_window(arguments: argparse.Namespace, store: Store) -> WindowAsk:
    """The user and the window that the command line names."""
    ward = Ward(store, arguments)
    return WindowAsk(ward, ward.number("user", arguments.user), getattr(arguments, "window", 0))


def token_of(arguments: argparse.Namespace) -> Optional[bytes]:
    """The token that a request is repeated with."""
    if arguments.token is None:
        return None
    try:
        token = bytes.fromhex(arguments.token)
    except ValueError:
        token = b""
    if len(token) != 16:
        raise Failed(f"{arguments.token} is no token: 32 digits from 0 to f", USAGE)
    return token


def repeat_with(answer: StoreAnswer) -> str:
    """How a request is repeated."""
    return f"Repeat it with --token {answer.token.hex()} until another answer comes."


def own_window(arguments: argparse.Namespace, asked: WindowAsk) -> None:
    """Raises Failed for a window of another host, unless that is meant: what is live there would not follow."""
    for each in asked.ward.sessions([asked.user]):
        if each.window == asked.session and each.host != arguments.host and not arguments.any_host:
            raise Failed(f"window {each.window} belongs to {plain(each.host)}, which would not be told. Nothing is changed.\n"
                         "--any-host goes on: have every role of the window off there first.", REFUSED)


def bounds(arguments: argparse.Namespace, asked: WindowAsk) -> Tuple[List[int], List[int]]:
    """The permissions that are asked for, and those that the window may have at most."""
    lower, upper = ([asked.ward.number("permission", word) for word in words] for words in (arguments.lower, arguments.upper or []))
    return lower, lower + (upper if arguments.upper else sorted(asked.everything()))


def tell(asked: WindowAsk, answer: Chosen) -> int:
    """The roles and the permissions of a window, one each line."""
    lines = [f"role {asked.name('role', role)}" for role in sorted(answer.roles)]
    lines += [f"permission {asked.name('permission', permission)}" for permission in sorted(answer.permissions)]
    print("\n".join(lines) if lines else "no role is active")
    return 0


def open_window(arguments: argparse.Namespace, store: Store) -> int:
    """Opens a window, and prints its number."""
    asked = named_window(arguments, store)
    answer = store.open(asked.ward.called, asked.user, token_of(arguments))
    if not answer.done:
        raise asked.refusal(answer, repeat_with(answer))
    print(answer.window)
    return 0


def ask(arguments: argparse.Namespace, store: Store) -> int:
    """Asks for permissions in a window."""
    asked, token = named_window(arguments, store), token_of(arguments)
    own_window(arguments, asked)
    lower, upper = bounds(arguments, asked)
    where = asked.ward.called, asked.user, asked.session
    if arguments.permissions or arguments.roles:
        aims = AIMS[arguments.permissions or "fewest"], AIMS[arguments.roles or "fewest"]
        answer = store.ask(*where, lower, upper, *aims, token)
    else:
        answer = store.short_ask(*where, lower, upper, token)
    if answer.number == Number.NONE:
        raise Failed(f"{asked.refusal(answer)}: {asked.why(lower, upper) or 'nothing stands in the way any more'}", REFUSED)
    if not answer.done:
        raise asked.refusal(answer, repeat_with(answer))
    return tell(asked, answer)


def close(arguments: argparse.Namespace, store: Store) -> int:
    """Closes a window."""
    asked, token = named_window(arguments, store), token_of(arguments)
    own_window(arguments, asked)
    answer = store.close(asked.ward.called, asked.user, asked.session, token)
    if not answer.done:
        raise asked.refusal(answer, repeat_with(answer))
    return 0


def show(arguments: argparse.Namespace, store: Store) -> int:
    """What is active in a window."""
    asked = named_window(arguments, store)
    answer = store.show(asked.ward.called, asked.user, asked.session)
    if not answer.done:
        raise asked.refusal(answer)
    return tell(asked, answer)


def explain(arguments: argparse.Namespace, store: Store) -> int:
    """Through which role a window has a permission."""
    asked = named_window(arguments, store)
    permission = asked.ward.number("permission", arguments.permission)
    answer = store.explain(asked.ward.called, asked.user, asked.session, permission)
    what = asked.name("permission", permission)
    if answer.number == Number.NONE:
        raise Failed(f"{asked.refusal(answer)}: no active role of window {asked.session} carries {what}", REFUSED)
    if not answer.done:
        raise asked.refusal(answer)
    below = "" if answer.role == answer.granting_role else f", below which {asked.name('role', answer.granting_role)} grants it"
    print(f"{what} comes with {asked.name('role', answer.role)}{below}")
    return 0


def obstacle(arguments: argparse.Namespace, store: Store) -> int:
    """What stands in the way of an ask."""
    asked = named_window(arguments, store)
    print(folded(asked.why(*bounds(arguments, asked)) or "nothing stands in the way", sys.stdout))
    return 0
