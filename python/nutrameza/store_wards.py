"""The wards of a store, for operators: made, exported, given another policy, verified, mended and cut. The store makes
every change and judges every image, ledger and journal; nothing that is lost goes without its flag."""

import argparse
import os
import sys
import threading
from typing import Callable, FrozenSet, List, Optional

from . import calls, cli, limits, policy, why
from .limits import Number
from .policy import Names, Policy
from .progress import Progress, ctrl_c, end_by_ctrl_c, folded
from .store import Finding, GoOn, Report, Session, Store, StoreAnswer, StoreFailed, StoreNumber, StorePolicy, Verified
from .store_ward import REFUSED, STATUS, USAGE, Failed, Ward, counted, counts_of, failure, local_time, plain, table

SECONDS = {"": 1, "s": 1, "m": 60, "h": 3600, "d": 86400, "w": 604800}


# ---- stores and wards ----

def make(arguments: argparse.Namespace, store: Store) -> int:
    """Makes the tables."""
    there = store.connected.done
    answer = store.make()
    if not answer.done:
        raise Failed(failure(answer), STATUS.get(answer.number, REFUSED))
    print("the tables are there already" if there else "the tables are made")
    return 0


def wards(arguments: argparse.Namespace, store: Store) -> int:
    """The wards by name."""
    try:
        found = store.wards()
    except StoreFailed as failed:
        raise Failed(failure(failed.answer), STATUS.get(failed.answer.number, REFUSED)) from None
    if arguments.quiet:
        for ward in found:
            print(plain(ward.name))
    else:
        rows = [["WARD", "VERSION"]] + [[plain(ward.name), str(ward.version)] for ward in found]
        print("\n".join(table(rows)) if found else "there is no ward")
    return 0


def not_created(arguments: argparse.Namespace, answer: StoreAnswer, users: int, named: why.Named) -> Failed:
    """Why a ward was not made."""
    refused, line, old = f"refused: {answer.number} {answer.word}", limits.LINE_BYTES, limits.OLD_LINE_BYTES
    if answer.number == StoreNumber.WARD:
        return Failed(f"there is a ward {plain(arguments.ward)} already", USAGE)
    if answer.number == Number.LEDGER:
        size = os.path.getsize(arguments.ledger)
        return Failed(f"{refused}: {arguments.ledger} has {size} bytes; a ledger of {counted(users, 'user')} has {line * users},\n"
                      f"or {old * users} before version 0.6", REFUSED)
    if answer.number == Number.LINE:
        return Failed(f"{refused}: the line of {named.name('user', answer.extra)} in {arguments.ledger} is not sound under {arguments.image}", REFUSED)
    look = "\n'nutrameza store wards' says whether it is there." if answer.number == StoreNumber.UNKNOWN else ""
    return Failed(failure(answer) + look if answer.number >= StoreNumber.BUSY else refused, STATUS.get(answer.number, REFUSED))


def create(arguments: argparse.Namespace, store: Store) -> int:
    """A ward under a policy, with a ledger of zeros or with that of a file."""
    said, names = cli.load(arguments.image, policy.no_names())
    ledger = cli.read_bytes(arguments.ledger) if arguments.sub == "import" else None
    answer = store.create(arguments.ward, said.image(), ledger)
    if not answer.done:
        raise not_created(arguments, answer, said.counts[0], why.Named(names or policy.no_names()))
    windows = len(store.sessions(arguments.ward))
    print(f"{plain(arguments.ward)}: {policy.counted(said.counts)}, version 1" +
          (f"; {counted(windows, 'open window')} of host {plain(arguments.host)}" if windows else ""))
    return 0


def export(arguments: argparse.Namespace, store: Store) -> int:
    """Image and ledger to two files."""
    ward = Ward(store, arguments)
    image, ledger = ward.listed(store.export)
    if arguments.narrow:
        carried = calls.narrow(image, ledger)
        if carried.number == Number.UPPER_SESSIONS:
            windows = [each.window for each in ward.sessions([carried.extra]) if each.window % limits.SESSIONS >= limits.OLD_SESSIONS]
            raise Failed(f"refused: {carried.number} {carried.word}: {ward.name('user', carried.extra)} has a fifth window open or one "
                         f"above it: {', '.join(map(str, windows))}", REFUSED)
        ledger = bytes(carried.ledger)
    for path in (arguments.to_image, arguments.to_ledger):
        if os.path.isfile(path) and not arguments.force:
            raise cli.in_the_way(path)
    for path, data in ((arguments.to_image, image), (arguments.to_ledger, ledger)):
        cli.write_whole(path, data, arguments.force)
    users = counts_of(image)[0]
    print(f"{arguments.to_image}: {cli.summary(policy.to_words(image))}\n{arguments.to_ledger}: {len(ledger)} bytes, {len(ledger) // users} a user")
    return 0


# ---- policies ----

def policies(arguments: argparse.Namespace, store: Store) -> int:
    """The policies that a ward has had."""
    ward = Ward(store, arguments)
    rows = [["VERSION", "SINCE", "HOST", "USERS", "ROLES", "PERMISSIONS"]]
    rows += [[str(each.version), local_time(each.at), plain(each.host), *map(str, counts_of(each.image))] for each in ward.images]
    print("\n".join(table(rows)))
    return 0


def session_names(sessions: List[Session]) -> List[int]:
    """How a user's sessions are called: by the numbers of the open windows."""
    names = list(range(limits.SESSIONS))
    for each in sessions:
        names[each.window % limits.SESSIONS] = each.window
    return names


def tell_stopped(ward: Ward, said: Policy, names: Names) -> FrozenSet[int]:
    """Tells whom a policy would stop, why, and which windows they have open; who they are."""
    _, ledger = ward.listed(ward.store.export)
    line = limits.LINE_BYTES
    ledger += bytes(max(0, line * said.counts[0] - len(ledger)))
    answer = calls.stopped(said.image(), ledger)
    users = answer.users if answer.done else frozenset()  # a ledger that is too long: the store refuses the policy
    for user in sorted(users):
        sessions = ward.sessions([user])
        found = why.reasons(said, user, ledger[line * user:line * (user + 1)], names, session_names(sessions))
        found += [f"window {each.window} is open since {local_time(each.at)} at {plain(each.host)}" for each in sessions]
        print("\n  ".join([f"{why.Named(names).name('user', user)} is stopped:", *found]))
    if answer.done and not users:
        print("nobody is stopped")
    sys.stdout.flush()
    return users


def tell_moved(ward: Ward, names: Optional[Names]) -> List[str]:
    """Tells which names have another number in the new text, and what they are; none if it can't be known."""
    if names is None or not ward.names["user"]:
        print(f"Numbers are not compared by name: that needs the text in place (--names){'' if names else ' and the new one'}.", file=sys.stderr)
        return []
    moved = policy.moved(ward.names, names)
    print("\n".join(moved) if moved else "every number is kept")
    return moved


def not_changed(ward: Ward, answer: StorePolicy, go_on: GoOn, names: Names) -> Failed:
    """Why a policy was not put in place."""
    version = ward.images[-1].version
    if answer.number != StoreNumber.STOPS:
        return ward.failed(answer, f"'nutrameza store policies' says whether version {version + 1} is in place.")
    way = "--close-windows closes their windows first: have every role in them switched off."
    if go_on == GoOn.CLOSING:
        way = "To close their windows does not free them; --regardless goes on, and they are stopped."
    who = why.Named(names).list("user", answer.stopped, " and ")
    return Failed(f"refused: {answer.number} {answer.word}: {who}\n{plain(ward.called)} is unchanged, version {version}.\n{way}", REFUSED)


def change_policy(arguments: argparse.Namespace, store: Store) -> int:
    """Puts a policy in place, after it has told whom it stops."""
    ward = Ward(store, arguments)
    said, own = cli.load(arguments.image, ward.names)
    names, called = own or ward.names, plain(ward.called)
    if arguments.dry_run:
        print("\n".join(policy.differences(ward.said(), said, names, ward.names if ward.names["user"] else None)) or "the policy says the same")
    moved, users = tell_moved(ward, own), tell_stopped(ward, said, names)
    if arguments.dry_run:
        return REFUSED if moved or users else 0
    if moved and not arguments.renamed:
        raise Failed(f"{called} is unchanged, version {ward.images[-1].version}.\nA number stays with its user, role or permission: write new "
                     "names behind the others.\n--renamed goes on where only the spelling is another.", REFUSED)
    go_on = GoOn.REGARDLESS if arguments.regardless else GoOn.CLOSING if arguments.close_windows else GoOn.IF_NONE
    answer = store.policy(ward.called, said.image(), go_on)
    if not answer.done:
        raise not_changed(ward, answer, go_on, names)
    if answer.stopped:
        print(f"all windows of {why.Named(names).list('user', answer.stopped, ' and ')} are closed")
    print(f"{called}: version {answer.extra} is in place" + (f", with the names of {arguments.image}" if own else ""))
    if go_on == GoOn.REGARDLESS and answer.stopped:
        tell_stopped(ward, said, names)
    return 0


# ---- the journal verified, a line mended, the journal cut ----

def finding_line(ward: Ward, finding: Finding) -> str:
    """A finding of a replay."""
    whose = f"{ward.name('user', finding.user)}, entry {finding.order}" if finding.user < limits.MAX_USERS else "the ward"
    return f"{'incident' if finding.incident else 'difference'}: {whose}: {finding.words}"


def replayed(ward: Ward, report: Report) -> str:
    """What a replay found."""
    return (f"{plain(ward.called)}: {counted(report.calls, 'entry', 'entries')} replayed, {counted(report.differences, 'difference')}, "
            f"{counted(report.incidents, 'incident')}")


def replay(ward: Ward, found: Callable[[Finding], None], progress: Progress, pressed: threading.Event) -> Verified:
    """A replay of the journal, ended by Ctrl-C; raises Failed where there was none."""
    def step(report: Report) -> bool:
        progress.words = counted(report.calls, "entry", "entries") + " replayed"
        return not pressed.is_set()

    answer = ward.store.verify(ward.called, step, found)
    if not answer.done and answer.number != StoreNumber.ENDED and not answer.report.differences:
        raise ward.failed(answer)
    return answer


def ended(ward: Ward, answer: Verified) -> int:
    """Tells how far a replay came that Ctrl-C has ended, and ends as it does."""
    print(folded(f"{replayed(ward, answer.report)} so far: ended by Ctrl-C", sys.stderr), file=sys.stderr)
    return end_by_ctrl_c()


def verify(arguments: argparse.Namespace, store: Store) -> int:
    """Replays the journal."""
    ward = Ward(store, arguments)
    with ctrl_c() as pressed, Progress("replaying the journal") as progress:
        answer = replay(ward, lambda finding: progress.print(finding_line(ward, finding)), progress, pressed)
    if answer.number == StoreNumber.ENDED:
        return ended(ward, answer)
    print(replayed(ward, answer.report))
    return 0 if answer.done else REFUSED


def tell_damage(ward: Ward, user: int) -> int:
    """Tells what a replay finds of a user's line, and changes nothing."""
    found: List[Finding] = []
    with ctrl_c() as pressed, Progress("replaying the journal") as progress:
        answer = replay(ward, found.append, progress, pressed)
    if answer.number == StoreNumber.ENDED:
        return ended(ward, answer)
    own = [finding for finding in found if finding.user == user and not finding.incident]
    print("\n".join(finding_line(ward, finding) for finding in own) or f"nothing is wrong with the line of {ward.name('user', user)}")
    if own:
        print(f"Nothing is changed. --yes writes the line of {ward.name('user', user)} anew from the journal.", file=sys.stderr)
    return REFUSED if own else 0


def mend(arguments: argparse.Namespace, store: Store) -> int:
    """Writes a damaged line anew; without --yes it only tells what is wrong with it."""
    ward = Ward(store, arguments)
    user = ward.number("user", arguments.user)
    if not arguments.yes:
        return tell_damage(ward, user)
    with Progress("replaying the journal"):
        answer = store.mend(ward.called, user)
    if answer.number == Number.PERSON:
        raise Failed(f"refused: {answer.number} {answer.word}: there is no user {user}", REFUSED)
    if answer.number == StoreNumber.DAMAGED and answer.report.differences:
        raise Failed(f"refused: {answer.number} {answer.word}: the journal itself does not replay; 'nutrameza store verify' tells where", REFUSED)
    if not answer.done:
        raise ward.failed(answer, "Mend again: a line that is well is left as it is.")
    print(f"the line of {ward.name('user', user)} " + ("is written anew" if answer.extra else "was well, and is left as it is"))
    return 0


def age(word: str) -> int:
    """Seconds, as an argument: a number, with s, m, h, d or w behind it."""
    number = cli.number_of(word.rstrip("smhdw"), 1 << 31)
    unit = word[len(word.rstrip("smhdw")):]
    if number is None or unit not in SECONDS:
        raise argparse.ArgumentTypeError(f"{word} is no age: a number of seconds, or one with m, h, d or w behind it")
    return number * SECONDS[unit]


def count(word: str) -> int:
    """How many, as an argument."""
    number = cli.number_of(word, 1 << 31)
    if number is None:
        raise argparse.ArgumentTypeError(f"{word} is no number")
    return number


def cut(arguments: argparse.Namespace, store: Store) -> int:
    """Cuts the journal; without --yes it only tells what that would do."""
    ward = Ward(store, arguments)
    if not arguments.yes:
        print("Nothing is changed. --yes verifies the journal, then puts one entry a user in\n"
              f"the place of those older than {arguments.age:,} s. A request repeated later is a new one.", file=sys.stderr)
        return REFUSED
    with Progress("verifying and cutting the journal"):
        answer = store.cut(ward.called, arguments.age)
    if answer.number == StoreNumber.DAMAGED and answer.report.differences:
        raise Failed(f"refused: {answer.number} {answer.word}: nothing is cut; 'nutrameza store verify' tells "
                     f"{counted(answer.report.differences, 'difference')}", REFUSED)
    if not answer.done:
        raise ward.failed(answer, "Verify and cut again.")
    print(f"{plain(ward.called)}: {counted(answer.extra, 'entry', 'entries')} cut")
    return 0
