"""The sub-commands desk and report of the command nutrameza."""

import argparse
import os
import signal
import sys
import webbrowser
from typing import Any, Optional

from .. import cli
from ..policy import Names
from . import report, server, view

DESK = """The officer's desk for a policy, in a browser on this machine: the hierarchy of roles, what each role carries
and who may take it, how tight the exclusions are; the policy tried on a scratch ledger; two policies compared; a report
for the record. FILE is a policy text, or an image with the names of NAMES.

It prints an address with a secret in it, opens it where there is a screen, and answers on 127.0.0.1 until Ctrl-C: only
whoever has the secret, and no page of another origin. It keeps nothing on disk; what you save, the browser saves. A
text that is refused is shown with its lines and reasons, and read again when you have mended it. docs/OFFICERS.md is
the page for those who sit at it.

Exit status: 0 ended by Ctrl-C; 2 wrong usage, no library, a file that can't be read, or a port that is taken."""

REPORT = """The policy view of the desk as one HTML file, which needs nothing beside it, for the record: roles,
permissions, people, exclusions with the survey's figures, limits. FILE is a policy text, or an image with the names of
NAMES.

Exit status: 0 written; 1 the policy is refused; 2 wrong usage, no library, or a file that can't be read or written."""


def desk(arguments: argparse.Namespace) -> int:
    """Serves the desk until Ctrl-C."""
    if signal.getsignal(signal.SIGINT) is not signal.SIG_IGN:  # as in the background of a script
        signal.signal(signal.SIGINT, signal.default_int_handler)
    signal.signal(signal.SIGPIPE, signal.SIG_IGN)  # a browser may go away amid an answer
    served = server.Server(server.Desk(arguments.image, names_of(arguments.names)), arguments.port)
    print(f"{arguments.image}: the desk is at {served.address()}\nCtrl-C ends it", flush=True)
    if not arguments.no_browser and has_screen():
        webbrowser.open(served.address())
    try:
        served.serve_forever()
    except KeyboardInterrupt:
        print()
    finally:
        served.server_close()
    return 0


def has_screen() -> bool:
    """There is a screen for a browser; without one a browser would take the terminal."""
    return sys.platform in ("darwin", "win32") or bool(os.environ.get("DISPLAY") or os.environ.get("WAYLAND_DISPLAY"))


def names_of(path: Optional[str]) -> Optional[Names]:
    """The names that a policy text declares; None without a file."""
    return None if path is None else cli.names_in(path)


def write_report(arguments: argparse.Namespace) -> int:
    """Writes the report."""
    loaded = view.load(arguments.image, cli.read_bytes(arguments.image), names_of(arguments.names))
    made = report.report(loaded._replace(file=os.path.basename(arguments.image)))
    cli.write_whole(arguments.output, made.encode("utf-8"), arguments.force)
    print(f"{arguments.output}: report of {arguments.image}")
    return 0


def port(word: str) -> int:
    """A port's number, as an argument."""
    number = cli.number_of(word, 65535)
    if number is None:
        raise argparse.ArgumentTypeError(f"{word} is no number of a port")
    return number


COMMANDS = {
    "desk": cli.Command("FILE [NAMES] [--port PORT] [--no-browser]", "a policy shown, tried and compared in a browser", DESK, "ward.policy", desk),
    "report": cli.Command("FILE [NAMES] -o OUT [--force]", "a policy as one HTML file for the record", REPORT, "ward.policy -o ward.html",
                          write_report),
}


def add(commands: Any, program: str) -> None:
    """Adds the sub-commands to a command line."""
    made = {}
    for name, command in COMMANDS.items():
        made[name] = commands.add_parser(name, help=command.help, description=command.text, formatter_class=cli.Paragraphs, allow_abbrev=False,
                                         usage=f"{program} {name} {command.usage}", epilog=f"example:\n  {program} {name} {command.example}")
        made[name].add_argument("image", metavar="FILE", help="a policy text or an image")
        made[name].add_argument("names", metavar="NAMES", nargs="?", help="a policy text that gives an image's names")
        made[name].set_defaults(run=command.run)
    made["desk"].add_argument("--port", metavar="PORT", type=port, default=0, help="the port to answer on (one that is free)")
    made["desk"].add_argument("--no-browser", action="store_true", help="only print the address")
    made["report"].add_argument("-o", "--output", metavar="OUT", required=True, help="the file to write")
    made["report"].add_argument("-f", "--force", action="store_true", help="overwrite a file that is there already")
