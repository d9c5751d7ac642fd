"""What a command says while it works, and Ctrl-C: a line on standard error about what takes longer than a second, on a
terminal alone; and Ctrl-C as something that a loop may look at."""

import contextlib
import os
import signal
import sys
import textwrap
import threading
import time
from typing import Iterator, TextIO

# Seconds until the line is shown, and between two of them.
FIRST, NEXT = 1.0, 0.2


def width(file: TextIO) -> int:
    """The columns of the terminal that a file is."""
    try:
        return os.get_terminal_size(file.fileno()).columns or 80
    except (OSError, ValueError):
        return 80


def folded(text: str, file: TextIO, indent: str = "") -> str:
    """A text as a reader of this file has it: on a terminal no word is broken at its edge, and a line goes on behind
    the indent."""
    if not file.isatty():
        return text
    room = max(20, width(file) - 1)
    return "\n".join(textwrap.fill(line, room, subsequent_indent=indent, break_on_hyphens=False, break_long_words=False)
                     for line in text.split("\n"))


class Progress:
    """A line that says what is done so far, by a thread of its own, and that goes with the work."""

    def __init__(self, words: str, shown: bool = True) -> None:
        self.words, self.shown = words, shown and sys.stderr.isatty()
        self.over, self.lock, self.there = threading.Event(), threading.Lock(), 0
        self.thread = threading.Thread(target=self.tell, daemon=True)

    def __enter__(self) -> "Progress":
        if self.shown:
            self.thread.start()
        return self

    def __exit__(self, *_: object) -> None:
        self.over.set()
        if self.shown:
            self.thread.join()
            self.write("")

    def tell(self) -> None:
        """Writes the line, once it takes long, until the work is over."""
        began = time.monotonic()
        while not self.over.wait(NEXT if self.there else FIRST):
            self.write(f"{self.words} .. {time.monotonic() - began:.0f} s")

    def write(self, text: str) -> None:
        """Puts a text in the place of the line that is there."""
        with self.lock:
            self.put(text)

    def put(self, text: str) -> None:
        """The same, for who has the lock."""
        text = text[:max(1, width(sys.stderr) - 1)]
        if text or self.there:
            sys.stderr.write(f"\r{text:<{self.there}}" + ("" if text else "\r"))
            sys.stderr.flush()
        self.there = len(text)

    def print(self, text: str) -> None:
        """Prints a line of the command's own output, the progress out of its way."""
        with self.lock:
            self.put("")
            print(text, flush=self.shown)


@contextlib.contextmanager
def ctrl_c() -> Iterator[threading.Event]:
    """An event that the first Ctrl-C sets; a second one ends the program, as the first does outside."""
    pressed, over = threading.Event(), threading.Event()
    before = signal.pthread_sigmask(signal.SIG_BLOCK, {signal.SIGINT})

    def wait() -> None:
        while not over.is_set():
            if signal.sigtimedwait({signal.SIGINT}, NEXT) is None:
                continue
            if pressed.is_set():
                signal.pthread_sigmask(signal.SIG_UNBLOCK, {signal.SIGINT})
                os.kill(os.getpid(), signal.SIGINT)
            pressed.set()

    thread = threading.Thread(target=wait, daemon=True)
    thread.start()
    try:
        yield pressed
    finally:
        over.set()
        thread.join()
        signal.pthread_sigmask(signal.SIG_SETMASK, before)


def end_by_ctrl_c() -> int:
    """Ends the program as Ctrl-C does; where the signal is not taken, the status that shells have for it."""
    sys.stdout.flush()
    os.kill(os.getpid(), signal.SIGINT)
    return 128 + signal.SIGINT
