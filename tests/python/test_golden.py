"""Generated calls through the binding beside the separate solver's answers. NUTRAMEZA_GOLDEN names the file that
golden_calls printed."""

import collections
import os
import unittest

import nutrameza
from nutrameza import limits

# The calls on an image alone, and those that change a ledger.
TAKES_IMAGE = ("check", "loop", "table")
CHANGES = ("open", "close", "ask", "short_ask")


def of_hex(word):
    """The bytes of a word of the file."""
    return b"" if word == "-" else bytes.fromhex(word)


def bound(word, as_set):
    """A bound by its bytes, or by its permissions where these bytes are a set's."""
    data = of_hex(word)
    if not as_set or len(data) != limits.SET_BYTES:
        return data
    return {8 * place + bit for place, byte in enumerate(data) for bit in range(8) if byte >> bit & 1}


class Player:
    """Plays the lines of the file: the image, the ledgers, and what was seen."""

    def __init__(self):
        self.image, self.ledger, self.old = b"", bytearray(), b""
        self.calls, self.numbers = collections.Counter(), collections.Counter()

    def made(self, name, words):
        """The answer of a line's call."""
        call = getattr(nutrameza, name)
        if name in TAKES_IMAGE:
            return call(self.image)
        if name == "tidy":
            return call(self.image, int(words[0]))
        if name in ("turn", "unturn"):
            return call(of_hex(words[0]))
        if name in ("widen", "narrow"):
            return call(self.image, self.old)
        as_set = sum(self.calls.values()) % 2 == 0
        bounds = (2, 3) if name in ("ask", "short_ask", "obstacle", "clauses") else ()
        arguments = [bound(word, as_set) if place in bounds else int(word) for place, word in enumerate(words)]
        return call(self.image, self.ledger if name in CHANGES or as_set else bytes(self.ledger), *arguments)

    def play(self, name, words):
        """Plays one call; what differs from the line, or None."""
        at = words.index("=")
        number, extra, filled = int(words[at + 1]), int(words[at + 2]), of_hex(words[at + 3])
        answer = self.made(name, words[:at])
        self.calls[name] += 1
        self.numbers[number] += 1
        told = (answer.number, answer.extra, answer.filled, answer.done, answer.word)
        expected = (number, extra, filled, number == 0, limits.WORDS[number])
        return None if told == expected else (told, expected)


def sets_of(answer):
    """The sets of an answer, by its bytes."""
    data = answer.filled
    return [frozenset(place for place in range(8 * len(part)) if part[place // 8] >> place % 8 & 1) for part in (data[:8], data[8:])]


class Golden(unittest.TestCase):
    """Each line of the file."""

    def test_every_call_answers_as_the_solver_does(self):
        player = Player()
        with open(os.environ["NUTRAMEZA_GOLDEN"], encoding="ascii") as file:
            for place, line in enumerate(file, start=1):
                name, *words = line.split()
                if name in ("image", "ledger", "old"):
                    setattr(player, name, bytearray(of_hex(words[0])) if name == "ledger" else of_hex(words[0]))
                elif name == "after":
                    self.assertEqual(bytes(player.ledger), of_hex(words[0]), f"line {place}: the ledger behind the run")
                else:
                    self.assertIsNone(player.play(name, words), f"line {place}: {line[:2000]}")
        self.assertEqual(set(player.calls), {name for name in nutrameza.library.PARAMETERS})
        self.assertGreater(sum(player.calls.values()), 5000)
        missing = set(range(25)) - {21} - set(player.numbers)
        self.assertFalse(missing, f"no call was answered {missing}")
        print(f"{sum(player.calls.values())} calls, {player.numbers[0]} done")

    def test_the_sets_of_an_answer_are_those_of_its_bytes(self):
        player, seen = Player(), 0
        with open(os.environ["NUTRAMEZA_GOLDEN"], encoding="ascii") as file:
            for line in file:
                name, *words = line.split()
                if name in ("image", "ledger"):
                    setattr(player, name, bytearray(of_hex(words[0])) if name == "ledger" else of_hex(words[0]))
                elif name in (*CHANGES, "show", "obstacle"):
                    answer = player.made(name, words[:words.index("=")])
                    if answer.done and name not in ("open", "close"):
                        second = answer.members if name == "obstacle" else answer.permissions
                        self.assertEqual([answer.roles, second], sets_of(answer))
                        seen += 1
        self.assertGreater(seen, 300)


if __name__ == "__main__":
    unittest.main()
