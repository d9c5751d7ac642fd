"""The store in Python, on SQLite: the header's names and numbers, the ward's two windows, repeats, policies, the
journal, what is raised."""

import os
import re
import sqlite3
import tempfile
import unittest

import nutrameza
from nutrameza import policy, store
from nutrameza.store import GoOn, Store, StoreFailed, StoreNumber, StoreUsage

ROOT = os.path.dirname(os.path.dirname(os.path.dirname(os.path.abspath(__file__))))
DOCTOR, MANAGER = 0, 1
READ_ID, RECORDS, SEND_DATA = 0, 1, 4
EVERYTHING = range(5)
WARD = "ward 3"


def header():
    """The store's header."""
    with open(os.path.join(ROOT, "include", "nutrameza_store.h"), encoding="utf-8") as file:
        return file.read()


def image():
    """The ward's image."""
    return policy.load(os.path.join(ROOT, "examples", "ward.policy"))[0].image()


class Header(unittest.TestCase):
    """The names, numbers and parameters are the header's."""

    def test_numbers(self):
        numbers = dict(re.findall(r"NUTRAMEZA_STORE_([A-Z]+) = (1\d\d)", header()))
        self.assertEqual({number.name: number.value for number in StoreNumber}, {name: int(value) for name, value in numbers.items()})
        choices = dict(re.findall(r"NUTRAMEZA_STORE_([A-Z_]+) = ([012]),?$", header(), re.M))
        self.assertEqual({choice.name: choice.value for choice in GoOn}, {name: int(value) for name, value in choices.items()})

    def test_every_function_with_its_parameters(self):
        declared = dict(re.findall(r"^uint64_t nutrameza_store_(\w+)\(nutrameza_store \*store(?:, )?(.*?)\);", header(), re.S | re.M))
        found = {}
        for name, parameters in declared.items():
            kinds = ""
            for one in re.split(r", (?![^()]*\))", " ".join(parameters.split())) if parameters else []:
                if one.endswith("_len") and "*" not in one:
                    kinds = kinds[:-1] + "b"
                elif one == "void *context":
                    continue
                else:
                    kinds += ("f" if "(*" in one else "t" if one.startswith("const char *") else "p" if "*" in one
                              else "i" if one.startswith("int ") else "n")
            found[name] = kinds
        self.assertEqual(store.PARAMETERS, found)

    def test_words_of_numbers(self):
        self.assertEqual(store.word_of(20), nutrameza.word_of(20))
        self.assertEqual(len({store.word_of(number) for number in StoreNumber}), len(StoreNumber))


class Ward(unittest.TestCase):
    """A ward in a file of its own."""

    def setUp(self):
        self.folder = tempfile.TemporaryDirectory()
        self.path = os.path.join(self.folder.name, "ward.db")
        self.store = self.connected("first")
        self.assertTrue(self.store.make().done)
        self.assertTrue(self.store.create(WARD, image()).done)

    def tearDown(self):
        self.store.disconnect()
        self.folder.cleanup()

    def connected(self, host):
        return Store("sqlite:" + self.path, host)

    def asked(self, window, lower, token=None):
        return self.store.short_ask(WARD, 0, window, [lower], EVERYTHING, token)

    def test_two_windows_and_the_disclosure_that_is_refused(self):
        first, second = self.store.open(WARD, 0).window, self.store.open(WARD, 0).window
        answer = self.asked(first, READ_ID)
        self.assertEqual((answer.done, answer.roles, answer.again), (True, frozenset([DOCTOR]), False))
        refused = self.asked(second, SEND_DATA)
        self.assertEqual((refused.number, refused.word), (20, nutrameza.word_of(20)))
        self.assertRaises(nutrameza.NotDone, lambda: refused.roles)
        way = self.store.obstacle(WARD, 0, second, [SEND_DATA], EVERYTHING)
        self.assertEqual((way.kind, way.roles, way.members), (nutrameza.ObstacleKind.EXCLUSION, frozenset([DOCTOR]), frozenset([DOCTOR, MANAGER])))
        self.assertEqual(self.store.explain(WARD, 0, first, READ_ID).granting_role, DOCTOR)
        self.assertTrue(self.store.close(WARD, 0, first).done)
        self.assertEqual(self.asked(second, SEND_DATA).roles, frozenset([MANAGER]))
        self.assertEqual(self.store.show(WARD, 0, second).roles, frozenset([MANAGER]))
        self.assertEqual([(each.user, each.window, each.host) for each in self.store.sessions(WARD)], [(0, second, "first")])
        self.assertEqual(self.asked(first, READ_ID).number, 13)

    def test_a_repeated_token_is_told_the_record(self):
        window = self.store.open(WARD, 0, b"t" * 16)
        again = self.store.open(WARD, 0, b"t" * 16)
        self.assertEqual((again.window, again.again, again.token), (window.window, True, b"t" * 16))
        answer = self.asked(window.window, RECORDS)
        self.assertEqual(len(answer.token), 16)
        repeated = self.asked(window.window, RECORDS, answer.token)
        self.assertEqual((repeated.again, repeated.roles, repeated.order), (True, answer.roles, answer.order))
        self.assertEqual(self.asked(window.window, SEND_DATA, answer.token).number, StoreNumber.TOKEN)

    def test_the_journal_replays_and_an_export_is_its_ledger(self):
        window = self.store.open(WARD, 0).window
        self.asked(window, READ_ID)
        entries = self.store.journal(WARD)
        self.assertEqual([(each.call, each.user, each.returned % 256) for each in entries][-2:], [("open", 0, 0), ("short ask", 0, 0)])
        self.assertEqual((entries[-1].window, entries[-1].host, len(entries[-1].token)), (window, "first", 16))
        self.assertEqual(entries[-1].args[:32], bytes([1]) + bytes(31))
        self.assertEqual(self.store.journal_from(WARD, 0, entries[-1].order, 5), entries[-1:])
        seen = []
        verified = self.store.verify(WARD, found=seen.append)
        self.assertEqual((verified.done, verified.report.differences, seen), (True, 0, []))
        self.assertGreaterEqual(verified.report.calls, 2)
        exported, ledger = self.store.export(WARD)
        self.assertEqual(exported, image())
        own = nutrameza.new_ledger(exported)
        nutrameza.open(exported, own, 0)
        nutrameza.short_ask(exported, own, 0, 0, [READ_ID], EVERYTHING)
        self.assertEqual(ledger, bytes(own))

    def test_a_damaged_line_is_told_found_and_mended(self):
        window = self.store.open(WARD, 0).window
        with sqlite3.connect(self.path) as other:
            self.assertEqual(other.execute("update line set bytes = zeroblob(144)").rowcount, 1)
        answer = self.asked(window, READ_ID)
        self.assertEqual((answer.number, answer.extra), (StoreNumber.DAMAGED, 1))
        found = []
        self.assertEqual(self.store.verify(WARD, found=found.append).number, StoreNumber.DAMAGED)
        self.assertTrue(found and not found[0].incident and found[0].words)
        self.assertEqual(self.store.mend(WARD, 0).extra, 1)
        self.assertEqual(self.asked(window, READ_ID).roles, frozenset([DOCTOR]))
        self.assertEqual(self.store.verify(WARD).report.incidents, 1)

    def test_a_policy_that_stops_somebody_is_refused_or_closes_windows(self):
        window = self.store.open(WARD, 0).window
        self.asked(window, READ_ID)
        with open(os.path.join(ROOT, "examples", "ward.policy"), encoding="utf-8") as file:
            less = policy.build(file.read().replace("assign ANNA Doctor Data_Manager", "assign ANNA Data_Manager"))
        refused = self.store.policy(WARD, less)
        self.assertEqual((refused.number, refused.stopped), (StoreNumber.STOPS, frozenset([0])))
        self.assertEqual([each.version for each in self.store.policies(WARD)], [1])
        changed = self.store.policy(WARD, less, GoOn.CLOSING)
        self.assertEqual((changed.done, changed.extra, changed.stopped), (True, 2, frozenset([0])))
        self.assertEqual([each.image for each in self.store.policies(WARD)], [image(), less])
        self.assertEqual((self.asked(window, RECORDS).number, self.store.sessions(WARD)), (13, []))
        with self.connected("second") as second:
            self.assertEqual(second.short_ask(WARD, 0, second.open(WARD, 0).window, [RECORDS], EVERYTHING).roles, frozenset([MANAGER]))

    def test_windows_of_a_host_that_died_are_taken_over_or_closed(self):
        window = self.store.open(WARD, 0).window
        self.asked(window, READ_ID)
        with self.connected("second") as second:
            taken = second.adopt_all(WARD, "first")
            self.assertEqual([(each.was, each.host) for each in taken], [(window, "second")])
            self.assertEqual(second.show(WARD, 0, taken[0].window).roles, frozenset([DOCTOR]))
            self.assertEqual(self.store.show(WARD, 0, window).number, StoreNumber.GONE)
            third = self.store.adopt(WARD, 0, taken[0].window)
            self.assertEqual((third.done, third.roles), (True, frozenset([DOCTOR])))
            self.assertEqual(second.release(WARD, "first").extra, 1)
            self.assertEqual(second.sessions(WARD), [])

    def test_wards_cut_and_what_is_not_there(self):
        self.assertEqual([(each.name, each.version) for each in self.store.wards()], [(WARD, 1)])
        self.assertEqual(self.store.create(WARD, image()).number, StoreNumber.WARD)
        self.assertEqual(self.store.open("elsewhere", 0).number, StoreNumber.WARD)
        self.assertEqual(self.store.open(WARD, 1).number, 10)
        self.store.open(WARD, 0)
        self.assertTrue(self.store.cut(WARD, 0).done)
        self.assertTrue(self.store.verify(WARD).done)
        with self.assertRaises(StoreFailed) as caught:
            self.store.sessions("elsewhere")
        self.assertEqual(caught.exception.answer.number, StoreNumber.WARD)

    def test_a_verify_is_ended_by_who_watches_it(self):
        ledger = nutrameza.new_ledger(image())
        for _ in range(600):
            window = self.store.open(WARD, 0).window
            self.store.close(WARD, 0, window)
        self.assertEqual(self.store.verify(WARD, step=lambda report: False).number, StoreNumber.ENDED)
        self.assertTrue(self.store.verify(WARD, step=lambda report: True).done)
        self.assertEqual(self.store.export(WARD)[1], bytes(ledger))

    def test_what_is_raised(self):
        window = self.store.open(WARD, 0).window
        for wrong, call in ((TypeError, lambda: self.store.open(3, 0)), (TypeError, lambda: self.store.open(WARD, "0")),
                            (ValueError, lambda: self.store.open(WARD, -1)), (ValueError, lambda: self.store.open("a\0b", 0)),
                            (ValueError, lambda: self.store.open(WARD, 0, b"short")), (TypeError, lambda: self.store.open(WARD, 0, "t" * 16)),
                            (ValueError, lambda: self.store.short_ask(WARD, 0, window, b"short", EVERYTHING)),
                            (TypeError, lambda: self.store.create("new", "image")), (ValueError, lambda: self.store.policy(WARD, image(), 7)),
                            (StoreUsage, lambda: self.store.create("", image()))):
            self.assertRaises(wrong, call)
        self.assertRaises(TypeError, bool, self.store.show(WARD, 0, window))
        self.store.disconnect()
        self.store.disconnect()
        self.assertRaises(StoreUsage, lambda: self.store.open(WARD, 0))


class Connecting(unittest.TestCase):
    """What connecting tells."""

    def test_no_tables_yet_then_another_storage(self):
        with tempfile.TemporaryDirectory() as folder:
            with Store(f"sqlite:{folder}/new.db") as made:
                self.assertEqual((made.connected.number, made.connected.extra), (StoreNumber.SCHEMA, 0))
                self.assertTrue(made.make().done)
            with Store(f"sqlite:{folder}/new.db") as made:
                self.assertTrue(made.connected.done)
            with Store(f"sqlite:{folder}/no/such/folder.db") as failed:
                self.assertEqual(failed.connected.number, StoreNumber.FAILED)
                self.assertTrue(failed.connected.error)


if __name__ == "__main__":
    unittest.main()
