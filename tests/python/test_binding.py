"""The Python binding: the header's names and numbers, answers, what is raised, where the library is found, threads."""

import os
import re
import subprocess
import sys
import tempfile
import threading
import unittest

import nutrameza
from nutrameza import answers, calls, library, limits, policy

ROOT = os.path.dirname(os.path.dirname(os.path.dirname(os.path.abspath(__file__))))
EVERYTHING = range(5)
DOCTOR, MANAGER = 0, 1
READ_ID, PRESCRIBE, SEND_DATA = 0, 2, 4


def header():
    """The C header."""
    with open(os.path.join(ROOT, "include", "nutrameza.h"), encoding="utf-8") as file:
        return file.read()


def ward():
    """The ward's image, and an empty ledger for it."""
    image = policy.load(os.path.join(ROOT, "examples", "ward.policy"))[0].image()
    return image, nutrameza.new_ledger(image)


def looped():
    """An image that is refused by 22: three roles over one another."""
    entries = [(policy.SENIOR, 0, 1), (policy.SENIOR, 1, 2), (policy.SENIOR, 2, 0)]
    return policy.Policy([1, 3, 1], entries).image()


class Header(unittest.TestCase):
    """The numbers, words and parameters are the header's."""

    def test_limits_and_sizes(self):
        defined = dict(re.findall(r"^#define NUTRAMEZA_([A-Z_]+) (\d+)$", header(), re.M))
        sizes = {name: int(value) for name, value in defined.items() if not name.startswith("VERSION")}
        ours = {name: value for name, value in vars(limits).items() if name.isupper() and isinstance(value, int)}
        self.assertEqual(ours, sizes)

    def test_answer_numbers_and_words(self):
        numbers = dict(re.findall(r"NUTRAMEZA_(?:REFUSED_)?([A-Z_]+) = (\d+)", header().split("enum nutrameza_aim")[0]))
        self.assertEqual({number.name: number.value for number in limits.Number}, {name: int(value) for name, value in numbers.items()})
        words = re.search(r"words\[\] = \{(.*?)\}", header(), re.S).group(1)
        self.assertEqual(list(limits.WORDS), re.findall(r'"([^"]+)"', words))
        self.assertEqual([limits.word_of(number) for number in (0, 24, 25, 255)], ["done", "upper sessions", "unknown", "unknown"])

    def test_aims_and_kinds(self):
        for name, ours in (("aim", limits.Aim), ("exclusion_kind", limits.ExclusionKind), ("obstacle_kind", limits.ObstacleKind)):
            theirs = re.search(rf"enum nutrameza_{name} \{{(.*?)\}}", header(), re.S).group(1)
            found = {one: int(number) for one, number in re.findall(r"NUTRAMEZA_(?:OBSTACLE_)?([A-Z_]+) = (\d)", theirs)}
            self.assertEqual({one.name: one.value for one in ours}, found)

    def test_every_call_with_its_parameters(self):
        found = {}
        for name, text in re.findall(r"^uint64_t nutrameza_([a-z_]+)\((.*?)\)", header(), re.M | re.S):
            parameters = [" ".join(parameter.split()) for parameter in text.split(",")]
            kept = [parameter for parameter in parameters if not parameter.startswith("size_t")]
            found[name] = "".join("n" if one.startswith("uint64_t") else "r" if one.startswith("const") else "w" for one in kept)
        self.assertEqual(library.PARAMETERS, found)
        self.assertEqual(len(found), 17)
        self.assertTrue(all(callable(getattr(nutrameza, name)) and name in nutrameza.__all__ for name in found))

    def test_one_version(self):
        with open(os.path.join(ROOT, "VERSION"), encoding="ascii") as file:
            version = file.read().strip()
        self.assertEqual((nutrameza.__version__, nutrameza.version()), (version, version))


class Answers(unittest.TestCase):
    """What the calls answer."""

    def test_the_ward(self):
        image, ledger = ward()
        self.assertEqual([nutrameza.open(image, ledger, 0).session for _ in range(2)], [0, 1])
        answer = nutrameza.short_ask(image, ledger, 0, 0, [PRESCRIBE], EVERYTHING)
        self.assertEqual((answer.done, answer.number, answer.word, answer.extra), (True, 0, "done", 0))
        self.assertEqual((answer.roles, answer.permissions), (frozenset({DOCTOR}), frozenset({0, 1, 2, 3})))
        self.assertEqual(nutrameza.show(image, ledger, 0, 0).roles, {DOCTOR})
        refused = nutrameza.short_ask(image, ledger, 0, 1, [SEND_DATA], EVERYTHING)
        self.assertEqual((refused.done, refused.number, refused.word), (False, 20, "none"))
        found = nutrameza.obstacle(image, ledger, 0, 1, [SEND_DATA], EVERYTHING)
        self.assertEqual((found.kind, found.exclusion_kind, found.n), (limits.ObstacleKind.EXCLUSION, limits.ExclusionKind.MS_DMER, 2))
        self.assertEqual((found.roles, found.members), ({DOCTOR}, {DOCTOR, MANAGER}))
        explained = nutrameza.explain(image, ledger, 0, 0, READ_ID)
        self.assertEqual((explained.role, explained.granting_role), (DOCTOR, DOCTOR))
        self.assertEqual(nutrameza.open_sessions(ledger, 0), (0, 1))
        self.assertTrue(nutrameza.close(image, ledger, 0, 0).done)
        self.assertEqual(nutrameza.ask(image, ledger, 0, 1, [SEND_DATA], EVERYTHING, nutrameza.Aim.MOST, nutrameza.Aim.ANY).roles, {MANAGER})

    def test_an_answer_is_neither_true_nor_false(self):
        image, ledger = ward()
        for answer in (nutrameza.check(image), nutrameza.check(b""), nutrameza.open(image, ledger, 0)):
            with self.assertRaises(TypeError):
                bool(answer)

    def test_what_only_a_done_call_has_is_not_read_of_a_refused_one(self):
        image, ledger = ward()
        refused = [(nutrameza.open(image, ledger, 9), ["session"]), (nutrameza.show(image, ledger, 0, 0), ["roles", "permissions"]),
                   (nutrameza.explain(image, ledger, 0, 0, 0), ["role", "granting_role"]), (nutrameza.stopped(b"", b""), ["users"]),
                   (nutrameza.obstacle(image, ledger, 0, 0, [], []), ["kind", "roles", "members", "permission", "exclusion_kind", "n"]),
                   (nutrameza.loop(image), ["chain"]), (nutrameza.tidy(b""), ["image"]), (nutrameza.table(b""), ["table"]),
                   (nutrameza.turn(b""), ["table"]), (nutrameza.widen(image, b""), ["ledger"]),
                   (nutrameza.clauses(image, ledger, 0, 0, [], [], 0, 0), ["text"])]
        for answer, names in refused:
            self.assertFalse(answer.done)
            for name in names:
                self.assertFalse(hasattr(answer, name), (answer, name))
                with self.assertRaises(nutrameza.NotDone):
                    getattr(answer, name)

    def test_an_obstacle_has_what_its_kind_has(self):
        image, ledger = ward()
        nutrameza.open(image, ledger, 0)
        upper = nutrameza.obstacle(image, ledger, 0, 0, [PRESCRIBE], [PRESCRIBE])
        self.assertEqual((upper.kind, upper.permission, upper.roles), (limits.ObstacleKind.UPPER, PRESCRIBE, {DOCTOR}))
        self.assertFalse(hasattr(upper, "n") or hasattr(upper, "exclusion_kind"))
        both = nutrameza.obstacle(image, ledger, 0, 0, [PRESCRIBE, SEND_DATA], EVERYTHING)
        self.assertEqual((both.kind, both.n, hasattr(both, "permission")), (limits.ObstacleKind.EXCLUSION, 2, False))

    def test_answers_in_words_and_compared(self):
        image, ledger = ward()
        self.assertEqual(str(nutrameza.open(image, ledger, 0)), "open: done")
        self.assertEqual(str(nutrameza.open(image, ledger, 0)), "open: done (1)")
        self.assertEqual(str(nutrameza.check(image[:-1] + b"\0")), "check: refused: 3 kind (12)")
        self.assertEqual(nutrameza.check(image), nutrameza.check(image))
        self.assertNotEqual(nutrameza.check(image), nutrameza.check(b""))
        with self.assertRaises(AttributeError):
            nutrameza.check(image).number = 3

    def test_tables_tidy_images_loops_and_texts(self):
        image, ledger = ward()
        table = nutrameza.table(image)
        self.assertEqual([table.carried_by(role) for role in (0, 1, 63)], [{0, 1, 2, 3}, {1, 4}, set()])
        turned = nutrameza.turn(table.table)
        self.assertEqual([turned.carrying(permission) for permission in (0, 1, 255)], [{0}, {0, 1}, set()])
        self.assertEqual(nutrameza.unturn(turned.table).table, table.table)
        for wrong in (-1, 64):
            self.assertRaises(ValueError, table.carried_by, wrong)
        self.assertRaises(ValueError, turned.carrying, 256)
        self.assertEqual(nutrameza.tidy(image).image, image)
        self.assertEqual((nutrameza.loop(looped()).chain, nutrameza.check(looped()).number), ((1, 2, 0), 22))
        nutrameza.open(image, ledger, 0)
        self.assertTrue(nutrameza.clauses(image, ledger, 0, 0, [0], EVERYTHING, 1, 1).text.startswith("p wcnf "))
        self.assertEqual(nutrameza.clauses(image, ledger, 0, 0, [0], EVERYTHING, 1, 1, room=5).word, "room")

    def test_a_long_clause_text_has_room(self):
        entries = [(policy.ASSIGNMENT, 0, role) for role in range(16)]
        entries += [(policy.EXCLUSION, 0, 63, list(range(64)))] * 32
        image = policy.Policy([1, 64, 256], entries).image()
        ledger = nutrameza.new_ledger(image)
        nutrameza.open(image, ledger, 0)
        text = nutrameza.clauses(image, ledger, 0, 0, [], range(256), 2, 2)
        self.assertTrue(text.done, text)
        self.assertGreater(len(text.text), 5_000_000)

    def test_ledgers_are_widened_and_narrowed(self):
        image, ledger = ward()
        nutrameza.open(image, ledger, 0)
        narrow = nutrameza.narrow(image, ledger)
        self.assertEqual(len(narrow.ledger), 80)
        self.assertEqual(nutrameza.widen(image, narrow.ledger).ledger, ledger)
        narrow.ledger[0] = 7
        self.assertEqual(narrow.ledger[0], 1)

    def test_stopped_and_whose_line_is_not_sound(self):
        image, ledger = ward()
        ledger[8] = 0xFF
        told = nutrameza.stopped(image, bytes(ledger))
        self.assertEqual((told.users, told.extra), ({0}, 1))
        self.assertEqual(calls.unsound_user(nutrameza.short_ask(image, ledger, 0, 0, [], []), 0), 0)

    def test_another_line_that_is_not_sound_under_a_policy_with_limits(self):
        image = policy.build("user A B\nrole R\npermission P\nassign A R\nassign B R\ngrant R P\nlimit R 2\n")
        ledger = nutrameza.new_ledger(image)
        nutrameza.open(image, ledger, 0)
        ledger[144 + 8] = 2
        refused = nutrameza.short_ask(image, ledger, 0, 0, [0], [0])
        self.assertEqual((refused.word, refused.extra, calls.unsound_user(refused, 0)), ("line", 2, 1))

    def test_explain_through_a_role_below(self):
        image = policy.build("user A\nrole R0 R1 Low High\npermission P Q\nassign A High\nsenior High Low\ngrant High P\ngrant Low Q\n")
        ledger = nutrameza.new_ledger(image)
        nutrameza.open(image, ledger, 0)
        self.assertEqual(nutrameza.short_ask(image, ledger, 0, 0, [0, 1], [0, 1]).roles, {3})
        explained = nutrameza.explain(image, ledger, 0, 0, 1)
        self.assertEqual((explained.role, explained.granting_role), (3, 2))

    def test_a_refused_call_changes_no_byte(self):
        image, ledger = ward()
        ledger[3] = 1
        before = bytes(ledger)
        self.assertEqual(nutrameza.open(image, ledger, 0).number, 11)
        self.assertEqual(bytes(ledger), before)

    def test_a_set_of_no_bytes_and_no_members(self):
        self.assertEqual(answers.members(b""), frozenset())
        self.assertEqual(nutrameza.open(b"", bytearray(), 0).number, 1)
        self.assertEqual((nutrameza.image_users(b""), nutrameza.new_ledger(b"123"), nutrameza.open_sessions(b"", 0)), (0, bytearray(), ()))


class Raised(unittest.TestCase):
    """What no call can take is raised, and the library is not called."""

    def setUp(self):
        self.image, self.ledger = ward()

    def test_another_type(self):
        image, ledger = self.image, self.ledger
        for call, *arguments in [
                (nutrameza.check, "text"), (nutrameza.check, bytearray(image)), (nutrameza.check, None), (nutrameza.check, memoryview(image)),
                (nutrameza.open, image, bytes(ledger), 0), (nutrameza.open, image, "x" * 144, 0), (nutrameza.open, image, ledger, "0"),
                (nutrameza.open, image, ledger, 0.0), (nutrameza.open, image, ledger, True), (nutrameza.open, image, ledger, None),
                (nutrameza.show, image, memoryview(ledger), 0, 0), (nutrameza.show, image, ledger, 0, b"0"),
                (nutrameza.short_ask, image, ledger, 0, 0, "0", EVERYTHING), (nutrameza.short_ask, image, ledger, 0, 0, 3, EVERYTHING),
                (nutrameza.short_ask, image, ledger, 0, 0, ["0"], EVERYTHING), (nutrameza.short_ask, image, ledger, 0, 0, None, EVERYTHING),
                (nutrameza.turn, "text"), (nutrameza.tidy, image, "9"), (nutrameza.clauses, image, ledger, 0, 0, [], [], 0, 0, 2.0)]:
            with self.assertRaises(TypeError, msg=(call, arguments)):
                call(*arguments)
        self.assertEqual(ledger, nutrameza.new_ledger(image))
        for wrong in ("abc", 3, bytearray(image)):
            self.assertRaises(TypeError, nutrameza.new_ledger, wrong)

    def test_a_length_that_lies_is_not_taken(self):
        class Long(bytes):
            """Bytes that say they are more."""
            def __len__(self):
                return 1 << 40

        self.assertEqual(nutrameza.check(Long(self.image)), nutrameza.check(self.image))

    def test_a_number_that_no_call_can_take(self):
        image, ledger = self.image, self.ledger
        for wrong in (-1, 1 << 64, -(1 << 70)):
            for call, *arguments in [(nutrameza.open, wrong), (nutrameza.close, 0, wrong), (nutrameza.explain, 0, 0, wrong),
                                     (nutrameza.ask, 0, 0, [], [], wrong, 0), (nutrameza.ask, 0, 0, [], [], 0, wrong)]:
                self.assertRaises(ValueError, call, image, ledger, *arguments)
            self.assertRaises(ValueError, nutrameza.tidy, image, wrong)
        for permission in (-1, 256, 1 << 64):
            self.assertRaises(ValueError, nutrameza.short_ask, image, ledger, 0, 0, [permission], EVERYTHING)
        self.assertEqual(nutrameza.open(image, ledger, (1 << 64) - 1).word, "person")

    def test_a_ledger_that_is_looked_at_is_not_resized_and_goes_free(self):
        nutrameza.open(self.image, self.ledger, 0)
        self.ledger.extend(b"\0")
        self.assertEqual(nutrameza.open(self.image, self.ledger, 0).word, "ledger")

    def test_a_bound_by_numbers_or_by_bytes(self):
        nutrameza.open(self.image, self.ledger, 0)
        whole = (31).to_bytes(32, "little")
        for lower, upper in [({2}, EVERYTHING), ([2, 2], whole), (b"\4" + bytes(31), bytearray(whole)), (iter([2]), frozenset(EVERYTHING))]:
            self.assertEqual(nutrameza.short_ask(self.image, self.ledger, 0, 0, lower, upper).roles, {DOCTOR})
        self.assertEqual(nutrameza.short_ask(self.image, self.ledger, 0, 0, b"", whole).word, "set")


class Finding(unittest.TestCase):
    """Where the library is found."""

    def run_python(self, package, code="import nutrameza; print(nutrameza.library.KIT.found()); print(nutrameza.version())", **environment):
        kept = {name: value for name, value in os.environ.items() if name not in ("NUTRAMEZA_LIBRARY", "LD_LIBRARY_PATH")}
        done = subprocess.run([sys.executable, "-B", "-c", code], env={**kept, "PYTHONPATH": package, **environment}, cwd="/",
                              capture_output=True, text=True, check=False)
        return done.returncode, done.stdout.split(), done.stderr

    def test_by_the_variable_beside_the_package_in_the_prefix_and_by_the_loader(self):
        shared = library.KIT.found()
        with tempfile.TemporaryDirectory() as folder:
            folder = os.path.realpath(folder)
            package, prefix = os.path.join(folder, "lib", "python3"), os.path.join(folder, "lib")
            os.makedirs(package)
            subprocess.run(["cp", "-r", os.path.join(ROOT, "python", "nutrameza"), package], check=True)
            self.assertEqual(self.run_python(package, NUTRAMEZA_LIBRARY=shared)[1][0], shared)
            status, _, told = self.run_python(package)
            self.assertTrue(status == 1 and "NoLibrary" in told and "NUTRAMEZA_LIBRARY may name it" in told, told)
            elsewhere = os.path.join(folder, "elsewhere")
            os.mkdir(elsewhere)
            for place in (elsewhere, prefix, os.path.join(package, "nutrameza")):
                os.symlink(shared, os.path.join(place, library.NAME))
                status, said, told = self.run_python(package, LD_LIBRARY_PATH=elsewhere)
                expected = library.NAME if place == elsewhere else os.path.join(place, library.NAME)
                self.assertEqual((status, said), (0, [expected, nutrameza.__version__]), told)

    def test_a_variable_that_names_nothing_or_another_library(self):
        package = os.path.join(ROOT, "python")
        for named, said in (("/nowhere/lib.so", "there is no such file"), (os.path.join(ROOT, "VERSION"), "no library")):
            status, _, told = self.run_python(package, code="import nutrameza; nutrameza.check(b'')", NUTRAMEZA_LIBRARY=named)
            self.assertTrue(status == 1 and said in told, told)

    def test_importing_needs_no_library(self):
        status, said, told = self.run_python(os.path.join(ROOT, "python"), code="import nutrameza.cli; print('here')", NUTRAMEZA_LIBRARY="/nowhere")
        self.assertEqual((status, said), (0, ["here"]), told)


class Threads(unittest.TestCase):
    """Threads that call at once, on ledgers of their own and on one that they share."""

    def test_eight_threads(self):
        image, shared = ward()
        wrong = []

        def work():
            ledger = nutrameza.new_ledger(image)
            for _ in range(300):
                session = nutrameza.open(image, ledger, 0).session
                if nutrameza.short_ask(image, ledger, 0, session, [PRESCRIBE], EVERYTHING).roles != {DOCTOR}:
                    wrong.append("an ask")
                nutrameza.close(image, ledger, 0, session)
                opened = nutrameza.open(image, shared, 0)
                if opened.number not in (0, 14) or opened.done and not nutrameza.close(image, shared, 0, opened.session).done:
                    wrong.append(str(opened))

        threads = [threading.Thread(target=work) for _ in range(8)]
        for thread in threads:
            thread.start()
        for thread in threads:
            thread.join()
        self.assertEqual((wrong, nutrameza.open_sessions(shared, 0)), ([], ()))


if __name__ == "__main__":
    unittest.main()
