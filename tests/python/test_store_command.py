"""The command 'nutrameza store': what it prints, its exit status, what it changes only by its flag, on SQLite and,
where NUTRAMEZA_TEST_POSTGRESQL names a server, on PostgreSQL; names, the journal as text and CSV, Ctrl-C, help,
completion."""

import argparse
import csv
import io
import os
import pty
import re
import shlex
import signal
import sqlite3
import subprocess
import sys
import tempfile
import threading
import time
import traceback
import unittest
import unittest.mock

from nutrameza import cli, policy, store, store_cli, store_journal
from nutrameza.store import Store
from test_command import COMMAND, COMPLETION, NEXT, WARD, Folder

POSTGRESQL = os.environ.get("NUTRAMEZA_TEST_POSTGRESQL")
NAME = "ward 3"
BARRED = ("Send_data (4) needs Data_Manager (1), which ms-dmer 2 of Doctor (0), Data_Manager (1) bars while window {} holds "
          "Doctor (0)")
DOCTOR = ("role Doctor (0)\npermission Read_id (0)\npermission Read_health_records (1)\npermission Prescribe (2)\n"
          "permission Read_prescription (3)\n")
MANAGER = "role Data_Manager (1)\npermission Read_health_records (1)\npermission Send_data (4)\n"
TIME = r"\d{4}-\d\d-\d\d \d\d:\d\d:\d\d"


def timeless(text):
    """A text with TIME for each time in it."""
    return re.sub(TIME, "TIME", text)


def forked(words, folder, environment):
    """Exit status, output and errors of the command in a child of this process, which needs no start of its own."""
    with tempfile.TemporaryFile() as out, tempfile.TemporaryFile() as err:
        child = os.fork()
        if child == 0:
            os.chdir(folder)
            os.environ.update(environment)
            os.dup2(out.fileno(), 1)
            os.dup2(err.fileno(), 2)
            sys.stdout, sys.stderr = (open(number, "w", encoding="utf-8", closefd=False) for number in (1, 2))
            sys.argv = ["nutrameza", *words]
            os._exit(ended(cli.main))
        status = os.waitpid(child, 0)[1]
        said = []
        for file in (out, err):
            file.seek(0)
            said.append(file.read().decode())
    return (os.WEXITSTATUS(status) if os.WIFEXITED(status) else -os.WTERMSIG(status), *said)


def ended(main):
    """The exit status of a program's main function, all that it said written."""
    try:
        status = main()
    except SystemExit as end:
        status = end.code or 0
    except BaseException:
        traceback.print_exc()
        status = 99
    sys.stdout.flush()
    sys.stderr.flush()
    return status


class OnStore(Folder):
    """A store of its own with the ward of the example, and the command on it."""

    made = True

    def setUp(self):
        super().setUp()
        self.name = self.new_store()
        if self.made:
            self.done("make")
            self.done("create", NAME, WARD)

    def new_store(self):
        """The name of a store that is not made yet."""
        return f"sqlite:{self.path('ward.db')}"

    def store(self, *words, names=WARD, **environment):
        """Exit status, output and errors of a sub-command."""
        return forked(["store", *words], self.folder.name, {"NUTRAMEZA_STORE": self.name, "NUTRAMEZA_NAMES": names, **environment})

    def done(self, *words, **environment):
        """What a sub-command prints that is done."""
        status, out, err = self.store(*words, **environment)
        self.assertEqual((status, err), (0, ""), words)
        return out

    def refused(self, *words, status=1, **environment):
        """What a sub-command says that is not done, on standard error alone."""
        got, out, err = self.store(*words, **environment)
        self.assertEqual((got, out), (status, ""), (words, err))
        return err

    def handle(self, host="desk-7"):
        """A handle of the store, as a host has it."""
        made = Store(self.name, host)
        self.addCleanup(made.disconnect)
        return made

    def on_terminal(self, *words):
        """Exit status and output of the command on a terminal of its own, where progress is shown at once."""
        program = "import sys; from nutrameza import cli, progress; progress.FIRST = progress.NEXT = 0.01; sys.exit(cli.main())"
        pid, terminal = pty.fork()
        if pid == 0:
            os.environ.update(NUTRAMEZA_STORE=self.name, NUTRAMEZA_NAMES=WARD)
            os.execv(sys.executable, [sys.executable, "-B", "-c", program, "store", *words])
        said = b""
        try:
            while True:
                said += os.read(terminal, 4096)
        except OSError:
            os.close(terminal)
        return os.waitpid(pid, 0)[1], said.decode()

    def opened(self, *words, host="desk-7"):
        """The number of a window that a host opens for ANNA, with an ask for these permissions in it."""
        window = self.done("open", NAME, "ANNA", "--host", host).strip()
        if words:
            self.done("ask", NAME, "ANNA", window, *words, "--host", host)
        return window


class Story(OnStore):
    """The main sub-commands, on SQLite and by the class below on PostgreSQL."""

    def test_two_windows_and_the_disclosure_that_is_refused(self):
        first = self.done("open", NAME, "ANNA").strip()
        self.assertEqual(first, "8")
        self.assertEqual(self.done("ask", NAME, "ANNA", first, "Prescribe"), DOCTOR)
        second = self.done("open", NAME, "ANNA").strip()
        self.assertEqual(second, "25")
        self.assertEqual(self.refused("ask", NAME, "ANNA", second, "Send_data"), f"refused: 20 none: {BARRED.format(first)}\n")
        self.assertEqual(self.done("obstacle", NAME, "ANNA", second, "Send_data"), BARRED.format(first) + "\n")
        self.assertEqual(self.done("show", NAME, "ANNA", second), "no role is active\n")
        self.assertEqual(self.done("explain", NAME, "ANNA", first, "Read_id"), "Read_id (0) comes with Doctor (0)\n")
        self.assertEqual(self.done("close", NAME, "ANNA", first), "")
        self.assertEqual(self.done("ask", NAME, "ANNA", second, "Send_data"), MANAGER)
        self.assertEqual(self.done("show", NAME, "ANNA", second), MANAGER)
        self.assertEqual(self.done("obstacle", NAME, "ANNA", second, "Send_data"), "nothing stands in the way\n")
        self.assertEqual(self.done("verify", NAME), "ward 3: 6 entries replayed, no difference, no incident\n")

    def test_who_and_the_windows_of_a_host_that_died(self):
        self.assertEqual(self.done("who", NAME), "no window is open\n")
        window, other = self.opened("Prescribe"), self.opened(host="desk-8")
        told = timeless(self.done("who", NAME))
        self.assertEqual(told, f"WINDOW  USER      SINCE  HOST\n{window}       ANNA (0)  TIME   desk-7\n{other}      ANNA (0)  TIME   desk-8\n".replace(
            "SINCE  ", "SINCE                ").replace("TIME   ", "TIME  "))
        self.assertEqual(timeless(self.done("who", NAME, "ANNA", "--roles")).splitlines()[1:],
                         [f"{window}       ANNA (0)  TIME  desk-7  Doctor (0)", f"{other}      ANNA (0)  TIME  desk-8  -"])
        status, out, err = self.store("release", NAME, "desk-7")
        self.assertEqual((status, len(out.splitlines()), err), (1, 2, "Nothing is changed. --yes closes 1 window.\nBe sure that desk-7 is "
                                                                "dead, or that every role in it is off there.\n"))
        self.assertEqual(len(self.done("who", NAME).splitlines()), 3)
        self.assertEqual(self.done("release", NAME, "desk-7", "--yes").splitlines()[-1], "closed 1 window of desk-7")
        self.assertEqual([line.split()[-1] for line in self.done("who", NAME).splitlines()], ["HOST", "desk-8"])
        self.assertEqual(self.done("release", NAME, "desk-7", "--yes"), "desk-7 has no open window; these have: desk-8\n")

    def test_a_policy_that_stops_somebody_is_shown_before_it_goes_on(self):
        window = self.opened("Send_data")
        shown = ("every number is kept\nANNA (0) is stopped:\n"
                 f"  window {window} has Data_Manager, which is not ANNA's\n  window {window} is open since TIME at desk-7\n")
        status, out, err = self.store("policy", NAME, NEXT)
        self.assertEqual((status, timeless(out)), (1, shown))
        self.assertEqual(err, "refused: 135 policy stops users: ANNA (0)\nward 3 is unchanged, version 1.\n--close-windows closes their windows "
                              "first: have every role in them switched off.\n")
        status, out, err = self.store("policy", NAME, NEXT, "--dry-run")
        self.assertEqual((status, err), (1, ""))
        self.assertTrue(timeless(out).endswith(shown))
        self.assertTrue(out.startswith("- 1 user, 2 roles, 5 permissions\n+ 2 users, 3 roles, 5 permissions\n- assign ANNA Data_Manager\n"))
        self.assertEqual(len(self.done("policies", NAME).splitlines()), 2)
        out = self.done("policy", NAME, NEXT, "--close-windows", "--host", "desk-9")
        self.assertEqual(timeless(out), shown + f"all windows of ANNA (0) are closed\nward 3: version 2 is in place, with the names of {NEXT}\n")
        self.assertEqual(self.done("who", NAME, names=NEXT), "no window is open\n")
        self.assertEqual([line.split()[0] for line in self.done("policies", NAME, names=NEXT).splitlines()], ["VERSION", "1", "2"])
        self.assertRegex(self.done("policies", NAME, names=NEXT), r"\n2 +TIME +desk-9 +2 +3 +5\n$".replace("TIME", TIME))
        self.assertEqual(self.done("open", NAME, "BEN", names=NEXT), "8\n")

    def test_the_journal_by_time_and_by_person(self):
        self.done("policy", NAME, NEXT)
        with self.handle() as host:
            for user, wish in ((1, 0), (0, 2), (1, 4)):
                window = host.open(NAME, user).window
                host.short_ask(NAME, user, window, [wish], range(5))
                host.close(NAME, user, window)
                time.sleep(0.01)  # SQLite's clock has milliseconds
        said = [timeless(line) for line in self.done("journal", NAME, names=NEXT).splitlines()]
        self.assertEqual(said, [
            "TIME BEN (1) open window 8 [desk-7]", "TIME BEN (1) ask window 8 for Read_id (0): Nurse (2) [desk-7]",
            "TIME BEN (1) close window 8 [desk-7]", "TIME ANNA (0) open window 8 [desk-7]",
            "TIME ANNA (0) ask window 8 for Prescribe (2): Doctor (0) [desk-7]", "TIME ANNA (0) close window 8 [desk-7]",
            "TIME BEN (1) open window 32 [desk-7]", "TIME BEN (1) ask window 32 for Send_data (4): refused: 20 none [desk-7]",
            "TIME BEN (1) close window 32 [desk-7]"])
        self.assertEqual([timeless(line) for line in self.done("journal", NAME, "ANNA", names=NEXT).splitlines()], said[3:6])
        self.assertEqual([timeless(line) for line in self.done("journal", NAME, "-n", "2", names=NEXT).splitlines()], said[-2:])

    def test_wards_are_made_once_and_named(self):
        self.assertEqual(self.done("make"), "the tables are there already\n")
        self.assertEqual(self.done("create", "a ward", NEXT), "a ward: 2 users, 3 roles, 5 permissions, version 1\n")
        self.assertEqual(self.done("wards"), "WARD    VERSION\na ward  1\nward 3  1\n")
        self.assertEqual(self.done("wards", "-q"), "a ward\nward 3\n")
        self.assertEqual(self.refused("create", NAME, WARD, status=2), "nutrameza: there is a ward ward 3 already\n")
        self.assertEqual(self.refused("who", "ward3", status=2), "nutrameza: there is no ward ward3 (did you mean ward 3?)\n")


@unittest.skipUnless(POSTGRESQL, "no server")
class OnPostgresql(Story):
    """The same in a database of its own."""

    count = 0

    def new_store(self):
        OnPostgresql.count += 1
        name = f"test{os.getpid()}_{OnPostgresql.count}"
        subprocess.run(["psql", "-q", POSTGRESQL, "-c", f"create database {name}"], check=True)
        return POSTGRESQL.replace("/postgres?", f"/{name}?")

    def test_a_database_without_tables(self):
        name = self.new_store()
        self.assertEqual(self.refused("wards", "--store", name, status=3),
                         f"nutrameza: {name}: no tables; 'nutrameza store make' makes them\n")


class Wards(OnStore):
    """Ledgers in and out, damage, cuts and policies, on SQLite."""

    def ledger(self, name, size=144):
        """A file with ANNA's window 0 open and Doctor active in it, of 80 or 144 bytes a user."""
        line = bytearray(size)
        line[0], line[8], line[16], line[24] = 1, 1, 1, 1
        return self.path(name, bytes(line))

    def test_a_ledger_of_either_length_is_imported_and_exported(self):
        for size in (80, 144):
            ward = f"from {size}"
            self.assertEqual(self.done("import", ward, WARD, self.ledger("in", size), "--host", "desk-1"),
                             f"{ward}: 1 user, 2 roles, 5 permissions, version 1; 1 open window of host desk-1\n")
            self.assertEqual(self.done("show", ward, "ANNA", "8"), DOCTOR)
            self.assertEqual(timeless(self.done("journal", ward)), "TIME ANNA (0) line imported [desk-1]\n")
            out = self.done("export", ward, "out.img", "out", "--force")
            self.assertEqual(out, "out.img: 1 user, 2 roles, 5 permissions, 13 words\nout: 144 bytes, 144 a user\n")
            self.assertEqual(self.content("out")[:32], self.content("in")[:32])
            self.assertEqual(self.content("out.img"), policy.load(WARD)[0].image())
            self.done("export", ward, "out.img", "old", "--narrow", "--force")
            self.assertEqual(self.content("old"), self.content("in")[:80])

    def test_a_ledger_that_does_not_fit_is_refused(self):
        self.path("short", bytes(100))
        self.assertEqual(self.refused("import", "w", WARD, "short"), "refused: 9 ledger: short has 100 bytes; a ledger of 1 user has 144,\n"
                                                                     "or 80 before version 0.6\n")
        self.path("bad", bytes([255]) * 144)
        self.assertEqual(self.refused("import", "w", WARD, "bad"), f"refused: 11 line: the line of ANNA (0) in bad is not sound under {WARD}\n")
        self.assertEqual(self.done("wards", "-q"), "ward 3\n")

    def test_an_export_overwrites_nothing_and_writes_both_files_or_none(self):
        self.path("ledger", b"kept")
        self.assertEqual(self.refused("export", NAME, "policy.img", "ledger", status=2), "nutrameza: ledger is there already; --force overwrites it\n")
        self.assertEqual((os.path.exists(self.path("policy.img")), self.content("ledger")), (False, b"kept"))
        for _ in range(5):
            window = self.opened()
        self.assertEqual(self.refused("export", NAME, "policy.img", "out", "--narrow"),
                         f"refused: 24 upper sessions: ANNA (0) has a fifth window open or one above it: {window}\n")

    def damage(self):
        """Zeros in ANNA's line, behind the store's back."""
        with sqlite3.connect(self.path("ward.db")) as other:
            self.assertEqual(other.execute("update line set bytes = zeroblob(144)").rowcount, 1)

    def test_a_damaged_line_is_told_found_and_mended_by_its_flag(self):
        window = self.opened("Prescribe")
        self.assertEqual(self.done("mend", NAME, "ANNA"), "nothing is wrong with the line of ANNA (0)\n")
        self.damage()
        told = ("refused: 137 damaged: the line of ANNA (0) is not as the store wrote it;\nsee 'nutrameza store verify' and "
                "'nutrameza store mend'\n")
        self.assertEqual(self.refused("show", NAME, "ANNA", window), told)
        self.assertEqual(self.refused("export", NAME, "a", "b"), told)
        found = "difference: ANNA (0), entry 2: the line is missing or damaged\n"
        self.assertEqual(self.store("verify", NAME), (1, found + "ward 3: 2 entries replayed, 1 difference, no incident\n", ""))
        self.assertEqual(self.store("mend", NAME, "ANNA"), (1, found, "Nothing is changed. --yes writes the line of ANNA (0) anew from the journal.\n"))
        self.assertEqual(self.refused("cut", NAME, "0", "--yes"),
                         "refused: 137 damaged: nothing is cut; 'nutrameza store verify' tells 1 difference\n")
        self.assertEqual(self.done("mend", NAME, "ANNA", "--yes"), "the line of ANNA (0) is written anew\n")
        self.assertEqual(self.done("show", NAME, "ANNA", window), DOCTOR)
        self.assertEqual(self.done("mend", NAME, "ANNA", "--yes"), "the line of ANNA (0) was well, and is left as it is\n")
        self.assertEqual(self.done("verify", NAME), "incident: ANNA (0), entry 3: the line was mended\n"
                                                    "ward 3: 3 entries replayed, no difference, 1 incident\n")
        self.assertEqual(timeless(self.done("journal", NAME, "-n", "1")).split("[")[0], "TIME ANNA (0) line mended ")

    def test_a_journal_that_does_not_replay_is_not_mended(self):
        self.opened("Prescribe")
        with sqlite3.connect(self.path("ward.db")) as other:
            other.execute("delete from journal where nr = 1")
        self.assertEqual(self.refused("mend", NAME, "ANNA", "--yes"),
                         "refused: 137 damaged: the journal itself does not replay; 'nutrameza store verify' tells where\n")

    def test_a_cut_needs_its_flag(self):
        self.opened("Prescribe")
        self.assertEqual(self.store("cut", NAME, "2h"), (1, "", (
            "Nothing is changed. --yes verifies the journal, then puts one entry a user in\nthe place of those older than 7,200 s. "
            "A request repeated later is a new one.\n")))
        self.assertEqual(self.done("cut", NAME, "1w", "--yes"), "ward 3: no entry cut\n")
        self.assertEqual(self.done("cut", NAME, "0", "--yes"), "ward 3: 1 entry cut\n")
        self.assertEqual(len(self.done("journal", NAME).splitlines()), 1)
        for wrong in ("soon", "3y", "3dd", "-1", "d"):
            self.assertEqual(self.store("cut", NAME, wrong)[0], 2, wrong)

    def test_a_policy_that_closing_does_not_free_goes_on_regardless_alone(self):
        self.opened("Prescribe", "Read_id")
        self.done("release", NAME, "desk-7", "--yes")
        self.opened("Send_data")
        with open(WARD, encoding="utf-8") as file:
            text = self.path("past.policy", file.read().replace("ms-dmer", "ms-hmer").encode())
        status, out, err = self.store("policy", NAME, text, "--close-windows")
        self.assertEqual((status, timeless(out).splitlines()[:3]), (1, ["every number is kept", "ANNA (0) is stopped:", "  exclude ms-hmer 2 Doctor Data_Manager"]))
        self.assertEqual(err, "refused: 135 policy stops users: ANNA (0)\nward 3 is unchanged, version 1.\nTo close their windows does not free them; "
                              "--regardless goes on, and they are stopped.\n")
        self.assertEqual(len(self.done("who", NAME).splitlines()), 2)
        status, out, err = self.store("policy", NAME, text, "--regardless")
        self.assertEqual((status, err), (0, ""))
        self.assertEqual(out.splitlines()[-4:], ["all windows of ANNA (0) are closed", f"ward 3: version 2 is in place, with the names of {text}",
                                                 "ANNA (0) is stopped:", "  exclude ms-hmer 2 Doctor Data_Manager"])
        self.assertEqual(self.refused("open", NAME, "ANNA", names=text), "refused: 11 line: the line of ANNA (0) is not sound\n")

    def test_a_policy_that_moves_a_number_or_loses_a_user_is_not_put_in_place(self):
        with open(WARD, encoding="utf-8") as file:
            ward = file.read()
        moved = self.path("moved.policy", ward.replace("user ANNA", "user BEN ANNA").encode())
        status, out, err = self.store("policy", NAME, moved)
        self.assertEqual((status, out), (1, "user ANNA had number 0 and has 1 now\nnobody is stopped\n"))
        self.assertEqual(err, "ward 3 is unchanged, version 1.\nA number stays with its user, role or permission: write new names behind the others.\n"
                              "--renamed goes on where only the spelling is another.\n")
        respelt = self.path("respelt.policy", ward.replace("ANNA", "ANNE").encode())
        self.assertEqual(self.done("policy", NAME, respelt, "--renamed").splitlines(),
                         ["user ANNA had number 0 and is gone", "nobody is stopped", f"ward 3: version 2 is in place, with the names of {respelt}"])
        self.done("policy", NAME, NEXT, "--renamed", names=respelt)
        status, out, err = self.store("policy", NAME, WARD, names=NEXT, NUTRAMEZA_NAMES=NEXT)
        self.assertEqual((status, err.splitlines()[0][:19]), (1, "ward 3 is unchanged"))
        self.assertEqual(self.store("policy", NAME, WARD, "--renamed", names=NEXT)[2],
                         "refused: 136 policy has fewer users: the ward has 2 users; one who leaves keeps the number\n")

    def test_an_image_is_put_in_place_without_names(self):
        self.run_it("build", NEXT, "-o", "next.img")
        status, out, err = self.store("policy", NAME, "next.img")
        self.assertEqual((status, out), (0, "nobody is stopped\nward 3: version 2 is in place\n"))
        self.assertEqual(err, "Numbers are not compared by name: that needs the text in place (--names) and the new one.\n")
        self.path("wrong.img", self.content("next.img")[:-4])
        self.assertTrue(self.refused("policy", NAME, "wrong.img", names=NEXT).startswith("wrong.img: refused: 3 kind at place "))


class Windows(OnStore):
    """The calls of a window: names, hosts, bounds, aims, tokens, refusals."""

    def test_names_and_numbers(self):
        window = self.done("open", NAME, "0", names="").strip()
        self.assertEqual(self.done("ask", NAME, "0", window, "4", names=""), "role role1 (1)\npermission permission1 (1)\npermission permission4 (4)\n")
        self.assertEqual(self.done("ask", NAME, "0", window, "4", "--names", WARD, names=""), MANAGER)
        self.assertEqual(self.refused("open", NAME, "ANN", status=2), "nutrameza: unknown user ANN (did you mean ANNA?)\n")
        self.assertEqual(self.refused("ask", NAME, "ANNA", window, "Send", status=2), "nutrameza: unknown permission Send (did you mean Send_data?)\n")

    def test_a_text_that_is_not_the_wards_is_not_taken_for_names(self):
        told = ("nutrameza: {} is not the policy of ward 3, version 1.\nOnly the text has '-', only the ward '+':\n- 2 users, 3 roles, 5 permissions\n"
                "+ 1 user, 2 roles, 5 permissions\n+ assign ANNA Data_Manager\n- assign BEN Nurse\n- grant Nurse Read_id\n- grant Nurse Read_prescription\n"
                "Name the text that is in place by --names, or none: --names ''\n").format(NEXT)
        self.assertEqual(self.refused("who", NAME, status=2, names=NEXT), told)
        self.assertEqual(self.done("who", NAME, "--names", "", names=NEXT), "no window is open\n")
        self.assertEqual(self.refused("who", NAME, status=2, names="nothing"), "nutrameza: nothing: No such file or directory\n")
        bad = self.path("bad.policy", b"user A\nrole R\npermission P\nassign A S\n")
        self.assertEqual(self.refused("who", NAME, names=bad), f"{bad}:4: unknown role S\n")

    def test_a_window_of_another_host_is_changed_by_its_flag_alone(self):
        window = self.opened("Prescribe")
        for words in (("ask", NAME, "ANNA", window, "Send_data"), ("close", NAME, "ANNA", window)):
            self.assertEqual(self.refused(*words), f"window {window} belongs to desk-7, which would not be told. Nothing is changed.\n--any-host "
                                                   "goes on: have every role of the window off there first.\n")
        self.assertEqual(self.done("show", NAME, "ANNA", window), DOCTOR)
        self.assertEqual(self.done("ask", NAME, "ANNA", window, "Send_data", "--any-host"), MANAGER)
        self.assertEqual(self.done("close", NAME, "ANNA", window, "--host", "desk-7"), "")

    def test_bounds_and_aims(self):
        window = self.done("open", NAME, "ANNA").strip()
        wide = "Prescribe (2) needs Doctor (0), and outside the upper bound Doctor (0) carries Read_health_records (1) and Read_prescription (3)"
        bound = ("--upper", "Read_id")
        self.assertEqual(self.refused("ask", NAME, "ANNA", window, "Prescribe", *bound), f"refused: 20 none: {wide}\n")
        self.assertEqual(self.done("obstacle", NAME, "ANNA", window, "Prescribe", *bound), wide + "\n")
        self.assertEqual(self.done("ask", NAME, "ANNA", window, "Read_health_records", "--permissions", "most"), DOCTOR)
        self.assertEqual(self.done("ask", NAME, "ANNA", window, "Read_health_records", "--permissions", "fewest", "--roles", "any"), MANAGER)
        self.assertEqual([line.split("ANNA (0) ")[1].split(" [")[0] for line in self.done("journal", NAME).splitlines()][1:], [
            "ask window 8 for Prescribe (2) within Read_id (0) and Prescribe (2): refused: 20 none",
            "ask window 8 for Read_health_records (1) (most permissions, fewest roles): Doctor (0)",
            "ask window 8 for Read_health_records (1) (fewest permissions, any roles): Data_Manager (1)"])

    def test_on_a_terminal_no_word_is_broken(self):
        window, other = self.opened("Prescribe"), self.opened()
        told = f"Send_data (4) needs Data_Manager (1), which ms-dmer 2 of Doctor (0),\nData_Manager (1) bars while window {window} holds Doctor (0)\n"
        self.assertEqual(self.on_terminal("obstacle", NAME, "ANNA", other, "Send_data"), (0, told.replace("\n", "\r\n")))
        lines = self.on_terminal("journal", NAME)[1].splitlines()
        self.assertEqual((timeless(lines[1]), lines[2]), ("TIME ANNA (0) ask window 8 for Prescribe (2): Doctor (0)", "  [desk-7]"))

    def test_a_token_names_a_request(self):
        token = "00112233445566778899aabbccddeeff"
        window = self.done("open", NAME, "ANNA", "--token", token)
        self.assertEqual(self.done("open", NAME, "ANNA", "--token", token), window)
        self.assertEqual(self.refused("close", NAME, "ANNA", window.strip(), "--token", token),
                         "refused: 132 token of another request: this token is on record for another request\n")
        self.assertEqual(self.refused("open", NAME, "ANNA", "--token", "12", status=2), "nutrameza: 12 is no token: 32 digits from 0 to f\n")

    def test_a_storage_that_fails_within_a_call(self):
        window = self.done("open", NAME, "ANNA").strip()
        lost = {"error": "sqlite: disk I/O error", "token": bytes(range(16))}
        unknown = "nutrameza: the storage failed within the commit, so that it may be done or not: sqlite: disk I/O error\n"
        repeat = "Repeat it with --token 000102030405060708090a0b0c0d0e0f until another answer comes.\n"
        for call, kind, words in (("open", store.StoreOpened, ("open", NAME, "ANNA")), ("short_ask", store.StoreChosen, ("ask", NAME, "ANNA", window, "Read_id")),
                                  ("close", store.StoreAnswer, ("close", NAME, "ANNA", window))):
            self.assertEqual(self.answered(call, kind(call, 130, 0, b"", store.Told(**lost)), *words), (4, "", unknown + repeat))
        busy = store.StoreAnswer("close", 128, 0, b"", store.Told())
        self.assertEqual(self.answered("close", busy, "close", NAME, "ANNA", window),
                         (3, "", "nutrameza: busy: others have held the lock for 10 s, and nothing is changed; try again\n"))
        changed = store.StorePolicy("policy", 130, 0, bytes(8), store.Told(**lost))
        self.assertEqual(self.answered("policy", changed, "policy", NAME, WARD)[::2],
                         (4, unknown + "'nutrameza store policies' says whether version 2 is in place.\n"))
        made = store.StoreAnswer("create", 130, 0, b"", store.Told(**lost))
        self.assertEqual(self.answered("create", made, "create", "w", WARD), (4, "", unknown + "'nutrameza store wards' says whether it is there.\n"))
        replayed = store.Verified("verify", 129, 0, b"", store.Told(**lost))
        self.assertEqual(self.answered("verify", replayed, "mend", NAME, "ANNA"),
                         (3, "", "nutrameza: the storage failed, and nothing is changed: sqlite: disk I/O error\n"))

    def answered(self, call, answer, *words):
        """What a sub-command says where a call of the store gives this answer."""
        with unittest.mock.patch.object(Store, call, lambda *_: answer):
            return self.store(*words)

    def test_refusals_in_words(self):
        window = self.done("open", NAME, "ANNA").strip()
        for words, told in (
                (("open", NAME, "7"), "10 person: there is no user 7"), (("show", NAME, "ANNA", "9"), "13 closed: window 9 is not open"),
                (("ask", NAME, "ANNA", window, "200"), "16 permission: permissions are numbered below 5"), (("explain", NAME, "ANNA", window, "Read_id"),
                                                                  "20 none: no active role of window 8 carries Read_id (0)"),
                (("explain", NAME, "ANNA", window, "200"), "16 permission: permissions are numbered below 5"),
                (("show", NAME, "ANNA", "16"), "133 window gone: window 16 was closed, released or taken over")):
            self.assertEqual(self.refused(*words), f"refused: {told}\n")
        for _ in range(7):
            self.done("open", NAME, "ANNA")
        self.assertEqual(self.refused("open", NAME, "ANNA"), "refused: 14 full: ANNA (0) has 8 windows open, and that is the most\n")

    def test_a_permission_through_a_junior(self):
        text = self.path("p", b"user A\nrole Head Doctor\npermission P\nassign A Head\ngrant Doctor P\nsenior Head Doctor\nexclude ss-dmer 2 Head Doctor\n")
        self.done("create", "heads", text)
        window = self.done("open", "heads", "A", names=text).strip()
        self.done("ask", "heads", "A", window, "P", "--roles", "most", names=text)
        self.assertEqual(self.done("explain", "heads", "A", window, "P", names=text), "P (0) comes with Head (0), below which Doctor (1) grants it\n")


class Journals(OnStore):
    """The journal as CSV, and followed."""

    def test_csv_is_read_back(self):
        window = self.opened("Prescribe")
        self.assertEqual(self.store("ask", NAME, "ANNA", window, "Read_id", "--upper", "Send_data", "--roles", "most", "--any-host", "--host",
                                    'a "b", c')[0], 1)
        with self.handle("desk-8") as other:
            taken = other.adopt(NAME, 0, int(window))
        rows = list(csv.DictReader(io.StringIO(self.done("journal", NAME, "--csv"))))
        self.assertEqual(list(rows[0]), list(store_journal.COLUMNS))
        self.assertEqual([row["call"] for row in rows], ["open", "short ask", "ask", "adopt"])
        self.assertTrue(all(re.fullmatch(r"\d{4}-\d\d-\d\dT\d\d:\d\d:\d\d\.\d{6}Z", row["time"]) for row in rows))
        with self.handle() as host:
            entries = host.journal(NAME)
        for row, entry in zip(rows, entries):
            self.assertEqual([row["user"], row["name"], row["order"], row["host"], row["version"], row["turn"], row["token"]],
                             ["0", "ANNA", str(entry.order), entry.host, "1", "0", entry.token.hex()])
        self.assertEqual([(row["window"], row["new_window"]) for row in rows], [("8", ""), ("8", ""), ("8", ""), ("8", str(taken.window))])
        self.assertEqual([rows[1][cell] for cell in ("lower", "upper", "permission_aim", "number", "word", "roles", "permissions")],
                         ["Prescribe", "Read_id Read_health_records Prescribe Read_prescription Send_data", "", "0", "done", "Doctor",
                          "Read_id Read_health_records Prescribe Read_prescription"])
        self.assertEqual([rows[2][cell] for cell in ("lower", "upper", "permission_aim", "role_aim", "number", "word", "roles", "host")],
                         ["Read_id", "Read_id Send_data", "fewest", "most", "20", "none", "", 'a "b", c'])

    def test_every_entry_of_many_is_told_once_in_its_order(self):
        self.done("policy", NAME, NEXT)
        with self.handle() as host:
            for count in range(60):
                user = count // 7 % 2
                host.close(NAME, user, host.open(NAME, user).window)
            entries = sorted(host.journal(NAME), key=lambda entry: (entry.at, entry.user, entry.order))
        rows = list(csv.DictReader(io.StringIO(self.done("journal", NAME, "--csv", names=NEXT))))
        self.assertEqual([(row["user"], row["order"]) for row in rows], [(str(entry.user), str(entry.order)) for entry in entries])
        self.assertEqual(len(rows), 120)

    def started(self, *words):
        """The command at work."""
        environment = {**os.environ, "NUTRAMEZA_STORE": self.name, "NUTRAMEZA_NAMES": WARD}
        began = subprocess.Popen([*COMMAND, "store", *words], env=environment, stdout=subprocess.PIPE, stderr=subprocess.PIPE, text=True)
        ending = threading.Timer(60, began.kill)  # so that no line is waited for in vain
        ending.start()
        self.addCleanup(ending.cancel)
        self.addCleanup(lambda: (began.kill(), began.communicate()) if began.poll() is None else None)
        return began

    def test_followed_it_tells_what_comes_until_ctrl_c(self):
        window = self.opened()
        began = self.started("journal", NAME, "--follow")
        self.assertIn("open window 8 [desk-7]", began.stdout.readline())
        self.done("ask", NAME, "ANNA", window, "Prescribe", "--host", "desk-7")
        self.assertIn("ask window 8 for Prescribe (2): Doctor (0) [desk-7]", began.stdout.readline())
        self.done("policy", NAME, NEXT)
        with self.handle("desk-8") as host:
            host.open(NAME, 1)
        self.assertIn("user1 (1) open window 8 [desk-8]", began.stdout.readline())
        began.send_signal(signal.SIGINT)
        self.assertEqual((began.communicate(timeout=20), began.returncode), (("", ""), 0))

    def test_a_closed_pipe_ends_it_quietly(self):
        self.opened()
        began = self.started("journal", NAME, "--follow")
        began.stdout.readline()
        began.stdout.close()
        self.opened()
        self.assertEqual((began.wait(timeout=20), began.stderr.read()), (-signal.SIGPIPE, ""))
        began.stderr.close()


class Long(OnStore):
    """A verify that takes some time: its progress on a terminal, and Ctrl-C."""

    entries = 200000

    def setUp(self):
        super().setUp()
        self.opened()
        # closes of a window that is not open, refused by 13
        with sqlite3.connect(self.path("ward.db")) as other:
            other.execute("insert into journal with recursive n(nr) as (select 2 union all select nr + 1 from n where nr < ?) select ward, usr, n.nr, "
                          "turn, version, null, 4, 9, x'', 13, null, host, at from n, journal where ward = 1 and usr = 0 and journal.nr = 1",
                          [self.entries])

    def test_progress_is_on_a_terminal_alone_and_goes(self):
        last = f"ward 3: {self.entries:,} entries replayed, 1 difference, no incident"
        status, said = self.on_terminal("verify", NAME)
        self.assertEqual(os.WEXITSTATUS(status), 1)
        self.assertRegex(said, r"\r[0-9,]+ entries replayed \.\. [0-9]+ s")
        self.assertRegex(said, r"\r +\rdifference: ANNA \(0\), entry 200000: the line is behind its journal\r\n")
        self.assertTrue(said.endswith(last + "\r\n"), said[-200:])
        status, out, err = self.store("verify", NAME)
        self.assertEqual((status, out.splitlines()[1:], err), (1, [last], ""))
        self.assertRegex(self.on_terminal("mend", NAME, "ANNA", "--yes")[1], r"\rreplaying the journal \.\. 0 s")

    def test_ctrl_c_ends_a_verify_and_it_tells_how_far_it_came(self):
        environment = {**os.environ, "NUTRAMEZA_STORE": self.name, "NUTRAMEZA_NAMES": WARD}
        # A shell starts what it puts in the background with Ctrl-C ignored, and so would this process.
        began = subprocess.Popen([*COMMAND, "store", "verify", NAME], env=environment, stdout=subprocess.PIPE, stderr=subprocess.PIPE, text=True,
                                 preexec_fn=lambda: signal.signal(signal.SIGINT, signal.SIG_DFL))
        while began.poll() is None and not blocks_ctrl_c(began.pid):
            time.sleep(0.001)
        began.send_signal(signal.SIGINT)
        out, err = began.communicate(timeout=60)
        self.assertEqual((began.returncode, out), (-signal.SIGINT, ""))
        self.assertRegex(err, r"^ward 3: [0-9,]+ entries replayed, no difference, no incident so far: ended by Ctrl-C\n$")


def blocks_ctrl_c(process):
    """The process takes Ctrl-C up by itself."""
    with open(f"/proc/{process}/status", encoding="utf-8") as file:
        return bool(int(re.search(r"^SigBlk:\s*(\w+)$", file.read(), re.M).group(1), 16) >> signal.SIGINT - 1 & 1)


class Connecting(OnStore):
    """Stores that are not there, and wrong usage."""

    made = False

    def test_a_store_is_made_by_make_alone(self):
        self.assertEqual(self.refused("who", NAME, status=2), f"nutrameza: {self.path('ward.db')}: No such file or directory; 'nutrameza store make' "
                                                              "makes a store\n")
        self.assertEqual(os.listdir(self.folder.name), [])
        with sqlite3.connect(self.path("ward.db")) as other:
            other.execute("create table other(one)")
        self.assertEqual(self.refused("wards", status=3), f"nutrameza: {self.name}: no tables; 'nutrameza store make' makes them\n")
        self.assertEqual(self.done("make"), "the tables are made\n")
        self.assertEqual(self.done("wards"), "there is no ward\n")
        with sqlite3.connect(self.path("ward.db")) as other:
            other.execute("update store set version = 99")
        self.assertEqual(self.refused("make", status=3), f"nutrameza: {self.name}: tables of version 99, for another library\n")

    def test_a_storage_that_fails(self):
        self.path("ward.db", b"this is no database, but a text that is long enough to be looked at as one" * 20)
        self.assertEqual(self.refused("wards", status=3), f"nutrameza: {self.name}: the storage failed, and nothing is changed: sqlite: file is not a database (26)\n")

    def test_a_server_that_is_not_there_and_no_password_is_shown(self):
        gone = "postgresql://anna:secret@/none?host=/nowhere&port=1"
        said = self.refused("who", NAME, "--store", gone, status=3)
        self.assertTrue(said.startswith("nutrameza: postgresql://anna:***@/none?host=/nowhere&port=1: the storage failed, and nothing is changed: "))
        self.assertNotIn("secret", said)

    def test_wrong_usage(self):
        for words, told in ((("wards", "--store", ""), "no store is named: --store or NUTRAMEZA_STORE, as sqlite:PATH or postgresql://.."),
                            (("wards", "--store", "ward.db"), "ward.db names no store: sqlite:PATH or postgresql://.."),
                            (("make", "--host", "h" * 64), "the name of the host has 64 bytes; it has 1 to 63"),
                            (("who", "w" * 64, "--names", ""), "the name of the ward has 64 bytes; it has 1 to 63"),
                            (("create", "", WARD), "the name of the ward has 0 bytes; it has 1 to 63"),
                            (("create", os.fsdecode(b"ward \xff"), WARD), "a word of the command line is no UTF-8")):
            self.assertEqual(self.refused(*words, status=2, NUTRAMEZA_STORE="" if words[2] == "" else self.name), f"nutrameza: {told}\n")
            self.path("ward.db", b"")
        for words in ((), ("whom",), ("who",), ("who", NAME, "--role"), ("show", NAME, "ANNA", "eight"), ("ask", NAME, "ANNA", "8"),
                      ("journal", NAME, "--lines", "few"), ("ask", NAME, "ANNA", "8", "Read_id", "--roles", "some")):
            status, out, err = self.store(*words)
            self.assertEqual((status, out, err[:17]), (2, "", "usage: nutrameza "), words)

    def test_without_the_stores_library_it_says_so(self):
        told = "nutrameza: /nowhere: there is no such file, and NUTRAMEZA_STORE_LIBRARY names it\n"
        self.assertEqual(self.run_it("store", "make", "--store", self.name, NUTRAMEZA_STORE_LIBRARY="/nowhere"), (2, "", told))


class Help(OnStore):
    """Help and completion."""

    def test_each_sub_command_has_an_example_that_parses(self):
        parser = argparse.ArgumentParser()
        store_cli.add(parser.add_subparsers(dest="command"), "nutrameza")
        for name, sub in store_cli.SUBS.items():
            status, out, _ = self.store(name, "--help", COLUMNS="200")
            example = f"nutrameza store {name} {sub.example}".rstrip()
            self.assertEqual((status, out.endswith(f"example:\n  {example}\n")), (0, True), name)
            self.assertTrue(out.startswith(f"usage: {store_cli.usage_of('nutrameza', name)}\n"))
            self.assertEqual(parser.parse_args(shlex.split(example)[1:]).sub, name)
            status, out, _ = self.store(name, "--help", COLUMNS="80")
            self.assertLessEqual(max(map(len, out.splitlines())), 80, name)

    def completed(self, *words, **environment):
        """What bash offers for the last of these words, by the function that the completion binds."""
        line = " ".join(shlex.quote(word) for word in words)
        bound = "_nutrameza"
        script = (f"nutrameza() {{ {' '.join(map(shlex.quote, COMMAND))} \"$@\"; }}; . {shlex.quote(COMPLETION)}; complete -p nutrameza; "
                  f"COMP_WORDS=({line}); COMP_CWORD={len(words) - 1}; {bound}; printf '%s\\n' \"${{COMPREPLY[@]}}\"")
        environment = {**os.environ, "NUTRAMEZA_STORE": self.name, "NUTRAMEZA_NAMES": WARD, **environment}
        done = subprocess.run(["bash", "-c", script], cwd=self.folder.name, env=environment, capture_output=True, text=True, check=True)
        first, *offered = done.stdout.splitlines()
        self.assertEqual((first, done.stderr), (f"complete -F {bound} nutrameza", ""))
        return [word for word in offered if word]

    def test_completion_of_sub_commands_and_flags(self):
        self.assertEqual(set(self.completed("nutrameza", "store", "")), {*store_cli.SUBS, "--help"})
        self.assertEqual(self.completed("nutrameza", "store", "po"), ["policy", "policies"])
        for name, sub in store_cli.SUBS.items():
            flags = {each.names[-1] for each in [*sub.arguments, *store_cli.COMMON] if each.names[0].startswith("-")}
            self.assertEqual(set(self.completed("nutrameza", "store", name, "-")), {*flags, "--help"}, name)

    def test_completion_of_wards_names_windows_and_files(self):
        window = self.opened()
        self.path("one.img", b"")
        for typed, offered in (("wa", "ward\\ 3"), ("ward\\ ", "ward\\ 3"), ("'ward ", "ward 3"), ('"w', "ward 3")):
            self.assertEqual(self.completed("nutrameza", "store", "who", typed), [offered])
        for typed in ("ward\\ 3", "'ward 3'", '"ward 3"'):
            self.assertEqual(self.completed("nutrameza", "store", "show", typed, "ANNA", ""), [window])
        self.assertEqual(self.completed("nutrameza", "store", "show", NAME, ""), ["ANNA"])
        self.assertEqual(self.completed("nutrameza", "store", "show", "--names", NEXT, NAME, "B"), ["BEN"])
        self.assertEqual(self.completed("nutrameza", "store", "show", NAME, "ANNA", ""), [window])
        self.assertEqual(self.completed("nutrameza", "store", "ask", NAME, "ANNA", window, "Read_id", "S"), ["Send_data"])
        self.assertEqual(self.completed("nutrameza", "store", "ask", NAME, "ANNA", window, "Read_id", "--roles", ""), ["any", "fewest", "most"])
        self.assertEqual(self.completed("nutrameza", "store", "release", NAME, ""), ["desk-7"])
        self.assertEqual(self.completed("nutrameza", "store", "policy", NAME, "-n", "one"), ["one.img"])
        self.assertEqual(self.completed("nutrameza", "store", "who", "--names", "one"), ["one.img"])
        self.assertEqual(self.completed("nutrameza", "store", "open", NAME, "ANNA", "--token", ""), [])


if __name__ == "__main__":
    unittest.main()
