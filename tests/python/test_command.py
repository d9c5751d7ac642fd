"""The command nutrameza: what it prints, its exit status, what it does not overwrite, its help and its completion."""

import os
import signal
import subprocess
import sys
import unittest

import folder
from nutrameza import cli

ROOT = os.path.dirname(os.path.dirname(os.path.dirname(os.path.abspath(__file__))))
WARD = os.path.join(ROOT, "examples", "ward.policy")
NEXT = os.path.join(ROOT, "examples", "ward_next.policy")
COMPLETION = os.path.join(ROOT, "python", "completion", "nutrameza")
COMMAND = [sys.executable, "-B", "-m", "nutrameza"]


class Folder(folder.Folder):
    """A folder of its own, and the command run in it."""

    def run_it(self, *words, **environment):
        """The exit status of the command, and what it printed."""
        return self.ran([*COMMAND, *words], environment)


class Commands(Folder):
    """Each sub-command as an operator meets it."""

    def test_build_check_list_and_tidy(self):
        told = "policy.img: 1 user, 2 roles, 5 permissions, 13 words\n"
        self.assertEqual(self.run_it("build", WARD), (0, told, ""))
        self.assertEqual(self.run_it("check", "policy.img"), (0, "0 accepted: 1 user, 2 roles, 5 permissions, 13 words\n", ""))
        status, text, _ = self.run_it("list", "policy.img", WARD)
        self.assertEqual(status, 0)
        self.path("again.policy", text.encode())
        self.assertEqual(self.run_it("build", "again.policy", "-o", "again.img")[0], 0)
        self.assertEqual(self.content("again.img"), self.content("policy.img"))
        self.assertEqual(self.run_it("tidy", "policy.img", "--output", "tidy.img")[0], 0)
        self.assertEqual(self.content("tidy.img"), self.content("policy.img"))
        self.assertEqual(sorted(os.listdir(self.folder.name)), ["again.img", "again.policy", "policy.img", "tidy.img"])

    def test_a_file_that_is_there_is_overwritten_by_force_alone(self):
        kept = self.path("policy.img", b"kept")
        told = f"nutrameza: {os.path.realpath(kept)} is there already; --force overwrites it\n"
        self.assertEqual(self.run_it("build", WARD), (2, "", told))
        self.assertEqual(self.content("policy.img"), b"kept")
        self.assertEqual(self.run_it("build", WARD, "--force")[0], 0)
        image = self.content("policy.img")
        self.assertEqual(self.run_it("tidy", "policy.img", "-o", "policy.img")[:2], (2, ""))
        self.assertEqual(self.content("policy.img"), image)
        self.assertEqual(self.run_it("tidy", "policy.img", "-f", "-o", "policy.img")[0], 0)

    def test_a_text_with_errors_writes_nothing(self):
        text = self.path("bad.policy", b"user A\nrole R\npermission P\nassign A S\nlimit R 1\n")
        told = f"{text}:4: unknown role S\n{text}:5: t is 1, which bars the role from everyone (did you mean 2?)\n"
        self.assertEqual(self.run_it("build", text), (1, "", told))
        self.assertEqual(os.listdir(self.folder.name), ["bad.policy"])

    def test_every_error_that_the_library_tells_is_told_with_its_line(self):
        lines = ["user A", "role " + " ".join(f"R{k}" for k in range(20)), "permission P", "exclude ss-dmer 3 R0 R1", "senior R1 R1",
                 "limit R0 257", "assign A " + " ".join(f"R{k}" for k in range(20)), "senior R0 R1", "senior R1 R0"]
        status, _, told = self.run_it("build", self.path("p", "\n".join(lines).encode()))
        self.assertEqual((status, [line.split(":")[1] for line in told.splitlines()]), (1, ["4", "5", "6", "7", "9"]))

    def test_same_why_and_stopped(self):
        self.assertEqual(self.run_it("same", WARD, WARD), (0, "the same\nevery number is kept\n", ""))
        self.assertEqual(self.run_it("same", WARD, NEXT)[0], 1)
        self.run_it("build", WARD)
        ledger = bytearray(144)
        ledger[0], ledger[8], ledger[16], ledger[24] = 3, 1, 1, 1
        self.path("ledger", bytes(ledger))
        told = ("Send_data (4) needs Data_Manager (1), which ms-dmer 2 of Doctor (0), Data_Manager (1) bars while window 0 holds "
                "Doctor (0)\n")
        self.assertEqual(self.run_it("why", "policy.img", "ledger", WARD, "ANNA", "1", "Send_data"), (0, told, ""))
        self.assertEqual(self.run_it("why", "policy.img", "ledger", WARD, "ANNA", "0", "Prescribe"), (0, "nothing stands in the way\n", ""))
        self.assertEqual(self.run_it("why", "policy.img", "ledger", WARD, "ANNA", "2", "Read_id"),
                         (1, "", "refused: 13 closed: window 2 is not open\n"))
        self.assertEqual(self.run_it("stopped", "policy.img", "ledger", WARD), (0, "nobody is stopped\n", ""))

    def test_what_is_wrong_is_told_with_the_programs_name_and_status_2(self):
        self.run_it("build", WARD)
        for words, told in [(("build", "nothing"), "nutrameza: nothing: No such file or directory\n"),
                            (("why", "policy.img", "policy.img", WARD, "ANN", "0", "Read_id"), "nutrameza: unknown user ANN (did you mean ANNA?)\n"),
                            (("tidy", "policy.img", "-o", "no/folder"), f"nutrameza: {os.path.realpath(self.path('no/folder'))}: No such file or directory\n")]:
            self.assertEqual(self.run_it(*words), (2, "", told))
        for words in [(), ("foo",), ("tidy", "policy.img"), ("build", WARD, "--forc"), ("same", WARD)]:
            status, out, err = self.run_it(*words)
            self.assertEqual((status, out), (2, ""), words)
            self.assertIn("usage: nutrameza", err)

    def test_without_a_library_it_says_so(self):
        told = "nutrameza: /nowhere: there is no such file, and NUTRAMEZA_LIBRARY names it\n"
        self.assertEqual(self.run_it("build", WARD, NUTRAMEZA_LIBRARY="/nowhere"), (2, "", told))

    def test_an_output_that_is_full_or_closed(self):
        self.run_it("build", WARD)
        with open("/dev/full", "wb") as full:
            done = subprocess.run([*COMMAND, "list", "policy.img"], cwd=self.folder.name, stdout=full, stderr=subprocess.PIPE, check=False)
        self.assertEqual((done.returncode, done.stderr), (2, b"nutrameza: standard output: No space left on device\n"))
        script = ['exec "$@" >&-', "sh", *COMMAND, "list", "policy.img"]
        done = subprocess.run(["sh", "-c", *script], cwd=self.folder.name, stderr=subprocess.PIPE, check=False)
        self.assertEqual((done.returncode, done.stderr), (0, b""))

    def test_a_closed_pipe_ends_it_quietly(self):
        self.path("p", b"user A\nrole R\npermission " + b" ".join(b"P%d" % k for k in range(256)) + b"\n")
        self.run_it("build", "p")
        reader, writer = os.pipe()
        os.close(reader)
        done = subprocess.run([*COMMAND, "list", "policy.img"], cwd=self.folder.name, stdout=writer, stderr=subprocess.PIPE, check=False)
        os.close(writer)
        self.assertEqual((done.returncode, done.stderr), (-signal.SIGPIPE, b""))


class Help(Folder):
    """Help and completion."""

    def test_each_sub_command_has_an_example_that_parses(self):
        parser = cli.command_line("nutrameza", "", overwrites=False)
        for name, command in cli.COMMANDS.items():
            status, out, _ = self.run_it(name, "--help")
            self.assertEqual(status, 0)
            self.assertIn(f"example:\n  nutrameza {name} {command.example}\n", out)
            self.assertTrue(out.startswith(f"usage: nutrameza {name} {command.usage}"))
            self.assertEqual(parser.parse_args([name, *command.example.split()]).command, name)
        status, out, _ = self.run_it("--help")
        self.assertTrue(status == 0 and all(f"    {name} " in out for name in cli.COMMANDS))
        self.assertEqual(self.run_it("--version")[:2], (0, "nutrameza 1.0.0\n"))

    def completed(self, *words):
        """What completion offers for the last of these words."""
        line = " ".join(f"'{word}'" for word in words)
        script = f". '{COMPLETION}'; COMP_WORDS=({line}); COMP_CWORD={len(words) - 1}; _nutrameza; printf '%s\\n' \"${{COMPREPLY[@]}}\""
        done = subprocess.run(["bash", "-c", script], cwd=self.folder.name, capture_output=True, text=True, check=True)
        return done.stdout.split()

    def test_completion(self):
        self.path("one.img", b"")
        self.assertEqual(set(self.completed("nutrameza", "")), {*cli.COMMANDS, "store", "desk", "report", "--help", "--version"})
        self.assertEqual(self.completed("nutrameza", "s"), ["same", "stopped", "store"])
        self.assertEqual(self.completed("nutrameza", "tidy", "-"), ["--help", "--output", "--force"])
        self.assertEqual(self.completed("nutrameza", "check", "on"), ["one.img"])
        asked = ["nutrameza", "why", "policy.img", "ledger", WARD]
        self.assertEqual(self.completed(*asked, ""), ["ANNA"])
        self.assertEqual(self.completed(*asked, "ANNA", ""), [str(session) for session in range(8)])
        self.assertEqual(self.completed(*asked, "ANNA", "0", "Read_"), ["Read_id", "Read_health_records", "Read_prescription"])
        self.assertEqual(self.completed(*asked, "ANNA", "0", "Read_id", "S"), ["Send_data"])


if __name__ == "__main__":
    unittest.main()
