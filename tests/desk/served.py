"""What the tests of the desk share: the policies, and the desk as it is installed, started and asked."""

import http.client
import json
import os
import re
import signal
import subprocess
import tempfile
import unittest

import largest

ROOT = os.path.dirname(os.path.dirname(os.path.dirname(os.path.abspath(__file__))))
EXAMPLES = os.path.join(ROOT, "examples")
WARD = os.path.join(EXAMPLES, "ward.policy")
NEXT = os.path.join(EXAMPLES, "ward_next.policy")
CLINIC = os.path.join(EXAMPLES, "clinic.policy")

# The installed command, and the program that plays scripts.
COMMAND = os.environ["NUTRAMEZA_COMMAND"]
PROGRAM = os.environ["NUTRAMEZA_PROGRAM"]

LOOP = """user ANNA
role Head Consultant Doctor Nurse
permission Sign
assign ANNA Nurse
senior Head Consultant Nurse
senior Consultant Doctor
senior Doctor Head
"""

REACH = "user ANNA BERT\nrole Head " + " ".join(f"R{k}" for k in range(18)) + "\npermission P\nassign BERT Head\nsenior Head " + \
    " ".join(f"R{k}" for k in range(17)) + "\n"


def content(path):
    """A file's bytes."""
    with open(path, "rb") as file:
        return file.read()


def played(image, script):
    """What nutrameza_script answers to a script under an image, line by line."""
    with tempfile.TemporaryDirectory() as folder:
        with open(os.path.join(folder, "policy.img"), "wb") as file:
            file.write(image)
        done = subprocess.run([PROGRAM], cwd=folder, input=script.encode(), capture_output=True, check=True)
    return done.stdout.decode().splitlines()


def in_the_foreground():
    """Ctrl-C ends what is started, wherever the tests themselves are run."""
    signal.signal(signal.SIGINT, signal.SIG_DFL)


class Running:
    """A desk that runs: its process, its address, its folder."""

    def __init__(self, path, *words):
        self.folder = tempfile.TemporaryDirectory()
        self.process = subprocess.Popen([COMMAND, "desk", path, *words, "--no-browser"], cwd=self.folder.name, stdout=subprocess.PIPE,
                                        stderr=subprocess.PIPE, text=True, preexec_fn=in_the_foreground)
        self.first = self.process.stdout.readline() + self.process.stdout.readline()
        found = re.search(r"http://(127\.0\.0\.1):(\d+)/([\w-]+)/$", self.first.split("\n")[0])
        if found is None:
            self.process.kill()
            raise AssertionError(f"no address: {self.first!r} {self.process.communicate()}")
        self.address, self.host, self.port, self.secret = found.group(0), found.group(1), int(found.group(2)), found.group(3)

    def asked(self, method, path, body=None, **headers):
        """The status, the body and the headers of an answer; headers are named with _ for -."""
        connection = http.client.HTTPConnection(self.host, self.port, timeout=10)
        try:
            connection.request(method, path, body, {name.replace("_", "-"): value for name, value in headers.items()})
            reply = connection.getresponse()
            return reply.status, reply.read(), dict(reply.getheaders())
        finally:
            connection.close()

    def get(self, part=""):
        """A part of the desk, by its secret."""
        return self.asked("GET", f"/{self.secret}/{part}")

    def post(self, part, value):
        """The status and the answer to something done."""
        status, body, _ = self.asked("POST", f"/{self.secret}/{part}", json.dumps(value), Content_Type="application/json")
        return status, json.loads(body) if status == 200 else body.decode()

    def end(self):
        """Ends it."""
        self.process.terminate()
        self.process.communicate()
        self.folder.cleanup()


class Desks(unittest.TestCase):
    """Tests that write policies and start desks, which end with them."""

    def setUp(self):
        folder = tempfile.TemporaryDirectory()
        self.addCleanup(folder.cleanup)
        self.folder = folder.name

    def path(self, name, text):
        """A file of the test's folder."""
        path = os.path.join(self.folder, name)
        with open(path, "w", encoding="utf-8") as file:
            file.write(text)
        return path

    def largest(self):
        """The largest policy, as a file."""
        return self.path("largest.policy", largest.text())

    def desk(self, path, *words):
        """A desk that runs."""
        running = Running(path, *words)
        self.addCleanup(running.end)
        return running
