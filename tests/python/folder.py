"""A folder of a test's own, and commands run in it."""

import os
import subprocess
import tempfile
import unittest


class Folder(unittest.TestCase):
    """A folder of its own, and commands run in it."""

    def setUp(self):
        self.folder = tempfile.TemporaryDirectory()
        self.addCleanup(self.folder.cleanup)

    def path(self, name, content=None):
        """A path in the folder, with this content."""
        path = os.path.join(self.folder.name, name)
        if content is not None:
            with open(path, "wb") as file:
                file.write(content)
        return path

    def content(self, name):
        """A file's bytes."""
        with open(self.path(name), "rb") as file:
            return file.read()

    def ran(self, words, environment):
        """The exit status of a command, and what it printed."""
        here = {**os.environ, **environment}
        done = subprocess.run(words, cwd=self.folder.name, env=here, capture_output=True, text=True, check=False)
        return done.returncode, done.stdout, done.stderr
