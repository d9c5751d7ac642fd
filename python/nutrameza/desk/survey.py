"""The figures of the program nutrameza_survey: how many member sets each exclusion of an image allows."""

import os
import shutil
import subprocess
import tempfile
from typing import Iterator, List, Optional

from .. import library

NAME = "nutrameza_survey"

# The variable that names another file.
VARIABLE = "NUTRAMEZA_SURVEY"

# The longest that the program may take, in seconds.
PATIENCE = 10


def places() -> Iterator[str]:
    """The files that may be the program: in the prefix that the package stands in, then in its repository's target."""
    folder = library.lib_folder()
    if folder is not None:
        yield os.path.join(os.path.dirname(folder), "bin", NAME)
    repository = os.path.dirname(os.path.dirname(os.path.dirname(os.path.dirname(os.path.realpath(__file__)))))
    yield os.path.join(repository, "target", "bin", NAME)


def program() -> Optional[str]:
    """The program's path; None where it is not installed."""
    named = os.environ.get(VARIABLE)
    if named is not None:
        return named if os.access(named, os.X_OK) else None
    return next((path for path in places() if os.access(path, os.X_OK)), shutil.which(NAME))


def allowed(image: bytes, exclusions: int) -> Optional[List[int]]:
    """How many sets of its members each of an accepted image's exclusions allows alone, in image order; None where the
    program is not there or fails. It reads 'policy.img' in the folder that it runs in: one of its own, which is gone
    afterwards."""
    path = program()
    if path is None:
        return None
    try:
        with tempfile.TemporaryDirectory(prefix="nutrameza-") as folder:
            with open(os.path.join(folder, "policy.img"), "wb") as file:
                file.write(image)
            done = subprocess.run([path], cwd=folder, stdin=subprocess.DEVNULL, capture_output=True, timeout=PATIENCE, check=True)
        figures = [[int(word) for word in line.split()] for line in done.stdout.decode("ascii").splitlines()]
    except (OSError, subprocess.SubprocessError, ValueError):
        return None
    return [line[3] for line in figures] if len(figures) == exclusions and all(len(line) == 4 for line in figures) else None
