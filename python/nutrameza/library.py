"""The shared library: where it is found, and its calls by name with pointers and lengths.

Nothing is judged here. The calls hold the interpreter's lock, which they need for microseconds mostly, so that calls of
several threads come one after the other."""

import ctypes
import functools
import os
from typing import Any, Dict, Iterator, List, Optional, Union

# The library's name by its major version, and the variable that names another file.
NAME = "libnutrameza.so.1"
VARIABLE = "NUTRAMEZA_LIBRARY"
MAJOR = 1

# The parameters of each call in the header's order: r a buffer that is read, w one that is written, n a number.
PARAMETERS: Dict[str, str] = {
    "check": "r",
    "loop": "rw",
    "tidy": "rw",
    "table": "rw",
    "turn": "rw",
    "unturn": "rw",
    "open": "rwn",
    "close": "rwnn",
    "ask": "rwnnrrnnw",
    "short_ask": "rwnnrrw",
    "show": "rrnnw",
    "explain": "rrnnn",
    "obstacle": "rrnnrrw",
    "stopped": "rrw",
    "widen": "rrw",
    "narrow": "rrw",
    "clauses": "rrnnrrnnw",
}

Argument = Union[int, bytes, bytearray]


class NoLibrary(Exception):
    """There is no library to call, and why."""


def lib_folder() -> Optional[str]:
    """The folder lib of the prefix that the package stands in; None where it stands in none."""
    folder = os.path.dirname(os.path.realpath(__file__))
    while os.path.dirname(folder) != folder:
        folder = os.path.dirname(folder)
        if os.path.basename(folder) in ("lib", "lib64"):
            return folder
    return None


class Shared:
    """A shared library: its file's name, and the variable that names another file."""

    def __init__(self, name: str, variable: str) -> None:
        self.name, self.variable = name, variable

    def places(self) -> Iterator[str]:
        """The files that may be it, in this order: beside the package, then in the prefix that the package stands
        in."""
        yield os.path.join(os.path.dirname(os.path.realpath(__file__)), self.name)
        folder = lib_folder()
        if folder is not None:
            yield os.path.join(folder, self.name)

    def found(self) -> str:
        """Its path, or its bare name where the loader has to find it."""
        named = os.environ.get(self.variable)
        if named:
            if not os.path.isfile(named):
                raise NoLibrary(f"{named}: there is no such file, and {self.variable} names it")
            return os.path.abspath(named)
        return next((path for path in self.places() if os.path.isfile(path)), self.name)

    def missing(self, path: str, why: Exception) -> NoLibrary:
        """What is to be said where a path can't be loaded."""
        looked = f" (looked for as {', '.join(self.places())}; {self.variable} may name it)" if path == self.name else ""
        return NoLibrary(f"no library: {why}{looked}")


# The kit's own.
KIT = Shared(NAME, VARIABLE)


def load(path: str) -> ctypes.PyDLL:
    """The library of a path, its calls typed; raises NoLibrary where it is none of this major version."""
    try:
        made = ctypes.PyDLL(path)
        version = made.nutrameza_shared_version
        version.restype, version.argtypes = ctypes.c_uint32, []
        for name, parameters in PARAMETERS.items():
            function = getattr(made, f"nutrameza_{name}")
            function.restype, function.argtypes = ctypes.c_uint64, types_of(parameters)
    except (OSError, AttributeError) as wrong:
        raise KIT.missing(path, wrong) from None
    if version() // 1000000 != MAJOR:
        raise NoLibrary(f"{path}: version {version() // 1000000}, and this package is made for {MAJOR}")
    return made


def types_of(parameters: str) -> List[Any]:
    """The C types of a call's parameters."""
    types: List[Any] = []
    for parameter in parameters:
        types += [ctypes.c_uint64] if parameter == "n" else [ctypes.c_void_p, ctypes.c_size_t]
    return types


@functools.lru_cache(maxsize=None)
def library() -> ctypes.PyDLL:
    """The library, looked for at the first call."""
    return load(KIT.found())


def pointed(buffer: Union[bytes, bytearray]) -> List[Any]:
    """A buffer as pointer and length; a bytearray can't change its length while the call has it."""
    if isinstance(buffer, bytes):
        return [buffer, bytes.__len__(buffer)]
    length = bytearray.__len__(buffer)
    return [(ctypes.c_char * length).from_buffer(buffer), length]


def call(name: str, *arguments: Argument) -> int:
    """What a call returns: its number plus 256 times its extra. The arguments are of the call's parameters."""
    words: List[Any] = []
    for argument in arguments:
        words += [argument] if isinstance(argument, int) else pointed(argument)
    returned: int = getattr(library(), f"nutrameza_{name}")(*words)
    return returned


def version() -> str:
    """The version of the library that is called."""
    number: int = library().nutrameza_shared_version()
    return f"{number // 1000000}.{number // 1000 % 1000}.{number % 1000}"
