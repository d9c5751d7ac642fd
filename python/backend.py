"""Builds the package's wheel and source archive with the standard library alone, so that pip needs no network.

The files carry a fixed time: the same sources give the same bytes."""

import base64
import gzip
import hashlib
import io
import os
import re
import tarfile
import zipfile

HERE = os.path.dirname(os.path.abspath(__file__))
TIME = (1980, 1, 1, 0, 0, 0)
TAG = "py3-none-any"

SCRIPTS = """[console_scripts]
nutrameza = nutrameza.cli:main
nutrameza-policy = nutrameza.cli:policy_main
"""

WHEEL = f"""Wheel-Version: 1.0
Generator: nutrameza
Root-Is-Purelib: true
Tag: {TAG}
"""


def content(path):
    """A file's bytes, by its path in this folder."""
    with open(os.path.join(HERE, path), "rb") as file:
        return file.read()


def version():
    """The package's version."""
    return re.search(r'^__version__ = "([^"]+)"$', content("nutrameza/__init__.py").decode(), re.M).group(1)


def metadata():
    """What pip knows of the package."""
    return (f"Metadata-Version: 2.1\nName: nutrameza\nVersion: {version()}\n"
            "Summary: The session kit in Python: the calls of the proved library, and policies as text\nRequires-Python: >=3.9\n")


def sources():
    """The package's files, by their paths in this folder."""
    kinds = (".py", ".typed", ".html", ".css", ".js")
    return sorted(f"{folder}/{name}" for folder in ("nutrameza", "nutrameza/desk") for name in os.listdir(os.path.join(HERE, folder))
                  if name.endswith(kinds))


def described():
    """The files that describe the package to pip."""
    info = f"nutrameza-{version()}.dist-info"
    return {f"{info}/METADATA": metadata(), f"{info}/WHEEL": WHEEL, f"{info}/entry_points.txt": SCRIPTS}


def record_line(path, data):
    """A file's line in the wheel's record."""
    digest = base64.urlsafe_b64encode(hashlib.sha256(data).digest()).rstrip(b"=").decode()
    return f"{path},sha256={digest},{len(data)}\n"


def build_wheel(wheel_directory, config_settings=None, metadata_directory=None):
    """Writes the wheel; its name."""
    files = {path: content(path) for path in sources()}
    files.update({path: text.encode() for path, text in described().items()})
    record = f"nutrameza-{version()}.dist-info/RECORD"
    files[record] = ("".join(record_line(path, data) for path, data in files.items()) + f"{record},,\n").encode()
    name = f"nutrameza-{version()}-{TAG}.whl"
    with zipfile.ZipFile(os.path.join(wheel_directory, name), "w", zipfile.ZIP_DEFLATED) as wheel:
        for path, data in files.items():
            entry = zipfile.ZipInfo(path, TIME)
            entry.compress_type, entry.external_attr = zipfile.ZIP_DEFLATED, 0o644 << 16
            wheel.writestr(entry, data)
    return name


def build_sdist(sdist_directory, config_settings=None):
    """Writes the source archive; its name."""
    whole = f"nutrameza-{version()}"
    packed = io.BytesIO()
    with tarfile.open(fileobj=packed, mode="w", format=tarfile.PAX_FORMAT) as archive:
        for path in ["PKG-INFO", "backend.py", "pyproject.toml", *sources()]:
            data = metadata().encode() if path == "PKG-INFO" else content(path)
            entry = tarfile.TarInfo(f"{whole}/{path}")
            entry.size, entry.mode = len(data), 0o644
            archive.addfile(entry, io.BytesIO(data))
    with open(os.path.join(sdist_directory, f"{whole}.tar.gz"), "wb") as file:
        file.write(gzip.compress(packed.getvalue(), mtime=0))
    return f"{whole}.tar.gz"
