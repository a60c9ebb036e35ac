"""Builds the package's wheel with the standard library alone, so that `pip install ./python` needs
no network. The same sources give the same bytes: each file has the date of SOURCE_DATE_EPOCH, or
that of 1980 where it is not set, and the same rights, and nothing is compressed.

The setting `library` names a libmos65.so that the wheel has with it, for Linux on x86-64 with glibc 2.17
or later. The setting `licences` names a folder, with the licences of what that was linked from."""

import base64
import gzip
import hashlib
import io
import os
import re
import tarfile
import time
import zipfile

NAME = "mos65"
HERE = os.path.dirname(os.path.abspath(__file__))
# The first moment that a zip file can name.
FIRST = 315532800
RIGHTS = 0o644


def version():
    """The version that the package names."""
    with open(f"{HERE}/{NAME}/__init__.py", encoding="ascii") as it:
        return re.search(r'^__version__ = "(.*)"$', it.read(), re.M)[1]


VERSION = version()
INFO = f"{NAME}-{VERSION}.dist-info"
METADATA = f"""Metadata-Version: 2.1
Name: {NAME}
Version: {VERSION}
Summary: A 6502 with a history of its whole states, for test rigs
Author: Cekwobi maintainers
Classifier: Framework :: Pytest
Classifier: Programming Language :: Python :: 3
Requires-Python: >=3.8
Description-Content-Type: text/markdown

"""
WHEEL = "Wheel-Version: 1.0\nGenerator: mos65\nRoot-Is-Purelib: {is_pure}\nTag: py3-none-{platform}\n"
ANY, LINUX = "any", "manylinux_2_17_x86_64"
ENTRIES = "[pytest11]\nmos65 = mos65.pytest_plugin\n"


def moment():
    """The seconds since 1970 that each file's date is."""
    return max(FIRST, int(os.environ.get("SOURCE_DATE_EPOCH", FIRST)))


def read(path):
    with open(path, "rb") as it:
        return it.read()


def package():
    """The package's files by name."""
    names = sorted(os.listdir(f"{HERE}/{NAME}"))
    return {f"{NAME}/{it}": read(f"{HERE}/{NAME}/{it}") for it in names if it.endswith((".py", ".typed"))}


def metadata():
    """What indexes show of the package: its facts, and its page."""
    return METADATA.encode() + read(f"{HERE}/README.md")


def files(settings):
    """What the wheel has, by name, and the platform that it is for."""
    found, library = package(), settings.get("library")
    if library:
        found[f"{NAME}/libmos65.so"] = read(library)
    for at, _, names in os.walk(settings.get("licences", "")):
        for name in names:
            inside = os.path.relpath(f"{at}/{name}", settings["licences"])
            found[f"{INFO}/licenses/{inside}"] = read(f"{at}/{name}")
    platform = LINUX if library else ANY
    found[f"{INFO}/METADATA"] = metadata()
    found[f"{INFO}/WHEEL"] = WHEEL.format(is_pure=str(not library).lower(), platform=platform).encode()
    found[f"{INFO}/entry_points.txt"] = ENTRIES.encode()
    return dict(sorted(found.items())), platform


def put(out, path, text):
    """A file of the wheel."""
    entry = zipfile.ZipInfo(path, time.gmtime(moment())[:6])
    entry.create_system = 3
    entry.external_attr = RIGHTS << 16
    out.writestr(entry, text)


def build_wheel(wheel_directory, config_settings=None, metadata_directory=None):
    """Writes the wheel and returns its name (PEP 517)."""
    found, platform = files(config_settings or {})
    name, rows = f"{NAME}-{VERSION}-py3-none-{platform}.whl", []
    with zipfile.ZipFile(os.path.join(wheel_directory, name), "w") as out:
        for path, text in found.items():
            put(out, path, text)
            digest = base64.urlsafe_b64encode(hashlib.sha256(text).digest()).rstrip(b"=").decode()
            rows.append(f"{path},sha256={digest},{len(text)}")
        put(out, f"{INFO}/RECORD", "\n".join([*rows, f"{INFO}/RECORD,,", ""]))
    return name


def build_sdist(sdist_directory, config_settings=None):
    """Writes the sources as an archive and returns its name (PEP 517)."""
    name = f"{NAME}-{VERSION}"
    found = {**package(), "PKG-INFO": metadata()}
    for path in ("README.md", "build_wheel.py", "pyproject.toml"):
        found[path] = read(f"{HERE}/{path}")
    whole = io.BytesIO()
    with tarfile.open(fileobj=whole, mode="w") as out:
        for path, text in sorted(found.items()):
            entry = tarfile.TarInfo(f"{name}/{path}")
            entry.size, entry.mtime, entry.mode = len(text), moment(), RIGHTS
            out.addfile(entry, io.BytesIO(text))
    with open(os.path.join(sdist_directory, f"{name}.tar.gz"), "wb") as it:
        it.write(gzip.compress(whole.getvalue(), 0, mtime=moment()))
    return f"{name}.tar.gz"
