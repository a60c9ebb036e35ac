"""Archives with the same bytes for the same files: members in order of their names, one moment for
all of them, and no owner. A file is its bytes and its rights; files go by their paths."""

import gzip
import hashlib
import io
import os
import subprocess
import tarfile
import time
import zipfile

PLAIN, RUNS = 0o644, 0o755
# The first moment that a zip file can name.
FIRST = 315532800


def plain(text):
    return (text.encode() if isinstance(text, str) else text), PLAIN


def read(path):
    """A file as it stands, with the rights that its owner has."""
    with open(path, "rb") as it:
        return it.read(), RUNS if os.access(path, os.X_OK) else PLAIN


def read_all(folder, to, is_kept=lambda path: True):
    """The files below a folder, under paths that begin with `to`."""
    found = {}
    for at, _, names in os.walk(folder):
        for name in names:
            inside = os.path.relpath(f"{at}/{name}", folder)
            if is_kept(inside):
                found[f"{to}/{inside}"] = read(f"{at}/{name}")
    return found


def moved(files, to):
    return {f"{to}/{path}": it for path, it in files.items()}


def folders_of(files):
    """The folders that files stand in, each after those above it."""
    found = {path[:at] for path in files for at, sign in enumerate(path) if sign == "/"}
    return sorted(found)


def gzipped(text):
    """A text as `gzip -n` packs it, with no name and no time."""
    return gzip.compress(text, 9, mtime=0)


def tar_gz(file, files, moment):
    whole = io.BytesIO()
    with tarfile.open(fileobj=whole, mode="w", format=tarfile.GNU_FORMAT) as out:
        for path in sorted([*files, *folders_of(files)]):
            entry = tarfile.TarInfo(path)
            entry.mtime, entry.uname, entry.gname = moment, "root", "root"
            if path in files:
                text, entry.mode = files[path]
                entry.size = len(text)
                out.addfile(entry, io.BytesIO(text))
            else:
                entry.type, entry.mode = tarfile.DIRTYPE, RUNS
                out.addfile(entry)
    with open(file, "wb") as it:
        it.write(gzipped(whole.getvalue()))


def zip_file(file, files, moment):
    when = time.gmtime(max(FIRST, moment))[:6]
    with zipfile.ZipFile(file, "w", zipfile.ZIP_DEFLATED, compresslevel=9) as out:
        for path, (text, mode) in sorted(files.items()):
            entry = zipfile.ZipInfo(path, when)
            entry.create_system, entry.external_attr = 3, (0o100000 | mode) << 16
            entry.compress_type = zipfile.ZIP_DEFLATED
            out.writestr(entry, text, compresslevel=9)


def lay(files, folder):
    """Writes files below a folder, whatever the mask for new files is."""
    for path, (text, mode) in files.items():
        os.makedirs(os.path.dirname(f"{folder}/{path}"), exist_ok=True)
        with open(f"{folder}/{path}", "wb") as it:
            it.write(text)
        os.chmod(f"{folder}/{path}", mode)
    for path in folders_of(files):
        os.chmod(f"{folder}/{path}", RUNS)


def deb(file, files, control, moment, room):
    """A package for Debian, by dpkg-deb."""
    sums = "".join(f"{hashlib.md5(text).hexdigest()}  {path}\n" for path,
                   (text, _) in sorted(files.items()))
    lay({**files, "DEBIAN/control": plain(control), "DEBIAN/md5sums": plain(sums)}, room)
    os.chmod(room, RUNS)
    words = ["dpkg-deb", "--root-owner-group", "-Zgzip", "--build", room, file]
    env = {**os.environ, "SOURCE_DATE_EPOCH": str(moment)}
    subprocess.run(words, check=True, stdout=subprocess.DEVNULL, env=env)


def sums(folder):
    """The checksums of the files in a folder, as sha256sum writes them."""
    rows = []
    for name in sorted(os.listdir(folder)):
        with open(f"{folder}/{name}", "rb") as it:
            rows.append(f"{hashlib.sha256(it.read()).hexdigest()}  {name}\n")
    return "".join(rows)
