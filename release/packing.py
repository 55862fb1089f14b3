"""Shared code of the release scripts: names, tools, and functions that write archives. On every machine, these
functions write the same bytes."""

import gzip
import hashlib
import io
import os
import re
import shutil
import subprocess
import tarfile
import time
import zipfile
import zlib

TOP = os.path.abspath(os.path.join(os.path.dirname(os.path.abspath(__file__)), ".."))
with open(os.path.join(TOP, "VERSION"), encoding="utf-8") as _file:
    VERSION = _file.read().strip()
# The version in the notation of Python packages (PEP 440), and in the notation of Debian packages. In both notations,
# the development version 1.1.0-dev is lower than 1.1.0.
VERSION_OF_PYTHON, VERSION_OF_DEBIAN = VERSION.replace("-dev", ".dev0"), VERSION.replace("-dev", "~dev")
# The built files that are packed, with their names in the file PROVED.
BUILT = {
    "program": os.path.join(TOP, "crates", "capn", "out", "capn"),
    "libcapn.a": os.path.join(TOP, "build", "libcapn.a"),
    "libcapn.so.1": os.path.join(TOP, "build", "libcapn.so.1"),
}
PROVED = os.path.join(TOP, "build", "PROVED")


class Stop(Exception):
    """An exception that says why a release can't be made, or why a released file isn't what it claims to be."""


def said(*words, cwd=TOP, env=None, text=True):
    """Runs a command, and returns its output. If the command fails, raises an exception with the output."""
    try:
        ran = subprocess.run(words, cwd=cwd, env=env, stdout=subprocess.PIPE, stderr=subprocess.PIPE, check=False)
    except FileNotFoundError:
        raise Stop(f"there is no {words[0]}") from None
    if ran.returncode != 0:
        told = (ran.stdout + ran.stderr).decode(errors="replace").strip()
        raise Stop(f"{' '.join(words[:3])} .. ended with {ran.returncode}:\n{told}")
    return ran.stdout.decode() if text else ran.stdout


def write(path, text, mode=0o644):
    """Writes text or bytes into a file, and makes the file's folder if it doesn't exist."""
    os.makedirs(os.path.dirname(path), exist_ok=True)
    with open(path, "wb") as file:
        file.write(text if isinstance(text, bytes) else text.encode())
    os.chmod(path, mode)


def sum_of(path):
    """Returns the SHA-256 hash of a file."""
    with open(path, "rb") as file:
        return hashlib.sha256(file.read()).hexdigest()


def commit_of(top=TOP):
    """Returns the state of a clone: the current commit, the tree of this commit, the time of this commit in seconds,
    and whether the clone has no changes."""
    try:
        commit, tree, seconds = said("git", "show", "-s", "--format=%H %T %ct", "HEAD", cwd=top).split()
        return commit, tree, int(seconds), not said("git", "status", "--porcelain", cwd=top).strip()
    except Stop as why:
        raise Stop(f"this is no clone of a repository, so there is no commit to name: {why}") from None


def proof(commit, tree, is_clean):
    """Returns the text of the file PROVED. Fails unless `make test-all` has written PROVED for the given tree and for
    the files that are built now."""
    if not os.path.exists(PROVED):
        raise Stop("the whole run has not passed here: make test-all")
    with open(PROVED, encoding="utf-8") as file:
        text = file.read()
    claims = claims_of(text)
    if (claims.get("commit"), claims.get("tree")) != (commit, tree):
        raise Stop(f"the whole run passed commit {claims.get('commit')}, and this is {commit}")
    if not is_clean:
        raise Stop("the tree was changed since its commit")
    for name, path in BUILT.items():
        if not os.path.exists(path) or claims.get(f"sha256 {name}") != sum_of(path):
            raise Stop(f"{name} is not the one that the whole run built")
    return text


def installed(folder, prefix, libraries, *words):
    """Runs `make install` and `make install-library` into a folder, and returns the folder. Passes the given words to
    make."""
    words = [f"DESTDIR={folder}", f"PREFIX={prefix}", f"LIBDIR={libraries}", *words]
    # Removes the options that were passed to the `make` that runs this script, such as a prefix. The `make` that this
    # script starts must not get these options.
    env = {key: value for key, value in os.environ.items() if not key.startswith("MAKE") and key != "MFLAGS"}
    said("make", "--no-print-directory", "install", "install-library", *words, env=env)
    return folder


def sources(folder):
    """Copies files of the repository for the archive: the Rust crate, the Go module, and the examples in C. Doesn't
    copy the pages. Leaves out tests that need a clone."""
    left_out = shutil.ignore_patterns(".gitignore", "target", "reference", "test", "*_test.go", "__pycache__")
    for name in ("rust", "go", "c/examples"):
        shutil.copytree(os.path.join(TOP, name), os.path.join(folder, name), ignore=left_out)


def unpacked(path, folder):
    """Unpacks a file of a release into a folder."""
    if path.endswith(".deb"):
        said("dpkg-deb", "--extract", path, folder)
    else:
        shutil.unpack_archive(path, folder, "zip" if path.endswith(".whl") else None)


def settle(folder, seconds):
    """Sets the mode and the time of each file in a folder to the values that they have in every release."""
    for at, folders, names in os.walk(folder, topdown=False):
        for name in names + folders:
            path = os.path.join(at, name)
            if not os.path.islink(path):
                is_run = os.path.isdir(path) or os.stat(path).st_mode & 0o100
                os.chmod(path, 0o755 if is_run else 0o644)
            os.utime(path, (seconds, seconds), follow_symlinks=False)
    os.chmod(folder, 0o755)
    os.utime(folder, (seconds, seconds))


def paths_of(folder):
    """Returns the sorted paths below a folder. A folder comes before the paths inside it."""
    found = []
    for at, folders, names in os.walk(folder):
        found += [os.path.relpath(os.path.join(at, name), folder) for name in folders + names]
    return sorted(found)


def write_tar(folder, path, seconds):
    """Packs a folder whose files already have the right modes and times. In the archive, the files are sorted by name,
    and belong to root."""
    whole = io.BytesIO()
    with tarfile.open(fileobj=whole, mode="w", format=tarfile.GNU_FORMAT) as tar:
        for name in paths_of(folder):
            item = tar.gettarinfo(os.path.join(folder, name), name)
            item.uid = item.gid = 0
            item.uname = item.gname = "root"
            item.mtime = seconds
            if item.isreg():
                with open(os.path.join(folder, name), "rb") as file:
                    tar.addfile(item, file)
            else:
                tar.addfile(item)
    with open(path, "wb") as file:
        file.write(gzip.compress(whole.getvalue(), 9, mtime=seconds))


def write_zip(folder, names, path, seconds):
    """Packs files of a folder in the given order. In the archive, all files have the same time and mode."""
    stamp = time.gmtime(max(seconds, 315532800))[:6]
    with zipfile.ZipFile(path, "w", zipfile.ZIP_DEFLATED, compresslevel=9) as whole:
        for name in names:
            item = zipfile.ZipInfo(name, stamp)
            item.create_system = 3
            item.external_attr = (0o100755 if name.endswith(".so") else 0o100644) << 16
            item.compress_type = zipfile.ZIP_DEFLATED
            with open(os.path.join(folder, name), "rb") as file:
                whole.writestr(item, file.read(), compresslevel=9)


def proved_in(path):
    """If a released file contains the file PROVED, returns the text of PROVED. Otherwise returns None."""
    try:
        if path.endswith(".tar.gz"):
            with tarfile.open(path) as tar:
                found = [it for it in tar if re.fullmatch(r"[^/]+/PROVED", it.name)]
                return tar.extractfile(found[0]).read().decode() if found else None
        if path.endswith(".whl"):
            with zipfile.ZipFile(path) as whole:
                found = [it for it in whole.namelist() if re.fullmatch(r"[^/]+\.dist-info/PROVED", it)]
                return whole.read(found[0]).decode() if found else None
        if path.endswith(".deb"):
            with tarfile.open(fileobj=io.BytesIO(said("dpkg-deb", "--fsys-tarfile", path, text=False))) as tar:
                found = [it for it in tar if re.fullmatch(r"\./usr/share/doc/[^/]+/PROVED", it.name)]
                return tar.extractfile(found[0]).read().decode() if found else None
    except (OSError, EOFError, ValueError, tarfile.TarError, zipfile.BadZipFile, zlib.error, Stop):
        return None
    return None


def claims_of(text):
    """Returns the head lines and the hashes of the file PROVED as a dictionary, whose keys are the beginnings of
    lines."""
    return dict(re.findall(r"^(commit|tree|toolchain|sha256 \S+) (.+)$", text, re.M))


def components():
    """Yields the fields of each software component that NOTICE names."""
    with open(os.path.join(TOP, "NOTICE"), encoding="utf-8") as file:
        text = file.read()
    for block in re.findall(r"^Component: .*(?:\n(?!\n).*)*", text, re.M):
        fields = {}
        for key, value in re.findall(r"^([A-Z][A-Za-z ]*): (.*(?:\n .*)*)", block, re.M):
            fields.setdefault(key, []).append(re.sub(r"\n ", " ", value))
        name, version = re.fullmatch(r"(.*?)(?: ([\d.]+|rattle-kit-\w+))?", fields["Component"][0]).groups()
        yield {"name": name, "version": version, **fields}
