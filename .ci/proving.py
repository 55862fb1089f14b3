"""Shared code of the scripts that prove crates. It reads crates.txt, copies crates, runs `rt ci`, prints a line when a
crate is done, and builds the library for C."""

import glob
import os
import re
import shutil
import subprocess
import sys
import tempfile
import time

TOP = os.path.abspath(os.path.join(os.path.dirname(os.path.abspath(__file__)), ".."))
BUILD = os.path.join(TOP, "build")
# The crate of the library for C, and the log of its build. `rt ci` proves the crate, but doesn't build its archive.
LIBRARY = "capn_c"
LIBRARY_LOG = os.path.join(BUILD, "library.log")
# The crates that only `make test-all` proves. They are programs without tests of their own. `make test` runs these
# programs, but doesn't prove them.
UNPROVED = ("bench",)


class Stop(Exception):
    """An exception whose text says why a script ends with status 1."""


def text_of(path):
    with open(path, encoding="utf-8", errors="replace") as file:
        return file.read()


def crates(top=TOP):
    """Returns all crates in the order of crates.txt, each with the crates of this repository that it uses."""
    lines = re.findall(r"^(\w+)(?: staticlib)?:(.*)$", text_of(os.path.join(top, "crates.txt")), re.M)
    names = {name for name, _ in lines}
    return {name: [it for it in used.split() if it in names] for name, used in lines}


def below(names, uses):
    """Returns the given crates and all crates that they use, directly or not, in the order of crates.txt."""
    found, left = set(), list(names)
    while left:
        name = left.pop()
        if name not in uses:
            raise Stop(f"crates.txt has no crate {name}")
        if name not in found:
            found.add(name)
            left += uses[name]
    return [name for name in uses if name in found]


def has_tests(name):
    sources = glob.glob(os.path.join(TOP, "crates", name, "src", "**", "*.rt"), recursive=True)
    return any(re.search(r"^\s*#\[test\]", text_of(it), re.M) for it in sources)


def edits_of(name):
    """Returns the paths of a crate's must-fail edits, which the prover must refuse."""
    return sorted(glob.glob(os.path.join(TOP, "crates", name, "must-fail", "*.edit")))


def proved_by_the_gate(uses):
    """Returns the crates that `make test` proves. `make test` runs all other crates without proving them."""
    return below([it for it in uses if it not in UNPROVED and not has_tests(it)], uses)


def copied(names, edits, room):
    """Copies the given crates into a folder with the layout of the repository, and returns the folder. The must-fail
    edits are copied only for the crates in `edits`."""
    top = os.path.join(room, "repo")
    os.makedirs(os.path.join(top, ".git"))
    lines = text_of(os.path.join(TOP, "crates.txt")).split("\n")
    with open(os.path.join(top, "crates.txt"), "w", encoding="utf-8") as file:
        file.writelines(f"{line}\n" for line in lines if re.match(r"\w*", line)[0] in names)
    shutil.copyfile(os.path.join(TOP, "HANDLES"), os.path.join(top, "HANDLES"))
    for name in names:
        left_out = ("out",) if name in edits else ("out", "must-fail")
        here = os.path.join(TOP, "crates", name)
        ignore = lambda at, found, here=here, left_out=left_out: left_out if at == here else ()
        shutil.copytree(here, os.path.join(top, "crates", name), symlinks=True, ignore=ignore)
    return top


def told(line):
    """Prints a line of progress for the user. If CAPN_PROGRESS has the number of a file descriptor, writes the line to
    this descriptor instead of standard output."""
    at = os.environ.get("CAPN_PROGRESS")
    with os.fdopen(os.dup(int(at)), "w") if at else os.fdopen(os.dup(1), "w") as out:
        print(line, file=out, flush=True)


def minutes(since):
    return f"{(time.time() - since) / 60:.1f} minutes so far"


class Run:
    """A run of `rt ci` in a folder. The output of `rt ci` goes into a file. When a crate is done, the object prints a
    line about it."""

    DONE = re.compile(r"^rt: (\w+)(: its tests are)? (proved|is kept|NOT PROVED)")
    TRIES = re.compile(r"^rt: (\w+): trying its must-fail edits \((\d+)\)")

    def __init__(self, top, log, whole, quiet=False, since=None):
        self.top, self.log, self.whole, self.quiet = top, log, whole, quiet
        self.done, self.since, self.lines, self.after = 0, since or time.time(), [], []

    def when(self, names, call):
        """Registers a function that is called once, when all the given crates are proved."""
        self.after.append((set(names), call))

    def look(self, line):
        found = self.DONE.match(line)
        tries = self.TRIES.match(line)
        if found:
            name, of_tests, how = found.groups()
            self.done += 1
            what = {"proved": "proved", "is kept": "proved by an earlier run here", "NOT PROVED": "NOT PROVED"}[how]
            if not self.quiet:
                tests = ": its tests" if of_tests else ""
                told(f"  {self.done} of {self.whole}: {name}{tests} {what}, {minutes(self.since)}")
            if how != "NOT PROVED" and not of_tests:
                for names, _ in self.after:
                    names.discard(name)
                for it in [it for it in self.after if not it[0]]:
                    self.after.remove(it)
                    it[1]()
        elif tries and not self.quiet:
            told(f"  {tries[1]}: {tries[2]} edits are tried, {minutes(self.since)}")

    def run(self, *words, env=None):
        """Runs `rt ci` with the given arguments, and returns whether it succeeded."""
        how = {"stdin": subprocess.DEVNULL, "stdout": subprocess.PIPE, "stderr": subprocess.STDOUT}
        os.makedirs(os.path.dirname(self.log), exist_ok=True)
        with open(self.log, "w", encoding="utf-8") as log:
            ran = subprocess.Popen(["rt", "ci", *words], cwd=self.top, env=env, text=True, errors="replace", **how)
            for line in ran.stdout:
                log.write(line)
                log.flush()
                self.lines.append(line.rstrip("\n"))
                self.look(self.lines[-1])
            return ran.wait() == 0

    def failures(self):
        """Returns the last lines that `rt ci` printed. For each crate that isn't proved, also returns the output of the
        prover."""
        text = "\n".join(self.lines)
        lines = r"^== \w+(?:: its tests)?\n(?:(?!^== ).*\n)*?^rt: \w+(?:: its tests are)? NOT PROVED.*$"
        parts = re.findall(lines, text, re.M)
        words = re.compile(r"rt: .*(NOT PROVED|NOT REFUSED|BAD EDIT|NOT TRIED|FAILED|differ)")
        rest = [it for it in self.lines if words.match(it)]
        return [*parts, *rest, *self.lines[-2:]]


def room():
    return tempfile.TemporaryDirectory(prefix="capn-proved-")


def kit():
    """Returns the folder of the installed Rattle toolchain."""
    said = subprocess.run(["rt", "doc"], stdout=subprocess.PIPE, text=True, check=True).stdout
    return os.path.dirname(said.strip())


def library_started(top, jobs):
    """Starts the command that proves the library for C and builds its archive, and returns the running command. If an
    earlier run left compiled libraries in the folders out/ of the crates below `top`, the command uses them."""
    kit_folder, folder = kit(), os.path.join(TOP, "crates", LIBRARY)
    words = ["-L", f"dependency={kit_folder}/rlibs"]
    for it in sorted(glob.glob(os.path.join(top, "crates", "*", "out", "rlib"))):
        words += ["-L", f"dependency={it}"]
    used = re.search(rf"^{LIBRARY} staticlib: (.*)$", text_of(os.path.join(TOP, "crates.txt")), re.M)[1].split()
    for name in ["std", *used]:
        own = os.path.join(top, "crates", name)
        at = f"{own}/out/rlib" if os.path.isdir(own) else f"{kit_folder}/rlibs"
        words += ["--extern", f"{name}={at}/{name}.rlib"]
    words += ["--antt-project", f"{kit_folder}/rattle/logic/antt-project.json"]
    words += ["--logic-built", f"{kit_folder}/logic_built", "--toolchain", f"{kit_folder}/toolchain"]
    os.makedirs(f"{folder}/out", exist_ok=True)
    kind = ["build", "--crate-name", LIBRARY, "--crate-type", "staticlib", "src/lib.rt", "--backend", "llvm"]
    with open(LIBRARY_LOG, "w", encoding="utf-8") as log:
        how = {"cwd": folder, "stdin": subprocess.DEVNULL, "stdout": log, "stderr": subprocess.STDOUT}
        made = ["-o", f"out/lib{LIBRARY}.a", "--jobs", str(jobs)]
        return subprocess.Popen([f"{kit_folder}/bin/rattle", *kind, *words, *made], **how)


def is_laid_out(name):
    """Returns whether the files of a crate have the layout that `rt fmt` gives them."""
    kinds = (f"{part}/**/*.{kind}" for part in ("src", "specs", "proofs") for kind in ("rt", "antt"))
    folder = os.path.join(TOP, "crates", name)
    files = [it for kind in kinds for it in glob.glob(os.path.join(folder, kind), recursive=True)]
    words = [f"{kit()}/bin/rattle", "fmt", "--check", *files]
    return subprocess.run(words, stdout=subprocess.DEVNULL, stderr=subprocess.DEVNULL).returncode == 0


def ended(call):
    """Runs a function, and exits with the status that it returns. If the function raises a Stop, prints why."""
    try:
        sys.exit(call())
    except Stop as why:
        print(f"{os.path.basename(sys.argv[0])}: {why}", file=sys.stderr)
        sys.exit(1)
