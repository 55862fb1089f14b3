"""Runs tests, stored test cases and stored runs with `rt try`, which proves nothing. Several crates run at once.
tests/of and tests/quick use this module."""

import collections
import concurrent.futures
import functools
import glob
import os
import re
import subprocess
import sys
import tempfile
import time

import stored

TOP = stored.TOP
sys.path.insert(0, os.path.join(TOP, ".ci"))
import proving

LOG = "build/tries.log"
# The most memory of one run of `rt try`, in GiB. It includes the memory of the compiler, and of the check of names that
# runs at the same time.
MEMORY = 2
# The number of test cases that one run of a program gets. The number is small, because the program may end at a case
# and leave the remaining cases untried.
AT_ONCE = 40
# The number of seconds that one run of a program may take, even on a busy machine.
SECONDS = 1200
# At most this many lines of errors are printed for a crate. They are enough for the errors of ten cases.
MOST_LINES = 40

# A job tests a crate. It has the name of the crate, a word that says what is tested, and a function that returns the
# errors and the output.
Job = collections.namedtuple("Job", "crate what run")
# The code of a test file: its crate, its imports from the product, and the words of its other code. `calls` has the
# words before a parenthesis, and `dotted` has those after a dot and before a parenthesis. `paths` has the pairs of
# words around `::`.
Code = collections.namedtuple("Code", "crate imports words calls dotted paths")
# An exported function, and the crate that exports it. For the calls of c/capn.h, the name of the crate is `c`.
Function = collections.namedtuple("Function", "crate name")


def text_of(*parts):
    with open(os.path.join(TOP, *parts), encoding="utf-8") as file:
        return file.read()


def tests_of(crate):
    """Returns the names of the test functions of a crate."""
    found = []
    for folder, _, names in os.walk(os.path.join(TOP, "crates", crate, "src")):
        for name in sorted(names):
            found += re.findall(r"#\[test\]\s*(?:#\[[^\n]*\]\s*)*fn (\w+)", text_of(folder, name))
    return found


def modules_of_calls(crate):
    """Returns, for each call in the test cases of a crate, the modules that the call depends on: the call's own module,
    and all modules that this module uses."""
    folder = os.path.join(TOP, "crates", crate, "src")
    modules = {name[:-3]: text_of("crates", crate, "src", name) for name in os.listdir(folder)}

    def named(module, seen):
        seen.add(module)
        for used in re.findall(r"^use crate::(\w+)::", modules[module], re.M):
            if used in modules and used not in seen:
                named(used, seen)
        return seen

    return {word: named(module, set()) for word, module in re.findall(r'"(\w+)" => (\w+)::', modules["main"])}


def crates_of_calls(crate):
    """Yields each call in the test cases of a crate, with the crates that the call's modules import. The answer to the
    call depends on these crates."""
    for word, used in modules_of_calls(crate).items():
        texts = [text_of("crates", crate, "src", f"{one}.rt") for one in used]
        yield word, {name for text in texts for name in re.findall(r"^use (capn_\w+)", text, re.M)}


def try_crate(crate, words, given=b""):
    """Runs `rt try`. Returns its exit status, its output, and its error output."""
    folder = os.path.join(TOP, "crates", crate)
    done = subprocess.run(["rt", "try", *words], cwd=folder, input=given, capture_output=True)
    return done.returncode, done.stdout, done.stderr.decode(errors="replace")


def tests_job(crate):
    """Runs all tests of a crate, and returns the errors."""

    def run():
        status, out, said = try_crate(crate, ["--test", "--seconds", str(SECONDS)])
        said = out.decode(errors="replace") + said
        passed = re.search(r"^test result: ok\. \d+ passed; 0 failed", said, re.M)
        return "" if passed and not status else f"its tests end with status {status}", said

    return Job(crate, f"{len(tests_of(crate))} tests", run)


def bytes_beside(crate, name):
    """Returns the bytes of a file in a program's folder. If the file doesn't exist, returns no bytes."""
    path = os.path.join(TOP, "crates", crate, name)
    if not os.path.exists(path):
        return b""
    with open(path, "rb") as file:
        return file.read()


def stored_job(crate):
    """Runs a program on its stored input, and compares the output with the stored output. The input and the output are
    files in the program's folder."""

    def run():
        args, given, wanted = (bytes_beside(crate, name) for name in ("args", "stdin", "stdout"))
        status, out, said = try_crate(crate, ["--", *args.decode().split("\n")[:-1]], given)
        if status:
            return f"its stored run ends with status {status}", said
        return f"wanted: {wanted.hex()}\ngot:    {out.hex()}" * (out != wanted), said

    return Job(crate, "stored run", run)


def shown(text, at=0):
    """Returns a text. If the text is long, returns only the part around the index `at`."""
    begin = max(0, at - 100)
    end = begin + 400
    return f"{'..' * (begin > 0)}{text[begin:end]}{'..' * (end < len(text))}"


def differences(cases, out):
    """Yields the errors in the output of a program that has answered the given cases."""
    lines = out.split("\n")
    for at, case in enumerate(cases):
        name, got = (lines[2 * at:2 * at + 2] + ["", ""])[:2]
        is_answered = name == case.name and len(lines) > 2 * at + 2
        if is_answered and got == case.answer:
            continue
        place = len(os.path.commonprefix([got, case.answer])) if is_answered else 0
        told = shown(got, place) if is_answered else "no answer, and none for those after it"
        wanted = shown(case.answer, place)
        yield f"{case.path}: {case.name}\n  call:   {shown(case.call)}\n  wanted: {wanted}\n  got:    {told}"
        if not is_answered:
            return


def cases_job(crate, cases):
    """Runs some test cases of a crate, and compares each answer with the stored answer."""

    def run():
        parts = [cases[at:at + AT_ONCE] for at in range(0, len(cases), AT_ONCE)]
        with tempfile.TemporaryDirectory() as folder:
            for number, part in enumerate(parts):
                with open(os.path.join(folder, f"{number:04}"), "w", encoding="utf-8") as file:
                    # If the word `few` is before a call, the program makes only some of the call's allocations fail. In
                    # `make test`, which runs the compiled code, the program makes each allocation fail in turn.
                    file.write(stored.asked(part, "few "))
            # `rt try` interprets the program. The interpreter can't run code that allocates memory from the system.
            status, out, said = try_crate(crate, ["--steps", "1", "--seconds", str(SECONDS), "--cases", folder])
        outs = dict(zip(*[iter(re.split(r"^== (\d{4})\n", out.decode(errors="replace"), flags=re.M)[1:])] * 2))
        late = {int(it) for it in re.findall(r"^case=(\d{4}) run=no-answer", said, re.M)}
        wrong = []
        for at, part in enumerate(parts):
            if at in late:
                first = f"{part[0].path}: {part[0].name}"
                wrong.append(f"{first} and {len(part) - 1} cases after it: no end in {SECONDS} seconds")
            else:
                wrong += differences(part, outs.get(f"{at:04}", ""))
        if status and not wrong:
            wrong = [f"its cases end with status {status}"]
        return "\n".join(wrong), said

    return Job(crate, f"{len(cases):,} cases", run)


# Matches the parts of a file of Rattle or C that aren't code: comments, strings and characters between quotes. A double
# quote between single quotes begins no string.
NOT_CODE = re.compile(r'//[^\n]*|/\*.*?\*/|b?\'(?:\\.|[^\\\'\n])\'|"(?:\\.|[^"\\])*"', re.S)
# Matches an import: its path, and the names in braces or the `*`.
USED = re.compile(r"^\s*(?:pub )?use ([\w:]+)(?:::(?:\{([^}]*)\}|(\*)))?;", re.M)


@functools.cache
def product():
    """Returns the names of the crates of the product, in the order of crates.txt. These names begin with `capn`."""
    return tuple(it for it in proving.crates() if it.startswith("capn"))


def items_of(crate, module):
    """Yields a pair for each name that a module exports: the path of the module that defines the name, and the name."""
    text = text_of("crates", crate, "src", f"{module}.rt")
    yield from ((module, name) for name in re.findall(r"^pub (?:fn|struct|enum|trait) (\w+)", text, re.M))
    for path, names in re.findall(r"^pub use ([\w:]+)::(\{[^}]*\}|\w+);", text, re.M):
        yield from ((path.removeprefix("crate::"), name) for name in re.findall(r"\w+", names))


@functools.cache
def items(crate):
    """Returns what a crate of the product exports, in the form that `items_of` yields. Leaves out the modules of laws.
    A law is a function that nothing calls, since it only states a theorem in its contract."""
    if not os.path.exists(os.path.join(TOP, "crates", crate, "src", "lib.rt")):
        return ()
    modules = re.findall(r"^pub mod (\w+);", text_of("crates", crate, "src", "lib.rt"), re.M)
    if crate == proving.LIBRARY:
        # The library for C exports its calls, and laws about these calls. This function leaves out both, because
        # c/capn.h declares the calls.
        return ()
    modules = ["lib", *(it for it in modules if it != "laws")]
    return tuple(dict.fromkeys(it for module in modules for it in items_of(crate, module)))


def methods(crate, types):
    """Yields the public functions of the given types of a crate, as `TYPE::NAME`. The functions of a trait are not
    among them."""
    for path in sorted(glob.glob(os.path.join(TOP, "crates", crate, "src", "**", "*.rt"), recursive=True)):
        for head, body in re.findall(r"^impl\b([^{;]*)\{\n(.*?)^\}", text_of(path), re.M | re.S):
            name = re.match(r"(?:<(?:[^<>]|<[^<>]*>)*>)? (\w+)", head)
            if " for " not in head and name and name[1] in types:
                yield from (f"{name[1]}::{it}" for it in re.findall(r"^    pub (?:unsafe )?fn (\w+)", body, re.M))


def exported():
    """Yields the functions that tests have to name: the functions and methods that the crates of the product (capn*)
    export, and the calls of c/capn.h. Leaves out the laws, and what a crate of the product imports from another crate
    and exports again."""
    for crate in product():
        own = [name for path, name in items(crate) if path.split("::")[0] not in product()]
        yield from (Function(crate, name) for name in dict.fromkeys(own) if name[0].islower())
        yield from (Function(crate, name) for name in methods(crate, {it for it in own if it[0].isupper()}))
    for name in sorted(set(re.findall(r"^[\w *]*?\b(capn_[a-z_]+)\(", text_of("c", "capn.h"), re.M))):
        yield Function("c", name)


def imports_of(text, crate):
    """Yields what a file of `crate` imports from the crates of the product: the crate of the item, the item, and the
    item's name in the file."""
    for path, names, each in USED.findall(text):
        first = path.split("::")[0]
        origin = crate if first in ("crate", "super") else first
        if origin in product() and each:
            yield from ((origin, name, name) for _, name in items(origin))
        elif origin in product():
            for name, new in re.findall(r"(\w+)(?: as (\w+))?", names or path.split("::")[-1]):
                yield origin, name, new or name


@functools.cache
def test_files():
    """Returns a dictionary: a key is the path of a test file, and its value is the `Code` of the file. A file of
    tests/c has no crate and no imports."""
    found = {}
    for crate in proving.crates():
        if crate.startswith(("test_", "conformance_")) or crate in product() and tests_of(crate):
            for path in glob.glob(os.path.join(TOP, "crates", crate, "src", "**", "*.rt"), recursive=True):
                text = text_of(path)
                if crate not in product() or "#[test]" in text:
                    # In a crate of the product, the tests stand at the end of the file that they test.
                    code = NOT_CODE.sub(" ", text)
                    code = code.partition("#[cfg(test)]")[2] if crate in product() else code
                    found[os.path.relpath(path, TOP)] = code_of(crate, set(imports_of(code, crate)), code)
    for path in glob.glob(os.path.join(TOP, "tests", "c", "*.c*")):
        found[os.path.relpath(path, TOP)] = code_of("", set(), NOT_CODE.sub(" ", text_of(path)))
    return found


def code_of(crate, imports, code):
    code = USED.sub(" ", code)
    paths = re.findall(r"\b(?=(\w+)::(?:<[^>]*>::)?(\w+)\b)", code)
    words, calls = re.findall(r"(?<!\.)\b\w+", code), re.findall(r"\b(\w+)\(", code)
    dotted = re.findall(r"\.(\w+)\(", code)
    return Code(crate, imports, *(frozenset(it) for it in (words, calls, dotted, paths)))


@functools.cache
def providers(crate, name):
    """Returns the crates of the product that export an item of the given crate: the given crate, and the crates that
    export the item again."""
    found = {crate}
    for one in product():
        if one not in found and any(item == name and path.split("::")[0] in found for path, item in items(one)):
            found.add(one)
    return found


def is_named(function, file):
    """Returns whether a test file uses an exported function. The file has to import the function, or the type of the
    method, from a crate that exports it. The file also has to use the imported name outside of the import. Or it has to
    use the name of an imported module, as in `MODULE::NAME`."""
    if function.crate == "c":
        return not file.crate and function.name in file.calls
    item, _, method = function.name.partition("::")
    origins = providers(function.crate, item)
    names = {new for origin, name, new in file.imports if name == item and origin in origins}
    if method:
        return any((name, method) in file.paths or method in file.dotted for name in names)
    modules = {new for origin, _, new in file.imports if origin == function.crate} | origins
    return not names.isdisjoint(file.words) or any((it, item) in file.paths for it in modules)


def naming(function):
    """Returns the paths of the test files that use the given exported function."""
    return sorted(path for path, file in test_files().items() if is_named(function, file))


def jobs_naming(files):
    """Yields the jobs for the given test files. The jobs run all tests of the files' crates, and the test cases whose
    calls depend on one of the files."""
    for crate in sorted({file.split("/")[1] for file in files}):
        if tests_of(crate):
            yield tests_job(crate)
        if crate in stored.CRATES:
            modules = {os.path.basename(file)[:-3] for file in files if file.split("/")[1] == crate}
            words = {word for word, used in modules_of_calls(crate).items() if used & modules}
            yield cases_job(crate, [case for case in stored.cases_of(crate) if stored.word_of(case.call) in words])


def workers():
    """Returns how many crates are tested at once: one for each processor, or fewer if there isn't enough memory."""
    with open("/proc/meminfo", encoding="ascii") as file:
        free = int(re.search(r"^MemAvailable: +(\d+)", file.read(), re.M)[1]) // (MEMORY << 20)
    return max(1, min(len(os.sched_getaffinity(0)), free))


def run_all(jobs):
    """Runs the jobs in their order. Prints a line when a job is done, and the errors at the end. All other output goes
    into a log. Returns the exit status."""
    begun, faults = time.time(), []
    os.makedirs(os.path.join(TOP, "build"), exist_ok=True)
    with open(os.path.join(TOP, LOG), "w", encoding="utf-8") as log, \
            concurrent.futures.ThreadPoolExecutor(workers()) as pool:
        pending = {pool.submit(job.run): job for job in jobs}
        for number, done in enumerate(concurrent.futures.as_completed(pending), 1):
            job, (wrong, said) = pending[done], done.result()
            print(f"== {job.crate}: {job.what}\n{said}\n{wrong}", file=log, flush=True)
            word = "WRONG" if wrong else "right"
            proving.told(f"  {number} of {len(jobs)}: {job.crate}: {job.what} {word}, {proving.minutes(begun)}")
            if wrong:
                faults.append((job, wrong, said))
    for job, wrong, said in faults:
        lines = wrong.split("\n")
        rest = [f"and {len(lines) - MOST_LINES} lines more, in the log"] if len(lines) > MOST_LINES else []
        print(f"\n{job.crate}, {job.what}:", *lines[:MOST_LINES], *rest, sep="\n", file=sys.stderr)
        if job.what.endswith("tests"):
            print("\n".join(said.strip().split("\n")[-20:]), file=sys.stderr)
    if faults:
        print(f"\nall that was said: {LOG}", file=sys.stderr)
    return 1 if faults else 0


def nearest(crate, names, tried):
    """Returns the crates of `tried` that are nearest to a crate. A crate that names `crate` is one step away. A crate
    that names such a crate is two steps away, and so on."""
    above = {crate}
    while above:
        found = [it for it in tried if it in above and it != crate]
        if found:
            return found
        above = {it for it, used in names.items() if above & set(used)} - {crate}
    return []


def calls_reaching(crate, names):
    """Finds the first program with a call that uses the given crate. Returns the program, and all of its calls that use
    the crate. The call's modules have to import the crate themselves. If no module of the program imports the crate, an
    indirect import is enough."""
    for one in stored.CRATES:
        found = dict(crates_of_calls(one))
        if crate == one or crate in names[one] and crate not in set().union(*found.values()):
            return one, list(found)
        words = [word for word, used in found.items() if crate in used]
        words = words or [word for word, used in found.items() if crate in proving.below(used, names)]
        if words:
            return one, words
    return None, []


def reaching(crate):
    """Returns what has to run so that a crate is tested: the nearest crates with tests, a program with test cases, and
    the calls of these cases."""
    names = proving.crates()
    return nearest(crate, names, [it for it in names if tests_of(it)]), *calls_reaching(crate, names)
