#!/usr/bin/env python3
"""Runs every `sh` and `bash` block of docs/GUIDE.md in order. Each block runs in a new shell, and all blocks run in the
same folder.

If a `text` block follows, the output must be that block. CAPN names the program. The arguments name shells, and each
installed shell among them is used. The script prints which block is left out because a tool is missing.

    CAPN=path tests/pages/guide.py dash bash
"""
import os
import re
import shutil
import subprocess
import sys
import tempfile
from pathlib import Path

TOP = Path(__file__).resolve().parents[2]
TOOLS = ("git", "jq", "openssl")
BLOCK = re.compile(r"^```(sh|bash|text)\n(.*?)^```$", re.M | re.S)


def pairs(page):
    """Yields the language, the text and the output of each code block of a page. The output is None if the page shows
    no output for the block."""
    found = BLOCK.findall(page)
    for at, (language, block) in enumerate(found):
        if language != "text":
            after = found[at + 1] if at + 1 < len(found) else ("", "")
            yield language, block, after[1] if after[0] == "text" else None


def tried(shell, capn):
    """Runs the code blocks of docs/GUIDE.md. Returns how many blocks ran. Also returns how many blocks failed, or
    printed output that differs from the page."""
    ran = wrong = 0
    with tempfile.TemporaryDirectory() as folder:
        here = Path(folder)
        (here / "bin").mkdir()
        (here / "bin" / "capn").symlink_to(capn)
        shutil.copytree(TOP / "contrib" / "archives", here / "contrib" / "archives")
        path = f"{here / 'bin'}:{os.environ['PATH']}"

        def run(program, block):
            return subprocess.run([program, "-c", block], cwd=here, env={**os.environ, "PATH": path}, text=True,
                                  capture_output=True, check=False)

        run("sh", "git init -q . && git config user.name someone && git config user.email someone@localhost")
        for language, block, wanted in pairs((TOP / "docs" / "GUIDE.md").read_text()):
            missing = [tool for tool in TOOLS if re.search(rf"\b{tool} ", block) and not shutil.which(tool)]
            if missing:
                print(f"guide: skipped, since there is no {missing[0]}: {block.splitlines()[0]}")
                continue
            if "git diff" in block:
                run("sh", "cp message a.message && git add a.message && git commit -qm one && cp other a.message")
            got = run("bash" if language == "bash" else shell, block)
            ran += 1
            output = got.stdout + (got.stderr if "recover.py" in block else "")
            if wanted is not None and output != wanted:
                wrong += 1
                print(f"guide: {block.splitlines()[0]}\n--- wanted\n{wanted}--- got\n{output}{got.stderr}")
            if wanted is None and got.returncode:
                wrong += 1
                print(f"guide: status {got.returncode}: {block.splitlines()[0]}\n{got.stderr}")
    return ran, wrong


def main():
    # Removes the variable CAPN from the environment. The scripts in contrib/ then run the `capn` on the search path, as
    # they do for a reader of docs/GUIDE.md.
    capn = os.environ.pop("CAPN", "") or str(TOP / "crates" / "capn" / "out" / "capn")
    failed = 0
    for shell in filter(shutil.which, sys.argv[1:] or ["sh"]):
        ran, wrong = tried(shell, Path(capn).resolve())
        print(f"guide: {ran} blocks ran in {shell}, {wrong} wrong")
        failed += wrong
    return 1 if failed else 0


if __name__ == "__main__":
    sys.exit(main())
