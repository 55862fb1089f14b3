"""Tests dedupe.py on a local cluster of two workers. While dedupe.py runs, the test ends one worker. Usage: trial.py
FOLDER

The test fails if the output or the counts for the folder's archives differ from those of one process of `capn`.
"""

from __future__ import annotations

import io
import logging
import os
import signal
import subprocess
import sys
from pathlib import Path

from dedupe import Report, dedupe, told
from distributed import Client, LocalCluster

# The greatest number of bytes that a part may have, and the number of parts after which the test ends a worker.
MOST, BEFORE = 1 << 17, 5


class Ending(io.BytesIO):
    """A file for the output of dedupe.py. Once some parts are written, the method `write` ends the worker that has the
    most results."""

    def __init__(self, client: Client) -> None:
        super().__init__()
        self.client = client
        self.writes = self.ended = self.lost = 0

    def write(self, data: bytes) -> int:  # type: ignore[override]
        self.writes += 1
        if self.writes == BEFORE:
            held = {address: len(keys) for address, keys in self.client.has_what().items()}
            address = max(held, key=held.__getitem__)
            self.ended, self.lost = self.client.run(os.getpid)[address], held[address]
            os.kill(self.ended, signal.SIGKILL)
            print(f"dask: a worker of two is ended, with {self.lost} answers of {sum(held.values())}")
        return super().write(data)


def by_one_process(data: bytes, *words: str) -> tuple[bytes, str]:
    """Runs one process of `capn`. Returns its output, and its line on standard error."""
    ran = subprocess.run([os.environ["CAPN"], *words], input=data, capture_output=True, check=False)
    return ran.stdout, ran.stderr.decode().removeprefix("capn: ").strip()


def run_command(paths: list[str]) -> subprocess.CompletedProcess[bytes]:
    """Runs the command dedupe.py without a cluster. The command writes the result into the file `framed`."""
    script = Path(__file__).with_name("dedupe.py")
    words = [sys.executable, "-B", str(script), "--canonical", "--most", str(MOST), "framed", *paths]
    return subprocess.run(words, capture_output=True, check=False)


def by_command(paths: list[str]) -> tuple[bytes, str]:
    """Runs the command dedupe.py. Returns the result in canonical form, and the last line of the output."""
    ran = run_command(paths)
    return Path("framed").read_bytes(), ran.stdout.decode().strip().split("\n")[-1]


def is_named(paths: list[str]) -> bool:
    """Runs the command dedupe.py on a truncated file. Returns whether the command names this file, keeps the result of
    an earlier run, and leaves no other file beside the result."""
    before = Path("framed").read_bytes()
    cut = Path("cut.messages")
    cut.write_bytes(Path(paths[0]).read_bytes()[:-8])
    files = sorted(os.listdir("."))
    ran = run_command([paths[1], str(cut)])
    is_told = f"{cut.absolute()}: ".encode() in ran.stderr and b"frame: Cut" in ran.stderr
    is_left = Path("framed").read_bytes() == before and sorted(os.listdir(".")) == files
    return ran.returncode == 3 and is_told and is_left


def is_counted(report: Report, data: bytes) -> bool:
    """Returns whether the counts and the last line of a report equal those of one process of `capn`."""
    counted, line = by_one_process(data, "uniq", "--count", "--keep-going")
    lines = told(report).split("\n")
    return lines[0] == counted.decode().strip() and lines[-1] == line


def main() -> int:
    paths = sorted(map(str, Path(sys.argv[1]).glob("*.messages")))
    options = {"n_workers": 2, "threads_per_worker": 1, "dashboard_address": ":0", "silence_logs": logging.CRITICAL}
    with LocalCluster(**options) as cluster, Client(cluster) as client:
        out = Ending(client)
        report = dedupe(client, paths, out, MOST, is_canonical=False)
        client.wait_for_workers(2)
        is_ended = out.ended not in client.run(os.getpid).values()
    data = b"".join(Path(path).read_bytes() for path in paths)
    kept, line = by_one_process(data, "uniq", "--keep-going")
    canonical, _ = by_one_process(kept, "canonical", "--framed")
    passed = {
        "the archive is that of one process": out.getvalue() == kept,
        "so it is in canonical form": by_command(paths) == (canonical, line),
        "a file that is cut is named, and the old result stays": is_named(paths),
        "the counts and refusals are those of one process": is_counted(report, data),
        "a worker was ended that had answers": out.lost > 0 and is_ended,
    }
    print(f"dask: {report.kept} of {report.messages} messages kept, {len(report.refused)} refused")
    for what, is_so in passed.items():
        if not is_so:
            print(f"dask: not so: {what}")
    return 0 if all(passed.values()) else 1


if __name__ == "__main__":
    sys.exit(main())
