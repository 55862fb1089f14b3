"""Makes calls in Python on ten thousand generated messages, most of them hostile. Each call has to return what the C
library returns.

The tests need a C compiler, and are skipped without one."""
import os
import shutil
import subprocess
import tempfile
import unittest
from pathlib import Path

import capn
from test_reading import generated
from test_stored import answer

TOP = Path(__file__).resolve().parents[2]
ARCHIVE = Path(os.environ.get("CAPN_ARCHIVE", TOP / "build" / "libcapn.a"))
COMPILER = shutil.which(os.environ.get("CC", "cc"))
TRIED = 10_000


@unittest.skipUnless(COMPILER and ARCHIVE.exists(), "there is no C compiler, or no library")
class Generated(unittest.TestCase):
    def test_each(self):
        lines = list(generated.calls(TRIED))
        with tempfile.TemporaryDirectory() as folder:
            program = os.path.join(folder, "vectors")
            subprocess.run([COMPILER, "-std=c11", "-O1", "-I", TOP / "c", TOP / "tests" / "c" / "vectors.c", ARCHIVE,
                            "-o", program], check=True)
            ran = subprocess.run([program], input="".join(f"{line}\n" for line in lines), capture_output=True,
                                 check=True, text=True)
        answers, accepted = ran.stdout.splitlines(), 0
        for line, wanted in zip(lines, answers, strict=True):
            try:
                got = answer(line.split())
            except capn.Refusal as refusal:
                # For the call `unpack`, the C program prints an error without the prefix `packed: `.
                got = str(refusal).removeprefix("packed: ") if line.startswith("unpack") else str(refusal)
            accepted += wanted.startswith("paid")
            with self.subTest(line=line):
                self.assertEqual(got, wanted)
        self.assertGreater(accepted, TRIED // 2)


if __name__ == "__main__":
    unittest.main()
