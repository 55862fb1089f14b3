"""Tests that the source distribution can be built alone, and that the build writes no file beside the source files."""
import glob
import os
import shutil
import subprocess
import sys
import tarfile
import tempfile
import unittest
import zipfile

# The folder python in a copy of the repository. The script tests/python/run makes the copy, and sets the variable
# CAPN_SOURCE.
SOURCE = os.environ.get("CAPN_SOURCE", "")
PRINTS = ("import capn; print(capn.digest(bytes.fromhex('00000000030000000000000002000000050000000000000000000000"
          "00000000')).hex(), capn.__file__)")
DIGEST = "6a3efd90ef3aebf0decabee51bbe92707bee76bb8f2830efd1bf615b14f61ac2"


def setup(folder, *words):
    """Runs the `setup.py` of a folder that isn't inside a repository."""
    env = {name: one for name, one in os.environ.items() if name not in ("CAPN_ARCHIVE", "LD_PRELOAD", "PYTHONPATH")}
    return subprocess.run([sys.executable, "-B", "setup.py", "-q", *words], cwd=folder, env=env, capture_output=True,
                          check=False, text=True)


def top_in(folder):
    """Copies the repository's source files and the built C library into a folder. Returns the path of the copy, and the
    names of the files in its folder python."""
    top = os.path.join(folder, "top")
    shutil.copytree(os.path.dirname(SOURCE), top, ignore=shutil.ignore_patterns("build", "*.egg-info"))
    os.mkdir(os.path.join(top, "build"))
    shutil.copy(os.environ["CAPN_ARCHIVE"], os.path.join(top, "build", "libcapn.a"))
    return top, set(os.listdir(os.path.join(top, "python")))


@unittest.skipUnless(SOURCE, "there is no copy of the sources: tests/python/run makes one")
class Sources(unittest.TestCase):
    def test_a_source_distribution_builds_alone(self):
        with tempfile.TemporaryDirectory() as folder:
            top, before = top_in(folder)
            here = os.path.join(top, "python")
            ran = setup(here, "sdist", "--dist-dir", os.path.join(folder, "dist"))
            self.assertEqual(ran.returncode, 0, ran.stderr)
            self.assertEqual(set(os.listdir(here)) - before, {"capn.egg-info"})
            [made] = glob.glob(os.path.join(folder, "dist", "*.tar.gz"))
            with tarfile.open(made) as archive:
                archive.extractall(folder)
            shutil.rmtree(top)
            [alone] = glob.glob(os.path.join(folder, "capn-*"))
            for name in ("binding.py", "look.h", "capn.h", "libcapn.a", "LICENSE", "NOTICE", "README.md",
                         "pyproject.toml"):
                self.assertTrue(os.path.isfile(os.path.join(alone, name)), name)
            site = os.path.join(folder, "site")
            ran = setup(alone, "build", "--build-lib", site)
            self.assertEqual(ran.returncode, 0, ran.stderr)
            ran = subprocess.run([sys.executable, "-B", "-c", PRINTS], cwd=folder, capture_output=True, text=True,
                                 check=False, env={**os.environ, "PYTHONPATH": site})
            self.assertEqual((ran.stderr, ran.stdout.split()),
                             ("", [DIGEST, os.path.join(site, "capn", "__init__.py")]))
            # A source distribution can also be made from the unpacked source distribution.
            ran = setup(alone, "sdist", "--dist-dir", os.path.join(folder, "again"))
            self.assertEqual(ran.returncode, 0, ran.stderr)
            [again] = glob.glob(os.path.join(folder, "again", "*.tar.gz"))
            with tarfile.open(made) as one, tarfile.open(again) as other:
                self.assertEqual(sorted(one.getnames()), sorted(other.getnames()))

    def test_a_wheel_has_the_licences(self):
        try:
            import wheel  # noqa: F401
        except ImportError:
            self.skipTest("there is no Python module wheel")
        with tempfile.TemporaryDirectory() as folder:
            top, before = top_in(folder)
            here = os.path.join(top, "python")
            ran = setup(here, "bdist_wheel", "--dist-dir", os.path.join(folder, "dist"))
            self.assertEqual(ran.returncode, 0, ran.stderr)
            self.assertLessEqual(set(os.listdir(here)) - before, {"capn.egg-info", "build"})
            [made] = glob.glob(os.path.join(folder, "dist", "*.whl"))
            with zipfile.ZipFile(made) as archive:
                names = {name.rpartition("/")[2]: name for name in archive.namelist()}
                for name in "LICENSE", "NOTICE":
                    with open(os.path.join(top, name), "rb") as file:
                        self.assertEqual(archive.read(names[name]), file.read())
                    self.assertRegex(names[name], r"^capn-[^/]*\.dist-info/")
                self.assertIn("capn/py.typed", archive.namelist())


if __name__ == "__main__":
    unittest.main()
