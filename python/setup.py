"""Builds the module of the package `capn` with the proved library inside. The rest is in pyproject.toml.

In the repository the library's header, its archive and its licence lie outside of this folder, after `make library`.
A source distribution has copies of them beside this file, so that it builds alone; nothing is written into this folder
for that."""
import runpy
import shutil
from pathlib import Path

from setuptools import setup
from setuptools.command.sdist import sdist

try:
    from setuptools.command.bdist_wheel import bdist_wheel
except ImportError:
    try:
        from wheel.bdist_wheel import bdist_wheel
    except ImportError:
        # Without this class, no wheel can be built. `setup.py build` needs no wheel.
        bdist_wheel = None

HERE = Path(__file__).resolve().parent
LICENCES = ("LICENSE", "NOTICE")


def place(name):
    """Returns the path of a file that the package has. The file is beside this one, or at the top of the repository."""
    beside = HERE / name
    return beside if beside.is_file() else HERE.parent / name


class SourceDistribution(sdist):
    """A source distribution that also has the files from outside of this folder."""

    def make_release_tree(self, base_dir, files):
        super().make_release_tree(base_dir, files)
        # binding.py, which builds the module, says where the library is.
        binding = runpy.run_path(str(HERE / "binding.py"))
        copied = {"capn.h": binding["HEADER"], "libcapn.a": binding["ARCHIVE"]}
        for name, path in {**copied, **{name: place(name) for name in LICENCES}}.items():
            if path.is_file():
                shutil.copyfile(path, Path(base_dir) / name)


commands = {"sdist": SourceDistribution}
if bdist_wheel is not None:

    class Wheel(bdist_wheel):
        """A wheel that also has the licences, which are outside of this folder."""

        def write_wheelfile(self, wheelfile_base, *words, **options):
            super().write_wheelfile(wheelfile_base, *words, **options)
            for path in map(place, LICENCES):
                if path.is_file():
                    shutil.copyfile(path, Path(wheelfile_base) / path.name)

    commands["bdist_wheel"] = Wheel

setup(cmdclass=commands, cffi_modules=["binding.py:binding"], options={"bdist_wheel": {"py_limited_api": "cp311"}})
