"""Imports Hypothesis. If Hypothesis isn't installed, a stand-in skips the tests that need it. `IS_SANITIZED` says
whether the package's C module was built with sanitizers, which need more address space."""
import os
import unittest

try:
    from hypothesis import given, settings
    from hypothesis import strategies as some
except ImportError:

    class Absent:
        """A stand-in for the strategies of Hypothesis. The tests that need strategies are skipped, so the results of
        the stand-in are never used."""

        def __getattr__(self, name):
            return self

        def __call__(self, *words, **options):
            return self

        def __or__(self, other):
            return self

    class Settings(Absent):
        """A stand-in for the settings of Hypothesis. It leaves each test unchanged."""

        def __call__(self, *words, **options):
            return lambda test: test

    some, settings = Absent(), Settings()

    def given(*strategies):
        return unittest.skip("there is no Python module hypothesis")

IS_SANITIZED = "libasan" in os.environ.get("LD_PRELOAD", "")

__all__ = ["IS_SANITIZED", "given", "settings", "some"]
