"""Runs every test, and says with which seed and how many cases: python3 python/tests [SEED]."""

import sys
import unittest
from pathlib import Path

import support


def main():
    """The exit status: 1 where a test failed."""
    if len(sys.argv) > 1:
        support.seed_with(int(sys.argv[1]))
    print(f"seed {support.seed}", flush=True)
    suite = unittest.defaultTestLoader.discover(str(Path(__file__).parent))
    result = unittest.TextTestRunner(stream=sys.stdout).run(suite)
    for subject, cases in support.counts.items():
        print(f"{cases:8}  {subject}")
    print(f"{sum(support.counts.values()):8}  cases")
    return 0 if result.wasSuccessful() else 1


sys.exit(main())
