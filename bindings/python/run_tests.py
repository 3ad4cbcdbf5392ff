"""Runs a module of tests of this folder, and says of each test that is skipped which it is, and why:

    python3 run_tests.py test_sets
"""

import sys
import unittest

import ipnetwork

if __name__ == "__main__":
    done = unittest.main(module=sys.argv[1], argv=[sys.argv[1], "-q"], exit=False)
    for test, why in done.result.skipped:
        version = "%d.%d" % sys.version_info[:2]
        print(f"Python {version}: {test.id()} by {ipnetwork.CORE}: skipped, since {why}", flush=True)
    sys.exit(not done.result.wasSuccessful())
