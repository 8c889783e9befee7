"""Runs one test of pytest, or one file: pytest_one.py ID [WORD of pytest]...

It ends with pytest's status, or with 77 where every test was skipped, and its last line says that
pytest came to its end: a test that leaves the process by os._exit(0) does not come there.
"""
import os
import sys

import pytest


class One:
    """Collects the id in the place of what the words name, and sees what its tests come to."""

    def __init__(self, name):
        self.name, self.has_run, self.was_skipped = name, False, False

    def pytest_configure(self, config):
        config.args = [os.path.relpath(config.rootpath) + "/" + self.name]

    def pytest_runtest_logreport(self, report):
        if report.skipped and not hasattr(report, "wasxfail"):
            self.was_skipped = True
        elif report.when == "call" or not report.passed:
            self.has_run = True


one = One(sys.argv[1])
# Where a test hangs, its stack is printed before the limit of time kills it.
limit = "faulthandler_timeout=" + os.environ["OWN_LIMIT"]
status = int(pytest.main([*sys.argv[2:], "-o", limit], plugins=[one]))
if status == 0:
    print("pytest came to its end", flush=True)
    status = 77 if one.was_skipped and not one.has_run else 0
sys.exit(status)
