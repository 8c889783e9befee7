#!/usr/bin/env python3
"""Times pytest's items on four workers, by examples/pytest_items.sh, beside pytest-xdist's `-n 4` on the same
project: 20,000 items of nothing in 400 files, and 300 items of 20 ms. Goals: at most 0.6 and 1.0 times the
time of pytest-xdist. Beside the 300 stand the same items as commands, by examples/pytest.sh.

Usage: bench/pytest_items.py [PROGRAM]   from any folder; PROGRAM is the one of this repository where none is named. The
runs alternate, and the median of five of each counts. All items have to pass in each.
"""
import os
import statistics
import subprocess
import tempfile
import time

import shared

WORKERS = 4
RUNS = 5
SECONDS = 600
EXAMPLES = os.path.join(shared.ROOT, "examples")
OURS, XDIST = "xdrun", "pytest-xdist"

MANY_FILES, MANY_IN_EACH = 400, 50
FEW = 300

A_FILE_OF_NOTHING = """import pytest


@pytest.mark.parametrize("number", range({count}))
def test_nothing(number):
    pass
"""
A_FILE_OF_SLEEP = """import time

import pytest


@pytest.mark.parametrize("number", range({count}))
def test_sleep(number):
    time.sleep(0.02)
"""


def versions(python):
    """The versions of what is compared, as one line."""
    code = "import platform, pytest, xdist; print(platform.python_version(), pytest.__version__, xdist.__version__)"
    said = subprocess.run([python, "-c", code], capture_output=True, text=True, check=True).stdout.split()
    return "Python {}, pytest {}, pytest-xdist {}".format(*said)


def project(folder, name, files, text):
    path = os.path.join(folder, name)
    for file in range(files):
        shared.write(os.path.join(path, f"test_{file:03}.py"), text)
    return path


def timed(words, folder, environment, wanted):
    """The seconds of a command, whose last line has to say that all items passed."""
    begun = time.monotonic()
    done = subprocess.run(words, cwd=folder, env=environment, capture_output=True, text=True, timeout=SECONDS)
    took = time.monotonic() - begun
    if done.returncode != 0 or wanted not in done.stdout.splitlines()[-1]:
        raise SystemExit(f"{words} ends with {done.returncode}: {done.stdout[-300:]}{done.stderr[-300:]}")
    return took


def medians(commands, folder, environment, wanted):
    """The median of some runs of each command, in seconds; the runs of the commands alternate."""
    took = {name: [] for name in commands}
    for _ in range(RUNS):
        for name, words in commands.items():
            took[name].append(timed(words, folder, environment, wanted))
    for name, seconds in took.items():
        shared.note(f"{wanted}, {name}: {' '.join(f'{one:.2f}' for one in sorted(seconds))} s")
    return {name: statistics.median(seconds) for name, seconds in took.items()}


def commands_of(program, folder, environment):
    """The same items as commands: a suite by the recipe, and its run."""
    subprocess.run(["sh", os.path.join(EXAMPLES, "pytest.sh")], cwd=folder, env=environment, check=True)
    return [program, "suite.toml", "-n", str(WORKERS)]


def measure(program):
    python = shared.python_with("xdist")
    what_many = f"pytest's items, `-n {WORKERS}`, {MANY_FILES * MANY_IN_EACH:,} items of nothing"
    what_few = f"the same, {FEW} items of 20 ms"
    if python is None:
        return [shared.skipped(what, XDIST, "it is not installed") for what in (what_many, what_few)]
    beside = versions(python)
    shared.note(beside)
    rows = []
    with tempfile.TemporaryDirectory() as folder:
        os.mkdir(os.path.join(folder, "bin"))
        os.symlink(python, os.path.join(folder, "bin", "python3"))
        environment = {**os.environ, "XDRUN": program, "PATH": f"{folder}/bin{os.pathsep}{os.environ['PATH']}"}
        commands = {
            OURS: ["sh", os.path.join(EXAMPLES, "pytest_items.sh"), "-n", str(WORKERS)],
            XDIST: ["python3", "-m", "pytest", "-q", "-n", str(WORKERS)],
        }
        many = project(folder, "many", MANY_FILES, A_FILE_OF_NOTHING.format(count=MANY_IN_EACH))
        took = medians(commands, many, environment, f"{MANY_FILES * MANY_IN_EACH} passed")
        rows.append(shared.at_most(what_many, f"`pytest -n {WORKERS}`, {beside}", took[OURS] / took[XDIST], 0.6))
        few = project(folder, "few", 1, A_FILE_OF_SLEEP.format(count=FEW))
        took = medians(commands, few, environment, f"{FEW} passed")
        rows.append(shared.at_most(what_few, f"`pytest -n {WORKERS}`", took[OURS] / took[XDIST], 1.0))
        as_commands = timed(commands_of(program, few, environment), few, environment, f"{FEW} passed")
        rows.append(shared.Row("the same items as commands", f"`pytest -n {WORKERS}`", as_commands / took[XDIST]))
    return rows


if __name__ == "__main__":
    shared.main(measure)
