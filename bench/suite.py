#!/usr/bin/env python3
"""Times how long `xdrun SUITE -n 0` takes to read a suite of 50,000 tests, each with a group. The last test repeats the
first one's id, so the whole file is read and nothing runs. Goal: well under a second; the table says whether it is
under one.

Usage: bench/suite.py [PROGRAM]   from any folder; PROGRAM is the one of this repository where none is named.
"""
import os
import resource
import subprocess
import tempfile
import time

import shared

MAX_TESTS = 50_000


def write_suite(path, tests):
    """A suite of that number of tests, of which the last has the first one's id."""
    with open(path, "w", encoding="utf-8") as file:
        for test in range(tests):
            number = test if test < tests - 1 else 0
            file.write(f'[[test]]\nid="t.py::n{number}"\nrun=["true"]\ngroup="g{number % 100}"\n')


def read_time(program, path, tests):
    """The shortest of some runs, in seconds, of which each has to refuse the last test."""
    best = None
    for _ in range(shared.RUNS):
        start = time.monotonic()
        done = subprocess.run([program, path, "-n", "0"], capture_output=True)
        took = time.monotonic() - start
        wanted = f"xdrun: test {tests - 1}: repeated id\n".encode()
        if done.returncode != 4 or done.stderr != wanted or done.stdout:
            raise SystemExit(f"status {done.returncode}: {done.stderr!r}, wanted {wanted!r}")
        best = took if best is None else min(best, took)
    return best


def measure(program):
    few, many = MAX_TESTS // 10, MAX_TESTS
    times = {}
    with tempfile.TemporaryDirectory() as folder:
        path = os.path.join(folder, "suite.toml")
        for tests in (few, many):
            write_suite(path, tests)
            times[tests] = read_time(program, path, tests)
            shared.note(f"{tests} tests, {os.path.getsize(path) / 1e6:.1f} MB: {times[tests]:.3f} s")
    peak = resource.getrusage(resource.RUSAGE_CHILDREN).ru_maxrss / 1024
    shared.note(f"peak memory of a child so far: {peak:.0f} MiB")
    ratio = times[many] / many / (times[few] / few)
    row = shared.Row(f"cost per test of reading {many:,} tests, {times[many]:.2f} s in all", f"of reading {few:,}", ratio, "times")
    row.goal, row.is_met = "under 1 s in all", times[many] < 1
    return [row]


if __name__ == "__main__":
    shared.main(measure)
