#!/usr/bin/env python3
"""Runs every benchmark of this folder, one after another, and prints one table of ratios. What is not installed is skipped
with a word. What was measured is told on standard error as it comes.

Usage: bench/all.py [PROGRAM]   from any folder; PROGRAM is the one of this repository where none is named.
"""
import importlib
import multiprocessing

import shared

BENCHMARKS = "local", "runs", "sockets", "pytest_items", "suite", "drive", "journal", "waiting", "worker", "value", "wire"


def measured(name, program):
    """The rows of a benchmark, or one that says why there are none."""
    shared.note(f"-- {name} --")
    try:
        return importlib.import_module(name).measure(program)
    except (Exception, SystemExit) as fault:
        shared.note(f"{name} failed: {fault}")
        return [shared.skipped(f"bench/{name}.py", "-", f"it failed: {str(fault).strip().splitlines()[-1:]}")]


def main():
    program = shared.program()
    rows = []
    # Each has a process of its own, because the peak of a program counts that of the process that started it.
    for name in BENCHMARKS:
        with multiprocessing.get_context("spawn").Pool(1) as pool:
            rows += pool.apply(measured, (name, program))
    shared.print_table(rows)


if __name__ == "__main__":
    main()
