#!/usr/bin/env python3
"""Times `xdrun SUITE -n 0` on 1,000 and 20,000 tests of `true`.

Beside it stand a loop in C that starts, reads and waits for the same programs over the same kind of pipe, and, for the
1,000 tests, what else runs a list of commands one after another, where it is installed: a loop of the shell, xargs, GNU
parallel with one job, and pytest with a test function that calls subprocess.run for each command. Goals: at most 1.10
times the time of the loop in C, and a cost per test at 20,000 of at most 1.05 times that at 1,000.

Usage: bench/local.py [PROGRAM]   from any folder; PROGRAM is the one of this repository where none is named.
"""
import os
import shutil
import subprocess
import tempfile
import time

import shared

FEW, MANY = 1_000, 20_000

C_LOOP = r"""
#define _GNU_SOURCE
#include <fcntl.h>
#include <spawn.h>
#include <stdio.h>
#include <stdlib.h>
#include <sys/wait.h>
#include <unistd.h>

extern char **environ;

int main(int argc, char **argv) {
    int tests = atoi(argv[1]);
    for (int i = 0; i < tests; i++) {
        int ends[2];
        if (pipe2(ends, O_CLOEXEC)) return 1;
        posix_spawn_file_actions_t actions;
        posix_spawn_file_actions_init(&actions);
        posix_spawn_file_actions_addopen(&actions, 0, "/dev/null", O_RDONLY, 0);
        posix_spawn_file_actions_adddup2(&actions, ends[1], 1);
        posix_spawn_file_actions_addopen(&actions, 2, "/dev/null", O_WRONLY, 0);
        char *words[] = {"true", NULL};
        pid_t child;
        if (posix_spawnp(&child, "true", &actions, NULL, words, environ)) return 1;
        posix_spawn_file_actions_destroy(&actions);
        close(ends[1]);
        char buffer[4096];
        while (read(ends[0], buffer, sizeof buffer) > 0) {}
        close(ends[0]);
        int status;
        if (waitpid(child, &status, 0) != child) return 1;
        char line[64];
        int n = snprintf(line, sizeof line, "[main] PASSED t%d\n", i);
        if (write(1, line, n) != n) return 1;
    }
    return 0;
}
"""


SHELL_LOOP = """i=0
while [ $i -lt "$1" ]; do
    if "$2" < /dev/null 2> /dev/null; then echo "PASSED t$i"; else echo "FAILED t$i"; fi
    i=$((i + 1))
done
"""

PYTEST_FILE = """import subprocess

import pytest


@pytest.mark.parametrize("test", range(TESTS))
def test_command(test):
    null = subprocess.DEVNULL
    assert subprocess.run(["true"], stdin=null, stdout=subprocess.PIPE, stderr=null).returncode == 0
"""


def best_of_each(commands):
    """The shortest of some runs of each command, in seconds; the runs of the commands alternate, since a machine has busy times."""
    best = {}
    for _ in range(shared.RUNS):
        for name, (words, text) in commands.items():
            begun = time.monotonic()
            subprocess.run(words, check=True, stdout=subprocess.DEVNULL, input=text)
            took = time.monotonic() - begun
            best[name] = min(took, best.get(name, took))
    return best


def suite_of(folder, tests):
    path = os.path.join(folder, f"suite{tests}.toml")
    shared.write(path, "".join(f'[[test]]\nid = "t{test}"\nrun = ["true"]\n\n' for test in range(tests)))
    return path


def gnu_parallel():
    path = shutil.which("parallel")
    if path is None:
        return None
    told = subprocess.run([path, "--version"], capture_output=True, text=True)
    return path if told.stdout.startswith("GNU parallel") else None


def others(folder, tests):
    """What else runs that number of commands: a name, and its words and its input, or None where it is not installed."""
    true = shutil.which("true")
    numbers = "".join(f"{test}\n" for test in range(tests)).encode()
    yield "a loop of the shell", ["sh", "-c", SHELL_LOOP, "sh", str(tests), true], None
    yield "`xargs -n 1`", shutil.which("xargs") and ["xargs", "-n", "1", true], numbers
    parallel = gnu_parallel()
    yield "GNU `parallel -j 1`", parallel and [parallel, "--will-cite", "-j", "1", true], numbers
    python = shared.python_with("pytest")
    file = os.path.join(folder, "test_commands.py")
    shared.write(file, PYTEST_FILE.replace("TESTS", str(tests)))
    yield "pytest with `subprocess.run`", python and [python, "-m", "pytest", "-q", "-p", "no:cacheprovider", file], None


OURS, IN_C = "xdrun", "a loop in C"


def measure(program):
    rows, cost = [], {}
    with tempfile.TemporaryDirectory() as folder:
        loop = shared.in_c(folder, "loop", C_LOOP)
        for tests in (FEW, MANY):
            what = f"`-n 0`, {tests:,} tests of `true`"
            commands = {OURS: ([program, suite_of(folder, tests), "-n", "0"], None)}
            beside = [(IN_C, loop and [loop, str(tests)], None)]
            if tests == FEW:
                beside += others(folder, tests)
            commands |= {name: (words, text) for name, words, text in beside if words}
            best = best_of_each(commands)
            for name, took in best.items():
                shared.note(f"{tests} tests: {name} {took:.2f} s, {took / tests * 1e3:.2f} ms each")
            cost[tests] = best[OURS] / tests
            for name, words, _ in beside:
                if not words:
                    rows.append(shared.skipped(what, name, "it is not installed"))
                elif name == IN_C:
                    rows.append(shared.at_most(what, name, best[OURS] / best[name], 1.10))
                else:
                    rows.append(shared.Row(what, name, best[OURS] / best[name]))
    rows.append(shared.at_most(f"cost per test at {MANY:,}", f"cost per test at {FEW:,}", cost[MANY] / cost[FEW], 1.05, "times"))
    return rows


if __name__ == "__main__":
    shared.main(measure)
