#!/usr/bin/env python3
"""Times `xdrun SUITE -n 4` on 1,000 and 20,000 tests of `true` and of `sleep 0.005`.

Beside it stands a program in C that keeps four children of posix_spawn busy: it reads the output of each to its end,
waits for it, prints a line and starts the next. For 1,000 tests of `true` there are also `xargs -P 4` and `ninja -j 4`,
where they are installed. Goals: at most 1.5 times the time of the program in C for `true` and 1.05 times for
`sleep 0.005`, no more than xargs and ninja take, and a cost per test at 20,000 of at most 1.1 times that at 1,000.

It also measures what four workers add to a run without a test (at most 15 ms), how the controller's memory grows with
the tests (at most 1,024 bytes for each that keeps no output), and the processor time of a run whose tests sleep for ten
seconds (at most 100 ms for its 13 processes, their starts included).

Usage: bench/runs.py [PROGRAM]   from any folder; PROGRAM is the one of this repository where none is named.
"""
import os
import shutil
import subprocess
import sys
import tempfile
import threading
import time

import shared

WORKERS = 4
FEW, MANY = 1_000, 20_000
EMPTY_RUNS = 20
KINDS = {"`true`": (["true"], 1.5), "`sleep 0.005`": (["sleep", "0.005"], 1.05)}

C_POOL = r"""
#define _GNU_SOURCE
#include <fcntl.h>
#include <poll.h>
#include <spawn.h>
#include <stdio.h>
#include <stdlib.h>
#include <sys/wait.h>
#include <unistd.h>

extern char **environ;

enum { MOST = 32 };
static struct pollfd outputs[MOST];
static pid_t children[MOST];
static int tests[MOST];

static void start(int slot, int test, char **words) {
    int ends[2];
    if (pipe2(ends, O_CLOEXEC)) exit(1);
    posix_spawn_file_actions_t actions;
    posix_spawn_file_actions_init(&actions);
    posix_spawn_file_actions_addopen(&actions, 0, "/dev/null", O_RDONLY, 0);
    posix_spawn_file_actions_adddup2(&actions, ends[1], 1);
    posix_spawn_file_actions_addopen(&actions, 2, "/dev/null", O_WRONLY, 0);
    if (posix_spawnp(&children[slot], words[0], &actions, NULL, words, environ)) exit(1);
    posix_spawn_file_actions_destroy(&actions);
    close(ends[1]);
    outputs[slot].fd = ends[0];
    outputs[slot].events = POLLIN;
    tests[slot] = test;
}

static void finish(int slot) {
    int status;
    close(outputs[slot].fd);
    outputs[slot].fd = -1;
    if (waitpid(children[slot], &status, 0) != children[slot]) exit(1);
    char line[64];
    int n = snprintf(line, sizeof line, "[%d] %s t%d\n", slot, status ? "FAILED" : "PASSED", tests[slot]);
    if (write(1, line, n) != n) exit(1);
}

int main(int argc, char **argv) {
    int count = atoi(argv[1]), slots = atoi(argv[2]), next = 0, running = 0;
    for (int slot = 0; slot < slots; slot++) outputs[slot].fd = -1;
    for (int slot = 0; slot < slots && next < count; slot++, running++) start(slot, next++, argv + 3);
    while (running > 0) {
        if (poll(outputs, slots, -1) < 0) return 1;
        for (int slot = 0; slot < slots; slot++) {
            char buffer[4096];
            if (outputs[slot].fd < 0 || !outputs[slot].revents) continue;
            if (read(outputs[slot].fd, buffer, sizeof buffer) > 0) continue;
            finish(slot);
            running--;
            if (next < count) {
                start(slot, next++, argv + 3);
                running++;
            }
        }
    }
    return 0;
}
"""


class Took:
    """The least wall clock and the least processor time of some runs, in seconds; the latter with all descendants."""

    def __init__(self):
        self.wall = self.processor = None

    def add(self, wall, processor):
        self.wall = wall if self.wall is None else min(wall, self.wall)
        self.processor = processor if self.processor is None else min(processor, self.processor)


def timed(words, text=None):
    """The wall clock and the processor time of one run."""
    begun = time.monotonic()
    child = subprocess.Popen(words, stdin=subprocess.DEVNULL if text is None else subprocess.PIPE, stdout=subprocess.DEVNULL)
    if text is not None:
        child.stdin.write(text)
        child.stdin.close()
    _, status, usage = os.wait4(child.pid, 0)
    child.returncode = os.waitstatus_to_exitcode(status)
    wall = time.monotonic() - begun
    if child.returncode not in (0, 5):
        sys.exit(f"{words[0]}: status {child.returncode}")
    return wall, usage.ru_utime + usage.ru_stime


def least(commands, runs):
    """What the runs of each command took; they alternate, since a machine has busy times."""
    took = {name: Took() for name in commands}
    for _ in range(runs):
        for name, (words, text) in commands.items():
            took[name].add(*timed(words, text))
    return took


def suite_of(folder, name, tests, words):
    path = os.path.join(folder, f"{name}.toml")
    run = ", ".join(f'"{word}"' for word in words)
    shared.write(path, "".join(f'[[test]]\nid = "t{test}"\nrun = [{run}]\n\n' for test in range(tests)))
    return path


def others(folder, tests):
    """What else runs that number of programs, four at a time: a name, its words and its input; None where it is not installed."""
    numbers = "".join(f"{test}\n" for test in range(tests)).encode()
    xargs, ninja = shutil.which("xargs"), shutil.which("ninja")
    yield "`xargs -P 4 -n 1`", xargs and [xargs, "-P", str(WORKERS), "-n", "1", "true"], numbers
    file = os.path.join(folder, "build.ninja")
    edges = "".join(f"build t{test}: run\n" for test in range(tests))
    shared.write(file, f"rule run\n  command = true\n{edges}")
    yield "`ninja -j 4`", ninja and [ninja, "-C", folder, "-j", str(WORKERS), "--quiet"], None


def speed(program, folder, pool):
    """The rows of time: each kind of test beside the program in C and what else is installed, and their growth."""
    rows, costs = [], {}
    for kind, (words, most) in KINDS.items():
        for tests in (FEW, MANY):
            what = f"`-n {WORKERS}`, {tests:,} tests of {kind}"
            suite = suite_of(folder, "suite", tests, words)
            beside = [("four children in C", pool and [pool, str(tests), str(WORKERS)] + words, None)]
            if words == ["true"] and tests == FEW:
                beside += others(folder, tests)
            commands = {name: (words, text) for name, words, text in beside if words}
            commands["xdrun"] = [program, suite, "-n", str(WORKERS)], None
            took = least(commands, shared.RUNS if tests == FEW else shared.RUNS // 2)
            for name, one in took.items():
                each = f"{one.wall / tests * 1e3:.3f} ms each, {one.processor / tests * 1e3:.3f} ms of a processor"
                shared.note(f"{tests} tests of {kind}: {name} {one.wall:.2f} s, {each}")
            ours = took["xdrun"]
            costs[kind, tests] = ours.wall / tests
            for name, words_of, _ in beside:
                if not words_of:
                    rows.append(shared.skipped(what, name, "it is not installed"))
                    continue
                goal = most if name == "four children in C" else 1
                rows.append(shared.at_most(what, name, ours.wall / took[name].wall, goal))
                rows.append(shared.Row("the same", name, ours.processor / took[name].processor, "times its processor time"))
        growth = costs[kind, MANY] / costs[kind, FEW]
        rows.append(shared.at_most(f"cost per test of {kind} at {MANY:,}", f"cost at {FEW:,}", growth, 1.1, "times"))
    return rows


def empty_runs(program, folder):
    """What four workers add to a run without a test, in milliseconds."""
    suite = suite_of(folder, "empty", 0, [])
    took = least({workers: ([program, suite, "-n", str(workers)], None) for workers in (0, WORKERS)}, EMPTY_RUNS)
    for workers, one in took.items():
        shared.note(f"no test, -n {workers}: {one.wall * 1e3:.1f} ms, {one.processor * 1e3:.1f} ms of a processor")
    more = (took[WORKERS].wall - took[0].wall) * 1e3
    return [shared.at_most(f"a run without a test, `-n {WORKERS}`", "`-n 0`", more, 15, "ms more")]


def peak(program, suite):
    """The peak memory of the controller alone in bytes, and how many tests passed."""
    child = subprocess.Popen([program, suite, "-n", str(WORKERS)], stdin=subprocess.DEVNULL, stdout=subprocess.PIPE)
    text = []
    reader = threading.Thread(target=lambda: text.append(child.stdout.read()))
    reader.start()
    most = 0
    while child.poll() is None:
        try:
            with open(f"/proc/{child.pid}/status", encoding="utf-8") as file:
                most = max([most] + [int(line.split()[1]) for line in file if line.startswith("VmHWM:")])
        except OSError:
            break
        time.sleep(0.002)
    child.wait()
    reader.join()
    return most * 1024, int(text[0].split(b"\n")[-2].split()[0])


def memory(program, folder):
    """How the controller's peak memory grows with the tests."""
    peaks = {}
    for tests in (FEW, MANY):
        peaks[tests], passed = peak(program, suite_of(folder, "suite", tests, ["true"]))
        if passed != tests:
            sys.exit(f"{passed} of {tests} tests passed")
        shared.note(f"{tests} tests: the controller's peak memory is {peaks[tests] / 2**20:.1f} MiB")
    each = (peaks[MANY] - peaks[FEW]) / (MANY - FEW)
    what = f"memory of the controller for each test more, {peaks[MANY] / 2**20:.1f} MiB at {MANY:,}"
    return [shared.at_most(what, f"a run of {FEW:,}", each, 1024, "bytes")]


def sleeping(program, folder):
    """The processor time of a run whose tests sleep for ten seconds."""
    suite = suite_of(folder, "sleeping", 2 * WORKERS, ["sleep", "5"])
    used = min(timed([program, suite, "-n", str(WORKERS)])[1] for _ in range(2)) * 1e3
    return [shared.at_most(f"`-n {WORKERS}`, tests that sleep for 10 s", "the 10 s", used, 100, "ms of a processor")]


def measure(program):
    with tempfile.TemporaryDirectory() as folder:
        pool = shared.in_c(folder, "pool", C_POOL)
        rows = empty_runs(program, folder) + sleeping(program, folder) + memory(program, folder)
        return speed(program, folder, pool) + rows


if __name__ == "__main__":
    shared.main(measure)
