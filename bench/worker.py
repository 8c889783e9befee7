#!/usr/bin/env python3
"""Times `xdrun worker` behind a controller that speaks execnet's messages over its standard streams.

Usage: bench/worker.py [PROGRAM]   from any folder; PROGRAM is the one of this repository where none is named.

It runs 1,000 and 20,000 tests of `true` in one worker beside `-n 0` on the same suite (goals: at most 1.15 times its
time, and a cost per test at 20,000 of at most 1.05 times that at 1,000), compares the peak memory of 1,000 and 20,000
tests run from one suite of 20,000 (goal: the same but for what is kept of each test), and sends 20,000 integers through
`echo` beside the real execnet's echo (goal: at least 10 times as many a second), each the best of some runs. Where
execnet is not installed (python3-execnet on Debian) its part is skipped with a word.
"""

import os
import struct
import subprocess
import tempfile
import threading
import time

import shared

FEW, MANY = 1_000, 20_000
ITEMS = 20_000

EXECNET_ECHO = """
import sys, time, execnet
count = int(sys.argv[1])
gateway = execnet.makegateway("popen")
channel = gateway.remote_exec("for item in channel: channel.send(item)")
begun = time.monotonic()
for item in range(count):
    channel.send(item)
for item in range(count):
    assert channel.receive() == item
print(time.monotonic() - begun)
gateway.exit()
"""


def text(word):
    return b"N" + struct.pack("!i", len(word)) + word.encode()


def number(n):
    return b"F" + struct.pack("!i", n)


def message(kind, channel, payload=b""):
    return struct.pack("!bii", kind, channel, len(payload)) + payload


def call(name, **kwargs):
    pairs = b"".join(text(key) + text(word) + b"P" for key, word in kwargs.items())
    return message(3, 1, text("") + b"L" + text(name) + b"J" + pairs + b"@" + struct.pack("!i", 4) + b"Q")


def command(name, pairs=b""):
    return message(4, 1, text(name) + b"J" + pairs + b"@" + struct.pack("!i", 2) + b"Q")


def indices(count):
    items = b"".join(number(i) + number(i) + b"P" for i in range(count))
    return text("indices") + b"K" + struct.pack("!i", count) + items + b"P"


class Worker:
    """`xdrun worker`, with a buffered reader of its messages."""

    def __init__(self, program):
        self.child = subprocess.Popen([program, "worker"], stdin=subprocess.PIPE, stdout=subprocess.PIPE)
        assert self.child.stdout.read(1) == b"1"

    def send(self, data):
        self.child.stdin.write(data)
        self.child.stdin.flush()

    def read(self):
        kind, channel, size = struct.unpack("!bii", self.child.stdout.read(9))
        return kind, channel, self.child.stdout.read(size)

    def end(self):
        """Ends the worker; its peak memory in MiB. The system's count for a child that ended would count its parent's, too."""
        with open(f"/proc/{self.child.pid}/status", encoding="utf-8") as file:
            peak = next(int(line.split()[1]) for line in file if line.startswith("VmHWM:"))
        self.send(message(2, 0))
        assert self.child.wait() == 0, self.child.returncode
        return peak / 1024


def run_tests(program, suite, count):
    """The seconds and the peak memory of a worker that runs the first tests of the suite."""
    begun = time.monotonic()
    worker = Worker(program)
    worker.send(call("run_tests", suite=suite, dist="load"))
    while b"collectionfinish" not in worker.read()[2][:30]:
        pass
    worker.send(command("runtests", indices(count)) + command("shutdown"))
    done = 0
    while True:
        kind, channel, payload = worker.read()
        if kind == 4 and b"runtest_protocol_complete" in payload[:40]:
            done += 1
        if kind in (5, 6) and channel == 1:
            break
    memory = worker.end()
    took = time.monotonic() - begun
    assert kind == 5 and done == count, (kind, done)
    return took, memory


def run_alone(program, suite):
    begun = time.monotonic()
    subprocess.run([program, suite, "-n", "0"], stdout=subprocess.DEVNULL, check=True)
    return time.monotonic() - begun


def echo(program, count):
    """The seconds in which that number of integers go through `echo` and come back."""
    items = b"".join(message(4, 1, number(i) + b"Q") for i in range(count))
    worker = Worker(program)
    worker.send(call("echo"))
    begun = time.monotonic()
    writer = threading.Thread(target=worker.send, args=(items,))
    writer.start()
    back = b""
    while len(back) < len(items):
        piece = worker.child.stdout.read1(1 << 20)
        assert piece
        back += piece
    took = time.monotonic() - begun
    writer.join()
    assert back == items
    worker.end()
    return took


def execnet_echo(python, count):
    """The same through execnet's gateway."""
    done = subprocess.run([python, "-c", EXECNET_ECHO, str(count)], capture_output=True, text=True, check=True)
    return float(done.stdout)


def suite_of(folder, tests):
    path = os.path.join(folder, f"suite{tests}.toml")
    shared.write(path, "".join(f'[[test]]\nid = "test_{i}"\nrun = ["true"]\n' for i in range(tests)))
    return path


def compared(program, folder):
    """The rows of tests in one worker: beside `-n 0`, and at few tests and at many."""
    rows, costs = [], {}
    for tests in (FEW, MANY):
        suite = suite_of(folder, tests)
        runs = range(shared.RUNS if tests == FEW else shared.RUNS // 2)
        worker, alone = map(min, zip(*((run_tests(program, suite, tests)[0], run_alone(program, suite)) for _ in runs)))
        shared.note(f"{tests} tests: worker {worker:.2f} s, -n 0 {alone:.2f} s")
        costs[tests] = worker / tests
        rows.append(shared.at_most(f"a worker behind pipes, {tests:,} tests of `true`", "`-n 0`", worker / alone, 1.15))
    growth = costs[MANY] / costs[FEW]
    rows.append(shared.at_most(f"cost per test of a worker at {MANY:,}", f"cost at {FEW:,}", growth, 1.05, "times"))
    return rows


def measure(program):
    with tempfile.TemporaryDirectory() as folder:
        rows = compared(program, folder)
        few, many = (run_tests(program, suite_of(folder, MANY), tests)[1] for tests in (FEW, MANY))
    shared.note(f"peak memory: {few:.1f} MiB for {FEW} tests of {MANY}, {many:.1f} MiB for all")
    what = f"peak memory of a worker that ran {MANY:,} tests of its suite, {many:.1f} MiB"
    rows.append(shared.Row(what, f"one that ran {FEW:,} of them", many / few, "times", "the same"))
    ours = min(echo(program, ITEMS) for _ in range(shared.RUNS))
    shared.note(f"{ITEMS} items through echo: {ITEMS / ours:.0f} a second")
    what, beside = f"{ITEMS:,} integers through `echo` of a worker", "execnet's own echo"
    python = shared.python_with("execnet")
    if python is None:
        rows.append(shared.skipped(what, beside, "execnet is not installed"))
        return rows
    theirs = min(execnet_echo(python, ITEMS) for _ in range(shared.RUNS))
    shared.note(f"{ITEMS} items through execnet's echo: {ITEMS / theirs:.0f} a second")
    rows.append(shared.at_least(what, beside, theirs / ours, 10, "times as many a second"))
    return rows


if __name__ == "__main__":
    shared.main(measure)
