#!/usr/bin/env python3
"""Times `xdrun SUITE` on four workers behind sockets of this machine, each served by `xdrun socketserver`, beside the same on
four children, `-n 4`: 1,000 tests of `true`. Goal: at most 1.1 times the time.

Usage: bench/sockets.py [PROGRAM]   from any folder; PROGRAM is the one of this repository where none is named. Each run has
new servers, which listen before it begins, and all tests have to pass. The runs alternate, and the best of each counts.
"""
import contextlib
import os
import socket
import subprocess
import sys
import tempfile
import time

import shared

WORKERS = 4
TESTS = 1_000
HOST = "127.0.0.1"
SECONDS = 60
LISTENING = "0A"


def free_ports(count):
    """Ports at which nobody listens."""
    with contextlib.ExitStack() as all_open:
        servers = [all_open.enter_context(socket.create_server((HOST, 0))) for _ in range(count)]
        return [server.getsockname()[1] for server in servers]


def listening_ports():
    """The ports at which somebody listens, by the system's table; a connection would be the one that a server takes."""
    with open("/proc/net/tcp", encoding="utf-8") as file:
        rows = [line.split() for line in list(file)[1:]]
    return {int(row[1].partition(":")[2], 16) for row in rows if row[3] == LISTENING}


@contextlib.contextmanager
def servers(program):
    """The places of workers behind sockets, whose servers listen by now and have to end well."""
    ports = free_ports(WORKERS)
    children = [subprocess.Popen([program, "socketserver", f"{HOST}:{port}"]) for port in ports]
    try:
        end = time.monotonic() + SECONDS
        while not set(ports) <= listening_ports():
            if time.monotonic() > end:
                sys.exit("the servers do not listen")
            time.sleep(0.01)
        yield [f"socket={HOST}:{port}" for port in ports]
        statuses = [child.wait(SECONDS) for child in children]
        if any(statuses):
            sys.exit(f"the servers ended with the statuses {statuses}")
    finally:
        for child in children:
            child.kill()
            child.wait()


def timed(program, suite, words):
    """The seconds of a run, whose tests have to pass."""
    begun = time.monotonic()
    done = subprocess.run([program, suite, *words], capture_output=True, text=True)
    took = time.monotonic() - begun
    if done.returncode != 0 or not done.stdout.endswith(f"\n{TESTS} passed\n"):
        sys.exit(f"status {done.returncode}: {done.stdout[-200:]}{done.stderr[-200:]}")
    return took


def measure(program):
    behind_pipes, behind_sockets = [], []
    with tempfile.TemporaryDirectory() as folder:
        suite = os.path.join(folder, "suite.toml")
        shared.write(suite, "".join(f'[[test]]\nid = "t{test}"\nrun = ["true"]\n\n' for test in range(TESTS)))
        for _ in range(shared.RUNS):
            behind_pipes.append(timed(program, suite, ["-n", str(WORKERS)]))
            with servers(program) as places:
                behind_sockets.append(timed(program, suite, [word for place in places for word in ("--tx", place)]))
    pipes, sockets = min(behind_pipes), min(behind_sockets)
    shared.note(f"{TESTS} tests of `true`: -n {WORKERS} {pipes:.3f} s, {WORKERS} sockets {sockets:.3f} s")
    what = f"{WORKERS} workers behind sockets, {TESTS:,} tests of `true`"
    return [shared.at_most(what, f"`-n {WORKERS}`", sockets / pipes, 1.1)]


if __name__ == "__main__":
    shared.main(measure)
