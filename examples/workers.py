#!/usr/bin/env python3
"""Runs xdrun on workers that are programs of one's own, each behind a socket of this machine.

Usage: python3 workers.py -n K SUITE [WORDS OF XDRUN] -- COMMAND [WORD ..]

Each of the K places holds a port at 127.0.0.1 as long as the run lasts. For each connection of xdrun, one
after another, it starts COMMAND with the connection as standard input and output; so a worker in place of
one that died finds its port open. What COMMAND says on standard error is shown where it ends by a signal or
with a status that is not 0.

The variables XDRUN_WORKER, gw0 to the last, XDRUN_WORKERS, their number, and XDRUN_RUN, a name of this run,
tell COMMAND where it stands; a new worker has the number of its place. XDRUN names the program, where it is
not the xdrun beside the folder of this script.

The status is that of xdrun, which ends with this script, on Linux also where that is ended by SIGKILL. A
worker has to end where its link ends. This script kills one that has not after ten seconds; and what is left
of a worker's process group ends with the worker. Whoever can connect to a port on this machine can speak to
its worker.
"""
import contextlib
import ctypes
import os
import shutil
import signal
import socket
import subprocess
import sys
import tempfile
import threading
import time
import uuid

HOST = "127.0.0.1"
MOST_WORKERS = 32
REFUSED = 4
SECONDS = 10
MOST_SHOWN = 1 << 16
PR_SET_PDEATHSIG = 1


def give_up(why):
    print(f"workers.py: {why}", file=sys.stderr)
    sys.exit(REFUSED)


def end_with_parent():
    """Lets the process end where its parent does, also by SIGKILL. Only Linux has this."""
    with contextlib.suppress(AttributeError, OSError):
        ctypes.CDLL(None).prctl(PR_SET_PDEATHSIG, signal.SIGTERM)


class Place:
    """A port, and the worker behind it."""

    def __init__(self, name, command, variables):
        self.name, self.command = name, command
        self.variables = {**os.environ, **variables, "XDRUN_WORKER": name}
        self.server = socket.create_server((HOST, 0))
        self.worker, self.is_over = None, False
        self.thread = threading.Thread(target=self.serve, daemon=True)

    def spec(self):
        return f"socket={HOST}:{self.server.getsockname()[1]}"

    def serve(self):
        while True:
            link, _ = self.server.accept()
            if self.is_over:
                return
            # Where no worker can be started, the end of the link tells the controller.
            try:
                with link, tempfile.TemporaryFile() as said:
                    self.show(self.work(link, said), said)
            except OSError as fault:
                print(f"workers.py: no worker at {self.name}: {fault}", file=sys.stderr)

    def work(self, link, said):
        """Lets a worker serve the link to its end, and gives its status."""
        link.setsockopt(socket.IPPROTO_TCP, socket.TCP_NODELAY, 1)
        # In a session of its own it gets no Ctrl-C: the end of its link tells it.
        self.worker = subprocess.Popen(
            self.command, stdin=link, stdout=link, stderr=said, env=self.variables, start_new_session=True
        )
        status = self.worker.wait()
        with contextlib.suppress(OSError):
            link.shutdown(socket.SHUT_RDWR)
        with contextlib.suppress(OSError):
            os.killpg(self.worker.pid, signal.SIGKILL)
        return status

    def show(self, status, said):
        """Shows what a worker said that did not end well."""
        if status == 0:
            return
        said.seek(max(0, said.seek(0, os.SEEK_END) - MOST_SHOWN))
        text = said.read().decode(errors="replace")
        print(f"workers.py: the worker at {self.name} ended with {status}\n{text}", end="", file=sys.stderr, flush=True)

    def end(self):
        """Lets the thread end once its worker has: a connection wakes it where it waits for one."""
        self.is_over = True
        with contextlib.suppress(OSError):
            socket.create_connection(self.server.getsockname()).close()

    def kill(self):
        while self.thread.is_alive():
            if self.worker is not None:
                self.worker.kill()
            self.thread.join(0.1)


def run(program, words, places):
    """Runs the program on these places; its status, as a shell gives it."""
    specs = [word for place in places for word in ("--tx", place.spec())]
    child = subprocess.Popen([program, *words, *specs], preexec_fn=end_with_parent)
    try:
        for place in places:
            place.thread.start()
        status = child.wait()
    finally:
        child.terminate()
        child.wait()
        end = time.monotonic() + SECONDS
        for place in places:
            place.end()
        for place in places:
            place.thread.join(max(0, end - time.monotonic()))
        for place in places:
            place.kill()
    return status if status >= 0 else 128 - status


def read(words):
    """The number of workers, the words of xdrun, and the command."""
    cut = words.index("--") if "--" in words else len(words)
    told, command = words[:cut], words[cut + 1 :]
    if len(told) < 3 or told[0] != "-n" or not command:
        give_up("its words are -n K SUITE [WORDS OF XDRUN] -- COMMAND [WORD ..]")
    if not told[1].isdecimal() or not 1 <= int(told[1]) <= MOST_WORKERS:
        give_up(f"-n has a number from 1 to {MOST_WORKERS}")
    if shutil.which(command[0]) is None:
        give_up(f"{command[0]} is no command")
    return int(told[1]), told[2:], command


def main():
    count, words, command = read(sys.argv[1:])
    beside = os.path.join(os.path.dirname(os.path.dirname(os.path.abspath(__file__))), "xdrun")
    program = os.environ.get("XDRUN") or beside
    # Run on no message, so that what has to be built is built here, and not while workers wait.
    if shutil.which(program) is None or subprocess.run([program, "wire", os.devnull]).returncode != 0:
        give_up(f"{program} does not run; XDRUN names another one")
    for number in (signal.SIGTERM, signal.SIGHUP):
        if signal.getsignal(number) != signal.SIG_IGN:
            signal.signal(number, lambda number, _: sys.exit(128 + number))
    variables = {"XDRUN_WORKERS": str(count), "XDRUN_RUN": uuid.uuid4().hex}
    try:
        sys.exit(run(program, words, [Place(f"gw{number}", command, variables) for number in range(count)]))
    except KeyboardInterrupt:
        sys.exit(128 + signal.SIGINT)


if __name__ == "__main__":
    main()
