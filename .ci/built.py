"""Which program the scripts of this folder run: the one that is named to them, or else the one of this repository."""
import os
import subprocess
import sys

ROOT = os.path.dirname(os.path.dirname(os.path.abspath(__file__)))
SCRIPT = os.path.join(ROOT, "xdrun")


def script(words):
    """The program that the first of these words names, or the script ./xdrun. It is run on no message: so what has to be
    built is built here, and not while a command is waited for. Where it does not run, this ends with a word on it."""
    path = os.path.abspath(words[0]) if words else SCRIPT
    try:
        runs = subprocess.run([path, "wire", os.devnull]).returncode == 0
    except OSError:
        runs = False
    if not runs:
        sys.exit(f"{os.path.basename(sys.argv[0])}: {path} does not run; build it by ./xdrun, or name one that was built")
    return path


def program(words):
    """The same, but of this repository the program itself: the script has commands of its own before it becomes that, and a
    shell keeps the ends of its children."""
    path = script(words)
    return os.path.join(ROOT, "crates", "xdrun", "out", "xdrun") if path == SCRIPT else path
