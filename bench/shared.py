"""What the benchmarks share: where the program is, how a small program over a crate is built, rows of ratios and their table."""
import dataclasses
import os
import shutil
import subprocess
import sys
from typing import Optional

ROOT = os.path.dirname(os.path.dirname(os.path.abspath(__file__)))

# Runs of each thing that is timed, of which the best counts.
RUNS = 4


@dataclasses.dataclass
class Row:
    """One ratio: of what is measured, to what stands beside it. Without a ratio, why there is none."""

    what: str
    beside: str
    ratio: Optional[float]
    unit: str = "times its time"
    goal: str = "-"
    is_met: Optional[bool] = None
    why_not: str = ""


def at_most(what, beside, ratio, most, unit="times its time"):
    return Row(what, beside, ratio, unit, f"at most {most:g}", ratio <= most)


def at_least(what, beside, ratio, least, unit="times as fast"):
    return Row(what, beside, ratio, unit, f"at least {least:g}", ratio >= least)


def skipped(what, beside, why):
    return Row(what, beside, None, why_not=why)


def print_table(rows):
    """The rows as a table of Markdown."""
    print("| What | Beside | Ratio | Goal | Met |")
    print("|---|---|---|---|---|")
    for row in rows:
        ratio = f"{row.ratio:.2f} {row.unit}" if row.ratio is not None else f"skipped: {row.why_not}"
        met = {None: "-", True: "yes", False: "no"}[row.is_met]
        print(f"| {row.what} | {row.beside} | {ratio} | {row.goal} | {met} |")


def note(text):
    """A line on what was measured, before the table."""
    print(text, file=sys.stderr, flush=True)


def runs(program):
    """Runs it on no message; where it has to be built first, that is done here, and not while it is timed."""
    try:
        return subprocess.run([program, "wire", "/dev/null"]).returncode == 0
    except OSError:
        return False


def program():
    """The program that the first argument names, or else the one of this repository, which is built here where it has to be."""
    script = os.path.join(ROOT, "xdrun")
    path = os.path.abspath(sys.argv[1]) if len(sys.argv) > 1 else script
    if not runs(path):
        sys.exit(f"{path} does not run; name a program that was built, or build the one of this repository by ./xdrun")
    # The script looks for changes of the source at each start, which is no part of what is timed.
    return os.path.join(ROOT, "crates", "xdrun", "out", "xdrun") if path == script else path


def python_with(module):
    """A Python that has the module, or None."""
    for python in (sys.executable, "/usr/bin/python3"):
        try:
            if subprocess.run([python, "-c", f"import {module}"], capture_output=True).returncode == 0:
                return python
        except OSError:
            pass
    return None


def in_c(folder, name, source):
    """The path of a program in C, or None where there is no compiler."""
    if shutil.which("cc") is None:
        return None
    file, path = os.path.join(folder, f"{name}.c"), os.path.join(folder, name)
    write(file, source)
    subprocess.run(["cc", "-O2", "-o", path, file], check=True)
    return path


def build(folder, name, source, crates, answers=None):
    """Builds a small program over crates of the repository, in a temporary copy of it, as rt run builds it, and gives its
    path. `crates` is its line of crates.txt after its name; `answers` has the proofs of functions that need some."""
    shutil.copytree(os.path.join(ROOT, "crates"), os.path.join(folder, "crates"), ignore=shutil.ignore_patterns("out"))
    shutil.copy(os.path.join(ROOT, "HANDLES"), folder)
    crate = os.path.join(folder, "crates", name)
    subprocess.run(["rt", "new", crate, "start_io"], check=True, capture_output=True)
    for file in ("stdin", "stdout", "BUILD.bazel"):
        if os.path.exists(os.path.join(crate, file)):
            os.remove(os.path.join(crate, file))
    shutil.rmtree(os.path.join(crate, "src"))
    shutil.rmtree(os.path.join(crate, "proofs"), ignore_errors=True)
    write(os.path.join(crate, "src", "main.rt"), source)
    for function, text in (answers or {}).items():
        write(os.path.join(crate, "proofs", function, "Answers.antt"), text)
    with open(os.path.join(ROOT, "crates.txt"), encoding="utf-8") as file:
        lines = file.read()
    write(os.path.join(folder, "crates.txt"), f"{lines}{name}{crates}\n")
    path = os.path.join(crate, "out", name)
    done = subprocess.run(["rt", "run"], cwd=crate, capture_output=True, text=True)
    if not os.path.exists(path):
        sys.exit(f"{name} could not be built:\n{done.stdout}{done.stderr}")
    return path


def write(path, text):
    os.makedirs(os.path.dirname(path), exist_ok=True)
    with open(path, "w", encoding="utf-8") as file:
        file.write(text)


def main(measure):
    """Runs one benchmark by itself."""
    print_table(measure(program()))
