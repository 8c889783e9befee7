#!/usr/bin/env python3
"""Compares the tables of whole runs that tests read with what the model of a run says of them, or writes them anew.

Usage: tools/tables.py          says which lines of a table are not the model's, and ends with status 1 where one is not
       tools/tables.py write    puts what the model says in their place; a name, its settings and its news stay

A table stands in a file of crates/xd_tests_runs/src/drive, one run a line (tools/draw.py draws more of them): its name, the
settings, the news that a hub over lists gives, and what they come to (the calls of the hub, where the output fails; the
journal, the status, and the text). How it is written stands at the heads of script.rt there and of
crates/xd_tests_runs/src/words.rt.

When a rule of a run changes: change the model, run this with `write`, and look at what changed.
"""
import os
import re
import sys

import model

ROOT = os.path.dirname(os.path.dirname(os.path.abspath(__file__)))
RUNS = ["worked_runs", "worked_modes", "breaches", "other_breaches", "random_runs", "other_modes", "retried_runs", "retried_modes"]
RUNS += ["drawn_load_and_each", "drawn_scopes", "drawn_groups_and_steals"]
FAILING = "failing_outputs"
LINE_END = "\\n\\"
BAR = " ~ "
CAUSES = {"e": "Ended", "c": "Cut", "g": "Garbled", "r": "ReadFault", "s": "SendFault", "b": "Breach"}
CHARACTERS = {"%1f": "\x1f", "%20": " ", "%7f": "\x7f"}


# The words of news.


def ids(words):
    return [CHARACTERS.get(word, word) for word in words.split("|")] if words else []


def output(words):
    word, star, times = words.partition("*")
    return (word.replace("/", "\n") * (int(times) if star else 1)).encode()


def outcome(word):
    return {"p": "passed", "s": "skipped"}.get(word) or int(word)


def result(words):
    test, how, ms = words
    return "Done", int(test), outcome(how), int(ms)


def news_of(word, before):
    """The pieces of news of one word, each with its worker; `before` is how many there are before it."""
    kind, rest = word[0], word[1:]
    if kind == "C":
        worker, own = rest.split("#")[0].split(":")[0], rest
        count = own.partition("#")[2]
        own = [f"t{i}" for i in range(int(count))] if count else ids(own.partition(":")[2])
        return [(int(worker), ("Collected", own))]
    if kind == "X":
        worker, colon, text = rest.partition(":")
        return [(int(worker), ("Closed", text if colon else None))]
    worker, *words = rest.split(",", 4 if kind == "T" else 2 if kind == "P" else -1)
    worker = int(worker)
    if kind == "T":
        log = 2 * before + 2
        piece = [("Piece", log, output(words[3]))] if len(words) > 3 else []
        whole = [("LogStart", int(words[0]), log), *piece, ("LogClosed", log), result(words[:3])]
        return [(worker, what) for what in whole]
    whats = {
        "R": lambda: ("Ready",),
        "L": lambda: ("LogStart", int(words[0]), int(words[1])),
        "P": lambda: ("Piece", int(words[0]), output(words[1])),
        "E": lambda: ("LogClosed", int(words[0])),
        "D": lambda: result(words),
        "B": lambda: ("Back", [int(test) for test in words]),
        "F": lambda: ("Finished",),
        "Z": lambda: ("Stray",),
        "G": lambda: ("Gone", CAUSES[words[0]]),
        "N": lambda: ("NotStarted",),
    }
    return [(worker, whats[kind]())]


def all_news(words):
    news = []
    for word in words.split(" "):
        news += news_of(word, len(news))
    return news


# The words of a journal.


def show_numbers(numbers):
    text, i = "", 0
    while i < len(numbers):
        end = i
        while end + 1 < len(numbers) and numbers[end + 1] == numbers[end] + 1:
            end += 1
        text += f",{numbers[i]}" if end == i else f",{numbers[i]}-{numbers[end]}"
        i = end + 1
    return text


def show_bytes(data):
    text = data.decode("latin-1").replace("\n", "/")
    return re.sub(r"(.)\1{8,}", lambda found: f"{found[1]}*{len(found[0])}", text)


def show_ids(own):
    if own == model.SAME:
        return "="
    if len(own) > 2 and own == [f"t{i}" for i in range(len(own))]:
        return f"#{len(own)}"
    return ":" + "|".join(own)


def show_output(data):
    return f",{show_bytes(data)}" if data else ""


def show_stop(stop):
    kind, *rest = stop
    word = {"CollectError": "collect", "OutFault": "out"}.get(kind, kind.lower())
    return ",".join([f"o:{word}", *map(str, rest)])


def show(entry):
    kind, w, *rest = entry
    if kind == "Over":
        return show_stop(w)
    if kind == "Collected":
        return f"C{w}{show_ids(rest[0])}"
    if kind == "Done":
        how = {"passed": "p", "skipped": "s"}.get(rest[1], rest[1])
        return f"D{w},{rest[0]},{how},{rest[2]}{show_output(rest[3])}"
    if kind == "Down":
        letter = next(letter for letter, cause in CAUSES.items() if cause == rest[0])
        return f"G{w},{letter}{show_output(rest[1])}"
    if kind == "Refused":
        return f"X{w}:{rest[0]}"
    if kind == "Start":
        return f"s{w},{rest[0]}"
    letters = {"Ready": "R", "Back": "B", "Finished": "F", "NotStarted": "N", "Run": "r", "RunAll": "a", "Steal": "t", "Shutdown": "h", "Kill": "k"}
    return f"{letters[kind]}{w}{show_numbers(rest[0]) if rest else ''}"


def show_all(entries):
    return " ".join(map(show, entries))


# A run over a hub that gives listed news.


class Output:
    """What is printed, and the number of the call that fails, if one does."""

    def __init__(self, fails):
        self.fails, self.calls, self.taken, self.failed = fails, 0, b"", False

    def call(self):
        self.failed = self.failed or self.calls == self.fails
        self.calls += 1
        return not self.failed

    def prints(self, data):
        """A write and a flush; neither where there is nothing to write."""
        if not data:
            return True
        if not self.call():
            return False
        self.taken += data
        return self.call()


def gives(news, run):
    """The news of workers that were started, in order; when none is left their links end, in turn, again and again."""
    for worker, what in news:
        if worker in run.slot and what != ("Gone", "Breach"):
            yield worker, what
    turn = 0
    while True:
        yield list(run.slot)[turn % len(run.slot)], ("Gone", "Ended")
        turn += 1


PERFORMED = "Start", "Run", "RunAll", "Steal", "Shutdown", "Kill"


def performed(entries):
    """The calls of the hub that these entries ask for."""
    return [entry for entry in entries if entry[0] in PERFORMED]


def kills_of_started(calls, entries):
    """Of entries that are not performed any more, the kills of workers that the hub has started."""
    started = {entry[1] for entry in calls if entry[0] == "Start"}
    return [entry for entry in entries if entry[0] == "Kill" and entry[1] in started]


def drive(settings, news, fails):
    """The calls of the hub, the journal, the status and the text; neither journal nor status where memory ran out."""
    run, report, out = model.begin(settings), model.Report(settings), Output(fails)
    calls, done = performed(run.entries), len(run.entries)
    report.lines(run.entries)
    hub = gives(news, run)
    while not run.is_over() and not out.failed:
        worker, what = next(hub)
        if run.is_active(worker):
            try:
                model.take(run, worker, what)
            except model.OutOfMemory:
                return calls, None, "-", out.taken
            if out.prints(report.lines(run.entries[done:])):
                calls += performed(run.entries[done:])
                done = len(run.entries)
    if not out.failed and out.prints(report.tail()):
        out.call()
    model.close(run, out.failed)
    if out.failed:
        calls += kills_of_started(calls, run.entries[done:])
    return calls, run.entries, model.status_of(run, run.entries[-1][1]), out.taken


def settings_of(words):
    workers, maxfail, restarts, chunk, fails, *how = words.split(",")
    mode = how[0] if how else "load"
    chunk = None if chunk == "-" else int(chunk)
    retries, calls = (next((int(word[1:]) for word in how[1:] if word[0] == letter), None) for letter in "rc")
    reorder = "kept" not in how
    settings = model.Settings(mode, int(workers), int(maxfail), int(restarts), chunk, reorder, retries or 0, calls)
    return settings, None if fails == "-" else int(fails)


def line_of(fields, with_calls):
    """A line of a table, by its first three fields."""
    title, words, news = fields[:3]
    settings, fails = settings_of(words)
    calls, entries, status, text = drive(settings, all_news(news), fails)
    told = [show_all(calls)] if with_calls else []
    journal = show_all(entries) if entries else "-"
    return BAR.join([title, words, news, *told, journal, str(status), show_bytes(text)])


def runs_in(path, with_calls):
    """Each line of the file, and what it is by the model, which is the same where it is no run."""
    with open(path, encoding="utf-8") as file:
        for line in file.read().split("\n"):
            body = line.strip().removesuffix(LINE_END).removesuffix('";')
            fields = body.split(BAR)
            if len(fields) < 5:
                yield line, line
                continue
            made = line_of(fields, with_calls).replace("\\", "\\\\").replace('"', '\\"')
            yield line, line.replace(body, made)


def main():
    writes = sys.argv[1:] == ["write"]
    if sys.argv[1:] and not writes:
        sys.exit(__doc__)
    folder = os.path.join(ROOT, "crates", "xd_tests_runs", "src", "drive")
    tables = [(os.path.join(folder, f"{each}.rt"), lambda path: runs_in(path, False)) for each in RUNS]
    tables.append((os.path.join(folder, f"{FAILING}.rt"), lambda path: runs_in(path, True)))
    differ = 0
    for path, lines_in in tables:
        lines = list(lines_in(path))
        changed = [(at, old, new) for at, (old, new) in enumerate(lines, 1) if old != new]
        differ += len(changed)
        runs = sum(1 for old, _ in lines if BAR in old)
        print(f"{os.path.relpath(path, ROOT)}: {runs} runs, {len(changed)} of them not as the model has them")
        for at, old, new in changed[:3]:
            print(f"  line {at} stands as\n    {old.strip()}\n  and is by the model\n    {new.strip()}")
        if writes and changed:
            with open(path, "w", encoding="utf-8") as file:
                file.write("\n".join(new for _, new in lines))
    return 1 if differ and not writes else 0


if __name__ == "__main__":
    sys.exit(main())
