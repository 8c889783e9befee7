#!/usr/bin/env python3
"""Draws random runs on workers by the model of a run, and prints them as lines of a table that tests read.

Usage: tools/draw.py SEED COUNT MODE ..   as in: tools/draw.py 2026 40 each worksteal
       tools/draw.py retries SEED COUNT MODE ..   the same with more deaths, and crashed tests that are tried again

A line has a name, the settings and the news; `tools/tables.py write` puts what they come to after them. The workers are
honest but for deaths: each says that it is ready, collects, runs what it was given in order, the last test only once it was
told to shut down, answers a steal, and finishes. Any of them may say its next news first.
"""
import random
import sys

import model

OUTCOMES = ["p", "p", "p", "s", "1", "-1", "3"]
OUTPUTS = ["", "", ",no", ",x/y"]


def draw_ids(rng, mode, count):
    """Ids with files, classes and groups where the mode looks at them."""
    if mode in ("loadscope", "loadfile"):
        return [f"{rng.choice('abc')}::{rng.choice(['', 'K::', 'L::'])}{i}" for i in range(count)]
    if mode == "loadgroup":
        return [f"{rng.choice(['t', 't[x@y]'])}{i}{rng.choice(['', '', '@g', '@h'])}" for i in range(count)]
    return [f"t{i}" for i in range(count)]


class Draw:
    """A run, and the news that made it, in words."""

    def __init__(self, rng, settings):
        self.rng, self.settings, self.run, self.words = rng, settings, model.begin(settings), []
        self.deaths = 8 if settings.retries else 25
        count = rng.choice([1, 2, 3, 5] if settings.retries else [0, 1, 2, 3, 5, 8, 12, 20])
        lists = settings.workers if settings.mode == "each" else 1
        self.ids = [draw_ids(rng, settings.mode, max(0, count - rng.randrange(3) * (slot > 0))) for slot in range(lists)]

    def news(self, word, w, *whats):
        for what in whats:
            model.take(self.run, w, what)
        self.words.append(word)

    def end(self, w):
        if w not in self.run.ready and self.rng.randrange(2):
            self.news(f"N{w}", w, ("NotStarted",))
        else:
            self.news(f"G{w},{self.rng.choice('ecgr')}", w, ("Gone", "Ended"))

    def step(self, w):
        """The next news of this worker; whether it had one."""
        run, rng = self.run, self.rng
        held = run.held.get(w, [])
        if rng.randrange(self.deaths) == 0:
            self.end(w)
        elif w not in run.ready:
            self.news(f"R{w}", w, ("Ready",))
        elif w not in run.collected:
            ids = self.ids[run.slot[w] if self.settings.mode == "each" else 0]
            self.news(f"C{w}:{'|'.join(ids)}" if ids else f"C{w}:", w, ("Collected", list(ids)))
        elif run.steal is not None and run.steal[0] == w and rng.randrange(2):
            asked = run.steal[1]
            given = asked if set(asked) <= set(held[1:]) and rng.randrange(4) else []
            self.news(f"B{w}" + "".join(f",{test}" for test in given), w, ("Back", list(given)))
        elif len(held) > 1 or (held and w in run.shut):
            self.all_of_a_test(w, held[0] - run.base(w))
        elif not held and w in run.shut:
            self.news(f"F{w}", w, ("Finished",))
        else:
            return False
        return True

    def all_of_a_test(self, w, test):
        outcome, ms = self.rng.choice(OUTCOMES), self.rng.choice([5, 99, 100])
        output = self.rng.choice(OUTPUTS)
        log = 2 * self.count() + 2
        piece = [("Piece", log, output[1:].replace("/", "\n").encode())] if output else []
        how = {"p": "passed", "s": "skipped"}.get(outcome) or int(outcome)
        whats = [("LogStart", test, log), *piece, ("LogClosed", log), ("Done", test, how, ms)]
        self.news(f"T{w},{test},{outcome},{ms}{output}", w, *whats)

    def count(self):
        """How many pieces of news there were; a log is named by it."""
        return sum((4 if word.count(",") > 3 else 3) if word[0] == "T" else 1 for word in self.words)

    def all(self):
        while not self.run.is_over():
            workers = self.run.active()
            self.rng.shuffle(workers)
            if not any(self.step(w) for w in workers):
                break
        return " ".join(self.words)


def draw(rng, mode, is_retried):
    """The settings and the news of one run."""
    chunk = rng.choice([None, None, 1, 3]) if mode == "load" else None
    workers, maxfail, restarts = rng.randrange(1, 5), rng.choice([0, 0, 0, 1, 2]), rng.choice([0, 2, 8, 8])
    retries = rng.choice([1, 1, 2, 3]) if is_retried else 0
    settings = model.Settings(mode, workers, maxfail, restarts, chunk, rng.randrange(3) > 0, retries)
    words = [workers, maxfail, restarts, "-" if chunk is None else chunk, "-", mode]
    how = [] if settings.reorder else ["kept"]
    return ",".join(map(str, words + how + ([f"r{retries}"] if retries else []))), Draw(rng, settings).all()


def main():
    is_retried = sys.argv[1:2] == ["retries"]
    words = sys.argv[2:] if is_retried else sys.argv[1:]
    if len(words) < 3:
        sys.exit(__doc__)
    rng = random.Random(int(words[0]))
    for i in range(int(words[1])):
        for mode in words[2:]:
            settings, news = draw(rng, mode, is_retried)
            print(f"     {mode} {i} ~ {settings} ~ {news} ~  ~  ~ \\n\\")


if __name__ == "__main__":
    main()
