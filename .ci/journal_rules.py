"""Whether a run can have left a journal, or where it stops being one: written from the words of the rules, over the model of a
run in tools/model.py, whose entries these are.

A run can have left a journal where its settings are within the limits of a run; its entries are the starts of the first
workers, and then inputs, each with exactly what follows it; each input may come where it stands; and an Over ends it. Without
workers it is a collection that is a list, each test in suite order up to the one that stops the run, and an Over.

A journal that none can have left is bad at one place: at the first entry with which the entries so far begin no journal that a
run can have left; or, where no entry is such, at the number of its entries.
"""
import pathlib
import re
import sys

sys.path.insert(0, str(pathlib.Path(__file__).resolve().parent.parent / "tools"))

import model

MOST_WORKERS, MOST_RESTARTS, MOST_RETRIES = 32, 1_000, 100
OUT_FAULT = ("Over", ("OutFault",))


class Bad(Exception):
    """The journal is bad at this place."""

    def __init__(self, place):
        super().__init__(f"entry {place}")


class Walk:
    """Goes along the entries of a journal, up to the first one that is not as it has to be."""

    def __init__(self, entries):
        self.entries, self.at = entries, 0

    def here(self):
        return self.entries[self.at] if self.at < len(self.entries) else None

    def expect(self, wanted):
        for entry in wanted:
            if self.here() != entry:
                raise Bad(self.at)
            self.at += 1

    def end(self, over, broken):
        """The end of a run that is over, where it is, or that of one whose output failed; nothing stands after it."""
        self.expect([over] if over is not None and self.here() == over else broken)
        if self.here() is not None:
            raise Bad(self.at)


def are_within(settings):
    """The limits on workers, restarts and retries."""
    least, most = (0, 0) if settings.mode == "local" else (1, MOST_WORKERS)
    return least <= settings.workers <= most and settings.restarts <= MOST_RESTARTS and settings.retries <= MOST_RETRIES


def judge(settings, entries):
    """Goes over a journal; Bad where no run can have left it."""
    if not are_within(settings):
        raise Bad(0)
    (judge_alone if settings.mode == "local" else judge_with_workers)(settings, Walk(entries))


# What is kept of output, by how many bytes are kept before.


def most_kept(spent):
    """Of a failure."""
    return min(model.MOST_OF_ONE, model.MOST_OF_ALL - spent)


def room(outcome, spent):
    """Of a test that ended so."""
    return most_kept(spent) if isinstance(outcome, int) else 0


# Without workers.


def judge_alone(settings, walk):
    first = walk.here()
    if first is None or first[:2] != ("Collected", 0) or first[2] == model.SAME:
        raise Bad(0)
    walk.at, tests, done, failures, spent = 1, len(first[2]), 0, 0, 0
    while done < tests and not is_reached(settings, failures) and walk.here() == ("Run", 0, [done]):
        walk.at += 1
        entry = walk.here()
        if entry is None or entry[:3] != ("Done", 0, done) or len(entry[5]) > room(entry[3], spent):
            raise Bad(walk.at)
        walk.at, done, spent = walk.at + 1, done + 1, spent + len(entry[5])
        failures += isinstance(entry[3], int)
    over = ("Over", ("Completed",)) if done == tests else None
    if is_reached(settings, failures):
        over = ("Over", ("MaxFail", failures))
    walk.end(over, [OUT_FAULT])


def is_reached(settings, failures):
    return settings.maxfail > 0 and failures >= settings.maxfail


# With workers.


def judge_with_workers(settings, walk):
    run = model.begin(settings)
    walk.expect(run.entries)
    while walk.here() is not None and walk.here()[0] in model.SAID:
        if not may_come(run, *walk.here()):
            raise Bad(walk.at)
        before = len(run.entries)
        model.step(run, walk.here())
        walk.at += 1
        walk.expect(run.entries[before + 1:])
    broken = [("Kill", worker) for worker in run.active()] + [OUT_FAULT]
    walk.end(("Over", run.stop or ("Completed",)) if run.is_over() else None, broken)


def may_come(run, kind, worker, *fields):
    """The input may come after the entries of this run."""
    return run.is_active(worker) and MAY_COME[kind](run, worker, *fields)


def may_be_ready(run, worker):
    return worker not in run.ready


def may_collect(run, worker, ids):
    """Same stands for the list that it is compared with, and a list that equals that one does not stand."""
    if worker not in run.ready or worker in run.collected:
        return False
    stands = run.list_key(worker) in run.lists
    if ids == model.SAME:
        return stands
    return model.are_ids(ids) and not (stands and run.lists[run.list_key(worker)][1] == list(ids))


def may_end_test(run, worker, test, outcome, _, output):
    return run.is_head(worker, test) and len(output) <= room(outcome, run.kept)


def may_give_back(run, worker, tests):
    return model.is_answer(run, worker, tests)


def may_finish(run, worker):
    return worker in run.shut and worker in run.collected and not run.held.get(worker)


def may_refuse(run, worker, _):
    return worker not in run.collected


def may_go_down(run, worker, _, output):
    crashes = run.head(worker) is not None and not run.is_retry(worker)
    return len(output) <= (most_kept(run.kept) if crashes else 0)


def may_not_start(run, worker):
    return worker not in run.ready


MAY_COME = {
    "Ready": may_be_ready,
    "Collected": may_collect,
    "Done": may_end_test,
    "Back": may_give_back,
    "Finished": may_finish,
    "Refused": may_refuse,
    "Down": may_go_down,
    "NotStarted": may_not_start,
}


# What failed.


def failed_ids(settings, entries):
    """The ids that the report of a journal calls FAILED or CRASHED, each once, in order."""
    if settings.mode == "local":
        ids = entries[0][2]
        failed = [ids[entry[2]] for entry in entries if entry[0] == "Done" and isinstance(entry[3], int)]
    else:
        lines = model.Report(settings).lines(entries).decode()
        failed = re.findall(r"^\[gw[0-9]+\] (?:FAILED|CRASHED) (.*)$", lines, re.MULTILINE)
    return list(dict.fromkeys(failed))
