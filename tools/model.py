"""A model of a run with workers, written apart from the program and from its definitions.

It knows the rules of pytest-xdist's controller and of its modes as this project has them (the comments in
crates/xd_run/specs say them): which entry a piece of news makes, which outputs follow an entry, when a run stops and
is over, and what is printed of it. `tables.py` compares the tables that the tests read with what this model says of
them, or writes them anew.

Entries are tuples, and tests, workers and slots are counted from 0.

  What a worker said:  ('Ready', w)  ('Collected', w, ids or SAME)  ('Done', w, test, outcome, ms, output)
      ('Back', w, tests)  ('Finished', w)  ('Refused', w, text)  ('Down', w, cause, output)  ('NotStarted', w)
  What follows it:     ('Start', w, slot)  ('Run', w, tests)  ('RunAll', w)  ('Steal', w, tests)  ('Shutdown', w)
      ('Kill', w)  ('Over', stop)

An outcome is 'passed', 'skipped' or the number of a failure. In mode each a worker's test is one item of its slot; in the
other modes a test and its item are one.
"""
from dataclasses import dataclass, field
from typing import Optional

SAME = "same"
SCOPES = "loadscope", "loadfile", "loadgroup"
ENOUGH = 2
LONG_MS = 100
MOST_TESTS = 50_000
MOST_OF_ONE = 8_192
MOST_OF_ALL = 67_108_864


@dataclass
class Settings:
    mode: str
    workers: int
    maxfail: int = 0  # 0 is no limit
    restarts: int = 0
    chunk: Optional[int] = None
    reorder: bool = True
    retries: int = 0  # of a test at which a worker is lost
    calls: Optional[int] = None  # of its mode, which then runs out of memory


@dataclass
class Log:
    """The last log of a worker: whose output it has, whether it is open, and its bytes so far."""

    number: int
    test: int
    is_open: bool = True
    output: bytes = b""


@dataclass
class Run:
    """What is known after a first part of a journal."""

    settings: Settings
    entries: list = field(default_factory=list)
    slot: dict = field(default_factory=dict)  # of each worker that was started, in that order
    gone: set = field(default_factory=set)
    ready: set = field(default_factory=set)
    collected: set = field(default_factory=set)
    shut: set = field(default_factory=set)
    rota: list = field(default_factory=list)
    held: dict = field(default_factory=dict)
    pool: list = field(default_factory=list)
    reports: list = field(default_factory=list)  # ('Result', w, item, outcome) or ('Crash', w, item)
    lists: dict = field(default_factory=dict)  # the collection that others are compared with, and whose it is
    sizes: list = field(default_factory=list)
    queue: list = field(default_factory=list)  # units in the pool, of the scope modes
    units: dict = field(default_factory=dict)  # the units that each worker was given
    logs: dict = field(default_factory=dict)
    steal: Optional[tuple] = None
    is_shared: bool = False
    failures: int = 0
    deaths: int = 0
    lost: list = field(default_factory=list)  # the heads of lost workers
    kept: int = 0
    stop: Optional[tuple] = None
    marked: bool = False  # nothing is left to hand out
    calls: int = 0  # of the mode so far

    # Who is there.

    def is_active(self, w):
        return w in self.slot and w not in self.gone

    def active(self):
        return sorted(w for w in self.slot if w not in self.gone)

    def is_shutting(self):
        return self.stop is not None or self.marked

    def is_over(self):
        return self.is_shutting() and not self.active()

    def list_key(self, w):
        return self.slot[w] if self.settings.mode == "each" else 0

    # Tests and items.

    def base(self, w):
        return sum(self.sizes[: self.slot[w]]) if self.settings.mode == "each" else 0

    def items(self, w, tests):
        return [self.base(w) + test for test in tests]

    def slot_items(self, w):
        return self.items(w, range(self.sizes[self.list_key(w)]))

    def head(self, w):
        return next(iter(self.held.get(w, [])), None)

    def is_head(self, w, test):
        """A number beyond the collection is no head."""
        size = self.sizes[self.list_key(w)] if self.sizes else 0
        return test < size and self.head(w) == self.base(w) + test

    # What entries do.

    def difference(self, w, ids):
        """Whose collection this one differs from, and the first place, if it does."""
        if ids == SAME or self.list_key(w) not in self.lists:
            return None
        other, first = self.lists[self.list_key(w)]
        if first == ids:
            return None
        unequal = (i for i, (a, b) in enumerate(zip(first, ids)) if a != b)
        return other, next(unequal, min(len(first), len(ids)))

    def halt(self, stop):
        self.stop = self.stop or stop

    def count_failure(self):
        self.failures += 1

    def reach_limit(self):
        if self.settings.maxfail and self.failures >= self.settings.maxfail:
            self.halt(("MaxFail", self.failures))

    def give(self, w, items):
        given = set(items)
        self.pool = [item for item in self.pool if item not in given]
        self.held[w] = self.held[w] + items
        self.units[w].append(items)
        if items in self.queue:
            self.queue.remove(items)

    def share(self):
        self.is_shared = True
        if self.settings.mode == "each":
            self.sizes = [len(self.lists[slot][1]) for slot in range(self.settings.workers)]
        else:
            self.sizes = [len(self.lists[0][1])]
        self.pool = list(range(sum(self.sizes)))
        if self.settings.mode in SCOPES:
            self.queue = units_of(self.settings, self.lists[0][1])

    def collect(self, w, ids):
        self.collected.add(w)
        difference = self.difference(w, ids)
        self.lists.setdefault(self.list_key(w), (w, [] if ids == SAME else list(ids)))
        if w in self.shut:
            return
        if difference is not None:
            self.halt(("Unequal", w, *difference))
            return
        self.rota.append(w)
        self.held[w], self.units[w] = [], []
        if not self.is_shared and len(self.rota) == self.settings.workers:
            self.share()

    def is_retry(self, w):
        """Whether the head of the worker is tried again if the worker is lost next."""
        head = self.head(w)
        is_replaced = self.stop is None and self.deaths + 1 <= self.settings.restarts
        return head is not None and is_replaced and self.lost.count(head) < self.settings.retries

    def lose(self, w):
        """The worker is lost: its head is a crash, or is tried again; what it held besides goes to the end of the pool."""
        is_retry, held = self.is_retry(w), self.held.pop(w, [])
        self.gone.add(w)
        self.deaths += 1
        if held:
            self.release(w, held[0], is_retry)
            self.pool += held[1:]
            for unit in self.units[w]:
                left = [item for item in unit if item in held[1:]]
                self.queue += [left] if left else []
        if w in self.rota:
            self.rota.remove(w)
        if self.steal is not None and self.steal[0] == w:
            self.steal = None
        self.reach_limit()
        if self.deaths > self.settings.restarts:
            self.halt(("Restarts", w, self.settings.restarts))

    def release(self, w, head, is_retry):
        """The head of a lost worker: the first of the pool, and a unit of its own, where it is tried again."""
        self.lost.append(head)
        if is_retry:
            self.pool = [head] + self.pool
            self.queue = [[head]] + self.queue
        else:
            self.reports.append(("Crash", w, head))
            self.count_failure()

    def push(self, entry):
        self.entries.append(entry)
        kind, w, *rest = entry
        if kind == "Start":
            self.slot[w] = rest[0]
            self.marked = False
        elif kind == "Ready":
            self.ready.add(w)
        elif kind == "Collected":
            self.collect(w, rest[0])
        elif kind == "Done":
            item = self.base(w) + rest[0]
            self.held[w].remove(item)
            self.reports.append(("Result", w, item, rest[1]))
            self.kept += len(rest[3])
            if isinstance(rest[1], int):
                self.count_failure()
                self.reach_limit()
        elif kind == "Back":
            items = self.items(w, rest[0])
            self.held[w] = [item for item in self.held[w] if item not in items]
            self.pool += items
            self.steal = None
        elif kind == "Finished":
            self.gone.add(w)
            if w in self.rota:
                self.rota.remove(w)
        elif kind == "Refused":
            self.gone.add(w)
            self.halt(("CollectError", w))
        elif kind == "Down":
            self.kept += len(rest[1])
            self.lose(w)
        elif kind == "NotStarted":
            self.lose(w)
        elif kind == "Run":
            self.give(w, self.items(w, rest[0]))
        elif kind == "RunAll":
            self.give(w, self.slot_items(w))
        elif kind == "Steal":
            self.steal = w, list(rest[0])
        elif kind == "Shutdown":
            self.shut.add(w)

    def mark(self):
        """After a whole rule: whether nothing is left to hand out from now on."""
        is_done = not self.pool and self.steal is None and all(len(self.held[w]) < ENOUGH for w in self.rota)
        if self.is_shared and is_done and not self.is_shutting():
            self.marked = True
            return True
        return False


def scope_of(mode, test_id):
    if mode == "loadscope":
        return test_id.rsplit("::", 1)[0]
    if mode == "loadfile":
        return test_id.split("::", 1)[0]
    at = test_id.rfind("@")
    return test_id[at + 1 :] if at > test_id.rfind("]") else test_id


def units_of(settings, ids):
    """The tests of each scope, in the order in which they are handed out."""
    scopes = {}
    for test, test_id in enumerate(ids):
        scopes.setdefault(scope_of(settings.mode, test_id), []).append(test)
    units = list(scopes.values())
    return sorted(units, key=lambda unit: -len(unit)) if settings.reorder else units


class OutOfMemory(Exception):
    """A mode ran out of memory, with which its run ends."""


class Rule:
    """Puts outputs at the end of a journal, one by one."""

    def __init__(self, run):
        self.run = run

    def say(self, *entry):
        self.run.push(entry)

    def shut(self, w):
        if w not in self.run.shut:
            self.say("Shutdown", w)

    def shut_all(self):
        for w in self.run.active():
            if w in self.run.ready:
                self.shut(w)

    def give(self, w, items):
        if items:
            base = self.run.base(w)
            self.say("Run", w, [item - base for item in items])

    def give_front(self, w, count):
        self.give(w, self.run.pool[:count])

    def refill_each(self, refill):
        for w in list(self.run.rota):
            refill(w)


class LoadRule(Rule):
    def chunk(self):
        chunk = self.run.settings.chunk
        return sum(self.run.sizes) if chunk is None else chunk

    def share(self):
        tests, workers = len(self.run.pool), list(self.run.rota)
        if tests < ENOUGH * len(workers):
            for w in workers * ENOUGH:
                self.give_front(w, 1)
        else:
            for w in workers:
                self.give_front(w, max(min(tests // len(workers) // 4, self.chunk()), ENOUGH))
        if not self.run.pool:
            for w in workers:
                self.shut(w)

    def refill(self, w, ms=0):
        if w in self.run.shut:
            return
        if not self.run.pool:
            self.shut(w)
            return
        held, pool, workers = len(self.run.held[w]), len(self.run.pool), len(self.run.rota)
        low, high = max(ENOUGH, pool // workers // 4), max(ENOUGH, pool // workers // 2)
        if held < low and not (ms >= LONG_MS and held >= ENOUGH):
            self.give_front(w, min(high - held, max(ENOUGH - held, self.chunk())))

    def joined(self, w):
        self.refill_each(self.refill)

    def done(self, w, ms):
        self.refill(w, ms)

    def back(self, w):
        pass

    def died(self):
        self.refill_each(self.refill)


class StealRule(Rule):
    def idle(self):
        return [w for w in self.run.rota if w not in self.run.shut and len(self.run.held[w]) < ENOUGH]

    def balance(self):
        idle = self.idle()
        if not idle:
            return
        for i, w in enumerate(idle):
            self.give_front(w, len(self.run.pool) // (len(idle) - i))
        idle = self.idle()
        if not idle or self.run.steal is not None:
            return
        open_workers = [w for w in self.run.rota if w not in self.run.shut]
        victim = max(open_workers, key=lambda w: len(self.run.held[w]))
        held = self.run.held[victim]
        count = min(len(held) // 2, max(0, len(held) - ENOUGH))
        if count:
            self.say("Steal", victim, held[-count:])
        else:
            for w in idle:
                self.shut(w)

    def share(self):
        if self.run.pool:
            self.balance()

    def joined(self, w):
        self.balance()

    def done(self, w, ms):
        self.balance()

    def back(self, w):
        self.balance()

    def died(self):
        self.balance()


class ScopeRule(Rule):
    def share(self):
        if not self.run.pool:
            return
        workers = list(self.run.rota)
        served, surplus = workers[: len(self.run.queue)], workers[len(self.run.queue) :]
        for w in reversed(surplus):
            self.shut(w)
        for w in served:
            self.give(w, self.run.queue[0])
        for w in served:
            self.refill(w)
        if not self.run.queue:
            for w in workers:
                self.shut(w)

    def refill(self, w):
        if w in self.run.shut:
            return
        if not self.run.queue:
            self.shut(w)
            return
        if len(self.run.held[w]) > ENOUGH:
            return
        self.give(w, self.run.queue[0])
        while self.run.queue and len(self.run.held[w]) < ENOUGH:
            self.give(w, self.run.queue[0])

    def joined(self, w):
        self.refill_each(self.refill)

    def done(self, w, ms):
        self.refill(w)

    def back(self, w):
        pass

    def died(self):
        self.refill_each(self.refill)


class EachRule(Rule):
    def share(self):
        for w in list(self.run.rota):
            self.say("RunAll", w)
            self.shut(w)

    def joined(self, w):
        own = set(self.run.slot_items(w))
        self.give(w, [item for item in self.run.pool if item in own])
        self.shut(w)

    def done(self, w, ms):
        pass

    def back(self, w):
        pass

    def died(self):
        pass


RULES = {"load": LoadRule, "worksteal": StealRule, "each": EachRule, **dict.fromkeys(SCOPES, ScopeRule)}


def begin(settings):
    run = Run(settings)
    for w in range(settings.workers):
        run.push(("Start", w, w))
    return run


def ask(run, call, *words):
    """A call of the mode: the share, a worker that joined or died, a test that is done, or tests that came back."""
    if run.calls == run.settings.calls:
        raise OutOfMemory
    run.calls += 1
    call(*words)


def step(run, entry):
    """Puts what a worker said at the end of the journal, and what follows it after that."""
    kind, w, *rest = entry
    was_stopped, was_shared, was_shut = run.stop is not None, run.is_shared, w in run.shut
    run.push(entry)
    rule = RULES[run.settings.mode](run)
    if kind == "Down":
        rule.say("Kill", w)
    if run.stop is not None:
        if not was_stopped:
            rule.shut_all()
        elif kind == "Ready":
            rule.shut(w)
    elif kind == "Ready":
        if run.is_shutting():
            rule.shut(w)
    elif kind == "Collected":
        if not was_shut and was_shared:
            ask(run, rule.joined, w)
        elif not was_shut and run.is_shared:
            ask(run, rule.share)
    elif kind == "Done":
        ask(run, rule.done, w, rest[2])
    elif kind == "Back":
        ask(run, rule.back, w)
    elif kind in ("Down", "NotStarted"):
        if run.is_shared:
            ask(run, rule.died)
        rule.say("Start", len(run.slot), run.slot[w])
    if run.mark():
        rule.shut_all()


def close(run, out_failed=False):
    """The end of a journal: the stop of a run that is over, or that the output failed."""
    if out_failed:
        for w in run.active():
            run.push(("Kill", w))
    run.push(("Over", ("OutFault",) if out_failed else run.stop or ("Completed",)))


# What news mean.


def are_ids(ids):
    is_plain = all(test_id and all(ord(c) >= 0x20 and ord(c) != 0x7F for c in test_id) for test_id in ids)
    return is_plain and len(ids) <= MOST_TESTS and len(set(ids)) == len(ids)


def is_answer(run, w, tests):
    """An answer to the open steal: none of the tests, or all that were asked for while they are held after the head."""
    if run.steal is None or run.steal[0] != w:
        return False
    after_head = run.held.get(w, [])[1:]
    return not tests or (list(tests) == run.steal[1] and all(item in after_head for item in run.items(w, tests)))


def output_of(run, w):
    """What is kept of the output so far of the test at the worker's head."""
    log = run.logs.get(w)
    if log is None or not run.is_head(w, log.test):
        return b""
    return log.output[: min(MOST_OF_ONE, MOST_OF_ALL - run.kept)]


def output_of_lost(run, w):
    """What a Down of the worker keeps of it: nothing where the test is tried again."""
    return b"" if run.is_retry(w) else output_of(run, w)


def is_breach(run, w, what):
    kind, *rest = what
    log = run.logs.get(w)
    if kind == "Ready":
        return w in run.ready
    if kind == "Collected":
        return w not in run.ready or w in run.collected or not are_ids(rest[0])
    if kind == "LogStart":
        test, number = rest
        is_low = number % 2 == 1 or number <= (log.number if log else 0)
        return not run.is_head(w, test) or (log is not None and log.test == test) or is_low
    if kind in ("Piece", "LogClosed"):
        return log is None or not log.is_open or log.number != rest[0]
    if kind == "Done":
        return not run.is_head(w, rest[0]) or log is None or log.test != rest[0] or log.is_open
    if kind == "Back":
        return not is_answer(run, w, rest[0])
    if kind == "Finished":
        return w not in run.shut or w not in run.collected or bool(run.held.get(w))
    if kind == "Closed":
        return rest[0] is None or w in run.collected
    if kind == "NotStarted":
        return w in run.ready
    return kind == "Stray"


def meaning(run, w, what):
    """The entry that a piece of news of an active worker makes, or None."""
    kind, *rest = what
    if kind == "Gone":
        return "Down", w, rest[0], output_of_lost(run, w)
    if is_breach(run, w, what):
        return "Down", w, "Breach", output_of_lost(run, w)
    if kind == "Collected":
        is_same = run.list_key(w) in run.lists and run.difference(w, rest[0]) is None
        return "Collected", w, SAME if is_same else rest[0]
    if kind == "Done":
        test, outcome, ms = rest
        return "Done", w, test, outcome, ms, output_of(run, w) if isinstance(outcome, int) else b""
    if kind == "Closed":
        return "Refused", w, rest[0]
    if kind in ("LogStart", "Piece", "LogClosed"):
        return None
    return kind, w, *rest


def follow_log(run, w, what):
    kind, *rest = what
    log = run.logs.get(w)
    if kind == "LogStart":
        run.logs[w] = Log(number=rest[1], test=rest[0])
    elif kind == "Piece" and log:
        log.output += rest[1]
    elif kind == "LogClosed" and log:
        log.is_open = False


def take(run, w, what):
    """A piece of news of an active worker."""
    entry = meaning(run, w, what)
    follow_log(run, w, what)
    if entry is not None:
        step(run, entry)


# What is printed.

CAUSES = {
    "Ended": "Not properly terminated",
    "Cut": "message cut short",
    "Garbled": "bad message",
    "ReadFault": "read fault",
    "SendFault": "send fault",
    "Breach": "rules broken",
}
REASONS = {-1: "killed by a signal", -2: "could not be started", -3: "could not be read"}
WORDS = {"passed": "PASSED", "skipped": "SKIPPED"}


def plain(text):
    return "".join("?" if ord(c) < 0x20 or ord(c) == 0x7F else c for c in text)


def name(w):
    return f"gw{w}"


def id_at(run, w, test):
    ids = run.lists.get(run.list_key(w), (None, []))[1]
    return plain(ids[test]) if test < len(ids) else ""


def lines_of(run, entry):
    """The lines of an entry, after which the run is as it stands there."""
    kind, w, *rest = entry
    if kind == "Start":
        before = [v for v in run.slot if run.slot[v] == rest[0]]
        return [f"replacing crashed worker {name(before[-1])}"] if before else []
    if kind == "Done":
        return [f"[{name(w)}] {WORDS.get(rest[1], 'FAILED')} {id_at(run, w, rest[0])}"]
    if kind == "NotStarted":
        return [f"[{name(w)}] node down: not started"]
    if kind == "Down":
        head, word = run.head(w), "RETRY" if run.is_retry(w) else "CRASHED"
        told = [] if head is None else [f"[{name(w)}] {word} {id_at(run, w, head - run.base(w))}"]
        return [f"[{name(w)}] node down: {CAUSES[rest[0]]}", *told]
    return []


def block_of(run, entry):
    """The block of a failed report, as bytes."""
    kind, w, *rest = entry
    head = run.head(w)
    if kind == "Done" and isinstance(rest[1], int):
        test_id, reason, output = id_at(run, w, rest[0]), REASONS.get(rest[1], f"status {rest[1]}"), rest[3]
    elif kind == "Down" and head is not None and not run.is_retry(w):
        test_id = id_at(run, w, head - run.base(w))
        reason, output = f"worker '{name(w)}' crashed while running '{test_id}'", rest[1]
    else:
        return b""
    text = f"==== [{name(w)}] {test_id} ====\n{reason}\n".encode()
    if output:
        text += f"---- output: {len(output)} bytes ----\n".encode() + output
        text += b"" if output.endswith(b"\n") else b"\n"
    return text


def stop_line(stop, refusals):
    if stop is None:
        return []
    kind, *rest = stop
    if kind == "MaxFail":
        return [f"stopping after {rest[0]} failures"]
    if kind == "Restarts":
        is_none = rest[1] == 0
        return [f"worker {name(rest[0])} crashed and worker restarting disabled" if is_none else f"maximum crashed workers reached: {rest[1]}"]
    if kind == "Unequal":
        return [f"different tests collected by {name(rest[1])} and {name(rest[0])}, first at place {rest[2]}"]
    return [f"collection failed on {name(rest[0])}: {plain(refusals[rest[0]])}"]


SAID = "Ready", "Collected", "Done", "Back", "Finished", "Refused", "Down", "NotStarted"


class Report:
    """Follows a journal while it grows, and gives what is printed of it, as bytes."""

    def __init__(self, settings):
        self.run, self.blocks, self.refusals = Run(settings), b"", {}

    def lines(self, entries):
        """The lines of the entries that come next."""
        return "".join(f"{line}\n" for entry in entries for line in self.lines_of(entry)).encode()

    def lines_of(self, entry):
        run = self.run
        lines, was_shared = lines_of(run, entry), run.is_shared
        self.blocks += block_of(run, entry)
        if entry[0] == "Refused":
            self.refusals.setdefault(entry[1], entry[2])
        if entry[0] in SAID:
            run.mark()
        run.push(entry)
        if run.is_shared and not was_shared:
            return [f"{sum(run.sizes)} tests on {run.settings.workers} workers, {run.settings.mode}"]
        return lines

    def tail(self):
        """What follows the last line: the blocks, the stop, and the counts."""
        counts = {"failed": 0, "passed": 0, "skipped": 0}
        for report in self.run.reports:
            outcome = report[3] if report[0] == "Result" else "failed"
            counts[outcome if outcome in counts else "failed"] += 1
        summary = ", ".join(f"{count} {word}" for word, count in counts.items() if count) or "no tests ran"
        lines = [*stop_line(self.run.stop, self.refusals), summary]
        return self.blocks + "".join(f"{line}\n" for line in lines).encode()


def status_of(run, stop):
    """The exit status of a run that ended so."""
    if stop[0] == "Completed":
        failed = any(report[0] == "Crash" or isinstance(report[3], int) for report in run.reports)
        return 1 if failed else 0 if sum(run.sizes) else 5
    return {"OutFault": 3, "MaxFail": 2, "CollectError": 2, "Restarts": 1, "Unequal": 1}[stop[0]]
