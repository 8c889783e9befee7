#!/usr/bin/env python3
"""Times whole runs over a hub over lists, with an output that drops what it takes: 50,000 tests beside 5,000 of the same
kind. Goal: at most 12 times the time, and 13 in mode load with a chunk of 1.

- Mode load on four workers, by its own batches, and with a chunk of 1, where no worker holds more than two tests: what grows
  there does not come of the lists of what workers hold.
- Mode loadfile on four workers: all tests in one file, each in a file of its own, and 50 in each file.
- Mode worksteal on eight workers that are equally fast, and on one slow worker beside seven that end 20 tests in the time of
  one of its own.
- Mode each on 32 workers, each with all the tests: 1,600,000 reports beside 160,000. Its memory is counted, too: what the
  run takes beside the news, of which the hub keeps a copy.

Usage: bench/drive.py [small]   from any folder; with `small` a tenth of the tests, and two runs of each. It builds a small
program over xd_drive in a temporary repository with rt, as rt run builds it. The program reads which worker ends which test,
in order, makes the news of honest workers, and times one call of drive. It has to print the line of each test, with the
worker that ended it: else the order here is not the mode's. The runs of the two sizes alternate, and the best of each counts.

The ids are those that test files have. None could be made that slow a run down: they are kept in an ordered map of std, whose
cost for each id is a logarithm of how many there are, whatever they are.
"""
import collections
import dataclasses
import os
import subprocess
import sys
import tempfile
from typing import Optional

import shared

FEW, MANY = 5_000, 50_000
ENOUGH = 2

PROGRAM = """//! Times a run by a file, or counts the memory of its news alone. The file's first line has the mode, the workers, the
//! chunk or -, the tests, and how many of them are in one file. Each further line has a worker and the test that it ended,
//! or, after the word back, the tests that it gives back.
#![tactic(auto)]

ghost use Rattle.std.specs.Prelude.{◌≡◌, IfSome, None};
ghost use Rattle.xd_run.specs.State.{no_one};
ghost use Rattle.xd_session.specs.Stands.{CanBegin};

use std::alloc::Global;
use std::collections::VecDeque;
use std::sync::Wait;
use std::time::{Clock, Instant};
use std::{env, fs, io};
use xd_drive::{ListedHub, NoWitness, drive};
use xd_edge::{Failed, Indices, ModeKind, OutOfMemory, Sink, Text, Texts};
use xd_journal::{News, Outcome, Settings, What};
use xd_ledger::Mode;
use xd_load::{Each, Load};
use xd_scope::Scope;
use xd_session::Session;
use xd_steal::Steal;

// Counts the bytes that it drops.
#[derive(Drop)]
struct Dropping {
    bytes: u64,
}

impl Sink for Dropping {
    ghost faults = { λ s. 0 };

    ghost sunk = { λ s. None };

    fn write(&mut self, piece: &[u8]) -> Result<usize, Failed> {
        self.bytes = self.bytes.saturating_add(piece.len() as u64);
        Ok(piece.len())
    }

    fn flush(&mut self) -> Result<(), Failed> {
        Ok(())
    }

    fn close(&mut self) -> Result<(), Failed> {
        Ok(())
    }
}

#[derive(Clone, Copy, Drop)]
struct Asked {
    settings: Settings,
    tests: u32,
    in_file: u32,
}

fn mode_of(word: &str) -> Option<ModeKind> {
    match word {
        "each" => Some(ModeKind::Each),
        "load" => Some(ModeKind::Load),
        "loadfile" => Some(ModeKind::LoadFile),
        "worksteal" => Some(ModeKind::WorkSteal),
        _ => None,
    }
}

fn asked_in(line: &str) -> Option<Asked>
    ensures { IfSome result (λ a. CanBegin a.settings) }
{
    let mut words = line.split(' ');
    let mode = mode_of(words.next()?)?;
    let workers = words.next()?.parse::<u32>().ok()?;
    let chunk = words.next()?.parse::<u32>().ok();
    let tests = words.next()?.parse::<u32>().ok()?;
    let in_file = words.next()?.parse::<u32>().ok()?;
    if workers < 1 || workers > 32 || mode == ModeKind::Local {
        return None;
    }
    let settings = Settings {
        mode,
        workers,
        maxfail: 0,
        restarts: 0,
        retries: 0,
        chunk,
        reorder: true,
    };
    Some(Asked {
        settings,
        tests,
        in_file,
    })
}

fn ids(alloc: Global, asked: &Asked) -> Result<Texts, OutOfMemory> {
    let mut items = Vec::new(alloc);
    for test in 0..asked.tests {
        let file = test.checked_div(asked.in_file).unwrap_or(0);
        items.push(Text::from_string(format!(in alloc; "f{file}.py::n{test}")?))?;
    }
    Ok(Texts { items })
}

fn say(news: &mut VecDeque<News>, worker: u32, what: What) -> Result<(), OutOfMemory> {
    news.push_back(News { worker, what })?;
    Ok(())
}

fn number(word: &str) -> u32 {
    word.parse::<u32>().ok().unwrap_or(0)
}

fn indices(alloc: Global, words: &str) -> Result<Indices, OutOfMemory> {
    let mut items = Vec::new(alloc);
    for word in words.split(' ') {
        items.push(number(word))?;
    }
    Ok(Indices { items })
}

// What a worker says by one line.
fn say_line(
    alloc: Global,
    news: &mut VecDeque<News>,
    line: &str,
    log: u32,
) -> Result<(), OutOfMemory> {
    let (worker, rest) = line.split_once(' ').unwrap_or(("", ""));
    let worker = number(worker);
    if let Some(tests) = rest.strip_prefix("back ") {
        return say(news, worker, What::Back(indices(alloc, tests)?));
    }
    let index = number(rest);
    say(news, worker, What::LogStart { index, log })?;
    say(news, worker, What::LogClosed { log })?;
    let outcome = Outcome::Passed;
    let ms = 5;
    say(news, worker, What::Done { index, outcome, ms })
}

fn news_of(alloc: Global, asked: &Asked, order: &str) -> Result<VecDeque<News>, OutOfMemory> {
    let mut news = VecDeque::new(alloc);
    let workers = asked.settings.workers;
    for worker in 0..workers {
        say(&mut news, worker, What::Ready)?;
    }
    for worker in 0..workers {
        say(&mut news, worker, What::Collected(ids(alloc, asked)?))?;
    }
    let mut log = 0_u32;
    for line in order.lines() {
        log = log.wrapping_add(2);
        say_line(alloc, &mut news, line, log)?;
    }
    for worker in 0..workers {
        say(&mut news, worker, What::Finished)?;
    }
    Ok(news)
}

// The microseconds of a run, the entries of its journal, and the bytes that it printed.
#[derive(Drop)]
struct Ran {
    micros: u128,
    entries: usize,
    bytes: u64,
}

fn run<R: Wait + Clock>(
    rt: &R,
    alloc: Global,
    asked: &Asked,
    news: VecDeque<News>,
) -> Result<Option<Ran>, OutOfMemory>
    requires begins { CanBegin asked.now.settings }
{
    let settings = asked.settings;
    let Settings {
        mode,
        chunk,
        reorder,
        ..
    } = settings;
    match mode {
        ModeKind::Each => run_in(rt, alloc, settings, Each::new(alloc), news),
        ModeKind::Load => run_in(rt, alloc, settings, Load::new(chunk), news),
        ModeKind::LoadFile => {
            run_in(
                rt,
                alloc,
                settings,
                Scope::new(alloc, mode, reorder),
                news,
            )
        }
        ModeKind::WorkSteal => run_in(rt, alloc, settings, Steal::new(), news),
        _ => Ok(None),
    }
}

fn run_in<R: Wait + Clock, M: Mode>(
    rt: &R,
    alloc: Global,
    settings: Settings,
    mode: M,
    news: VecDeque<News>,
) -> Result<Option<Ran>, OutOfMemory>
    requires begins { CanBegin settings }
    requires fresh { M.stands mode (no_one settings).plan }
{
    let session = Session::new(alloc, settings, mode)?;
    let nobody = Indices {
        items: Vec::new(alloc),
    };
    let mut hub = ListedHub::new(alloc, news, nobody);
    let mut out = Dropping { bytes: 0 };
    let Ok(begun) = Instant::now(rt) else {
        return Ok(None);
    };
    let run = drive(rt, alloc, session, &mut hub, &mut out, &mut NoWitness)?;
    let Ok(took) = begun.elapsed(rt) else {
        return Ok(None);
    };
    Ok(Some(Ran {
        micros: took.as_micros(),
        entries: run.journal.entries.len(),
        bytes: out.bytes,
    }))
}

fn main(rt: HostRuntime) -> io::Result<()> {
    let alloc = rt.alloc();
    let mut words = env::args(&rt)?.skip(1);
    let (Some(what), Some(path)) = (words.next(), words.next()) else {
        return Ok(());
    };
    let text = fs::read_to_string(&rt, path.as_str())?;
    let (head, order) = text.as_str().split_once('\\n').unwrap_or(("", ""));
    let Some(asked) = asked_in(head) else {
        return Ok(());
    };
    let Ok(news) = news_of(alloc, &asked, order) else {
        return Ok(());
    };
    if what.as_str() == "run" {
        if let Ok(Some(ran)) = run(&rt, alloc, &asked, news) {
            println!(rt; "took {} {} {}", ran.micros, ran.entries, ran.bytes)?;
        }
    } else if let Ok(_copies) = news_of(alloc, &asked, order) {
        println!(rt; "listed {}", news.len())?;
    }
    let status = fs::read_to_string(&rt, "/proc/self/status")?;
    for line in status.as_str().lines() {
        if let Some(peak) = line.strip_prefix("VmHWM:") {
            println!(rt; "peak {}", peak.trim())?;
        }
    }
    Ok(())
}
"""


ANSWERS = """use Rattle.std.proofs.Common.{refl}
use Rattle.drive_bench.proofs.run.Goals as goal

pub run_in-requires-clause-fresh : goal.run_in-requires-clause-fresh
run_in-requires-clause-fresh g c = c.new.ensures _ c.in-Each.is refl refl

pub run_in-requires-in-Load-clause-fresh : goal.run_in-requires-in-Load-clause-fresh
run_in-requires-in-Load-clause-fresh g c = c.new-in-Load.ensures _ c.in-Load.is refl refl refl

pub run_in-requires-in-LoadFile-clause-fresh : goal.run_in-requires-in-LoadFile-clause-fresh
run_in-requires-in-LoadFile-clause-fresh g c = c.new-in-LoadFile.ensures _ refl refl refl refl refl

pub run_in-requires-in-WorkSteal-clause-fresh : goal.run_in-requires-in-WorkSteal-clause-fresh
run_in-requires-in-WorkSteal-clause-fresh g c = c.new-in-WorkSteal.ensures _ c.in-WorkSteal.is refl
"""


# What each mode hands out, by its rule.


class Dealt:
    """What workers hold, which of them were told to end, and the tests of the pool, while a run goes on."""

    def __init__(self, tests, workers):
        self.tests, self.workers = tests, workers
        self.pool = collections.deque(range(tests))
        self.held = [collections.deque() for _ in range(workers)]
        self.shut = [False] * workers

    def give(self, worker, count):
        for _ in range(min(count, len(self.pool))):
            self.held[worker].append(self.pool.popleft())

    def may_end(self, worker):
        """A worker runs its last test only where it was told to end."""
        return len(self.held[worker]) >= (1 if self.shut[worker] else ENOUGH)

    def is_finished(self):
        return not self.pool and all(len(held) < ENOUGH for held in self.held)


class Load(Dealt):
    def __init__(self, tests, workers, chunk=None):
        super().__init__(tests, workers)
        self.chunk = chunk or tests

    def share(self):
        for worker in range(self.workers):
            self.give(worker, max(min(self.tests // self.workers // 4, self.chunk), ENOUGH))

    def done(self, worker):
        left, held = len(self.pool), len(self.held[worker])
        if left == 0:
            self.shut[worker] = True
        elif held < max(ENOUGH, left // self.workers // 4):
            high = max(ENOUGH, left // self.workers // 2)
            self.give(worker, min(high - held, max(ENOUGH - held, self.chunk)))
        return []


class LoadFile(Dealt):
    def __init__(self, tests, workers, in_file):
        super().__init__(tests, workers)
        self.in_file = in_file

    def share(self):
        files = -(-self.tests // self.in_file)
        for worker in range(self.workers):
            self.shut[worker] = worker >= files
            if worker < files:
                self.give(worker, self.in_file)
        for worker in range(self.workers):
            self.done(worker)

    def done(self, worker):
        if not self.pool:
            self.shut[worker] = True
        if not self.shut[worker] and len(self.held[worker]) <= ENOUGH:
            self.give(worker, self.in_file)
            while self.pool and len(self.held[worker]) < ENOUGH:
                self.give(worker, self.in_file)
        return []


class Steal(Dealt):
    def share(self):
        self.done(None)

    def idle(self):
        return [w for w in range(self.workers) if not self.shut[w] and len(self.held[w]) < ENOUGH]

    def done(self, _worker):
        """What is given back by those who are asked for tests."""
        backs = []
        while idle := self.idle():
            for i, worker in enumerate(idle):
                self.give(worker, len(self.pool) // (len(idle) - i))
            if not (idle := self.idle()):
                break
            victim = max((w for w in range(self.workers) if not self.shut[w]), key=lambda w: len(self.held[w]))
            held = self.held[victim]
            count = min(len(held) // 2, max(0, len(held) - ENOUGH))
            if count == 0:
                for worker in idle:
                    self.shut[worker] = True
                break
            asked = [held.pop() for _ in range(count)][::-1]
            self.pool.extend(asked)
            backs.append((victim, asked))
        return backs


class Each(Dealt):
    def share(self):
        for worker in range(self.workers):
            self.held[worker].extend(range(self.tests))
            self.shut[worker] = True
        self.pool.clear()

    def done(self, _worker):
        return []


@dataclasses.dataclass
class Kind:
    """Runs of one kind: what it is called, the mode and its rule, and how many tests a worker ends at its turn."""

    name: str
    mode: str
    rule: type
    turns: list
    most: Optional[float] = 12
    chunk: Optional[int] = None
    in_file: Optional[int] = None

    def dealt(self, tests):
        more = [self.chunk] if self.mode == "load" else [self.files_of(tests)] if self.mode == "loadfile" else []
        return self.rule(tests, len(self.turns), *more)

    def files_of(self, tests):
        """How many tests are in one file."""
        return self.in_file or tests

    def reports(self, tests):
        return tests * len(self.turns) if self.mode == "each" else tests


KINDS = [
    Kind("load, its batches", "load", Load, [1] * 4),
    Kind("load, a chunk of 1", "load", Load, [1] * 4, most=13, chunk=1),
    Kind("loadfile, one file", "loadfile", LoadFile, [1] * 4),
    Kind("loadfile, a file for each test", "loadfile", LoadFile, [1] * 4, in_file=1),
    Kind("loadfile, 50 tests in each file", "loadfile", LoadFile, [1] * 4, in_file=50),
    Kind("worksteal, eight workers", "worksteal", Steal, [1] * 8),
    Kind("worksteal, a slow worker beside seven", "worksteal", Steal, [1] + [20] * 7),
    Kind("each, 32 workers", "each", Each, [1] * 32, most=None),
]


def order_of(kind, tests):
    """Which worker ends which test, and who gives tests back, in order: each worker at its turn, as the mode hands them out."""
    dealt = kind.dealt(tests)
    dealt.share()
    order = []
    while any(dealt.held):
        before = len(order)
        for worker, turns in enumerate(kind.turns):
            for _ in range(turns):
                if not dealt.may_end(worker):
                    break
                order.append((worker, dealt.held[worker].popleft()))
                order += dealt.done(worker)
                if dealt.is_finished():
                    dealt.shut = [True] * dealt.workers
        if len(order) == before:
            sys.exit(f"{kind.name}: nobody has a test that it may end")
    return order


def id_of(kind, tests, test):
    return f"f{test // kind.files_of(tests)}.py::n{test}"


def write_run(folder, kind, tests):
    """The file of a run, and how many bytes the run prints."""
    path = os.path.join(folder, f"{KINDS.index(kind)}.{tests}")
    total, workers = kind.reports(tests), len(kind.turns)
    printed = len(f"{total} tests on {workers} workers, {kind.mode}\n{total} passed\n")
    with open(path, "w", encoding="utf-8") as file:
        file.write(f"{kind.mode} {workers} {kind.chunk or '-'} {tests} {kind.files_of(tests)}\n")
        for worker, what in order_of(kind, tests):
            if isinstance(what, list):
                file.write(f"{worker} back {' '.join(map(str, what))}\n")
            else:
                file.write(f"{worker} {what}\n")
                printed += len(f"[gw{worker}] PASSED {id_of(kind, tests, what)}\n")
    return path, printed


def said(program, how, path):
    """What the program says of a run, or of its news alone: numbers by their first words."""
    done = subprocess.run([program, how, path], capture_output=True, text=True)
    words = {line.split()[0]: line.split()[1:] for line in done.stdout.splitlines()}
    if ("took" if how == "run" else "listed") not in words:
        sys.exit(f"the program did not run:\n{done.stdout}{done.stderr}")
    return words


def micros_of(program, kind, tests, path, printed):
    """Microseconds of one run, which has to print each test with the worker that ended it."""
    micros, entries, wrote = map(int, said(program, "run", path)["took"])
    if int(entries) < kind.reports(tests) or wrote != printed:
        sys.exit(f"{kind.name}, {tests} tests: {entries} entries, {wrote} bytes in place of {printed}")
    return micros


def memory_row(program, kind, tests, path):
    """The memory of a run for each of its reports, without that of the news and their copies."""
    run, news = (int(said(program, how, path)["peak"][0]) * 1024 for how in ("run", "list"))
    each = (run - news) / kind.reports(tests)
    shared.note(f"{kind.name}, {tests} tests: {run / 2**20:.0f} MiB, of which {news / 2**20:.0f} MiB are news and their copies")
    return shared.Row(f"memory of `drive`, {kind.name}, {tests:,} tests on each", "one report", each, "bytes")


def compared(program, folder, kind, sizes, runs):
    """The rows of a kind: its time at many tests beside that at few, and in mode each its memory."""
    files = {tests: write_run(folder, kind, tests) for tests in sizes}
    best = {}
    for _ in range(runs):
        for tests, (path, printed) in files.items():
            micros = micros_of(program, kind, tests, path, printed)
            best[tests] = min(micros, best.get(tests, micros))
    few, many = sizes
    for tests in sizes:
        each = best[tests] / kind.reports(tests)
        shared.note(f"{kind.name}, {tests} tests: {best[tests] / 1e6:.3f} s, {each:.2f} us a report")
    what = f"`drive`, {kind.name}, {many:,} tests, {best[many] / 1e6:.2f} s"
    ratio = best[many] / best[few]
    if kind.most is None:
        row = shared.Row(what, f"{few:,} tests", ratio)
        rows = [row, memory_row(program, kind, many, files[many][0])]
    else:
        rows = [shared.at_most(what, f"{few:,} tests", ratio, kind.most)]
    for path, _ in files.values():
        os.remove(path)
    return rows


def measure(_, is_small=False):
    sizes, runs = ((FEW // 10, MANY // 10), 2) if is_small else ((FEW, MANY), shared.RUNS)
    rows = []
    with tempfile.TemporaryDirectory() as folder:
        crates = (
            " may_wait=3: xd_drive xd_session xd_run_laws xd_report"
            " xd_load xd_scope xd_steal xd_ledger xd_run xd_trace xd_journal xd_edge"
        )
        program = shared.build(folder, "drive_bench", PROGRAM, crates, {"run": ANSWERS})
        for kind in KINDS:
            rows += compared(program, folder, kind, sizes, runs)
    return rows


if __name__ == "__main__":
    shared.print_table(measure(None, sys.argv[1:] == ["small"]))
