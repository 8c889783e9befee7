#!/usr/bin/env python3
"""Times how a journal of 50,000 tests becomes a file and is read back, beside one of 5,000. Goal: at most 12 times the time.

Usage: bench/journal.py   from any folder. It builds a small program over xd_journal_file in a temporary repository with rt, as
rt run builds it. The program makes the journal of a run without workers, writes its file, reads that, and tells the
microseconds of both. The runs of the two sizes alternate, and the best of each counts.

`.ci/journal_files` has the same program read files.
"""
import subprocess
import sys
import tempfile

import shared

FEW, MANY = 5_000, 50_000
MOST = 12

PROGRAM = """//! Times a journal of so many tests, as `time TESTS` asks; or reads files, as `read FILE..` asks, and says of each whether it
//! is that of a journal.
#![tactic(auto)]

use std::alloc::Global;
use std::time::{Clock, Instant};
use std::{env, fs, io};
use xd_edge::{Blob, Indices, ModeKind, OutOfMemory, Text, Texts};
use xd_journal::{Entry, Ids, Journal, Outcome, RunStop, Settings};
use xd_journal_file::{FormFault, journal_bytes, read_journal};

fn ids(alloc: Global, tests: u32) -> Result<Texts, OutOfMemory> {
    let mut items = Vec::new(alloc);
    for test in 0..tests {
        items.push(Text::from_string(format!(in alloc; "f{test}.py::n{test}")?))?;
    }
    Ok(Texts { items })
}

fn one(alloc: Global, test: u32) -> Result<Indices, OutOfMemory> {
    let mut items = Vec::new(alloc);
    items.push(test)?;
    Ok(Indices { items })
}

fn journal_of(alloc: Global, tests: u32) -> Result<Journal, OutOfMemory> {
    let settings = Settings {
        mode: ModeKind::Local,
        workers: 0,
        maxfail: 0,
        restarts: 0,
        chunk: None,
        reorder: true,
        retries: 0,
    };
    let mut journal = Journal::new(alloc, settings);
    let ids = Ids::List(ids(alloc, tests)?);
    journal.push(Entry::Collected { worker: 0, ids })?;
    for index in 0..tests {
        let indices = one(alloc, index)?;
        journal.push(Entry::Run { worker: 0, indices })?;
        journal.push(Entry::Done {
            worker: 0,
            index,
            outcome: Outcome::Passed,
            ms: 5,
            output: Blob::empty(alloc),
        })?;
    }
    journal.push(Entry::Over {
        how: RunStop::Completed,
    })?;
    Ok(journal)
}

// The microseconds of both ways, and the entries that were read.
fn timed<R: Clock>(rt: &R, alloc: Global, journal: &Journal) -> Option<(u128, usize)> {
    let begun = Instant::now(rt).ok()?;
    let bytes = journal_bytes(alloc, journal).ok()?;
    let again = read_journal(alloc, bytes.as_slice()).ok()?;
    let took = begun.elapsed(rt).ok()?;
    Some((took.as_micros(), again.entries.len()))
}

// Whether the bytes are written again as they were read.
fn is_same(alloc: Global, journal: &Journal, bytes: &[u8]) -> bool {
    match journal_bytes(alloc, journal) {
        Ok(again) => again.as_slice() == bytes,
        Err(_) => false,
    }
}

fn main(rt: HostRuntime) -> io::Result<()> {
    let alloc = rt.alloc();
    let mut words = env::args(&rt)?.skip(1);
    let Some(what) = words.next() else {
        return Ok(());
    };
    for word in words {
        if what.as_str() == "time" {
            let tests = word.as_str().parse::<u32>().ok().unwrap_or(0);
            if let Ok(journal) = journal_of(alloc, tests) {
                if let Some((micros, entries)) = timed(&rt, alloc, &journal) {
                    println!(rt; "took {micros} {entries}")?;
                }
            }
        } else {
            let bytes = fs::read(&rt, word.as_str())?;
            match read_journal(alloc, bytes.as_slice()) {
                Ok(journal) if is_same(alloc, &journal, bytes.as_slice()) => {
                    println!(rt; "journal")?;
                }
                Ok(_) => println!(rt; "other")?,
                Err(FormFault::Bad(number)) => println!(rt; "message {number}")?,
                Err(FormFault::OutOfMemory) => println!(rt; "memory")?,
            }
        }
    }
    Ok(())
}
"""


def build(folder):
    """The path of the program."""
    return shared.build(folder, "journal_bench", PROGRAM, ": xd_journal_file xd_journal xd_edge")


def micros(program, tests):
    """The microseconds of one run. What is read has to be all that was written."""
    printed = subprocess.run([program, "time", str(tests)], capture_output=True, text=True, check=True).stdout.split()
    if printed[:1] != ["took"] or int(printed[2]) != 2 * tests + 2:
        sys.exit(f"the journal of {tests} tests was not read back: {printed}")
    return int(printed[1])


def measure(_):
    best = {}
    with tempfile.TemporaryDirectory() as folder:
        program = build(folder)
        for _ in range(shared.RUNS):
            for tests in (FEW, MANY):
                took = micros(program, tests)
                best[tests] = min(took, best.get(tests, took))
    for tests, took in best.items():
        shared.note(f"{tests} tests: {took / 1e6:.3f} s")
    what = f"a journal of {MANY:,} tests into a file and back, {best[MANY] / 1e6:.2f} s"
    return [shared.at_most(what, f"one of {FEW:,} tests", best[MANY] / best[FEW], MOST)]


if __name__ == "__main__":
    shared.print_table(measure(None))
