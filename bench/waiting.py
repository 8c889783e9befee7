#!/usr/bin/env python3
"""Counts what ten seconds of waiting take of a processor: of a desk whose mailbox is empty, and of a sender whose mailbox is
full. Goal: each under a twentieth of a second, which a wait that looks again and again misses two hundredfold.

Usage: bench/waiting.py   from any folder. It builds a small program over xd_post in a temporary repository with rt, as rt run
builds it. A thread of the program waits, another one sleeps until it ends the wait. What is counted is the processor time
that the system tells of the whole process, its start included; the least of the runs of each counts.
"""
import os
import subprocess
import sys
import tempfile
import time

import shared

SECONDS = 10
RUNS = 2
MOST = 50

PROGRAM = """//! Waits for some seconds on an empty desk or a full mailbox, as its word says.
#![tactic(auto)]

use std::alloc::Global;
use std::sync::Wait;
use std::thread;
use std::thread::Threads;
use std::time::{Clock, Duration};
use std::{env, io};
use xd_edge::OutOfMemory;
use xd_post::{Bell, Desk, Sender, mailbox};

const WAITED: u64 = SECONDS;

fn put_late<R: Wait + Clock>(rt: &R, sender: Sender<u32>) -> Sender<u32> {
    let mut sender = sender;
    thread::sleep(rt, Duration::from_secs(WAITED));
    sender.put(rt, 1);
    sender
}

fn put_both<R: Wait>(rt: &R, sender: Sender<u32>) -> Sender<u32> {
    let mut sender = sender;
    sender.put(rt, 1);
    sender.put(rt, 2);
    sender
}

fn wait_at_desk<R: Threads + Wait + Clock + Copy + Send + 'static>(
    rt: R,
    alloc: Global,
) -> Result<bool, OutOfMemory> {
    let mut desk = Desk::new(alloc, Bell::new(alloc)?);
    let (sender, inbox) = mailbox(alloc, 8, desk.bell())?;
    desk.add(inbox)?;
    let Ok(putting) = thread::spawn(&rt, move || put_late(&rt, sender)) else {
        return Err(OutOfMemory);
    };
    let (_, number) = desk.wait(&rt);
    let _sender = putting.join(&rt);
    Ok(number == 1)
}

fn wait_to_put<R: Threads + Wait + Clock + Copy + Send + 'static>(
    rt: R,
    alloc: Global,
) -> Result<bool, OutOfMemory> {
    let bell = Bell::new(alloc)?;
    let (sender, inbox) = mailbox(alloc, 1, &bell)?;
    let mut inbox = inbox;
    let Ok(putting) = thread::spawn(&rt, move || put_both(&rt, sender)) else {
        return Err(OutOfMemory);
    };
    thread::sleep(&rt, Duration::from_secs(WAITED));
    let first = inbox.take();
    let _sender = putting.join(&rt);
    Ok(first == Some(1) && inbox.take() == Some(2))
}

fn main(rt: HostRuntime) -> io::Result<()> {
    let alloc = rt.alloc();
    let words = env::args(&rt)?;
    for word in words.skip(1) {
        let waited = if word.as_str() == "desk" {
            wait_at_desk(rt, alloc)
        } else {
            wait_to_put(rt, alloc)
        };
        if let Ok(true) = waited {
            println!(rt; "waited")?;
        }
    }
    Ok(())
}
"""


def processor_ms(program, word):
    """Milliseconds of a processor that one wait took. It has to wait for its seconds, and end well."""
    begun = time.monotonic()
    child = subprocess.Popen([program, word], stdout=subprocess.PIPE)
    printed = child.stdout.read()
    _, status, usage = os.wait4(child.pid, 0)
    child.returncode = status
    if status != 0 or printed != b"waited\n" or time.monotonic() - begun < SECONDS:
        sys.exit(f"the program did not wait: {status}, {printed}")
    return 1000 * (usage.ru_utime + usage.ru_stime)


def measure(_):
    waits = ("desk", "`Desk::wait` on an empty desk"), ("full", "`Sender::put` into a full mailbox")
    rows = []
    with tempfile.TemporaryDirectory() as folder:
        source = PROGRAM.replace("SECONDS", str(SECONDS))
        program = shared.build(folder, "waiting_bench", source, " may_wait=4: xd_post xd_edge rtrb")
        for word, what in waits:
            took = min(processor_ms(program, word) for _ in range(RUNS))
            shared.note(f"{what}: {took:.1f} ms of a processor in {SECONDS} s")
            rows.append(shared.at_most(what, f"{SECONDS} s of waiting", took, MOST, "ms of a processor"))
    return rows


if __name__ == "__main__":
    shared.print_table(measure(None))
