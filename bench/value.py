#!/usr/bin/env python3
"""Times xd_value and xd_value_loads beside the real execnet, and measures its peak memory.

Usage: bench/value.py   from any folder. It builds a small program over both in a temporary repository with rt, as rt run
builds it, and prints times, ratios and peak memory. Where execnet is not installed (python3-execnet on Debian) its part
is skipped with a word.

Beside it stands a plain program in C that makes the same value in memory, by the system's allocator, and checks nothing: the
ratio to it says about how much is left to gain. It has no goal.

All sides are measured alike: each run is a process of its own that first reads the payload from a file, and then times one
call of loads and one call of dumps of what it gave; neither the start of the process, nor the reading of the file, nor the
end of the value counts. The runs alternate, and the best of each side counts.
"""

import os
import random
import struct
import subprocess
import sys
import tempfile

import shared

PROGRAM = """//! Reads each payload from a file that an argument names, and writes its value again.
#![tactic(auto)]

use std::time::Instant;
use std::{env, fs, io};
use xd_value_loads::loads;
use xd_value::dumps;

fn main(rt: HostRuntime) -> io::Result<()> {
    let alloc = rt.alloc();
    // The microseconds of each reading and writing, which are printed at the end. Their room is made before.
    let mut took = Vec::with_capacity(alloc, 64)?;
    for path in env::args(&rt)?.skip(1) {
        let bytes = fs::read(&rt, path.as_str())?;
        let begun = Instant::now(&rt)?;
        let read = loads(alloc, &bytes);
        let reading = begun.elapsed(&rt)?.as_micros();
        let Ok(value) = read else {
            println!(rt; "loads refused")?;
            continue;
        };
        let begun = Instant::now(&rt)?;
        let written = dumps(alloc, &value);
        let writing = begun.elapsed(&rt)?.as_micros();
        took.push((reading, written.is_ok(), writing))?;
    }
    for (reading, is_written, writing) in took {
        println!(rt; "loads {reading}")?;
        if is_written {
            println!(rt; "dumps {writing}")?;
        } else {
            println!(rt; "dumps refused")?;
        }
    }
    let status = fs::read_to_string(&rt, "/proc/self/status")?;
    for line in status.lines() {
        if line.starts_with("VmHWM") {
            println!(rt; "{line}")?;
        }
    }
    Ok(())
}
"""

THEIRS = """
import sys, time
from execnet.gateway_base import dumps_internal, loads_internal

for path in sys.argv[1:]:
    with open(path, "rb") as f:
        payload = f.read()
    begun = time.perf_counter()
    value = loads_internal(payload)
    middle = time.perf_counter()
    dumps_internal(value)
    print((middle - begun) * 1e6, (time.perf_counter() - middle) * 1e6)
    del value
"""

# The same value in memory as `loads` gives: 32 bytes a value, 64 bytes a pair of a dict, and each text, each bytes and each
# list in a piece of its own. It checks nothing, and reads only the opcodes of the mixed values. So it says how much of the
# time is for the memory of the value, whoever fills it.
SAME_IN_C = r"""
#include <stdint.h>
#include <stdio.h>
#include <stdlib.h>
#include <string.h>
#include <time.h>

typedef struct { void *at; size_t room, length; } Items;
typedef struct { uint64_t tag; union { Items items; struct { uint64_t unused, low, high; } integer; }; } Value;

enum { NONE, TRUE, INTEGER, WORDS, TUPLE, LIST, DICT };

static uint32_t number(const unsigned char *from) {
    return (uint32_t)from[0] << 24 | (uint32_t)from[1] << 16 | (uint32_t)from[2] << 8 | from[3];
}

static Value *stack;
static size_t room, depth;

static Value *pushed(uint64_t tag) {
    if (depth == room) {
        room = room ? 2 * room : 64;
        stack = realloc(stack, room * sizeof *stack);
    }
    Value *value = &stack[depth++];
    value->tag = tag;
    value->items = (Items){0, 0, 0};
    return value;
}

static void put(void) {
    Value *target = &stack[depth - 3];
    Items *items = &target->items;
    size_t size = target->tag == DICT ? 2 : 1;
    if (items->length == items->room) {
        items->room = items->room ? 2 * items->room : 4;
        items->at = realloc(items->at, items->room * size * sizeof(Value));
    }
    memcpy((Value *)items->at + items->length++ * size, &stack[depth - size], size * sizeof(Value));
    depth -= 2;
}

static void run(const unsigned char *at) {
    for (;;) {
        unsigned char opcode = *at++;
        switch (opcode) {
        case 'K': pushed(LIST); at += 4; break;
        case 'J': pushed(DICT); break;
        case 'L': pushed(NONE); break;
        case 'R': pushed(TRUE); break;
        case 'P': put(); break;
        case 'Q': return;
        case 'F': {
            int64_t n = (int32_t)number(at);
            Value *value = pushed(INTEGER);
            value->integer.low = n;
            value->integer.high = n >> 63;
            at += 4;
            break;
        }
        case 'A':
        case 'N': {
            uint32_t length = number(at);
            Items *items = &pushed(WORDS)->items;
            *items = (Items){length ? malloc(length) : 0, length, length};
            memcpy(items->at, at + 4, length);
            at += 4 + length;
            break;
        }
        case '@': {
            uint32_t length = number(at);
            Value *parts = malloc(length * sizeof *parts);
            depth -= length;
            memcpy(parts, &stack[depth], length * sizeof *parts);
            pushed(TUPLE)->items = (Items){parts, length, length};
            at += 4;
            break;
        }
        default: exit(1);
        }
    }
}

static void drop(Value *value) {
    Value *parts = value->items.at;
    size_t count = value->tag == DICT ? 2 * value->items.length : value->items.length;
    switch (value->tag) {
    case LIST:
    case TUPLE:
    case DICT:
        for (size_t i = 0; i < count; i++) drop(&parts[i]);
        free(parts);
        break;
    case WORDS: free(parts);
    }
}

static void timed(const char *path) {
    FILE *file = fopen(path, "rb");
    fseek(file, 0, SEEK_END);
    size_t length = ftell(file);
    rewind(file);
    unsigned char *payload = malloc(length);
    if (fread(payload, 1, length, file) != length) exit(1);
    fclose(file);
    stack = 0;
    room = depth = 0;
    struct timespec begun, ended;
    clock_gettime(CLOCK_MONOTONIC, &begun);
    run(payload);
    clock_gettime(CLOCK_MONOTONIC, &ended);
    printf("%.0f\n", (ended.tv_sec - begun.tv_sec) * 1e6 + (ended.tv_nsec - begun.tv_nsec) / 1e3);
    drop(&stack[0]);
    free(stack);
    free(payload);
}

int main(int argc, char **argv) {
    for (int i = 1; i < argc; i++) timed(argv[i]);
    return 0;
}
"""


def number(n):
    return struct.pack("!I", n)


def integer(n):
    return b"F" + struct.pack("!i", n)


def text(words):
    data = words.encode()
    return b"N" + number(len(data)) + data


def mixed(size):
    """A list of tuples of texts, integers, bytes and small dicts, of about that number of bytes."""
    chance = random.Random(1)
    items, total = [], 0
    while total < size:
        pairs = b"".join(text(f"key{k}") + integer(chance.randrange(1000)) + b"P" for k in range(3))
        item = (
            text("x" * chance.randrange(40))
            + integer(chance.randrange(-(2**31), 2**31))
            + b"A"
            + number(20)
            + chance.randbytes(20)
            + (b"J" + pairs)
            + (b"L" + b"R" + b"@" + number(6))
        )
        items.append(item)
        total += len(item) + 6
    body = b"".join(integer(i) + item + b"P" for i, item in enumerate(items))
    return b"K" + number(len(items)) + body + b"Q"


def set_of_integers(count):
    return b"".join(integer(i * 7) for i in range(count)) + b"O" + number(count) + b"Q"


def dict_of_texts(count):
    return b"J" + b"".join(text(f"{i:07}") + b"LP" for i in range(count)) + b"Q"


def nested(depth):
    return (b"K" + number(1) + integer(0)) * (depth - 1) + b"K" + number(0) + b"P" * (depth - 1) + b"Q"


def ours(program, path):
    """The microseconds of reading and of writing, None where it was refused, and the peak memory in bytes."""
    done = subprocess.run([program, path], capture_output=True, text=True)
    words = [line.split() for line in done.stdout.splitlines() if line.strip()]
    took = {name: int(n) if n.isdigit() else None for name, n, *_ in words if name in ("loads", "dumps")}
    peaks = [int(n) * 1024 for name, n, *_ in words if name == "VmHWM:"]
    if took.get("loads") is None or "dumps" not in took or not peaks:
        sys.exit(f"the program did not run:\n{done.stdout}{done.stderr}")
    return took["loads"], took["dumps"], peaks[0]


def theirs(python, path):
    """The same by execnet, without the memory."""
    done = subprocess.run([python, "-c", THEIRS, path], capture_output=True, text=True, check=True)
    return tuple(map(float, done.stdout.split()))


def in_c(program, path):
    """The microseconds in which the program in C makes the same value."""
    done = subprocess.run([program, path], capture_output=True, text=True, check=True)
    return float(done.stdout)


def best(runs):
    """The least of each number over the runs; a number that a run lacks is lacking."""
    return [None if None in column else min(column) for column in zip(*runs)]


CASES = [
    ("10 MB of mixed values", lambda: mixed(10_000_000)),
    ("a set of 100,000 integers", lambda: set_of_integers(100_000)),
    ("a set of 2,000,000 integers", lambda: set_of_integers(2_000_000)),
    ("a dict of 1,000,000 texts", lambda: dict_of_texts(1_000_000)),
    ("a list nested 64 deep", lambda: nested(64)),
]
MIXED, FEW, MANY, _, NESTED = (name for name, _ in CASES)


# What the floors are set for: bytes of memory a byte of payload, and how often as fast as execnet.
MOST_MEMORY, LEAST_READING, LEAST_WRITING = 38, 8, 20


def measure(_):
    took, peaks, sizes, compared, bare = {}, {}, {}, [], []
    python = shared.python_with("execnet")
    with tempfile.TemporaryDirectory() as folder:
        program = shared.build(folder, "value_bench", PROGRAM, ": xd_value_loads xd_value xd_edge")
        same = shared.in_c(folder, "same_value", SAME_IN_C)
        path = os.path.join(folder, "payload")
        for name, make in CASES:
            payload = make()
            with open(path, "wb") as f:
                f.write(payload)
            runs = []
            for _ in range(shared.RUNS):
                runs.append(ours(program, path))
                if name == MIXED and python is not None:
                    compared.append(theirs(python, path))
                if name == MIXED and same is not None:
                    bare.append(in_c(same, path))
            loads, dumps, _ = best(runs)
            peak = max(run[2] for run in runs)
            took[name], peaks[name], sizes[name] = (loads, dumps), peak, len(payload)
            wrote = f"dumps {dumps / 1e6:.3f} s" if dumps is not None else "dumps refused"
            shared.note(f"{name}, {len(payload)} bytes: loads {loads / 1e6:.3f} s, {wrote}, peak {peak >> 20} MiB")
    return rows_of(took, peaks, sizes, compared, bare)


def rows_of(took, peaks, sizes, compared, bare):
    rows, (loads, dumps) = [], took[MIXED]
    if compared:
        read, written = best(compared)
        rows.append(shared.at_least(f"reading {MIXED}", "execnet's `loads`", read / loads, LEAST_READING))
        rows.append(shared.at_least(f"writing {MIXED}", "execnet's `dumps`", written / dumps, LEAST_WRITING))
    else:
        rows += [shared.skipped(f"{what} {MIXED}", "execnet", "execnet is not installed") for what in ("reading", "writing")]
    beside = "a program in C that fills the same memory and checks nothing"
    if bare:
        rows.append(shared.Row(f"reading {MIXED}", beside, loads / min(bare)))
    else:
        rows.append(shared.skipped(f"reading {MIXED}", beside, "there is no compiler of C"))
    rows.append(shared.at_most(f"reading {MANY}", FEW, took[MANY][0] / took[FEW][0], 25))
    # What the program takes anyhow is what it takes for the smallest payload.
    peak = max((peaks[name] - peaks[NESTED]) / sizes[name] for name in peaks if name != NESTED)
    rows.append(shared.at_most("peak memory of reading, without the program's own", "the payload", peak, MOST_MEMORY, "bytes a byte"))
    return rows


if __name__ == "__main__":
    shared.print_table(measure(None))
