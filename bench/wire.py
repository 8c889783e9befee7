#!/usr/bin/env python3
"""Times `xdrun wire FILE` beside a loop that prints the same file by the real execnet's message reader.

Usage: bench/wire.py [PROGRAM]   from any folder; PROGRAM is the one of this repository where none is named.

It writes 60 MB of small messages: data of a small tuple, and a close, over many channels. Each reads the file whole and writes
a line for each message, with the output thrown away, on one thread. The ratio is of the processor's time (user and system),
the best of some runs. Goal: at least 25 times the speed of the loop. A program in C that makes the same values in memory, with
a piece of its own for each text and each tuple, and the same lines of them, and checks nothing, is the floor beside it. What
is not installed (execnet is python3-execnet on Debian; a compiler of C) is skipped with a word.
"""

import os
import struct
import subprocess
import sys
import tempfile

import shared

SIZE = 60_000_000

EXECNET_PRINTS = """
import io, sys
from execnet.gateway_base import Message, loads_internal
names = [each.__name__.upper() for each in map(Message._types.__getitem__, range(8))]
with open(sys.argv[1], "rb") as f:
    stream = io.BytesIO(f.read())
size = stream.getbuffer().nbytes
write = sys.stdout.write
while stream.tell() < size:
    message = Message.from_io(stream)
    name, data = names[message.msgcode], message.data
    if message.msgcode in (3, 4, 6):
        write(f"{name} {message.channelid} {len(data)} {loads_internal(data)!r}\\n")
    else:
        write(f"{name} {message.channelid} {len(data)}\\n")
"""

PRINTS_IN_C = r"""
#include <stdint.h>
#include <stdio.h>
#include <stdlib.h>
#include <string.h>

struct value { char tag; uint32_t count; union { int64_t number; char *text; struct value *items; } is; };

static const char *names[] = {"STATUS", "RECONFIGURE", "GATEWAY_TERMINATE", "CHANNEL_EXEC", "CHANNEL_DATA", "CHANNEL_CLOSE",
    "CHANNEL_CLOSE_ERROR", "CHANNEL_LAST_MESSAGE"};

static uint32_t number(const unsigned char *at) {
    return (uint32_t)at[0] << 24 | (uint32_t)at[1] << 16 | (uint32_t)at[2] << 8 | at[3];
}

static struct value read_value(const unsigned char *at) {
    struct value stack[64];
    int top = 0;
    for (;;) {
        unsigned char opcode = *at++;
        if (opcode == 'Q') return stack[top - 1];
        uint32_t n = number(at);
        at += 4;
        struct value made = {opcode, n, {0}};
        if (opcode == 'N') {
            made.is.text = malloc(n);
            memcpy(made.is.text, at, n);
            at += n;
        } else if (opcode == 'F') {
            made.is.number = (int32_t)n;
        } else {
            made.is.items = malloc(n * sizeof(struct value));
            top -= n;
            memcpy(made.is.items, stack + top, n * sizeof(struct value));
        }
        stack[top++] = made;
    }
}

static char *print(struct value v, char *out) {
    if (v.tag == 'F') return out + sprintf(out, "%lld", (long long)v.is.number);
    if (v.tag == 'N') {
        *out++ = '"';
        memcpy(out, v.is.text, v.count);
        out += v.count;
        *out++ = '"';
        return out;
    }
    *out++ = '(';
    for (uint32_t i = 0; i < v.count; i++) {
        if (i) { *out++ = ','; *out++ = ' '; }
        out = print(v.is.items[i], out);
    }
    *out++ = ')';
    return out;
}

static void drop(struct value v) {
    if (v.tag == '@') for (uint32_t i = 0; i < v.count; i++) drop(v.is.items[i]);
    if (v.tag != 'F') free(v.is.text);
}

int main(int argc, char **argv) {
    static char line[65536];
    FILE *file = fopen(argv[1], "rb");
    fseek(file, 0, SEEK_END);
    long size = ftell(file);
    rewind(file);
    unsigned char *bytes = malloc(size), *at = bytes;
    if (fread(bytes, 1, size, file) != (size_t)size) return 1;
    while (at < bytes + size) {
        int code = at[0];
        uint32_t length = number(at + 5);
        char *out = line + sprintf(line, "%s %u %u", names[code], number(at + 1), length);
        if (code == 3 || code == 4 || code == 6) {
            struct value v = read_value(at + 9);
            *out++ = ' ';
            out = print(v, out);
            drop(v);
        }
        *out++ = '\n';
        fwrite(line, 1, out - line, stdout);
        at += 9 + length;
    }
    return argc - 2;
}
"""


def number(n):
    return struct.pack("!i", n)


def message(code, channel, payload):
    return struct.pack("!bii", code, channel, len(payload)) + payload


def small_messages():
    """Data of one small tuple, and a close, over many channels, up to the size."""
    parts, total, i = [], 0, 0
    while total < SIZE:
        text = b"test_%07d" % i
        payload = b"N" + number(len(text)) + text + b"F" + number(i) + b"@" + number(2) + b"Q"
        part = message(4, i % 100 * 2 + 1, payload) + message(5, i % 100 * 2 + 1, b"")
        parts.append(part)
        total += len(part)
        i += 1
    return b"".join(parts)


def timed(words):
    """The seconds of the processor in the best of the runs and the least peak memory in MB, or None where it does not run."""
    best = None
    for _ in range(shared.RUNS):
        child = subprocess.Popen(words, stdout=subprocess.DEVNULL)
        _, status, usage = os.wait4(child.pid, 0)
        child.returncode = os.waitstatus_to_exitcode(status)
        if child.returncode != 0:
            shared.note(f"  {words[0]}: status {child.returncode}")
            return None
        run = (usage.ru_utime + usage.ru_stime, usage.ru_maxrss * 1024 / 1e6)
        best = run if best is None else tuple(map(min, best, run))
    return best


def measure(program):
    with tempfile.TemporaryDirectory() as folder:
        path = os.path.join(folder, "messages")
        # A process of its own makes the file, because a child's peak counts that of its parent.
        subprocess.run([sys.executable, os.path.abspath(__file__), "--make", path], check=True)
        megabytes = os.path.getsize(path) / 1e6
        wire = timed([program, "wire", path])
        python = shared.python_with("execnet.gateway_base")
        loop = timed([python, "-c", EXECNET_PRINTS, path]) if python is not None else None
        in_c = shared.in_c(folder, "prints", PRINTS_IN_C)
        floor = timed([in_c, path]) if in_c is not None else None
    for name, run in (("xdrun wire", wire), ("the loop by execnet", loop), ("the program in C", floor)):
        if run is not None:
            shared.note(f"{name}: {megabytes / run[0]:.1f} MB a second of the processor, peak {run[1]:.0f} MB")
    return rows_of(megabytes, wire, loop, floor)


def rows_of(megabytes, wire, loop, floor):
    what, beside = f"`wire`, {megabytes:.0f} MB of small messages", "a loop that prints them by execnet"
    if wire is None:
        return [shared.skipped(what, beside, "wire did not run")]
    peak = shared.Row(f"peak memory of {what}", "the file", wire[1] / megabytes, "times")
    in_c = "a program in C that makes the same values and lines"
    least = shared.skipped(what, in_c, "there is no compiler of C") if floor is None else shared.Row(what, in_c, wire[0] / floor[0])
    if loop is None:
        return [shared.skipped(what, beside, "execnet is not installed or the loop did not run"), least, peak]
    return [shared.at_least(what, beside, loop[0] / wire[0], 25), least, peak]


def main():
    if sys.argv[1:2] == ["--make"]:
        with open(sys.argv[2], "wb") as f:
            f.write(small_messages())
        return
    shared.main(measure)


if __name__ == "__main__":
    main()
