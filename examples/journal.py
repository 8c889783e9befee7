"""The tests of a run that was kept by --journal FILE, in the order of their ends:

    python3 journal.py FILE             the worker, the id, what it came to and its milliseconds, parted by tabs
    python3 journal.py --junit FILE     a JUnit file
"""
import re
import struct
import sys
import xml.etree.ElementTree as tree

KINDS = {-1: "killed by a signal", -2: "could not be started", -3: "could not be read"}
CONSTANTS = {b"L": None, b"R": True, b"C": False}
PIECES = {b"N": bytes.decode, b"A": bytes, b"H": int}
BEGINS = b"N\0\0\0\x0dxdrun journalF\0\0\0\1"


def value_of(payload):
    """The value of a payload, as execnet writes it."""
    stack, at = [], 0
    while payload[at:at + 1] != b"Q":
        opcode, number = payload[at:at + 1], payload[at + 1:at + 5]
        if opcode in CONSTANTS:
            stack.append(CONSTANTS[opcode])
            at += 1
        elif opcode == b"P":
            item, _ = stack.pop(), stack.pop()
            stack[-1].append(item)
            at += 1
        else:
            (number,) = struct.unpack("!i", number)
            at += 5
            if opcode in PIECES:
                stack.append(PIECES[opcode](payload[at:at + number]))
                at += number
            elif opcode == b"@":
                stack[len(stack) - number:] = [tuple(stack[len(stack) - number:])]
            else:
                stack.append([] if opcode == b"K" else number)
    return stack[-1]


def entries_of(data):
    """The mode of a run, and its entries. `xdrun replay` tells whether a file has all of a run."""
    if data[9:9 + len(BEGINS)] != BEGINS:
        sys.exit("journal.py: the file is no journal of the version 1")
    at, values = 0, []
    while at < len(data):
        end = at + 9 + int.from_bytes(data[at + 5:at + 9], "big")
        values.append(value_of(data[at + 9:end]))
        at = end
    return values[0][2], values[1:]


def ended_tests(mode, entries):
    """Of each test that ended, and of each at which its worker died: slot, worker, id, outcome, milliseconds and output.
    Where each worker runs all tests a test has a slot; else it is 0."""
    slots, first, ids, held = {}, {}, {}, {}
    for kind, worker, *rest in entries:
        name, slot = "main" if mode == "local" else f"gw{worker}", slots.get(worker, 0)
        if kind == "start" and mode == "each":
            slots[worker] = rest[0]
        elif kind == "collected":
            first.setdefault(slot, rest[0])
            ids[worker] = first[slot] if rest[0] is None else rest[0]
        elif kind in ("run", "runall"):
            held[worker] = held.get(worker, []) + (rest[0] if rest else list(range(len(ids[worker]))))
        elif kind == "back":
            held[worker] = [test for test in held[worker] if test not in rest[0]]
        elif kind == "done":
            test, outcome, milliseconds, output = rest
            held[worker].remove(test)
            words = outcome if isinstance(outcome, str) else KINDS.get(outcome, f"status {outcome}")
            yield slot, name, ids[worker][test], words, milliseconds, output
        elif kind == "down" and held.get(worker):
            yield slot, name, ids[worker][held[worker][0]], "its worker died", 0, rest[1]


def junit(tests):
    suite = tree.Element("testsuite", name="xdrun")
    # Of a test that was tried again the last time counts.
    last = {(slot, test): rest for slot, _, test, *rest in tests}
    for (_, name), (outcome, milliseconds, output) in last.items():
        before, _, after = name.rpartition("::")
        test = tree.SubElement(suite, "testcase", classname=before, name=after, time=f"{milliseconds / 1000:.3f}")
        if outcome == "skipped":
            tree.SubElement(test, "skipped")
        elif outcome != "passed":
            # XML has no control characters.
            text = re.sub(r"[^\t\n\x20-\uD7FF\uE000-\uFFFD\U00010000-\U0010FFFF]", "?", output.decode(errors="replace"))
            tree.SubElement(test, "failure", message=outcome).text = text
    return tree.tostring(suite, encoding="unicode")


def main(words):
    if len(words) not in (1, 2) or words[:-1] not in ([], ["--junit"]):
        sys.exit(__doc__)
    with open(words[-1], "rb") as file:
        tests = ended_tests(*entries_of(file.read()))
    if words[:-1]:
        print(junit(tests))
    else:
        for _, worker, test, outcome, milliseconds, _ in tests:
            print(worker, test, outcome, milliseconds, sep="\t")


if __name__ == "__main__":
    main(sys.argv[1:])
