"""Journal files: their reader and writer in Python, from the words of the form alone.

A file is messages of the kind CHANNEL_DATA on channel 1, each with the canonical payload of one tuple. The first has the
settings of a run, each other one an entry of its journal: the entry's name in lower case, and its fields in order.
"""
import struct

DATA, CHANNEL, HEADER, MOST = 4, 1, 9, 16_777_216
NAME, VERSION = "xdrun journal", 1
MODES = {"local", "each", "load", "loadscope", "loadfile", "loadgroup", "worksteal"}
CAUSES = {"ended", "cut", "garbled", "readfault", "sendfault", "breach"}


class Bad(Exception):
    """The message of this number, counted from 0, is not there whole or not of the form."""

    def __init__(self, number):
        super().__init__(f"message {number}")
        self.number = number


class NoPayload(Exception):
    """The bytes are no payload of a value that a journal has."""


# Payloads.

CONSTANTS = {b"L": None, b"R": True, b"C": False}

def spelled(value):
    """The opcodes of a value."""
    if value is None:
        return b"L"
    if value is True or value is False:
        return b"R" if value else b"C"
    if isinstance(value, int):
        if -(2**31) <= value < 2**31:
            return b"F" + struct.pack("!i", value)
        return counted(b"H", str(value).encode())
    if isinstance(value, str):
        return counted(b"N", value.encode())
    if isinstance(value, bytes):
        return counted(b"A", value)
    if isinstance(value, list):
        items = b"".join(spelled(place) + spelled(item) + b"P" for place, item in enumerate(value))
        return b"K" + struct.pack("!i", len(value)) + items
    return b"".join(map(spelled, value)) + b"@" + struct.pack("!i", len(value))


def counted(opcode, piece):
    return opcode + struct.pack("!i", len(piece)) + piece


def payload_of(value):
    return spelled(value) + b"Q"


def value_of(payload):
    """The value that bytes are the canonical payload of. What is read is written again, and has to be these bytes."""
    try:
        value = loaded(payload)
        if payload_of(value) == payload:
            return value
    except (IndexError, ValueError, struct.error):
        pass
    raise NoPayload


def loaded(payload):
    stack, at = [], 0

    def take(count):
        nonlocal at
        at += count
        if count < 0 or at > len(payload):
            raise NoPayload
        return payload[at - count:at]

    def number():
        return struct.unpack("!i", take(4))[0]

    while True:
        opcode = take(1)
        if opcode == b"Q":
            (value,) = stack
            return value
        if opcode == b"P":
            item, place, items = stack.pop(), stack.pop(), stack[-1]
            if type(items) is not list or type(place) is not int or place != len(items):
                raise NoPayload
            items.append(item)
        elif opcode == b"@":
            count = number()
            if not 0 <= count <= len(stack):
                raise NoPayload
            stack[len(stack) - count:] = [tuple(stack[len(stack) - count:])]
        elif opcode == b"K":
            number()
            stack.append([])
        elif opcode in (b"N", b"A", b"H"):
            piece = take(number())
            stack.append({b"N": bytes.decode, b"A": bytes, b"H": int}[opcode](piece))
        elif opcode == b"F":
            stack.append(number())
        elif opcode in CONSTANTS:
            stack.append(CONSTANTS[opcode])
        else:
            raise NoPayload


# Fields.


def is_number(value, least=0, limit=2**32):
    return type(value) is int and least <= value < limit


def is_list_of(test, value):
    return type(value) is list and all(map(test, value))


def is_text(value):
    return type(value) is str


def is_bytes(value):
    return type(value) is bytes


def is_ids(value):
    return value is None or is_list_of(is_text, value)


def is_tests(value):
    return is_list_of(is_number, value)


def is_outcome(value):
    return is_number(value, -(2**31), 2**31) or type(value) is str and value in ("passed", "skipped")


def is_duration(value):
    return is_number(value, limit=2**64)


def is_cause(value):
    return type(value) is str and value in CAUSES


# What stands after the name of each entry, and after the name of each stop.
ENTRIES = {
    "ready": [is_number],
    "collected": [is_number, is_ids],
    "done": [is_number, is_number, is_outcome, is_duration, is_bytes],
    "back": [is_number, is_tests],
    "finished": [is_number],
    "refused": [is_number, is_text],
    "down": [is_number, is_cause, is_bytes],
    "notstarted": [is_number],
    "start": [is_number, is_number],
    "run": [is_number, is_tests],
    "runall": [is_number],
    "steal": [is_number, is_tests],
    "shutdown": [is_number],
    "kill": [is_number],
}
STOPS = {
    "completed": [],
    "maxfail": [is_number],
    "restarts": [is_number, is_number],
    "unequal": [is_number, is_number, is_number],
    "collecterror": [is_number],
    "outfault": [],
}


def has_fields(value, forms):
    """A tuple of a name that has a form, and the fields of that form."""
    if type(value) is not tuple or not value or type(value[0]) is not str or value[0] not in forms:
        return False
    tests, fields = forms[value[0]], value[1:]
    return len(tests) == len(fields) and all(test(field) for test, field in zip(tests, fields))


def is_entry(value):
    if type(value) is tuple and value[:1] == ("over",):
        return has_fields(value[1:], STOPS)
    return has_fields(value, ENTRIES)


def is_settings(value):
    if type(value) is not tuple or len(value) != 9:
        return False
    name, version, mode, *numbers, chunk, reorder, retries = value
    return (
        (name, version, type(version)) == (NAME, VERSION, int)
        and type(mode) is str
        and mode in MODES
        and all(map(is_number, numbers))
        and (chunk is None or is_number(chunk))
        and type(reorder) is bool
        and is_number(retries)
    )


# Files.


def message(value):
    payload = payload_of(value)
    return struct.pack("!bii", DATA, CHANNEL, len(payload)) + payload


def written(settings, entries):
    """The file of these settings and entries."""
    return b"".join(map(message, [settings, *entries]))


def read(data):
    """The settings and the entries of a file; or Bad, with the number of the first message that is not of the form."""
    values, at = [], 0
    while at < len(data) or not values:
        head = data[at:at + HEADER]
        kind, channel, length = struct.unpack("!bii", head) if len(head) == HEADER else (0, 0, 0)
        payload = data[at + HEADER:at + HEADER + max(length, 0)]
        try:
            if (kind, channel, len(payload)) != (DATA, CHANNEL, length) or length > MOST:
                raise NoPayload
            value = value_of(payload)
            if not (is_entry(value) if values else is_settings(value)):
                raise NoPayload
        except NoPayload:
            raise Bad(len(values)) from None
        values.append(value)
        at += HEADER + length
    return values[0], values[1:]
