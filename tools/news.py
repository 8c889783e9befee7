#!/usr/bin/env python3
"""Message lists of a worker's link, and the news that they mean: the rows of a test of gateways.

    python3 tools/news.py > crates/xd_tests_sides/src/gateway/rows.rt

The messages are written and read here by the description of the formats in words alone, and no code of the
program is used. What a list means is told by which channels have ended and which logs have started; there is no table of
channels. The rows are the same at each run.
"""
import random
import struct

STATUS, RECONFIGURE, TERMINATE, EXEC, DATA, CLOSE, ERROR, LAST = range(8)
HOW_MANY = 210


# ---- writing

class Channel:
    def __init__(self, number):
        self.number = number


class Raw:
    """Bytes that are written as they stand."""
    def __init__(self, data):
        self.data = data


def number(n):
    return struct.pack("!i", n)


def form(v):
    if isinstance(v, Raw):
        return v.data
    if v is None:
        return b"L"
    if v is True:
        return b"R"
    if v is False:
        return b"C"
    if isinstance(v, int):
        if -2**31 <= v < 2**31:
            return b"F" + number(v)
        digits = str(v).encode()
        return b"H" + number(len(digits)) + digits
    if isinstance(v, bytes):
        return b"A" + number(len(v)) + v
    if isinstance(v, str):
        return b"N" + number(len(v.encode())) + v.encode()
    if isinstance(v, Channel):
        return b"B" + number(v.number)
    if isinstance(v, list):
        return b"K" + number(len(v)) + b"".join(form(i) + form(x) + b"P" for i, x in enumerate(v))
    if isinstance(v, tuple):
        return b"".join(map(form, v)) + b"@" + number(len(v))
    if isinstance(v, frozenset):
        return b"".join(map(form, sorted(v))) + b"E" + number(len(v))
    if isinstance(v, dict):
        return b"J" + b"".join(form(k) + form(x) + b"P" for k, x in v.items())
    raise TypeError(v)


class Message:
    def __init__(self, kind, channel, value=None, payload=None):
        self.kind, self.channel = kind, channel
        if payload is not None:
            self.payload = payload
        elif kind in (EXEC, DATA, ERROR):
            self.payload = form(value) + b"Q"
        else:
            self.payload = b""

    def frame(self):
        return bytes([self.kind]) + number(self.channel) + number(len(self.payload)) + self.payload


def call(name, **kwargs):
    return Message(DATA, 1, (name, kwargs))


def done(index=0, outcome="passed", code=0, duration=5):
    return call("runtest_protocol_complete", item_index=index, outcome=outcome, code=code, duration=duration)


def log_start(index, log):
    return call("logstart", item_index=index, log=Channel(log))


def data(channel, value):
    return Message(DATA, channel, value)


def close(channel):
    return Message(CLOSE, channel)


def error(channel, text):
    return Message(ERROR, channel, text)


def last(channel):
    return Message(LAST, channel)


# ---- reading

class Refused(Exception):
    pass


class Values:
    """One payload, read from its first byte to its last."""
    def __init__(self, payload):
        self.payload, self.at, self.channels = payload, 0, []

    def bytes(self, n):
        if n < 0 or self.at + n > len(self.payload):
            raise Refused
        part = self.payload[self.at:self.at + n]
        self.at += n
        return part

    def number(self):
        return struct.unpack("!i", self.bytes(4))[0]

    def several(self, stack):
        n = self.number()
        if n < 0 or n > len(stack):
            raise Refused
        items = stack[len(stack) - n:]
        del stack[len(stack) - n:]
        for kind, item, _ in items:
            if kind == "list" and None in item:
                raise Refused
        return items

    def read(self):
        stack = []
        while True:
            op = self.bytes(1)
            if op == b"L":
                stack.append(("none", None, 0))
            elif op in (b"R", b"C"):
                stack.append(("bool", op == b"R", 0))
            elif op in (b"F", b"G"):
                stack.append(("int", self.number(), 0))
            elif op in (b"H", b"I"):
                digits = self.bytes(self.number())
                plain = digits[1:] if digits[:1] == b"-" else digits
                if not plain or any(not 48 <= d <= 57 for d in plain) or not -2**127 <= int(digits) < 2**127:
                    raise Refused
                stack.append(("int", int(digits), 0))
            elif op == b"A":
                stack.append(("bytes", self.bytes(self.number()), 0))
            elif op in (b"N", b"S"):
                try:
                    stack.append(("text", self.bytes(self.number()).decode("utf-8"), 0))
                except UnicodeDecodeError:
                    raise Refused
            elif op == b"M":
                stack.append(("text", self.bytes(self.number()).decode("latin-1"), 0))
            elif op == b"B":
                n = self.number()
                if n < 1:
                    raise Refused
                self.channels.append(n)
                stack.append(("channel", n, 0))
            elif op == b"K":
                n = self.number()
                if n < 0:
                    raise Refused
                stack.append(("list", [None] * n, 1))
            elif op == b"J":
                stack.append(("dict", [], 1))
            elif op == b"P":
                self.set_item(stack)
            elif op in (b"@", b"O", b"E"):
                items = self.several(stack)
                depth = 1 + max([i[2] for i in items], default=0)
                kind = {b"@": "tuple", b"O": "set", b"E": "frozenset"}[op]
                if kind != "tuple":
                    self.no_repeats([i[:2] for i in items])
                stack.append((kind, [i[:2] for i in items], depth))
                self.not_deep(depth)
            elif op == b"Q":
                if len(stack) != 1 or self.at != len(self.payload) or (stack[0][0] == "list" and None in stack[0][1]):
                    raise Refused
                return stack[0][:2]
            else:
                raise Refused

    def not_deep(self, depth):
        if depth > 64:
            raise Refused

    def hashable(self, v):
        if v[0] in ("list", "dict", "set"):
            raise Refused
        if v[0] in ("tuple", "frozenset"):
            for x in v[1]:
                self.hashable(x)

    def no_repeats(self, items):
        for v in items:
            self.hashable(v)
        for i, v in enumerate(items):
            if v in items[:i]:
                raise Refused

    def set_item(self, stack):
        if len(stack) < 3:
            raise Refused
        target, key, value = stack[-3:]
        for kind, item, _ in (key, value):
            if kind == "list" and None in item:
                raise Refused
        depth = max(target[2], 1 + key[2], 1 + value[2])
        if target[0] == "list":
            place = target[1].index(None) if None in target[1] else -1
            if place < 0 or key[:2] != ("int", place):
                raise Refused
            target[1][place] = value[:2]
        elif target[0] == "dict":
            self.hashable(key[:2])
            if key[:2] in [k for k, _ in target[1]]:
                raise Refused
            target[1].append((key[:2], value[:2]))
        else:
            raise Refused
        self.not_deep(depth)
        stack[-3:] = [(target[0], target[1], depth)]


def whole(v, limit):
    return v is not None and v[0] == "int" and 0 <= v[1] < limit


def numbers(v):
    return v is not None and v[0] == "list" and all(whole(i, 2**32) for i in v[1])


def event(v):
    """The news of an event, or None."""
    if v[0] != "tuple" or len(v[1]) != 2 or v[1][0][0] != "text" or v[1][1][0] != "dict":
        return None
    name, pairs = v[1][0][1], v[1][1][1]
    if any(k[0] != "text" for k, _ in pairs):
        return None
    kwargs = {k[1]: x for k, x in pairs}
    if name == "workerready":
        return "Ready"
    if name == "workerfinished":
        return "Finished"
    if name == "collectionfinish":
        ids = kwargs.get("ids")
        if ids is None or ids[0] != "list" or any(i[0] != "text" for i in ids[1]):
            return None
        return "Collected [%s]" % ", ".join(i[1] for i in ids[1])
    if name == "unscheduled":
        indices = kwargs.get("indices")
        return "Back [%s]" % ", ".join(str(i[1]) for i in indices[1]) if numbers(indices) else None
    index = kwargs.get("item_index")
    if not whole(index, 2**32):
        return None
    if name == "logstart":
        log = kwargs.get("log")
        return "LogStart %d %d" % (index[1], log[1]) if log is not None and log[0] == "channel" else None
    if name == "runtest_protocol_complete":
        outcome, code, duration = (kwargs.get(k) for k in ("outcome", "code", "duration"))
        if outcome is None or outcome[0] != "text" or code is None or code[0] != "int" or not whole(duration, 2**64):
            return None
        fits = {"passed": code[1] == 0, "skipped": code[1] == 0, "failed": code[1] in (-1, -2, -3) or 1 <= code[1] <= 255 and code[1] != 77}
        if not fits.get(outcome[1], False):
            return None
        how = outcome[1] if outcome[1] != "failed" else "failed %d" % code[1]
        return "Done %d %s %d" % (index[1], how, duration[1])
    return None


class Ear:
    """What a list of messages means, by which channels have ended and which logs have started."""
    def __init__(self):
        self.failed, self.finished, self.logs, self.ended = False, False, set(), set()

    def refuse(self):
        self.failed = True
        return "Stray"

    def hear(self, m):
        if self.failed:
            return "Stray"
        if m.kind == TERMINATE:
            return "Stray"
        if m.kind == RECONFIGURE or m.channel == 0:
            return self.refuse()
        if m.kind == STATUS:
            return "Stray"
        value = None
        if m.kind in (EXEC, DATA, ERROR):
            try:
                value = Values(m.payload).read()
            except Refused:
                return self.refuse()
            if m.kind == ERROR and value[0] != "text":
                return self.refuse()
        if m.kind == EXEC:
            return "Stray"
        if m.kind == DATA:
            return self.item(m.channel, value)
        return self.end(m.channel, m.kind, value)

    def item(self, channel, value):
        if channel in self.ended:
            return "Stray"
        if channel == 1:
            news = event(value) or "Stray"
            if news.startswith("LogStart ") and int(news.split()[2]) % 2 == 0:
                self.logs.add(int(news.split()[2]))
            self.finished = self.finished or news == "Finished"
            return news
        if channel in self.logs and value[0] == "bytes":
            return "Piece %d %s" % (channel, value[1].hex())
        return "Stray"

    def end(self, channel, kind, text):
        if channel in self.ended:
            return "Stray"
        self.ended.add(channel)
        if channel in self.logs:
            return "LogClosed %d" % channel
        if channel == 1 and kind != LAST:
            if self.finished:
                return None
            return "Closed" if kind == CLOSE else "Closed '%s'" % text[1]
        return "Stray"


# ---- the rows

READY, FINISHED = call("workerready"), call("workerfinished")


def fixed():
    honest = [READY, call("collectionfinish", ids=["a", "b"]), log_start(0, 2), data(2, b"x"), close(2), done()]
    yield []
    yield [READY]
    yield [FINISHED]
    yield [call("collectionfinish", ids=[])]
    yield [call("collectionfinish", ids=["a"])]
    yield [call("unscheduled", indices=[])]
    yield [call("unscheduled", indices=[0, 4294967295])]
    yield [call("unscheduled", indices=[4294967296])]
    yield [call("unscheduled", indices=[-1])]
    yield [call("unscheduled", indices=(1, 2))]
    yield [call("collectionfinish", ids=["a", 1])]
    yield [call("collectionfinish")]
    yield [call("workerready", more=7)]
    yield [data(1, ("workerready", {1: 2}))]
    yield [data(1, ("workerready",))]
    yield [data(1, ["workerready", {}])]
    yield [data(1, "workerready")]
    yield [data(1, ("workerreadyy", {}))]
    yield honest
    yield honest + [FINISHED, close(1)]
    yield [READY, FINISHED, close(1), READY]
    yield [FINISHED, error(1, "late")]
    yield [FINISHED, last(1)]
    yield [FINISHED, last(1), close(1)]
    yield [close(1)]
    yield [close(1), close(1)]
    yield [close(1), READY]
    yield [close(1), FINISHED, close(1)]
    yield [error(1, "suite cannot be read")]
    yield [error(1, "")]
    yield [error(1, "a"), error(1, "b")]
    yield [last(1)]
    yield [last(1), READY]
    yield [last(1), close(1)]
    yield [last(1), last(1)]
    yield [Message(ERROR, 1, 7)]
    yield [Message(ERROR, 1, None), READY]
    yield [Message(ERROR, 2, b"x"), READY]
    yield [log_start(0, 2), data(2, b"")]
    yield [log_start(0, 2), data(2, b"x"), data(2, "x"), data(2, b"y")]
    yield [log_start(0, 2), data(4, b"x")]
    yield [data(2, b"x"), log_start(0, 2), data(2, b"y")]
    yield [log_start(0, 2), close(2), data(2, b"x"), close(2)]
    yield [log_start(0, 2), last(2), data(2, b"x"), close(2)]
    yield [log_start(0, 2), error(2, "e"), last(2)]
    yield [close(2), log_start(0, 2), data(2, b"x"), close(2)]
    yield [last(2), log_start(0, 2), data(2, b"x"), close(2)]
    yield [data(2, 1), close(2), log_start(0, 2), data(2, b"x")]
    yield [data(2, 1), last(2), log_start(0, 2), data(2, b"x"), close(2)]
    yield [log_start(0, 3), data(3, b"x"), close(3)]
    yield [log_start(0, 1), data(1, b"x"), READY]
    yield [log_start(0, 2), log_start(1, 2), data(2, b"x"), close(2)]
    yield [log_start(0, 2), close(2), log_start(1, 2), data(2, b"x")]
    yield [log_start(0, 2), log_start(1, 4), data(4, b"4"), data(2, b"2"), close(4), close(2)]
    yield [log_start(0, 2147483646), data(2147483646, b"x"), close(2147483646)]
    yield [log_start(4294967295, 2)]
    yield [log_start(4294967296, 2), data(2, b"x")]
    yield [log_start(0, 0)]
    yield [call("logstart", log=Channel(2), item_index=3)]
    yield [call("logstart", item_index=0, log=2), data(2, b"x")]
    yield [call("logstart", item_index=0), data(2, b"x")]
    yield [data(1, Channel(2)), data(2, b"x"), close(2)]
    yield [Message(EXEC, 2, ("", None, "echo", {})), data(2, b"x"), close(2)]
    yield [Message(EXEC, 1, ("", None, "echo", {})), READY]
    yield [Message(STATUS, 2), log_start(0, 2), data(2, b"x")]
    yield [Message(STATUS, 1), READY]
    yield [Message(TERMINATE, 0), READY]
    yield [Message(TERMINATE, 1, payload=b"?"), READY]
    yield [Message(RECONFIGURE, 0), READY]
    yield [Message(RECONFIGURE, 1), READY]
    yield [Message(STATUS, 0), READY]
    yield [Message(DATA, 0, 1), READY]
    yield [close(0), READY]
    yield [Message(CLOSE, 1, payload=b"?")]
    yield [Message(LAST, 2, payload=b"?"), READY]
    yield [close(3), data(3, 1), READY]
    yield [data(5, b"x"), READY]
    yield [last(4), data(4, b"x"), log_start(0, 4), data(4, b"x")]
    for code in (0, 1, 76, 77, 78, 255, 256, -1, -2, -3, -4):
        yield [done(outcome="failed", code=code)]
    yield [done(outcome="passed", code=1)]
    yield [done(outcome="skipped")]
    yield [done(outcome="skipped", code=77)]
    yield [done(outcome="crashed")]
    yield [done(duration=18446744073709551615)]
    yield [done(duration=18446744073709551616)]
    yield [done(duration=-1)]
    yield [done(index=4294967296)]
    yield [done(index=True)]
    yield [done(outcome="failed", code=4294967297)]
    yield [done(outcome="skipped", duration=4294967296)]
    yield [done(duration="12")]
    yield [call("runtest_protocol_complete", duration=12, code=3, outcome="failed", item_index=0)]
    whole = {"item_index": 0, "outcome": "failed", "code": 3, "duration": 12}
    for missing in whole:
        yield [call("runtest_protocol_complete", **{key: whole[key] for key in whole if key != missing})]
    yield [call("workerfinished", exitstatus=1)]
    yield [call("shutdown")]
    for bad in (b"", b"L", b"LQL", b"LLQ", b"?Q", b"DQ", b"F\0\0Q", b"N\0\0\0\1\xffQ", b"B\0\0\0\0Q", b"K\0\0\0\1Q", b"JKP", b"JLLPLLPQ", b"@\0\0\0\1Q", b"H\0\0\0\1-Q", b"A\0\0\0\5xQ", b"JK\0\0\0\0LPQ", b"LLO\0\0\0\2Q"):
        yield [Message(DATA, 1, payload=bad), READY]
    yield [Message(DATA, 1, payload=form((Raw(b"S" + number(11) + b"workerready"), {})) + b"Q")]
    yield [Message(DATA, 1, payload=form((Raw(b"M" + number(11) + b"workerready"), {})) + b"Q")]
    yield [Message(DATA, 1, payload=b"N\0\0\0\x0bunscheduledJN\0\0\0\x07indicesK\0\0\0\1G\0\0\0\0H\0\0\0\x0207PP@\0\0\0\2Q")]


def chance(rng):
    """Some messages of one link, honest for the most part."""
    messages, log, index = [READY], 0, 0
    open_log = None
    for _ in range(rng.randrange(1, 7)):
        pick = rng.randrange(20)
        if pick < 4:
            log, index = log + 2, rng.randrange(9)
            open_log = log
            messages.append(log_start(index, log))
        elif pick < 8:
            messages.append(data(open_log or 2, bytes(rng.randrange(97, 123) for _ in range(rng.randrange(4)))))
        elif pick < 11:
            messages.append(rng.choice([close, last])(open_log or 2))
        elif pick < 13:
            outcome, code = rng.choice([("passed", 0), ("skipped", 0), ("failed", 1), ("failed", -1), ("passed", 3)])
            messages.append(done(index, outcome, code, rng.randrange(1000)))
        elif pick < 14:
            messages.append(call("unscheduled", indices=[rng.randrange(9) for _ in range(rng.randrange(3))]))
        elif pick < 15:
            messages.append(FINISHED)
        elif pick < 17:
            messages.append(rng.choice([close(1), error(1, "bad command"), last(1)]))
        elif pick < 18:
            messages.append(data(rng.choice([1, 2, 3, 4, 6]), rng.choice([None, 7, b"q", "t", [], Channel(6)])))
        elif pick < 19:
            messages.append(rng.choice([Message(STATUS, 2), Message(TERMINATE, 0), Message(EXEC, 4, None), close(8), last(6)]))
        else:
            messages.append(rng.choice([Message(RECONFIGURE, 0), close(0), Message(DATA, 2, payload=b"?Q"), Message(ERROR, 1, 5)]))
    return messages


def main():
    rng = random.Random(1)
    rows = [messages for messages in fixed() if messages]
    while len(rows) < HOW_MANY:
        rows.append(chance(rng))
    print("// Message lists of a worker's link, with the news that they mean. Written by tools/news.py.")
    print("")
    print("/// A line for each list: its messages, as hexadecimal bytes with spaces between them, and after ` ~ ` their news in")
    print("/// words, each followed by a semicolon. A message that makes no news has a dash.")
    print('pub const ROWS: &str = "\\')
    for messages in rows:
        ear = Ear()
        news = "".join("%s;" % (w if w is not None else "-") for w in map(ear.hear, messages))
        print("     %s ~ %s\\n\\" % (" ".join(m.frame().hex() for m in messages), news))
    print('";')


if __name__ == "__main__":
    main()
