"""What the scripts of this folder read of the system about processes: whose child one is, what state it is in, and what it
holds. Linux alone tells this, below /proc."""
import collections
import os
import time

SLEEPS, ENDED = "S", "Z"

Process = collections.namedtuple("Process", "pid parent state start")


def process(pid):
    """The process of this number, or None where there is none. One that ended and was not waited for is in the state Z."""
    try:
        with open(f"/proc/{pid}/stat", encoding="utf-8", errors="replace") as file:
            fields = file.read().rpartition(")")[2].split()
    except OSError:
        return None
    return Process(int(pid), int(fields[1]), fields[0], int(fields[19]))


def processes():
    """All processes of the system."""
    found = [process(pid) for pid in os.listdir("/proc") if pid.isdigit()]
    return [one for one in found if one is not None]


def children(pid):
    """The children of a process, also those that ended and were not waited for, in the order in which they were started."""
    return sorted((one for one in processes() if one.parent == pid), key=lambda one: (one.start, one.pid))


def family(pid):
    """The children of a process, their children, and so on."""
    found, parents = [], {pid}
    everyone = processes()
    while parents:
        below = [one for one in everyone if one.parent in parents]
        found += below
        parents = {one.pid for one in below}
    return found


def lives(one):
    """Whether this very process has not ended: its number may be another one's by now."""
    now = process(one.pid)
    return now is not None and now.start == one.start and now.state != ENDED


def is_kept(one):
    """Whether the system keeps the number of this very process, as it does until somebody waited for the end of all of it."""
    now = process(one.pid)
    return now is not None and now.start == one.start


def threads(pid):
    """How many threads a process has."""
    return len(os.listdir(f"/proc/{pid}/task"))


def sleeps(pid):
    """How often each thread of a process has left its processor, where all of them sleep or have ended; else None. Where
    it is the same twice, none has been awake in between."""
    found = {}
    try:
        for thread in os.listdir(f"/proc/{pid}/task"):
            with open(f"/proc/{pid}/task/{thread}/status", encoding="utf-8", errors="replace") as file:
                lines = dict(line.split(":", 1) for line in file if ":" in line)
            if lines["State"].split()[0] not in (SLEEPS, ENDED):
                return None
            found[thread] = lines["voluntary_ctxt_switches"], lines["nonvoluntary_ctxt_switches"]
    except OSError:
        return None
    return found


def descriptors(pid):
    """What a process has open, by the numbers of its descriptors."""
    folder = f"/proc/{pid}/fd"
    found = {}
    for name in os.listdir(folder):
        try:
            found[int(name)] = os.readlink(os.path.join(folder, name))
        except OSError:
            pass
    return found


def wait_until(is_so, seconds, pause=0.01):
    """Looks again and again, with pauses, until it is so; whether it was so within these seconds."""
    end = time.monotonic() + seconds
    while not is_so():
        if time.monotonic() > end:
            return False
        time.sleep(pause)
    return True
