"""A case: it runs the program, compares, and keeps what differs, the longest run and the greatest memory."""
import json
import os
import re
import subprocess
import sys

from limits.sites import ENTRIES, U64, jobs_of, pools_of, written

PATIENCE = 100  # seconds of processor time, after which a run is stopped; if it only waits, after ten times as long
SLOW = 20  # seconds of processor time, above which a run is said to be slow
LARGE = 600_000  # KiB of memory, above which a run is said to be large

# Runs a program and writes its status, its processor time and its peak memory in KiB. It is a process of its own, since
# a child's peak begins with the memory of the process that it was forked from.
MEASURE = """
import os, resource, signal, sys
child = os.fork()
if not child:
    seconds = int(sys.argv[2])
    signal.alarm(10 * seconds)
    resource.setrlimit(resource.RLIMIT_CPU, (seconds, seconds))
    os.execv(sys.argv[3], sys.argv[3:])
_, status, spent = os.wait4(child, 0)
status = -os.WTERMSIG(status) if os.WIFSIGNALED(status) else os.WEXITSTATUS(status)
with open(sys.argv[1], "w") as report:
    print(status, spent.ru_utime + spent.ru_stime, spent.ru_maxrss, file=report)
"""

CASES = {}


def case(function):
    CASES[function.__name__.replace("_", "-")] = function
    return function


class Told:
    def __init__(self, status, seconds, peak, out, err):
        self.status, self.seconds, self.peak, self.out, self.err = status, seconds, peak, out, err


def shown(text, most=200):
    text = text.decode(errors="replace")
    return repr(text if len(text) <= most else text[:most] + "..")


def difference(wanted, found):
    """The first line in which two outputs differ."""
    wanted, found = wanted.split(b"\n"), found.split(b"\n")
    for number, (one, other) in enumerate(zip(wanted, found), 1):
        if one != other:
            return f"line {number} is {shown(other)}, and not {shown(one)}"
    return f"{len(found)} lines, and not {len(wanted)}"


class Trial:
    """One case: runs the program, and keeps what differs, the longest run and the greatest memory."""

    def __init__(self, name, program, folder, keep):
        self.name, self.program, self.folder, self.keep = name, program, folder, keep
        self.faults, self.runs, self.seconds, self.peak = [], 0, 0, 0

    def path(self, name):
        return os.path.join(self.folder, name)

    def run(self, words, given=b""):
        with open(self.path("in"), "wb") as file:
            file.write(given)
        command = [sys.executable, "-I", "-S", "-c", MEASURE, self.path("report"), str(PATIENCE), self.program, *words]
        with open(self.path("in")) as stdin, open(self.path("out"), "w") as out, open(self.path("err"), "w") as err:
            subprocess.run(command, stdin=stdin, stdout=out, stderr=err, check=True)
        with open(self.path("report")) as file:
            status, seconds, peak = file.read().split()
        with open(self.path("out"), "rb") as out, open(self.path("err"), "rb") as err:
            told = Told(int(status), float(seconds), int(peak), out.read(), err.read())
        self.runs += 1
        self.seconds, self.peak = max(self.seconds, told.seconds), max(self.peak, told.peak)
        if told.seconds > SLOW:
            self.fault(words, given, f"slow: {told.seconds:.1f} s")
        if told.peak > LARGE:
            self.fault(words, given, f"large: {told.peak / 1024:.0f} MB")
        return told

    def fault(self, words, given, what):
        self.faults.append(f"{' '.join(words)}, of {len(given):,} bytes: {what}")
        if self.keep and len(self.faults) <= 9:
            path = os.path.join(self.keep, f"{self.name}-{len(self.faults)}")
            with open(path + ".input", "wb") as file:
                file.write(given)
            with open(path + ".txt", "w") as file:
                print(self.faults[-1], file=file)

    def expect(self, words, given, status, out=b"", err=b""):
        """Runs the program, and compares all that it says."""
        told = self.run(words, given)
        if told.status != status:
            self.fault(words, given, f"status {told.status}, and not {status}: {shown(told.err)}")
        elif told.err != err:
            self.fault(words, given, f"standard error is {shown(told.err)}, and not {shown(err)}")
        elif out is not None and told.out != out:
            self.fault(words, given, "printed: " + difference(out, told.out))
        return told

    def plays(self, script):
        """`replay` prints the script's Text, and `audit` says yes to it."""
        text = script.printed()
        self.expect(["replay"], script.given(), 0, text)
        self.audits(text)

    def audits(self, text):
        self.expect(["audit"], text, 0, b"yes\n")

    def refuses(self, site, kind, pointer):
        """`replay` and `run` name the fault of a configuration."""
        text = site if isinstance(site, bytes) else json.dumps(site).encode()
        err = f"poolsim: configuration: {kind} #{pointer}\n".encode()
        self.expect(["run"], text, 3, err=err)
        self.expect(["replay"], text + b"\n%%\ntick\n", 3, err=err)

    def refuses_line(self, site, lines, what):
        given = json.dumps(site) + "\n%%\n" + lines
        self.expect(["replay"], given.encode(), 4, err=f"poolsim: script: {what}\n".encode())

    def settles(self, words, site, fates, status=0, hosts=""):
        """Plays a site, and looks at its Text; `fates` gives the pattern of a job's fate by its number."""
        given = (json.dumps(site) + hosts).encode()
        err = b"poolsim: journal is full\n" if status == 9 else b""
        told = self.expect(words, given, status, None, err)
        if told.status != status:
            return []
        for what in text_faults(site, told.out.decode(), fates, status):
            self.fault(words, given, what)
        parts = told.out.decode().split("%%\n")
        events = [line.split(" = ") for line in parts[1].splitlines()] if len(parts) == 3 else []
        script = "\n".join([written(site), "%%", *(event for event, _ in events), ""])
        self.expect(["replay"], script.encode(), 0, told.out)
        self.audits(told.out)
        return events


def text_faults(site, text, fates, status):
    """Gives what is wrong in the Text of a site that played itself, as far as this tool knows."""
    parts = text.split("%%\n")
    if len(parts) != 3 or parts[0] != written(site) + "\n":
        yield "the Text has other parts, or another configuration"
        return
    events = parts[1].splitlines()
    if status == 9 and len(events) != ENTRIES:
        yield f"the journal is full with {len(events):,} entries"
    if status != 9 and events[-1:] not in (["tick = ok"], []):
        yield f"the last entry is {events[-1]}"
    yield from (f"refused: {it}" for it in events if " = refused" in it and not it.startswith("done"))
    names_of_jobs, lines = jobs_of(site), parts[2].splitlines()
    if len(lines) != len(names_of_jobs):
        yield f"{len(lines)} fates of {len(names_of_jobs)} jobs"
    served = [word for line in lines for word in line.split()[4:] if line.split()[2] == "served"]
    if len(served) != len(set(served)):
        yield "two jobs were served with one node"
    for number, (name, line) in enumerate(zip(names_of_jobs, lines)):
        head = f"j{number} {name} "
        if not line.startswith(head) or not re.fullmatch(fates(number), line[len(head) :]):
            yield f"the fate is {line}, and not {fates(number)}"
            return
    yield from room_faults(site, events)


def room_faults(site, events):
    """Gives the first event after which a pool has more servers than it may."""
    most = [it.get("max-servers", U64) for it in pools_of(site)]
    pool_of, owner, count = {}, {}, [0] * len(most)
    for line in events:
        words = line.split()
        if words[0] == "open" and words[1] == "launcher":
            pool_of[words[-1]] = int(words[2][1:])
        elif words[0] == "create":
            owner[words[-1]] = pool_of[words[1]]
            count[owner[words[-1]]] += 1
            if count[owner[words[-1]]] > most[owner[words[-1]]]:
                yield f"a pool has too many servers after {line}"
                return
        elif words[0] == "gone":
            count[owner[words[2]]] -= 1


def served_by(pools, nodes=1):
    """The pattern of a job that one of the pools served with this many nodes."""
    numbers = "|".join(str(number) for number in pools)
    return f"served p(?:{numbers})(?: n\\d+){{{nodes}}}"
