"""Scripts at all limits at once, and logs at theirs."""
import os

from limits.sites import (
    ENTRIES, INPUT_BYTES, Script, at_all_limits, job, log_of, longest_lines, pool, requester,
    site_of,
)
from limits.trial import case


def keeps(trial, script):
    """`keep` plays a script and leaves its log, from which `resume` prints the same; no event fits after 262,144."""
    log, wanted, given, text = trial.path("log"), log_of(script), script.given(), script.printed()
    trial.expect(["keep", log], given, 0, text)
    for words, more, status, out, err in [
        (["resume", log], b"", 0, text, b""),
        (["resume", log], b"tick\n", 4, b"", b"poolsim: script: line 1: too-many\n"),
        (["keep", log], given, 11, b"", b"poolsim: log: file is not empty\n"),
    ]:
        trial.expect(words, more, status, out, err)
        with open(log, "rb") as file:
            if file.read() != wanted:
                trial.fault(words, more, "the log has other bytes")
    os.remove(log)


@case
def all_limits(trial):
    """a configuration at each of its limits, with 262,144 of the longest lines: replay, audit, keep and resume"""
    site = at_all_limits()
    script = Script(site)
    launcher, asker = script.launcher(63), script.open("requester q0")
    wanted = script.ask(asker, 0, launcher)
    for node in range(32):
        script.say(f"create {launcher} {wanted}", f"node n{node}")
    longest_lines(script)
    trial.plays(script)
    keeps(trial, script)
    text = script.printed()
    lines = text.count(b"\n")
    spoilt = text[:-2] + b"x\n"
    trial.expect(["audit"], spoilt, 8, err=f"poolsim: audit: line {lines}\n".encode())
    trial.expect(["audit"], text[:-1], 8, err=f"poolsim: audit: line {lines}\n".encode())
    at = text.index(b"\n%%\nj0 ")
    spoilt = text[:at] + b"x" + text[at:]
    trial.expect(["audit"], spoilt, 8, err=f"poolsim: audit: line {ENTRIES + 2}\n".encode())
    given = text + text[-1_000_000:] * ((INPUT_BYTES - len(text)) // 1_000_000)
    given += b"x" * (INPUT_BYTES - len(given))
    trial.expect(["audit"], given, 8, err=f"poolsim: audit: line {lines + 1}\n".encode())


@case
def logs(trial):
    """logs of 262,144 events, resumed with their last event, and damaged at their last record or past it"""
    script = Script(site_of([pool()], [requester([job(0)])]))
    script.fill()
    keeps(trial, script)
    last = script.entries.pop()
    log = trial.path("log")
    trial.expect(["keep", log], script.given(), 0, script.printed())
    script.entries.append(last)
    trial.expect(["resume", log], b"tick\ntick\n", 4, err=b"poolsim: script: line 2: too-many\n")
    trial.expect(["resume", log], b"tick\n", 0, script.printed())
    data = log_of(script)
    for spoilt, number in [
        (data[:-2] + b"x\x00", 4_096),
        (data[:-1], 4_097),
        (data[:-1] + b"\x01\x00\x00\x00\x05tick\n\x00", 4_097),
        (data[:-1] + b"\x01\xff\xff\xff\xff", 4_097),
        (b"\x01\xff\xff\xff\xff" + data, 0),
    ]:
        with open(log, "wb") as file:
            file.write(spoilt)
        trial.expect(["resume", log], b"", 11, err=f"poolsim: log: damaged at record {number}\n".encode())
    longest = Script(script.site)
    longest_lines(longest)
    os.remove(log)
    keeps(trial, longest)
