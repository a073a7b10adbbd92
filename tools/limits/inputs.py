"""Event lines with numbers at their limits, and inputs of the greatest size."""
import json
import os

from limits.sites import INPUT_BYTES, U32, U64, Script, job, pool, requester, serve, site_of
from limits.trial import case


WORDS = [
    ("open launcher p{}", 3, 0, 65_535, "wrong-role"),
    ("open janitor p{}", 3, 0, 65_535, "wrong-role"),
    ("open requester q{}", 3, 0, 65_535, "wrong-role"),
    ("crash s{}", 2, 0, U32, "no-session"),
    ("expire s{}", 2, 0, U32, "no-session"),
    ("submit s{} j0", 2, 0, U32, "no-session"),
    ("submit s9 j{}", 3, 0, U32, "no-session"),
    ("min-ready s9 l{}", 3, 0, 65_535, "no-session"),
    ("lock-request s9 {}-0000000000", 3, 100, 999, "no-session"),
    ("lock-request s9 200-{:010}", 3, 0, U32, "no-session"),
    ("decline s9 200-0000000000 no-label l{}", 5, 0, 65_535, "no-session"),
    ("decline s9 200-0000000000 spent n{}", 5, 0, U32, "no-session"),
    ("take-ready s9 200-0000000000 n{}", 4, 0, U32, "no-session"),
    ("done s9 n{} 0 failed", 3, 0, U32, "no-session"),
    ("done s9 n0 {} failed", 4, 0, 255, "no-session"),
    ("done s9 n0 0 ok {}", 6, 0, U64, "no-session"),
    ("revise s9 j0 {}", 4, 0, 1_000_000, "no-session"),
    ("sweep s9 n0 {}", 4, 0, U64, "no-session"),
]


@case
def words_of_lines(trial):
    """each number of an event line at its ends, and past them"""
    site = site_of([pool()], [requester([job(0)])])
    script = Script(site)
    for form, at, least, greatest, refusal in WORDS:
        for value in (least, greatest):
            if refusal == "no-session" or value == greatest:
                script.say(form.format(value), "refused " + refusal)
        for value in (least - 1, greatest + 1, 10 * greatest, 10**60):
            trial.refuses_line(site, "tick\n" * 9 + form.format(value) + "\n", f"line 10: bad-argument {at}")
    trial.plays(script)
    trial.refuses_line(site, "tick\n" + "x" * 1_000_000 + "\n", "line 2: unknown-event")
    trial.refuses_line(site, "tick" + " x" * 1_000_000 + "\n", "line 1: wrong-count")


@case
def ticks(trial):
    """262,144 ticks, and one more"""
    script = Script(site_of([pool()], [requester([job(0)])]))
    script.fill()
    trial.plays(script)
    script.say("tick")
    given = script.given()
    trial.expect(["replay"], given, 4, err=b"poolsim: script: line 262145: too-many\n")
    trial.expect(["replay"], given + b"x\n" * 1_000_000, 4, err=b"poolsim: script: line 262145: too-many\n")


@case
def input_bytes(trial):
    """inputs of 67,108,864 bytes, and of one more"""
    site = site_of([pool()], [requester([job(0)])])
    played, script = served_site_script(site), Script(site)
    script.say("tick")
    rest = script.given()
    longer = b"poolsim: input is longer than 67108864 bytes\n"
    spaces = b" " * (INPUT_BYTES - len(rest))
    trial.expect(["replay"], spaces + rest, 0, script.printed())
    log = trial.path("log")
    trial.expect(["keep", log], spaces + rest, 0, script.printed())
    os.remove(log)
    lone = json.dumps(site).encode()
    told = trial.expect(["run"], lone + b"\n" * (INPUT_BYTES - len(lone)), 0, None)
    trial.audits(told.out)
    hosts = lone + b"\n%%\n"
    told = trial.expect(["run", "hosts"], b"\t" * (INPUT_BYTES - len(hosts)) + hosts, 0, None)
    trial.audits(told.out)
    text = played.printed()
    number = text.count(b"\n") + 1
    for more in (b"\n", b"x"):
        given = text + more * (INPUT_BYTES - len(text))
        trial.expect(["audit"], given, 8, err=f"poolsim: audit: line {number}\n".encode())
        for words in (["audit"], ["replay"], ["run"], ["run", "hosts"], ["keep", log]):
            trial.expect(words, given + more, 5, err=longer)
    trial.expect(["replay"], b"%" * INPUT_BYTES, 3, err=b"poolsim: configuration: not-json #\n")


def served_site_script(site):
    """One job, served by one pool."""
    script = Script(site)
    launcher, asker = script.launcher(), script.open("requester q0")
    serve(script, launcher, asker, 0, [0], ["n0"])
    return script
