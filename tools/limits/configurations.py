"""Configurations at each of their limits, and one past it."""
from limits.sites import U64, Script, job, name_of, names, pool, provider, requester, site_of
from limits.trial import case, served_by

ALPHABET = "ABCDEFGHIJKLMNOPQRSTUVWXYZabcdefghijklmnopqrstuvwxyz0123456789._-"


def with_all_keys():
    """A small site in which each key is written."""
    limits = {"max-servers": 1, "max-cores": 1, "max-ram": 1}
    offers = [{"name": "a", "cores": 1, "ram": 1}]
    unit = {"name": "j", "labels": ["a"], "priority": "normal", "relative-priority": 0, "semaphores": ["s"]}
    unit = {**unit, "resources-first": True, "end": "hold", "tenant": "t"}
    return {
        "labels": [{"name": "a", "min-ready": 0, "max-ready-age": 0}],
        "max-hold-age": 0,
        "providers": [
            {
                "name": "c",
                "launch-retries": 3,
                "max-concurrency": 1,
                "pools": [{"name": "m", **limits, "labels": offers, "fail-starts": [1]}],
            }
        ],
        "semaphores": [{"name": "s", "max": 1}],
        "tenants": [{"name": "t", **limits}],
        "requesters": [{"name": "z", "window": 1, "jobs": [unit]}],
        "faults": [{"role": "requester", "name": "z", "kind": "stop", "after": 0}],
    }


def put(site, pointer, value):
    """Sets what is at a JSON pointer."""
    *steps, last = [int(step) if step.isdigit() else step for step in pointer.split("/")[1:]]
    for step in steps:
        site = site[step]
    site[last] = value


NUMBERS = [
    ("/max-hold-age", 0, 1_000_000),
    ("/labels/0/min-ready", 0, 1_000),
    ("/labels/0/max-ready-age", 0, 1_000_000),
    ("/providers/0/launch-retries", 1, 16),
    ("/providers/0/max-concurrency", 1, 4_096),
    ("/providers/0/pools/0/max-servers", 0, 1_000_000),
    ("/providers/0/pools/0/max-cores", 0, 1_000_000_000),
    ("/providers/0/pools/0/max-ram", 0, 1_000_000_000),
    ("/providers/0/pools/0/fail-starts/0", 1, 262_144),
    ("/providers/0/pools/0/labels/0/cores", 0, 1_000),
    ("/providers/0/pools/0/labels/0/ram", 0, 1_000_000),
    ("/semaphores/0/max", 1, 4_096),
    ("/tenants/0/max-servers", 0, 1_000_000),
    ("/tenants/0/max-cores", 0, 1_000_000_000),
    ("/tenants/0/max-ram", 0, 1_000_000_000),
    ("/requesters/0/window", 1, 4_096),
    ("/requesters/0/jobs/0/relative-priority", 0, 1_000_000),
    ("/faults/0/after", 0, 262_144),
]


@case
def configured_numbers(trial):
    """each number of a configuration at its least and its greatest, and past them"""
    for pointer, least, greatest in NUMBERS:
        for value in (least, greatest):
            site = with_all_keys()
            put(site, pointer, value)
            trial.plays(Script(site))
        for value in (least - 1, greatest + 1, U64, U64 + 1):
            site = with_all_keys()
            put(site, pointer, value)
            trial.refuses(site, "out-of-range" if 0 <= value <= U64 else "wrong-type", pointer)


def lists():
    """Gives each list: its pointer, how many items it may have, at least and at most, and what gives an item."""
    yield "/labels", 0, 256, lambda at: {"name": name_of("l", at) if at else "a"}
    yield "/providers", 1, 64, lambda at: provider([pool()], name_of("c", at) if at else "c")
    yield "/providers/0/pools", 1, 64, lambda at: pool(name_of("m", at))
    yield "/providers/0/pools/0/labels", 0, 256, lambda at: {"name": name_of("l", at) if at else "a"}
    yield "/providers/0/pools/0/fail-starts", 0, 4_096, lambda at: 262_144 - 4_096 + at
    yield "/semaphores", 0, 64, lambda at: {"name": name_of("s", at) if at else "s"}
    yield "/tenants", 0, 64, lambda at: {"name": name_of("t", at) if at else "t"}
    yield "/requesters", 0, 16, lambda at: requester([job(0)], name_of("z", at) if at else "z")
    yield "/requesters/0/jobs", 0, 4_096, lambda at: {"name": name_of("j", at), "labels": ["a"]}
    yield "/requesters/0/jobs/0/labels", 1, 32, lambda at: "a"
    yield "/requesters/0/jobs/0/semaphores", 0, 8, lambda at: name_of("s", at) if at else "s"
    yield "/faults", 0, 1_024, lambda at: {"role": "requester", "name": "z", "kind": "expire", "after": at}


def with_targets():
    """A site with all names that the items of `lists` refer to."""
    site = with_all_keys()
    site["labels"] = [{"name": "a"}] + [{"name": name} for name in names("l", 256)[1:]]
    site["semaphores"] = [{"name": "s"}] + [{"name": name} for name in names("s", 64)[1:]]
    return site


@case
def configured_lists(trial):
    """each list of a configuration with as many items as it may have, and with one fewer or more"""
    for pointer, least, greatest, item in lists():
        for count in {max(least, 1), greatest}:
            site = with_targets()
            put(site, pointer, [item(at) for at in range(count)])
            trial.plays(Script(site))
        for count in {least - 1, greatest + 1, 70_000 if greatest > 64 else -1}:
            if count >= 0:
                site = with_targets()
                put(site, pointer, [item(at) for at in range(count)])
                trial.refuses(site, "out-of-range" if count < least else "too-many", pointer)
    trial.plays(Script({"labels": [], "providers": [provider([pool(labels=())])]}))
    starts = with_all_keys()
    put(starts, "/providers/0/pools/0/fail-starts", [*range(1, 4_096), 4_095])
    trial.refuses(starts, "out-of-range", "/providers/0/pools/0/fail-starts/4095")
    pools = lambda count: [pool(f"m{at}") for at in range(count)]
    split = lambda count: {**site_of([]), "providers": [provider(pools(63), "a"), provider(pools(count))]}
    trial.plays(Script(split(1)))
    trial.refuses(split(2), "too-many", "/providers/1/pools")
    both = lambda count: [requester(map(job, range(1_000)), "a"), requester(map(job, range(count)))]
    trial.plays(Script(site_of([pool()], both(3_096))))
    trial.refuses(site_of([pool()], both(3_097)), "too-many", "/requesters/1/jobs")


NAMED = [
    "/labels/0",
    "/providers/0",
    "/providers/0/pools/0",
    "/semaphores/0",
    "/tenants/0",
    "/requesters/0",
    "/requesters/0/jobs/0",
]


@case
def configured_names(trial):
    """names of 0, 1, 64 and 65 characters, with each character that a name may have"""
    name, other = ALPHABET[:64], ALPHABET[-64:]
    jobs = [{"name": it, "labels": [name], "semaphores": [other], "tenant": it} for it in (name, other)]
    pools = [pool(name, [name, other]), pool(other, [other])]
    site = {
        "labels": [{"name": name}, {"name": other}],
        "providers": [provider(pools, name), provider([pool("m", [name])], other)],
        "semaphores": [{"name": name}, {"name": other}],
        "tenants": [{"name": name}, {"name": other}],
        "requesters": [requester(jobs, name)],
        "faults": [{"role": "launcher", "name": f"{name}/{other}", "kind": "expire", "after": 0}],
    }
    trial.plays(Script(site))
    trial.settles(["run"], site, lambda number: served_by([0, 2]) + "|failed p1:no-label-l0")
    for pointer in NAMED:
        for wrong in ("", "a" * 65, "a" * 70_000, "a b", "é"):
            site = with_all_keys()
            put(site, pointer + "/name", wrong)
            trial.refuses(site, "bad-name", pointer + "/name")


@case
def configured_text(trial):
    """JSON nested 127 deep and deeper, and numbers at the ends of what JSON has"""
    nested = lambda depth: b"[" * depth + b"]" * depth
    trial.refuses(nested(127), "wrong-type", "")
    trial.refuses(nested(128), "not-json", "")
    trial.refuses(nested(1_000_000), "not-json", "")
    trial.refuses(b'{"labels":[' + nested(125) + b"]}", "wrong-type", "/labels/0")
    trial.refuses(b'{"labels":[' + nested(126) + b"]}", "not-json", "")
    for number in (b"1e308", b"-1e308", b"9" * 300, b"1." + b"0" * 100_000, b"-0"):
        trial.refuses(b'{"labels":' + number + b"}", "wrong-type", "/labels")
    for number in (b"1e309", b"-1e309", b"9" * 400, b"9" * 100_000):
        trial.refuses(b'{"labels":' + number + b"}", "not-json", "")
    trial.refuses(b'{"' + b"k" * 1_000_000 + b'":0}', "unknown-key", "")
