"""Sites that play themselves: `run`, `run planned`, `run hosts` and `drill`."""
import collections
import json

from limits.sites import at_all_limits, dealt, job, large_jobs, name_of, names, pool, pools_of, requester, site_of
from limits.trial import case, served_by, shown


def one_of(site):
    """The pattern of a fate with as many nodes as the job has labels."""
    counts = [len(one["labels"]) for it in site["requesters"] for one in it["jobs"]]
    every = range(len(pools_of(site)))
    return lambda number: served_by(every, counts[number])


def settles_as_served(trial, site, words=("run",), **more):
    return trial.settles(list(words), site, one_of(site), **more)


@case
def drills(trial):
    """drills of 1 to 4,000 jobs, and the numbers past these"""
    for jobs in (1, 9, 10, 63, 64, 65, 1_023, 1_024, 1_025, 2_001, 2_047, 2_048, 2_049, 3_001, 4_000):
        told = [("jobs", jobs), ("served", jobs - jobs // 10), ("failed", jobs // 10)]
        told += [("lost", 0), ("withdrawn", 0), ("waiting", 0)]
        trial.expect(["drill", str(jobs)], b"", 0, "".join(f"{word} {count}\n" for word, count in told).encode())
    for wrong in ("0", "4001", "01", "-1", "+1", " 1", "1" * 100_000, ""):
        told = trial.run(["drill", wrong])
        if (told.status, told.out) != (2, b"") or not told.err.startswith(b"poolsim: usage: "):
            trial.fault(["drill", wrong[:20]], b"", f"status {told.status}: {shown(told.err)}")


@case
def window(trial):
    """4,096 jobs in one requester's window, over a pool without limits"""
    site = site_of([pool()], [requester(map(job, range(4_096)), window=4_096)])
    site["providers"][0]["max-concurrency"] = 4_096
    settles_as_served(trial, site)


def widest(jobs, labels=1, **more):
    """64 pools with names of 64 characters, and 16 requesters with 4,096 jobs or fewer."""
    label = name_of("l", 0)
    pools = [pool(name, [label], **{"max-servers": 20}) for name in names("m", 64)]
    units = [{"name": name, "labels": [label] * labels, **more} for name in names("j", jobs)]
    given = [{**it, "name": name_of("z", at)} for at, it in enumerate(dealt(units, 16, window=256))]
    return site_of(pools, given, [label])


@case
def pools_and_requesters(trial):
    """64 pools and 16 requesters with 4,096 jobs, so that more than 64 threads wait for turns"""
    settles_as_served(trial, widest(4_096))


@case
def plans(trial):
    """the same, and other sites, under `run planned`, if the program has it"""
    if b"planned" not in trial.run(["usage"]).err:
        return
    settles_as_served(trial, widest(4_096), ("run", "planned"))
    site = site_of([pool()], [requester(map(job, range(4_096)), window=4_096)])
    settles_as_served(trial, site, ("run", "planned"))
    site = site_of([pool(f"m{at}", **{"max-servers": 32}) for at in range(8)], [requester(large_jobs(300), window=64)])
    settles_as_served(trial, site, ("run", "planned"))


def host_faults(events, carried):
    """Gives the first launch whose server is not one of its pool's hosts; `carried` has what each host carries."""
    starts = {}
    for event, reply in events:
        words = event.split()
        if words[0] == "start":
            starts[words[2]] = int(reply.split()[2])
        elif words[0] == "done" and words[4] == "ok":
            launch, host = divmod(int(words[5]), 1_024)
            if launch != starts[words[2]] or host >= carried:
                yield f"{event} after start {starts[words[2]]}"
                return


@case
def hosts(trial):
    """1,024 host lines, of 64 pools and of one; a host that carries 1,000 servers, and hosts that carry too few"""
    site = widest(2_048)
    for it in pools_of(site):
        it["max-servers"] = 32
    lines = "\n%%\n" + "".join(f"host p{at % 64} 2\n" for at in range(1_024))
    events = settles_as_served(trial, site, ("run", "hosts"), hosts=lines)
    for what in host_faults(events, 16):
        trial.fault(["run", "hosts"], b"", what)
    for jobs, lines in ((1_024, "host p0 1\n" * 1_024), (1_000, "host p0 1000\n")):
        site = site_of([pool(**{"max-servers": jobs})], [requester([job(it, end="hold") for it in range(jobs)])])
        events = settles_as_served(trial, site, ("run", "hosts"), hosts="\n%%\n" + lines)
        used = {int(event.split()[5]) % 1_024 for event, _ in events if event.startswith("done")}
        if used != set(range(lines.count("\n"))):
            trial.fault(["run", "hosts"], b"", f"{len(used)} hosts were used")
    refused = [
        (1_000_000, "host p0 1000\n" * 1_000, None),
        (1_000_000, "host p0 1000\n" * 999, "pool p0 has room 999000"),
        (1, "host p0 1\n" * 1_025, "line 1025: too-many"),
        (1, "host p0 1001\n", "line 1: bad-argument 3"),
        (1, "host p0 0\n", "line 1: bad-argument 3"),
        (1, "host p1 1\n", "line 1: bad-argument 2"),
    ]
    for most, lines, what in refused:
        given = json.dumps(site_of([pool(**{"max-servers": most})])) + "\n%%\n" + lines
        err = f"poolsim: hosts: {what}\n".encode() if what else b""
        trial.expect(["run", "hosts"], given.encode(), 4 if what else 0, b"" if what else None, err)


@case
def held_servers(trial):
    """4,096 nodes that stay on hold, so that each round asks about up to 4,096 servers"""
    jobs = [job(number, end="hold") for number in range(4_096)]
    settles_as_served(trial, site_of([pool()], [requester(jobs, window=1_024)]))


@case
def ready_nodes(trial):
    """2,000 nodes that are kept ready, of two labels"""
    site = site_of([pool(labels=("a", "b"))], [requester([job(0)])], ("a", "b"))
    for label in site["labels"]:
        label["min-ready"] = 1_000
    events = settles_as_served(trial, site)
    count = sum(event.startswith("create") for event, _ in events)
    gone = sum(event.startswith("gone") for event, _ in events)
    if events and (count - gone != 2_000 or gone != 1):
        trial.fault(["run"], b"", f"{count} nodes were made and {gone} removed")


@case
def jobs_of_32_labels(trial):
    """300 jobs of 32 labels, served by 64 pools"""
    site = widest(300, 32)
    for it in pools_of(site):
        it["max-servers"] = 32
    settles_as_served(trial, site)


@case
def full_journal(trial):
    """4,096 jobs of 32 labels, for which the journal has no room: 262,144 entries"""
    fates = lambda number: "served p0(?: n\\d+){32}|waiting (?:new|asked|using)"
    trial.settles(["run"], site_of([pool()], [requester(large_jobs())]), fates, 9)


@case
def large_records(trial):
    """requests of 32 labels that up to 63 pools decline for a node that failed, and that the last pool serves"""
    failing = [pool(f"m{at}", **{"fail-starts": list(range(1, 4_097))}) for at in range(63)]
    site = site_of([*failing, pool("good", **{"max-servers": 32})], [requester(large_jobs(64), window=64)])
    site["providers"][0]["launch-retries"] = 1
    fates = served_by([63], 32) + "|failed(?: p\\d+:spent-n\\d+){1,63}"
    events = trial.settles(["run"], site, lambda number: fates)
    declined = collections.Counter(event.split()[2] for event, _ in events if event.startswith("decline"))
    served = {event.split()[2] for event, _ in events if event.startswith("fulfil")}
    if events and max((declined[it] for it in served), default=0) < 63:
        trial.fault(["run"], b"", "no request that was served had 63 declines")


@case
def failing_starts(trial):
    """4,096 starts that fail, with 16 launches for each node: 256 jobs fail, and the jobs after them are served"""
    site = site_of([pool(**{"fail-starts": list(range(1, 4_097))})], [requester(map(job, range(300)))])
    site["providers"][0]["launch-retries"] = 16
    fates = lambda number: f"failed p0:spent-n{number}" if number < 256 else f"served p0 n{number}"
    trial.settles(["run"], site, fates)


@case
def lost_sessions(trial):
    """1,024 planned losses of sessions, of 64 pools' launchers and janitors and of 16 requesters"""
    site = widest(4_096)
    full_names = [f"c/{it['name']}" for it in pools_of(site)]
    roles = [("launcher", it) for it in full_names] + [("janitor", it) for it in full_names]
    roles += [("requester", it["name"]) for it in site["requesters"]]
    lost = lambda at: {"role": roles[at % 144][0], "name": roles[at % 144][1], "after": 7 * (at // 144) + 5}
    site["faults"] = [{**lost(at), "kind": ("expire", "crash")[at % 2]} for at in range(1_024)]
    trial.settles(["run"], site, lambda number: f"{served_by(range(64))}|lost")


def most_lost(events):
    """The most nodes in whose queues a session was when it expired."""
    queues, most = {}, 0
    for event, reply in events:
        words = event.split()
        if words[0] == "create":
            queues.setdefault(words[1], set()).add(reply.split()[1])
        elif words[0] in ("lock-node", "take-ready"):
            queues.setdefault(words[1], set()).add(words[-1])
        elif words[0] == "unlock-node":
            queues[words[1]].discard(words[2])
        elif words[0] == "gone":
            for queue in queues.values():
                queue.discard(words[2])
        elif words[0] == "expire":
            most = max(most, len(queues.pop(words[1], ())))
    return most


@case
def lost_queues(trial):
    """a run in which a requester's session expires in the queues of more than 1,024 nodes"""
    more = {"semaphores": ["s"], "resources-first": True}
    jobs = [job(number, ["a"] * 32, **more) for number in range(64)]
    # The first requester stops with the semaphore, so that the other one's jobs keep their nodes and wait for ever.
    first = requester([job(0, ["a"] * 32, semaphores=["s"])], "y")
    pools = [pool(f"m{at}") for at in range(16)]
    site = site_of(pools, [first, requester(jobs, window=64)], semaphores=[{"name": "s"}])
    site["faults"] = [
        {"role": "requester", "name": "y", "kind": "stop", "after": 1},
        {"role": "requester", "name": "z", "kind": "crash", "after": 1_500},
    ]
    events = trial.settles(["run"], site, lambda number: "waiting asked", 1)
    if events and most_lost(events) <= 1_024:
        trial.fault(["run"], b"", f"{most_lost(events)} nodes")


@case
def semaphores_and_tenants(trial):
    """4,096 jobs with eight of 64 semaphores each, and 64 tenants"""
    listed = [{"name": f"s{at}", "max": 4_096 if at % 2 else 64} for at in range(64)]
    tenants_named = [{"name": f"t{at}", "max-servers": 2} for at in range(64)]
    more = lambda at: {"tenant": f"t{at % 64}", "semaphores": sorted({f"s{(at + 9 * it) % 64}" for it in range(8)})}
    jobs = [job(number, **more(number)) for number in range(4_096)]
    pools = [pool(f"m{at}") for at in range(4)]
    site = site_of(pools, dealt(jobs, 4, window=256), semaphores=listed, tenants=tenants_named)
    settles_as_served(trial, site)


@case
def waiting_jobs(trial):
    """4,096 jobs that wait for ever, since the only server stays on hold"""
    jobs = [job(number, end="hold") for number in range(4_096)]
    site = site_of([pool(**{"max-servers": 1})], [requester(jobs, window=4_095)])
    fates = lambda number: "served p0 n0" if number == 0 else "waiting asked" if number < 4_096 else "waiting new"
    trial.settles(["run"], site, fates, 1)


@case
def all_limits_played(trial):
    """a configuration at each of its limits, but for 64 jobs and four ready nodes of each label, plays itself"""
    site = at_all_limits()
    for label in site["labels"]:
        label["min-ready"] = 4
    for owner in site["requesters"]:
        owner["jobs"] = owner["jobs"][:4]
    settles_as_served(trial, site)
