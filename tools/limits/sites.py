"""Sites, scripts over them, and the Texts and logs that have to come of them."""
import json

INPUT_BYTES = 67_108_864
ENTRIES = 262_144
NODES = 131_072
U64 = 18_446_744_073_709_551_615
U32 = 4_294_967_295


def name_of(letter, number):
    """A name of 64 characters."""
    return f"{letter}{number}".ljust(64, "-")


def names(letter, count):
    return [name_of(letter, number) for number in range(count)]


def pool(name="m", labels=("a",), **more):
    return {"name": name, "labels": [{"name": label} for label in labels], **more}


def provider(pools, name="c", **more):
    return {"name": name, "pools": list(pools), **more}


def job(number, labels=("a",), **more):
    return {"name": f"j{number}", "labels": list(labels), **more}


def requester(jobs, name="z", **more):
    return {"name": name, "jobs": list(jobs), **more}


def site_of(pools, requesters=(), labels=("a",), **more):
    """A site with these labels, these pools of one provider, and these requesters."""
    return {
        "labels": [{"name": label} for label in labels],
        "providers": [provider(pools)],
        "requesters": list(requesters),
        **more,
    }


def dealt(jobs, requesters, **more):
    """This many requesters, to whom the jobs are dealt out in turn."""
    return [requester(jobs[at::requesters], f"z{at}", **more) for at in range(requesters)]


def with_defaults(site):
    """The site as the program writes it, but for the order of keys."""
    offer = {"cores": 1, "ram": 1024}
    pools = lambda given: [
        {"fail-starts": [], **it, "labels": [{**offer, **one} for one in it["labels"]]} for it in given
    ]
    usual = {"end": "used", "priority": "normal", "relative-priority": 0, "resources-first": False, "semaphores": []}
    jobs = lambda given: [
        {**usual, **{key: it[key] for key in it if (key, it[key]) != ("tenant", "default")}} for it in given
    ]
    told = {"faults": [], "max-hold-age": 0, **site}
    told["labels"] = [{"max-ready-age": 0, "min-ready": 0, **it} for it in site["labels"]]
    told["providers"] = [{"launch-retries": 3, **it, "pools": pools(it["pools"])} for it in site["providers"]]
    told["semaphores"] = [{"max": 1, **it} for it in site.get("semaphores", [])]
    told["requesters"] = [
        {"window": 20, **it, "jobs": jobs(it.get("jobs", []))} for it in site.get("requesters", [])
    ]
    if not told.get("tenants"):
        told.pop("tenants", None)
    return told


def written(site):
    return json.dumps(with_defaults(site), sort_keys=True, separators=(",", ":"))


def jobs_of(site):
    """The full names of all jobs, in the order of their numbers."""
    return [f"{it['name']}/{one['name']}" for it in site.get("requesters", []) for one in it.get("jobs", [])]


def pools_of(site):
    return [one for it in site["providers"] for one in it["pools"]]


def request(number, priority=200):
    return f"{priority}-{number:010}"


class Script:
    """Events over a site, each with the reply that has to come, and what has to become of its jobs."""

    def __init__(self, site):
        self.site = site
        self.entries = []
        self.fates = {}
        self.sessions = 0

    def say(self, event, reply="ok"):
        self.entries.append((event, reply))

    def open(self, role):
        self.sessions += 1
        self.say(f"open {role}", f"session s{self.sessions}")
        return f"s{self.sessions}"

    def launcher(self, number=0):
        """A launcher that is registered for its pool."""
        session = self.open(f"launcher p{number}")
        self.say(f"register {session}")
        return session

    def accept(self, launcher, wanted):
        self.say(f"lock-request {launcher} {wanted}", "held")
        self.say(f"accept {launcher} {wanted}")

    def ask(self, session, number, launcher):
        """A job asks, and a launcher accepts its request."""
        self.say(f"submit {session} j{number}", f"request {request(number)}")
        self.accept(launcher, request(number))
        self.fates[number] = "waiting asked"
        return request(number)

    def room(self):
        return ENTRIES - len(self.entries)

    def fill(self):
        for _ in range(self.room()):
            self.say("tick")

    def given(self):
        return (json.dumps(self.site) + "\n%%\n" + "".join(f"{event}\n" for event, _ in self.entries)).encode()

    def printed(self):
        entries = "".join(f"{event} = {reply}\n" for event, reply in self.entries)
        fates = "".join(
            f"j{number} {name} {self.fates.get(number, 'waiting new')}\n"
            for number, name in enumerate(jobs_of(self.site))
        )
        return f"{written(self.site)}\n%%\n{entries}%%\n{fates}".encode()


def serve(script, launcher, asker, number, starts, nodes):
    """A job asks, is served by pool 0 with new nodes, uses them and ends; `starts` has the pool's starts so far."""
    wanted = script.ask(asker, number, launcher)
    for node in nodes:
        starts[0] += 1
        script.say(f"create {launcher} {wanted}", f"node {node}")
        script.say(f"start {launcher} {node}", f"started 1 {starts[0]}")
        script.say(f"done {launcher} {node} 1 ok {starts[0]}")
    script.say(f"fulfil {launcher} {wanted}")
    for node in nodes:
        script.say(f"lock-node {asker} {node}", "queued 1")
        script.say(f"unlock-node {launcher} {node}")
    script.say(f"take {asker} j{number}")
    for node in nodes:
        script.say(f"end-node {asker} {node} used")
    script.say(f"finish {asker} j{number}", "ended served")
    script.fates[number] = f"served p0 {' '.join(nodes)}"


def at_all_limits():
    """A site that has as much of everything as a configuration may have, with names of 64 characters."""
    labels, providers, listed, tenants_named = names("l", 256), names("c", 64), names("s", 64), names("t", 64)
    amounts = {"max-servers": 1_000_000, "max-cores": 1_000_000_000, "max-ram": 1_000_000_000}
    offers = [{"name": label, "cores": 1_000, "ram": 1_000_000} for label in labels]
    starts = list(range(262_144 - 4_095, 262_145))
    unit = lambda number: {
        "name": name_of("j", number),
        "labels": [labels[(number + at) % 256] for at in range(32)],
        "priority": "normal",
        "relative-priority": 1_000_000,
        "resources-first": True,
        "semaphores": [listed[(number + at) % 64] for at in range(8)],
        "tenant": tenants_named[number % 64],
    }
    lost = lambda at: {"role": "requester", "name": name_of("z", at % 16), "kind": "expire", "after": 262_144}
    return {
        "labels": [{"name": label, "min-ready": 1_000, "max-ready-age": 1_000_000} for label in labels],
        "max-hold-age": 1_000_000,
        "providers": [
            {
                "name": name,
                "launch-retries": 16,
                "max-concurrency": 4_096,
                "pools": [{"name": name_of("m", 0), **amounts, "labels": offers, "fail-starts": starts}],
            }
            for name in providers
        ],
        "semaphores": [{"name": name, "max": 4_096} for name in listed],
        "tenants": [{"name": name, **amounts} for name in tenants_named],
        "requesters": [
            {"name": name_of("z", at), "window": 4_096, "jobs": [unit(256 * at + it) for it in range(256)]}
            for at in range(16)
        ],
        "faults": [lost(at) for at in range(1_024)],
    }


def longest_lines(script):
    """Fills a script with the longest lines."""
    while script.room():
        script.say(f"done s{U32} n{U32} 255 ok {U64}", "refused no-session")


def log_of(script):
    """The bytes of the script's log, as docs/LOG.md has them."""
    lines = [f"{event}\n" for event, _ in script.entries]
    records = [written(script.site), *("".join(lines[at : at + 64]) for at in range(0, len(lines), 64))]
    return b"".join(b"\x01" + len(it).to_bytes(4, "big") + it.encode() for it in records) + b"\x00"


def large_jobs(count=4_096):
    return [job(number, ["a"] * 32) for number in range(count)]
