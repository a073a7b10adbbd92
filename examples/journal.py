"""What poolsim printed, read back: the run that `timeline.py` draws.

`read_run` reads a Text. A `Run` has the states of each job and node by the numbers of
the journal's entries, and what pools, tenants and semaphores were used by. An entry
changes a state at its own number, and one that was refused changes nothing.
"""

from __future__ import annotations

import json
import re
from dataclasses import dataclass, field
from typing import Any, Dict, List, Optional, Sequence, Set, Tuple

# ---------------------------------------------------------------- what is read

BAR = "%%"

# The tenant of a job that names none.
DEFAULT = "default"

# Past the end of every journal.
LATER = 1 << 62

# The accepted entries: a capital letter stands for an id, `#` for a number, `|` for "or".
ENTRY_FORMS = """
tick = ok
open launcher|janitor P = session S
open requester Q = session S
crash|expire|register S = ok
submit S J = request R
revise S J # = ok
min-ready S L = request R
lock-request S R = held
unlock-request|accept S R = ok
decline S R no-label L = ok
decline S R never-fits|tenant-never-fits = ok
decline S R spent N = ok
take-ready S R N = held
create S R = node N
start S N = started # #
done S N # ok # = ok
done S N # failed = ok
fulfil S R = ok
lock-node S N = held
lock-node S N = queued #
unlock-node S N = ok
acquire|take|withdraw|release S J = ok
end-node S N used|hold = ok
finish S J = ended served|lost|failed
mark-deleting|gone|free-node S N = ok
reset|fail-declined S R = ok
sweep S N # = keep|remove
"""

# What may follow `refused`; `W` is the state that was found.
REFUSAL_FORMS = """
no-session|expired|crashed|wrong-role|no-request|no-node|no-job|not-owner|not-registered
not-held|declined|false-reason|never-fits|tenant-never-fits|spent|full
taken|busy S
wrong-state W
not-first|allocated R
no-label L
quota-short|tenant-short # # #
wrong-attempt|not-all|not-due|enough #
semaphore-full X
"""

NUMBER = "(?:0|[1-9][0-9]*)"
FIELDS = {
    "#": NUMBER,
    "R": "[0-9]{3}-[0-9]{10}",
    "W": "(?:requested|pending|fulfilled|failed|building|in-flight|ready|in-use|used|hold"
    "|deleting|new|asked|using|over)",
}
FIELDS.update({letter.upper(): letter + NUMBER for letter in "jlnpqsx"})

DECLINE = rf" p{NUMBER}:(?:no-label-l{NUMBER}|never-fits|tenant-never-fits|spent-n{NUMBER})"
FATE = re.compile(
    rf"served(?: p{NUMBER})?(?: n{NUMBER})*|failed(?:{DECLINE})*|lost|withdrawn"
    r"|waiting (?:new|asked|using|over)"
)


class Fault(Exception):
    """What is wrong with a line of the input."""

    def __init__(self, line: int, what: str) -> None:
        super().__init__(f"line {line}: {what}")


def cut(text: str, most: int) -> str:
    return text if len(text) <= most else text[: most - 1] + "…"


def patterns_of(forms: str) -> List[str]:
    """A regular expression for each form."""
    return [
        " ".join(FIELDS.get(word, f"(?:{word})") for word in form.split(" "))
        for form in forms.strip().splitlines()
    ]


def entry_pattern() -> re.Pattern[str]:
    accepted = patterns_of(ENTRY_FORMS)
    events = "|".join(sorted({form.split(" (?:=) ")[0] for form in accepted}))
    refused = f"(?:{events}) = refused (?:{'|'.join(patterns_of(REFUSAL_FORMS))})"
    return re.compile("|".join(accepted + [refused]))


ENTRY = entry_pattern()


@dataclass
class Text:
    """The three parts of what poolsim printed; `fates_at` is the line of the first fate."""

    configuration: str
    entries: List[str]
    fates: List[str]
    fates_at: int


def read_text(raw: bytes) -> Text:
    try:
        lines = raw.decode("utf-8").split("\n")
    except UnicodeDecodeError as fault:
        raise Fault(raw.count(b"\n", 0, fault.start) + 1, "not UTF-8")
    if lines[-1] == "":
        lines.pop()
    if not lines:
        raise Fault(1, "the input is empty")
    if len(lines) < 2 or lines[1] != BAR:
        raise Fault(2, f"expected {BAR} after the configuration")
    if BAR not in lines[2:]:
        raise Fault(len(lines) + 1, f"expected {BAR} after the journal")
    end = lines.index(BAR, 2)
    return Text(lines[0], lines[2:end], lines[end + 1 :], end + 2)


# ------------------------------------------------------------ what is drawn of it


@dataclass
class Span:
    """The entries from `start` to `end` at which a job or a node was in one state."""

    state: str
    start: int
    end: int = LATER
    text: str = ""
    thin: bool = False


@dataclass
class Lane:
    """A job with its name, or a node with its pool; its labels, and its states one after another."""

    word: str
    name: str
    labels: List[str]
    spans: List[Span] = field(default_factory=list)

    def enter(self, at: int, state: str, text: str = "", thin: bool = False) -> None:
        self.leave(at)
        self.spans.append(Span(state, at, LATER, text, thin))

    def leave(self, at: int) -> None:
        if self.spans and self.spans[-1].end == LATER:
            self.spans[-1].end = at

    def last_word(self) -> str:
        """What is written at the right of the lane."""
        raise NotImplementedError

    def is_in(self, first: int, last: int) -> bool:
        """Whether the lane shows more than a job that is new between these entries."""
        return any(
            span.start <= last and span.end > first and span.state != "new" for span in self.spans
        )


@dataclass
class Job(Lane):
    """`pools` are those that accepted its request, one after another."""

    requester: str = ""
    tenant: str = ""
    semaphores: List[str] = field(default_factory=list)
    pools: Set[str] = field(default_factory=set)
    request: str = ""
    ending: str = ""
    fate: str = ""

    def last_word(self) -> str:
        return cut(self.fate, 40)

    def finish(self, at: int, ending: str) -> None:
        self.leave(at)
        self.ending = ending


@dataclass
class Launch:
    start: int
    end: int = LATER
    failed: bool = False


@dataclass
class Request:
    """A job's request, or one of a launcher that keeps nodes ready, which has no job.

    It is `pool`'s from `accept` until it is fulfilled, declined, reset or withdrawn.
    """

    labels: List[str]
    job: Optional[Job] = None
    pool: Optional[Pool] = None
    nodes: List[Node] = field(default_factory=list)
    declined: Set[str] = field(default_factory=set)

    def enter(self, at: int, state: str, text: str = "") -> None:
        if self.job:
            self.job.enter(at, state, text)


@dataclass
class Node(Lane):
    """`jobs` are those that it was given to, one after another."""

    pool: str = ""
    jobs: Set[str] = field(default_factory=set)
    state: str = "building"
    request: Optional[Request] = None
    launches: List[Launch] = field(default_factory=list)
    is_gone: bool = False

    def last_word(self) -> str:
        return "gone" if self.is_gone else self.state

    def show(self, at: int) -> None:
        job = self.request.job if self.request else None
        named = job and self.state in ("ready", "in-use", "used", "hold")
        if not self.is_gone:
            self.enter(at, self.state, job.word if job and named else "", self.request is None)

    def turn(self, at: int, state: str) -> None:
        self.state = state
        self.show(at)

    def give(self, at: int, request: Optional[Request]) -> None:
        self.request = request
        if request:
            request.nodes.append(self)
        if request and request.job:
            self.jobs.add(request.job.word)
        self.show(at)

    def end_launch(self, at: int, failed: bool = False) -> None:
        if self.launches and self.launches[-1].end == LATER:
            self.launches[-1].end = at
            self.launches[-1].failed = failed


@dataclass
class Use:
    """How much of something is used: a number from one entry on, until the next in `steps`."""

    word: str
    name: str
    part: str
    most: Optional[int]
    steps: List[Tuple[int, int]] = field(default_factory=lambda: [(0, 0)])

    def add(self, at: int, more: int) -> None:
        if more:
            self.steps.append((at, self.steps[-1][1] + more))

    def between(self, first: int, last: int) -> List[Tuple[int, int]]:
        """The steps of these entries, of which the first is at `first`."""
        before = [used for at, used in self.steps if at <= first]
        return [(first, before[-1]), *((at, used) for at, used in self.steps if first < at <= last)]

    def peak(self, first: int, last: int) -> int:
        return max(used for _, used in self.between(first, last))


PARTS = ("servers", "cores", "ram")
Amount = Dict[str, int]


@dataclass
class Owner:
    """A pool or a tenant, with what it uses of each part that has a limit, or of servers if none has."""

    name: str
    uses: List[Use]

    def add(self, at: int, amount: Amount, sign: int = 1) -> None:
        for use in self.uses:
            use.add(at, sign * amount[use.part])


def uses_of(word: str, name: str, limits: Dict[str, int]) -> List[Use]:
    limited = [part for part in PARTS if f"max-{part}" in limits]
    return [Use(word, name, part, limits.get(f"max-{part}")) for part in limited or PARTS[:1]]


@dataclass
class Pool(Owner):
    """`offers` has what a node of each label takes of it."""

    launch_retries: int
    offers: Dict[str, Amount]

    def amount_of(self, labels: Sequence[str]) -> Amount:
        return {part: sum(self.offers[label][part] for label in labels) for part in PARTS}


def pool_of(word: str, provider: Dict[str, Any], pool: Dict[str, Any]) -> Pool:
    name = f"{provider['name']}/{pool['name']}"
    offers = {
        offer["name"]: {"servers": 1, "cores": int(offer["cores"]), "ram": int(offer["ram"])}
        for offer in pool["labels"]
    }
    return Pool(name, uses_of(word, name, pool), int(provider["launch-retries"]), offers)


def job_of(word: str, requester: str, name: str, job: Dict[str, Any]) -> Job:
    return Job(
        word,
        f"{name}/{job['name']}",
        list(job["labels"]),
        requester=requester,
        tenant=job.get("tenant", DEFAULT),
        semaphores=list(job["semaphores"]),
    )


@dataclass
class Session:
    """`place` is the pool of a launcher or a janitor, or the requester."""

    role: str
    place: str


@dataclass
class Loss:
    """The end of a session, by `expire` or `crash`."""

    at: int
    event: str
    session: str
    role: str

    def __str__(self) -> str:
        return f"{self.event} {self.session} {self.role}"


class Run:
    """What became of jobs, nodes and sessions in the course of a journal.

    `play` takes one entry after another. An event that changes something that is
    drawn has a method `on_EVENT`, which takes the entry's number, the words behind
    the event's name, and the words of the reply.
    """

    def __init__(self, configuration: str) -> None:
        site = json.loads(configuration)
        pools = [(provider, pool) for provider in site["providers"] for pool in provider["pools"]]
        jobs = [
            (f"q{k}", requester["name"], job)
            for k, requester in enumerate(site["requesters"])
            for job in requester["jobs"]
        ]
        tenants = [{"name": DEFAULT}, *site.get("tenants", [])]
        self.labels = {f"l{k}": label["name"] for k, label in enumerate(site["labels"])}
        self.pools = {f"p{k}": pool_of(f"p{k}", *both) for k, both in enumerate(pools)}
        self.tenants = {
            tenant["name"]: Owner(tenant["name"], uses_of("tenant", tenant["name"], tenant))
            for tenant in tenants
        }
        self.semaphores = {
            semaphore["name"]: Use(f"x{k}", semaphore["name"], "handles", int(semaphore["max"]))
            for k, semaphore in enumerate(site["semaphores"])
        }
        self.requesters = {f"q{k}": row["name"] for k, row in enumerate(site["requesters"])}
        self.jobs = {
            f"j{k}": job_of(f"j{k}", *three) for k, three in enumerate(jobs)
        }
        self.holders: Dict[str, Set[str]] = {name: set() for name in self.semaphores}
        self.nodes: Dict[str, Node] = {}
        self.requests: Dict[str, Request] = {}
        self.sessions: Dict[str, Session] = {}
        self.registered: Dict[str, str] = {}
        self.ticks: List[int] = []
        self.losses: List[Loss] = []
        self.entries = 0
        for job in self.jobs.values():
            job.enter(0, "new", thin=True)

    def play(self, line: str) -> None:
        self.entries += 1
        event, reply = (side.split(" ") for side in line.split(" = "))
        handler = getattr(self, "on_" + event[0].replace("-", "_"), None)
        if handler and reply[0] != "refused":
            handler(self.entries, *event[1:], *reply)

    def close(self) -> None:
        """Ends what lasts to the end of the journal."""
        for lane in [*self.jobs.values(), *self.nodes.values()]:
            lane.leave(self.entries + 1)
        for node in self.nodes.values():
            node.end_launch(self.entries + 1)

    def pool_of(self, session: str) -> str:
        return self.sessions[session].place

    def lose(self, at: int, event: str, session: str) -> None:
        lost = self.sessions[session]
        self.losses.append(Loss(at, event, session, f"{lost.role} {lost.place}"))

    # time and sessions

    def on_tick(self, at: int, _ok: str) -> None:
        self.ticks.append(at)

    def on_open(self, at: int, role: str, place: str, _session: str, session: str) -> None:
        self.sessions[session] = Session(role, place)

    def on_crash(self, at: int, session: str, _ok: str) -> None:
        self.lose(at, "crash", session)

    def on_expire(self, at: int, session: str, _ok: str) -> None:
        self.lose(at, "expire", session)
        self.registered = {p: holder for p, holder in self.registered.items() if holder != session}

    def on_register(self, at: int, session: str, _ok: str) -> None:
        self.registered[self.pool_of(session)] = session

    # requests

    def on_submit(self, at: int, session: str, job: str, _request: str, request: str) -> None:
        asking = self.jobs[job]
        asking.request = request
        self.requests[request] = Request(asking.labels, asking)
        asking.enter(at, "asked")

    def on_min_ready(self, at: int, session: str, label: str, _request: str, request: str) -> None:
        self.requests[request] = Request([self.labels[label]])

    def on_accept(self, at: int, session: str, request: str, _ok: str) -> None:
        accepted, pool = self.requests[request], self.pool_of(session)
        accepted.pool = self.pools[pool]
        self.count(at, accepted, accepted.labels)
        if accepted.job:
            accepted.job.pools.add(pool)
        accepted.enter(at, "accepted", pool)

    def count(self, at: int, request: Request, labels: Sequence[str], sign: int = 1) -> None:
        """Adds what these labels take of the request's pool to what its tenant uses."""
        if request.job and request.pool:
            self.tenants[request.job.tenant].add(at, request.pool.amount_of(labels), sign)

    def stop(self, at: int, request: Request) -> None:
        """The request is nobody's again, and its tenant uses no more for it than its nodes."""
        self.count(at, request, request.labels[len(request.nodes) :], -1)
        request.pool = None

    def give_up(self, at: int, request: Request) -> None:
        """The request is requested again, without nodes."""
        self.stop(at, request)
        for node in request.nodes:
            if node.request is request:
                self.free(at, node)
        request.nodes = []

    def free(self, at: int, node: Node) -> None:
        """The node is given to no request, and its tenant does not use it any more."""
        self.leave_tenant(at, node)
        node.give(at, None)

    def leave_tenant(self, at: int, node: Node) -> None:
        if node.request and node.request.job:
            amount = self.pools[node.pool].amount_of(node.labels)
            self.tenants[node.request.job.tenant].add(at, amount, -1)

    def on_decline(self, at: int, session: str, request: str, *_why: str) -> None:
        declined = self.requests[request]
        declined.declined.add(self.pool_of(session))
        self.give_up(at, declined)
        nobody_left = declined.declined.issuperset(self.registered)
        state = "request failed" if nobody_left else "asked"
        declined.enter(at, state, f"{self.pool_of(session)} declined")

    def on_fail_declined(self, at: int, session: str, request: str, _ok: str) -> None:
        self.requests[request].enter(at, "request failed")

    def on_reset(self, at: int, session: str, request: str, _ok: str) -> None:
        self.give_up(at, self.requests[request])
        self.requests[request].enter(at, "asked", "reset")

    def on_fulfil(self, at: int, session: str, request: str, _ok: str) -> None:
        fulfilled = self.requests[request]
        fulfilled.enter(at, "fulfilled")
        self.stop(at, fulfilled)
        if not fulfilled.job:
            self.give_up(at, fulfilled)
            del self.requests[request]

    # nodes

    def on_create(self, at: int, session: str, request: str, _node: str, node: str) -> None:
        asking = self.requests[request]
        label = asking.labels[len(asking.nodes)]
        pool = self.pool_of(session)
        self.nodes[node] = Node(node, f"{pool} {self.pools[pool].name}", [label], pool=pool)
        self.nodes[node].give(at, asking)
        self.pools[pool].add(at, self.pools[pool].amount_of([label]))

    def on_take_ready(self, at: int, session: str, request: str, node: str, _held: str) -> None:
        self.nodes[node].give(at, self.requests[request])

    def on_start(self, at: int, session: str, node: str, *_started: str) -> None:
        self.nodes[node].launches.append(Launch(at))

    def on_done(self, at: int, session: str, node: str, attempt: str, outcome: str, *_rest: str) -> None:
        launched = self.nodes[node]
        launched.end_launch(at, failed=outcome == "failed")
        if outcome == "ok":
            launched.turn(at, "ready")
        elif int(attempt) == self.pools[self.pool_of(session)].launch_retries:
            launched.turn(at, "failed")

    def on_end_node(self, at: int, session: str, node: str, state: str, _ok: str) -> None:
        self.nodes[node].turn(at, state)

    def on_mark_deleting(self, at: int, session: str, node: str, _ok: str) -> None:
        self.nodes[node].end_launch(at)
        self.nodes[node].turn(at, "deleting")

    def on_gone(self, at: int, session: str, node: str, _ok: str) -> None:
        gone = self.nodes[node]
        pool = self.pools[gone.pool]
        pool.add(at, pool.amount_of(gone.labels), -1)
        self.leave_tenant(at, gone)
        gone.request = None
        gone.leave(at)
        gone.is_gone = True

    def on_free_node(self, at: int, session: str, node: str, _ok: str) -> None:
        self.free(at, self.nodes[node])

    # jobs

    def on_take(self, at: int, session: str, job: str, _ok: str) -> None:
        taken = self.requests.pop(self.jobs[job].request)
        for node in taken.nodes:
            node.turn(at, "in-use")
        taken.enter(at, "using", " ".join(node.word for node in taken.nodes))

    def on_finish(self, at: int, session: str, job: str, _ended: str, ending: str) -> None:
        self.jobs[job].finish(at, ending)

    def on_withdraw(self, at: int, session: str, job: str, _ok: str) -> None:
        request = self.requests.pop(self.jobs[job].request, None)
        if request:
            self.stop(at, request)
        self.jobs[job].finish(at, "withdrawn")

    # semaphores

    def on_acquire(self, at: int, session: str, job: str, _ok: str) -> None:
        for name in self.jobs[job].semaphores:
            self.semaphores[name].add(at, 0 if job in self.holders[name] else 1)
            self.holders[name].add(job)

    def on_release(self, at: int, session: str, job: str, _ok: str) -> None:
        for name in self.jobs[job].semaphores:
            self.semaphores[name].add(at, -1 if job in self.holders[name] else 0)
            self.holders[name].discard(job)


def read_run(text: Text) -> Run:
    try:
        run = Run(text.configuration)
    except (ValueError, LookupError, TypeError, AttributeError, RecursionError):
        raise Fault(1, "not a configuration that poolsim printed")
    for number, line in enumerate(text.entries, 3):
        if not ENTRY.fullmatch(line):
            raise Fault(number, f"not an entry of a journal: {cut(line, 60)!r}")
        try:
            run.play(line)
        except LookupError:
            raise Fault(number, f"cannot follow the lines before it: {cut(line, 60)!r}")
    run.close()
    read_fates(run, text)
    return run


def read_fates(run: Run, text: Text) -> None:
    jobs = list(run.jobs.values())
    for number, (job, line) in enumerate(zip(jobs, text.fates), text.fates_at):
        start = f"{job.word} {job.name} "
        job.fate = line[len(start) :]
        if not line.startswith(start) or not FATE.fullmatch(job.fate):
            raise Fault(number, f"not the fate of {job.word}: {cut(line, 60)!r}")
    if len(text.fates) != len(jobs):
        number = text.fates_at + min(len(text.fates), len(jobs))
        raise Fault(number, f"expected the fates of {len(jobs)} jobs, found {len(text.fates)}")
