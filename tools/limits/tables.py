"""Scripts that fill the tables and the queues of the machine."""
from limits.sites import (
    ENTRIES, NODES, U32, U64, Script, job, large_jobs, names, pool, request, requester, serve,
    site_of,
)
from limits.trial import case


@case
def sessions(trial):
    """262,144 sessions"""
    script = Script(site_of([pool()], [requester([job(0)])]))
    for number in range(ENTRIES):
        script.open(("launcher p0", "janitor p0", "requester q0")[number % 3])
    trial.plays(script)


@case
def registrations(trial):
    """87,381 launchers of a pool, one after another, each of which registers and expires"""
    script = Script(site_of([pool()]))
    waiting = script.open("launcher p0")
    while script.room() >= 4:
        launcher = script.launcher()
        if script.sessions % 1_000 == 0:
            script.say(f"register {waiting}", f"refused taken {launcher}")
        script.say(f"{'crash' if script.sessions % 3 == 0 else 'expire'} {launcher}")
        if script.sessions % 3 == 0:
            script.say(f"expire {launcher}")
    trial.plays(script)


@case
def queue_of_a_node(trial):
    """up to 8,193 sessions in the queue of one node, which leave it one after another"""
    for most in (3, 4, 5, 6, 63, 64, 65, 255, 256, 257, 1_024, 8_193):
        script = Script(site_of([pool()], [requester([job(0)])]))
        launcher, asker = script.launcher(), script.open("requester q0")
        wanted = script.ask(asker, 0, launcher)
        script.say(f"create {launcher} {wanted}", "node n0")
        waiting = []
        for number in range(most):
            waiting.append(script.open("janitor p0"))
            script.say(f"lock-node {waiting[-1]} n0", f"queued {number + 1}")
        script.say(f"start {waiting[-1]} n0", "refused wrong-role")
        script.say(f"mark-deleting {waiting[-1]} n0", "refused not-held")
        script.say(f"expire {launcher}")
        half = most // 2
        for at in range(most - 1):
            gone = at if at < half else most - 2 - (at - half)
            script.say(f"expire {waiting[gone]}" if at % 2 else f"unlock-node {waiting[gone]} n0")
        script.say(f"lock-node {waiting[-1]} n0", "held")
        script.say(f"mark-deleting {waiting[-1]} n0")
        script.say(f"gone {waiting[-1]} n0")
        script.say(f"unlock-node {waiting[-1]} n0", "refused no-node")
        trial.plays(script)


@case
def queues_of_requests(trial):
    """4,096 requests that are pending and locked, again and again by another session, while others are busy"""
    script = Script(site_of([pool()], [requester(map(job, range(4_096)))]))
    launcher, asker = script.launcher(), script.open("requester q0")
    wanted = [script.ask(asker, number, launcher) for number in range(4_096)]
    holder = launcher
    while script.room() > 4 * 4_096 + 2:
        janitor = script.open("janitor p0")
        for it in wanted:
            script.say(f"lock-request {janitor} {it}", f"refused busy {holder}")
        script.say(f"expire {holder}")
        for it in wanted:
            script.say(f"lock-request {janitor} {it}", "held")
        holder = janitor
    for it in wanted:
        script.say(f"reset {holder} {it}")
    for number in range(4_096):
        script.say(f"withdraw {asker} j{number}")
        script.fates[number] = "withdrawn"
    trial.plays(script)


@case
def requests(trial):
    """256,000 requests, of which none ends: 1,000 for each of 256 labels"""
    labels = names("l", 256)
    site = site_of([pool(labels=labels)], labels=labels)
    for label in site["labels"]:
        label["min-ready"] = 1_000
    script = Script(site)
    launcher = script.launcher()
    for number in range(256_000):
        script.say(f"min-ready {launcher} l{number // 1_000}", f"request {request(number, 400)}")
        if number % 1_000 == 999:
            script.say(f"min-ready {launcher} l{number // 1_000}", "refused enough 1000")
    for number in range(1_900):
        script.say(f"lock-request {launcher} {request(255_999, 400)}", f"refused not-first {request(number, 400)}")
        script.accept(launcher, request(number, 400))
    script.say(f"decline {launcher} {request(1_899, 400)} spent n0", "refused false-reason")
    script.say(f"expire {launcher}")
    again = script.launcher()
    script.say(f"lock-request {again} {request(1_900, 400)}", "held")
    trial.plays(script)


def made_nodes(site, most=NODES):
    """Each of the 4,096 jobs asks for 32 nodes, and the launcher makes this many of them."""
    script = Script(site)
    launcher, asker = script.launcher(), script.open("requester q0")
    for number in range(4_096):
        wanted = script.ask(asker, number, launcher)
        for node in range(32 * number, min(most, 32 * number + 32)):
            script.say(f"create {launcher} {wanted}", f"node n{node}")
    return script, launcher, asker


@case
def queues_of_nodes(trial):
    """131,071 nodes of one pool and label, locked by one session, which expires while others wait at 39,000 of them"""
    most = NODES - 1
    script, launcher, asker = made_nodes(site_of([pool(**{"max-servers": most})], [requester(large_jobs())]), most)
    script.say(f"create {launcher} {request(4_095)}", f"refused quota-short {most} {most} {most * 1_024}")
    janitor = script.open("janitor p0")
    for node in range(39_000):
        script.say(f"lock-node {asker} n{node}", "queued 1")
        script.say(f"lock-node {janitor} n{node}", "queued 2")
    script.say(f"expire {launcher}")
    for node in range(0, 39_000, 3):
        script.say(f"lock-node {janitor} n{node}", "queued 1")
    script.say(f"expire {asker}")
    for node in range(0, 39_000, 3):
        script.say(f"lock-node {janitor} n{node}", "held")
    script.say(f"crash {janitor}")
    script.say(f"expire {janitor}")
    last = script.open("janitor p0")
    while script.room():
        script.say(f"lock-node {last} n{script.room()}", "held")
    trial.plays(script)


@case
def expiries(trial):
    """a session in the queues of 1 to 16,384 nodes expires, and the next holds them"""
    for most in (1, 99, 100, 101, 127, 128, 129, 340, 512, 1_023, 1_024, 1_025, 4_096, 16_384):
        jobs = (most + 31) // 32
        script = Script(site_of([pool()], [requester(large_jobs(jobs))]))
        launcher, asker = script.launcher(), script.open("requester q0")
        for number in range(jobs):
            wanted = script.ask(asker, number, launcher)
            for node in range(32 * number, min(most, 32 * number + 32)):
                script.say(f"create {launcher} {wanted}", f"node n{node}")
                script.say(f"lock-node {asker} n{node}", "queued 1")
        script.say(f"expire {launcher}")
        for node in range(most):
            script.say(f"lock-node {asker} n{node}", "held")
        script.say(f"expire {asker}")
        janitor = script.open("janitor p0")
        for node in range(most):
            script.say(f"lock-node {janitor} n{node}", "held")
            script.say(f"mark-deleting {janitor} n{node}")
        for node in range(most):
            script.say(f"gone {janitor} n{node}")
        trial.plays(script)


@case
def free_nodes(trial):
    """82,880 nodes of one pool and label that are all ready and free"""
    site = site_of([pool()], [requester(large_jobs(2_600))])
    site["labels"][0]["min-ready"] = 1_000
    script = Script(site)
    launcher, asker = script.launcher(), script.open("requester q0")
    count = 0
    for number in range(2_590):
        wanted = script.ask(asker, number, launcher)
        for node in range(count, count + 32):
            script.say(f"create {launcher} {wanted}", f"node n{node}")
            script.say(f"start {launcher} n{node}", f"started 1 {node + 1}")
            script.say(f"done {launcher} n{node} 1 ok {U64 - node}")
        count += 32
    script.say(f"expire {launcher}")
    janitor = script.open("janitor p0")
    for number in range(2_590):
        script.say(f"lock-request {janitor} {request(number)}", "held")
        script.say(f"reset {janitor} {request(number)}")
    script.say(f"expire {janitor}")
    launcher = script.launcher()
    script.say(f"min-ready {launcher} l0", f"refused enough {count}")
    for number in range(3):
        script.accept(launcher, request(number))
        for node in range(32):
            free = (node % 2) * (count - 1) + (1 - 2 * (node % 2)) * (16 * number + node // 2)
            script.say(f"take-ready {launcher} {request(number)} n{free}", "held")
        script.say(f"fulfil {launcher} {request(number)}")
    script.say(f"min-ready {launcher} l0", f"refused enough {count - 96}")
    script.say(f"take-ready {launcher} {request(2)} n50", "refused wrong-state fulfilled")
    trial.plays(script)


@case
def attempts(trial):
    """65,536 starts of a pool: 4,096 nodes that are launched 16 times, the last time too in vain"""
    site = site_of([pool()], [requester(map(job, range(4_096)))])
    site["providers"][0]["launch-retries"] = 16
    script = Script(site)
    launcher, asker = script.launcher(), script.open("requester q0")
    starts = 0
    for number in range(4_096):
        wanted, node = script.ask(asker, number, launcher), f"n{number}"
        script.say(f"create {launcher} {wanted}", f"node {node}")
        for attempt in range(1, 17):
            starts += 1
            script.say(f"start {launcher} {node}", f"started {attempt} {starts}")
            script.say(f"done {launcher} {node} {attempt} failed")
        script.say(f"start {launcher} {node}", "refused wrong-state failed")
        script.say(f"decline {launcher} {wanted} spent {node}")
        script.say(f"finish {asker} j{number}", "ended failed")
        script.fates[number] = f"failed p0:spent-{node}"
    trial.plays(script)


@case
def declines(trial):
    """64 pools that decline 1,349 requests, so that each request has 64 declines"""
    tenants = [{"name": "t", "max-servers": 0}]
    kinds = ["no-label l0", "never-fits", "tenant-never-fits"]
    pools = [pool(f"m{at}", ("a",) if at % 3 else (), **{"max-servers": 0}) for at in range(64)]
    jobs = [job(number, tenant="t") for number in range(1_349)]
    script = Script(site_of(pools, [requester(jobs)], tenants=tenants))
    launchers = [script.launcher(at) for at in range(64)]
    asker = script.open("requester q0")
    for number in range(1_349):
        wanted = request(number)
        script.say(f"submit {asker} j{number}", f"request {wanted}")
        for at, launcher in enumerate(launchers):
            script.say(f"lock-request {launcher} {wanted}", "held")
            script.say(f"decline {launcher} {wanted} {kinds[at % 3]}")
            script.say(f"unlock-request {launcher} {wanted}")
        script.say(f"finish {asker} j{number}", "ended failed")
        script.fates[number] = "failed " + " ".join(f"p{at}:{kinds[at % 3].replace(' ', '-')}" for at in range(64))
    trial.plays(script)


@case
def spent_declines(trial):
    """requests of 32 labels that 63 pools decline for a node that failed, and whose 32 nodes the last pool makes"""
    pools = [pool(f"m{at}") for at in range(64)]
    site = site_of(pools, [requester(large_jobs(500))])
    site["providers"][0]["launch-retries"] = 1
    script = Script(site)
    launchers = [script.launcher(at) for at in range(64)]
    asker = script.open("requester q0")
    nodes, starts = 0, [0]
    for number in range(500):
        wanted = request(number)
        script.say(f"submit {asker} j{number}", f"request {wanted}")
        for launcher in launchers[:63]:
            script.accept(launcher, wanted)
            script.say(f"create {launcher} {wanted}", f"node n{nodes}")
            script.say(f"start {launcher} n{nodes}", f"started 1 {number + 1}")
            script.say(f"done {launcher} n{nodes} 1 failed")
            script.say(f"decline {launcher} {wanted} spent n{nodes}")
            script.say(f"unlock-request {launcher} {wanted}")
            nodes += 1
        script.accept(launchers[63], wanted)
        for node in range(nodes, nodes + 32):
            script.say(f"create {launchers[63]} {wanted}", f"node n{node}")
        nodes += 32
        script.fates[number] = "waiting asked"
    trial.plays(script)


@case
def semaphores(trial):
    """4,096 jobs with eight semaphores each, 32,760 of them at once, and one semaphore that 4,095 have"""
    others = lambda number: [f"s{1 + (7 * number + at) % 63}" for at in range(7)]
    jobs = [job(number, semaphores=["s0", *others(number)]) for number in range(4_096)]
    listed = [{"name": f"s{at}", "max": 4_096 if at else 4_095} for at in range(64)]
    script = Script(site_of([pool()], [requester(jobs)], semaphores=listed))
    asker = script.open("requester q0")
    for _ in range(14):
        for number in range(4_095):
            script.say(f"acquire {asker} j{number}")
        script.say(f"acquire {asker} j4095", "refused semaphore-full x0")
    script.say(f"submit {asker} j4095", "refused not-all 8")
    for number in range(4_095):
        script.say(f"withdraw {asker} j{number}")
        script.say(f"release {asker} j{number}")
        script.fates[number] = "withdrawn"
    script.say(f"acquire {asker} j4095")
    trial.plays(script)


@case
def tenants(trial):
    """64 tenants with 64 jobs of 32 nodes each, and room for all but the last job"""
    listed = [{"name": f"t{at}", "max-servers": 2_047} for at in range(64)]
    jobs = [job(number, ["a"] * 32, tenant=f"t{number % 64}") for number in range(4_096)]
    script = Script(site_of([pool()], [requester(jobs)], tenants=listed))
    launcher, asker = script.launcher(), script.open("requester q0")
    for number in range(4_032):
        wanted = script.ask(asker, number, launcher)
        for node in range(32):
            script.say(f"create {launcher} {wanted}", f"node n{32 * number + node}")
    for number in range(4_032, 4_096):
        script.say(f"submit {asker} j{number}", f"request {request(number)}")
        script.fates[number] = "waiting asked"
        script.say(f"lock-request {launcher} {request(number)}", f"refused tenant-short 2016 2016 {2_016 * 1_024}")
    trial.plays(script)


@case
def swept_servers(trial):
    """262,143 servers that are swept, up to the greatest numbers, and 20,000 that are swept from these down"""
    for count, step in ((ENTRIES - 1, -1), (20_000, 1)):
        script = Script(site_of([pool()]))
        janitor = script.open("janitor p0")
        for number in list(range(count))[::step]:
            script.say(f"sweep {janitor} n{U32 - number} {U64 - number // 2}", "remove")
        trial.plays(script)


@case
def orders(trial):
    """4,096 requests whose relative priorities change 250,000 times, and the first of them after each round"""
    script = Script(site_of([pool()], [requester(map(job, range(4_096)))]))
    launcher, asker = script.launcher(), script.open("requester q0")
    for number in range(4_096):
        script.say(f"submit {asker} j{number}", f"request {request(number)}")
        script.fates[number] = "waiting asked"
    places, draw = [0] * 4_096, 1
    while script.room() > 4_100:
        for number in range(4_096):
            draw = (draw * 48_271) % 2_147_483_647
            places[number] = draw % 1_000_001
            script.say(f"revise {asker} j{number} {places[number]}")
        first = min(range(4_096), key=lambda number: (places[number], number))
        for number in (0, 4_095):
            if number != first:
                script.say(f"lock-request {launcher} {request(number)}", f"refused not-first {request(first)}")
    trial.plays(script)


@case
def served_jobs(trial):
    """1,100 jobs of 32 labels that are served, so with 35,200 nodes"""
    script = Script(site_of([pool()], [requester(large_jobs(1_100))]))
    launcher, asker = script.launcher(), script.open("requester q0")
    starts = [0]
    for number in range(1_100):
        serve(script, launcher, asker, number, starts, [f"n{32 * number + node}" for node in range(32)])
    trial.plays(script)
