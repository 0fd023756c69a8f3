"""Days of many jobs in three houses, through a network that harms: for house.py.

Each job has a random shape. Its orders are made along with the shop of shop.py, which has no
controllers and no messages, and whose ticket is the one that is wanted: that of a day on which
nothing goes wrong. Operators give each order once, and nothing else.
"""
import collections
import contextlib
import json
import os
import random
import re
import socket
import threading
import time

import chaos
import worlds
from crowd import free_port, in_threads
from houses import HOUSES, WORKERS, House, begins, entries_in, gives, opens_folders, shown
from processes import wants
from shop import MASTER, Shop, target

# ---- jobs


class Job:
    """A job of at most so many parts, of which two at most stand one behind the other: what its
    office orders, each with the parts that have to be home before it, since they hold what it
    touches; the worker of each part, and what that orders; and its ticket once all is home."""

    def __init__(self, name, chance, parts):
        self.name, self.chance, self.parts = name, chance, parts
        root = worlds.job(chance)
        self.opening = {"Master": name, "Ticket": root, "Workers": list(WORKERS)}
        self.shop = Shop(root, list(WORKERS))
        self.steps, self.works = [], {}
        # The last part that held a row, and those that stand behind another.
        self.holders, self.later = {}, set()
        for _ in range(10 * parts):
            self.add_part()
            if chance.random() < 0.1:
                self.add_edit()
        self.wanted = chaos.without_times(self.shop.shown())

    def answer(self, to, order):
        """What the shop answers to an order, without the number of a message."""
        event = {"At": 1, "Event": "Order", "Order": order, "To": to}
        return re.sub(r" #\d+$", "", self.shop.answer(event))

    def home_before(self, rows):
        return {self.holders[row] for row in rows if row in self.holders}

    def add_edit(self):
        """The office edits something, if the shop lets it."""
        order = {"Edit": worlds.editing(self.chance, self.shop.seen, self.shop.seen.order),
                 "Order": "Edit"}
        if self.answer(MASTER, order) == "Edited":
            self.steps.append((order, "Edited", self.home_before([target(order["Edit"])])))

    def add_part(self):
        """A part goes out, is worked on, and is home, if the shop lets it and it fits."""
        order = worlds.spawning(self.chance, self.shop)
        seen, node = self.shop.seen, order["Node"]
        rows = order["RW"] + (seen.below(node) if node in seen.nodes else [])
        home = self.home_before(rows)
        if len(self.works) == self.parts or home & self.later:
            return
        reply = self.answer(MASTER, order)
        if reply.startswith("Spawned "):
            spawn = self.shop.spawns[-1]
            self.steps.append((order, reply, home))
            if home:
                self.later.add(spawn.number)
            self.holders.update(dict.fromkeys(rows, spawn.number))
            self.works[spawn.number] = (spawn.worker, self.work(spawn, rows))

    def work(self, spawn, rows):
        """What a worker orders of a part, with the replies. The part is home then."""
        self.shop.submit(spawn, 1)
        orders = []
        for _ in range(self.chance.randrange(8)):
            order = {"Edit": worlds.editing(self.chance, self.shop.now, rows), "Order": "Edit",
                     "SpawnID": f"S{spawn.number}"}
            if self.answer(spawn.worker, order) == "Edited":
                orders.append((order, "Edited"))
        end = {"Order": "Finish", "SpawnID": f"S{spawn.number}",
               "Status": self.chance.choice(("Completed", "Aborted"))}
        orders.append((end, self.answer(spawn.worker, end)))
        self.shop.merge(spawn, 1)
        self.shop.returned(spawn, 1)
        return orders

    def parts_of(self, worker):
        return [number for number, work in self.works.items() if work[0] == worker]


def merged_in(ticket):
    """How often a ticket tells of each part that it was merged."""
    return collections.Counter(map(int, re.findall(r'"MergeID": ?"S(\d+)"', ticket)))


# ---- a network that harms


class Behind:
    """A server that is or will be on a port."""

    def __init__(self, port):
        self.port = port

    def connect(self):
        return socket.create_connection(("127.0.0.1", self.port), timeout=30)


class Proxy(chaos.Proxy):
    """Loses 30 of 100, doubles 10, delays 20, and cuts 10 in the middle; but of those that come one
    behind the other not more than so many come to nothing."""

    def __init__(self, served, chance, counts, most):
        self.most, self.in_a_row = most, 0
        super().__init__(served, chance, counts)

    def luck(self):
        """What becomes of the next one."""
        luck = self.chance.random()
        comes_to_nothing = luck < 0.2 or luck > 0.8
        if comes_to_nothing and self.in_a_row == self.most:
            luck, comes_to_nothing = 0.6, False
        self.in_a_row = self.in_a_row + 1 if comes_to_nothing else 0
        return luck

    def carry(self, connection):
        with connection, contextlib.suppress(OSError):
            connection.settimeout(10)
            luck = self.luck()
            if luck < 0.05:
                connection.recv(100)
                self.counts["cut"] += 1
                return
            given = chaos.one_request(connection)
            if luck < 0.2:
                self.counts["lost"] += 1
                return
            if luck < 0.3:
                self.counts["doubled"] += 1
                threading.Thread(target=self.late, args=(given,), daemon=True).start()
            elif luck < 0.5:
                self.counts["delayed"] += 1
                time.sleep(2 * self.chance.random())
            answer = self.asked(given)
            if luck > 0.85:
                self.counts["answers lost"] += 1
                return
            if luck > 0.8:
                self.counts["cut"] += 1
                answer = answer[:len(answer) * 2 // 3]
            connection.sendall(answer)


def kills(houses, chance, counts, until):
    """Kills a server now and then, and starts it again."""
    while time.monotonic() < until:
        time.sleep(2 * chance.random())
        house = houses[chance.choice(HOUSES)]
        house.kill()
        counts["servers killed"] += 1
        time.sleep(chance.random() ** 2)
        house.start()


def is_away(houses, _, counts, until):
    """One house is away for a while."""
    houses["binders"].kill()
    counts["houses away"] += 1
    time.sleep(max(0, until - time.monotonic()))
    houses["binders"].start()


# ---- a day


class Day:
    """What operators do with these jobs, whose office gives its orders at random moments of so many
    seconds, and later where one has to wait for a part. A moment is too late for all."""

    def __init__(self, seed, jobs, seconds, until):
        self.seed, self.jobs, self.seconds, self.until = seed, jobs, seconds, until
        self.seen = {}

    def shown(self, path):
        """What a controller shows, which is looked for where its file changed."""
        try:
            stat = os.stat(path)
        except FileNotFoundError:
            return ""
        last = (stat.st_ino, stat.st_mtime_ns)
        if self.seen.get(path, (None,))[0] != last:
            self.seen[path] = (last, shown(path))
        return self.seen[path][1]

    def entries(self, job, worker):
        return entries_in(self.shown(f"{WORKERS[worker]}/{worker}/{job.name}"))

    def waits(self, chance, what):
        """A look at what there is is made now and then."""
        assert time.monotonic() < self.until, what
        time.sleep(0.3 + 0.5 * chance.random())

    def office_of(self, job):
        """The operator of a job's master."""
        chance, path = random.Random(f"{self.seed} {job.name}"), f"office/{job.name}"
        before = merged_in(json.dumps(job.opening))
        start = time.monotonic()
        moments = sorted(start + self.seconds * chance.random() for _ in job.steps)
        for moment, (order, reply, home) in zip(moments, job.steps):
            time.sleep(max(0, moment - time.monotonic()))
            while away := home - set(merged_in(self.shown(path)) - before):
                self.waits(chance, f"{path}: never came home: {away}")
            gives(path, json.dumps(order), reply)

    def works_of(self, job, worker):
        """The operator of a worker works on each part that comes."""
        chance, left = random.Random(f"{self.seed} {job.name} {worker}"), job.parts_of(worker)
        while left:
            there = {entry[0] for entry in self.entries(job, worker)}
            for number in [one for one in left if f"S{one}" in there]:
                for order, reply in job.works[number][1]:
                    gives(f"{WORKERS[worker]}/{worker}/{job.name}", json.dumps(order), reply)
                left.remove(number)
            if left:
                self.waits(chance, f"{job.name} at {worker}: never came: {left}")

    def work(self):
        """Answers what went wrong."""
        calls = [lambda job=job: self.office_of(job) for job in self.jobs]
        calls += [lambda job=job, worker=worker: self.works_of(job, worker)
                  for job in self.jobs for worker in WORKERS]
        came = in_threads(len(calls), lambda number: calls[number]())
        return [str(one) for one in came if one is not None]

    def away(self):
        """The jobs of which something isn't home and closed."""
        def is_home(job):
            ends = [entry[1] for worker in WORKERS for entry in self.entries(job, worker)]
            return ends == len(job.works) * ["Closed"]
        return [job.name for job in self.jobs if not is_home(job)]

    def ends(self):
        """Waits until all is home and closed."""
        while away := self.away():
            assert time.monotonic() < self.until, f"not home and closed: {away}"
            time.sleep(0.1)


def told(houses, counts):
    """What went on in the network, and what came of what the houses sent."""
    sent = collections.Counter(what for house in houses.values() for what in house.ends())
    return "; ".join(", ".join(f"{count} {what}" for what, count in sorted(one.items()))
                     for one in (counts, sent))


def goes_through(seed, jobs, most, disturb, seconds, patience):
    """A day of these jobs through a network that harms so many in a row at most, disturbed for so
    many seconds. All is home within so many seconds behind that."""
    counts = collections.Counter()
    ports = {name: free_port() for name in HOUSES}
    with contextlib.ExitStack() as stack:
        proxies = {name: Proxy(Behind(port), random.Random(f"{seed} {name}"), counts, most)
                   for name, port in ports.items()}
        for proxy in proxies.values():
            stack.callback(proxy.close)
        opens_folders({name: proxy.port for name, proxy in proxies.items()})
        for job in jobs:
            begins(f"office/{job.name}", job.opening)
        houses = {name: stack.enter_context(House(name, port)) for name, port in ports.items()}
        stack.callback(lambda: print("  " + told(houses, counts)))
        day = Day(seed, jobs, seconds, time.monotonic() + seconds + patience)
        faults = []
        operators = threading.Thread(target=lambda: faults.extend(day.work()))
        operators.start()
        disturb(houses, random.Random(seed), counts, time.monotonic() + seconds)
        last, away = time.monotonic(), day.away()
        operators.join()
        wants(faults, [])
        day.ends()
        took = time.monotonic() - last
    for job in jobs:
        ticket = shown(f"office/{job.name}")
        wants((job.name, chaos.without_times(ticket)), (job.name, job.wanted))
    print(f"  {len(jobs)} jobs of {sum(len(job.works) for job in jobs)} parts, all home {took:.1f} s "
          f"behind the last fault, when {len(away)} jobs were away")


def some_jobs(seed, count, least, most):
    """Jobs of random shapes, each of so many parts, or of fewer where its shape has no more."""
    def shape(number):
        chance = random.Random(f"{seed} shape {number}")
        return Job(f"job-{number}", chance, chance.randrange(least, most + 1))
    return [shape(number) for number in range(1, count + 1)]
