#!/usr/bin/env python3
"""A shop whose controllers are killed, over a network that loses, doubles and delays messages:
chaos.py PROGRAM [--seconds N] [--seed N] [--requests N] [--growth N]

Days follow one another for so many seconds. In each a master and two workers are served over
loopback, and a proxy stands before each of them. Eight parts go out and come back at once, and a
ninth is given up before it comes, while each process is killed and started again at random. In the
end the ticket is that of a day on which nothing went wrong, and each part is merged once. Then one
server answers as many requests, and its memory must not have grown. The last line says how much
went on.
"""
import argparse
import json
import os
import random
import re
import shutil
import socket
import subprocess
import sys
import tempfile
import threading
import time

import processes
from processes import PROGRAM, Served, request, run, wants

PARTS = 8
# The part that is given up, behind those that come back.
GIVEN_UP = PARTS
WITHDRAW = {"Order": "Withdraw", "SpawnID": f"S{GIVEN_UP + 1}"}
# The longest time for a day, in seconds.
PATIENCE = 300


def worker_of(number):
    return "bind" if number % 2 else "press"


def opening():
    """What the master begins with: a node for each part, and a resource that it makes of paper."""
    def resource(rid, name):
        return {"ID": rid, "Name": name, "Class": "Quantity", "Status": "Unavailable"}
    nodes = [{"ID": f"n{number}", "JobPartID": f"p{number}", "Status": "Waiting", "Type": "Folding",
              "ResourceLinkPool": [{"Usage": "Input", "rRef": "paper"},
                                   {"Usage": "Output", "rRef": f"r{number}"}]}
             for number in range(PARTS + 1)]
    pool = [resource("paper", "Media")]
    pool += [resource(f"r{number}", "Component") for number in range(PARTS + 1)]
    ticket = {"ID": "root", "JobID": "J1", "JobPartID": "p", "Status": "Waiting", "Type": "Product",
              "JDF": nodes, "ResourcePool": pool}
    return {"Master": "mis", "Ticket": ticket, "Workers": ["press", "bind"]}


def spawn(number):
    return {"Node": f"n{number}", "Order": "Spawn", "RW": [f"r{number}"],
            "Worker": worker_of(number)}


def work(number, spawn_id):
    """The orders of a worker to a part, but for its end; each may be given again."""
    node = f"n{number}"
    edits = [{"Edit": "SetStatus", "Node": node, "Status": "InProgress"},
             {"Edit": "SetAttr", "Node": node, "Name": "Device", "Value": worker_of(number)},
             {"Edit": "SetResStatus", "Resource": f"r{number}", "Status": "Available"}]
    return [{"Edit": edit, "Order": "Edit", "SpawnID": spawn_id} for edit in edits]


def finish(spawn_id):
    return {"Order": "Finish", "SpawnID": spawn_id, "Status": "Completed"}


def quiet_day():
    """The ticket of a day on which nothing goes wrong, without times."""
    def at(to, order):
        return {"At": 1, "Event": "Order", "Order": order, "To": to}
    events, sent = [], 0
    for number in range(PARTS):
        spawn_id, worker = f"S{number + 1}", worker_of(number)
        events += [at("mis", spawn(number)), {"At": 1, "Event": "Deliver", "Deliver": sent + 1}]
        events += [at(worker, order) for order in work(number, spawn_id) + [finish(spawn_id)]]
        events.append({"At": 1, "Event": "Deliver", "Deliver": sent + 3})
        sent += 4
    events += [at("mis", spawn(GIVEN_UP)), at("mis", WITHDRAW)]
    events += [{"At": 1, "Event": "Deliver", "Deliver": sent + number} for number in (2, 3, 1)]
    status, text, told = run("world", given=json.dumps({**opening(), "Events": events}))
    wants((status, told), (0, ""))
    return without_times(text.splitlines()[-1])


def without_times(ticket):
    """A ticket without the times of its audits, and those of each node in an order of their own:
    parts that come back at once are merged in any order."""
    def put_in_order(node):
        node["AuditPool"].sort(key=json.dumps)
        for child in node["JDF"]:
            put_in_order(child)
    ticket = json.loads(re.sub(r'"TimeStamp":\d+', '"TimeStamp":0', ticket))
    put_in_order(ticket)
    return ticket


# ---- the network


class Proxy:
    """What stands before a controller, and loses, doubles and holds up what comes."""

    def __init__(self, served, chance, counts):
        self.served, self.chance, self.counts = served, chance, counts
        self.listener = socket.create_server(("127.0.0.1", 0), backlog=64)
        self.port = self.listener.getsockname()[1]
        threading.Thread(target=self.accept, daemon=True).start()

    def accept(self):
        while True:
            try:
                connection = self.listener.accept()[0]
            except OSError:
                return
            threading.Thread(target=self.carry, args=(connection,), daemon=True).start()

    def carry(self, connection):
        """Carries a request, and the response to it, or doesn't."""
        with connection:
            try:
                connection.settimeout(10)
                given = one_request(connection)
                luck = self.chance.random()
                if luck < 0.15:
                    self.counts["lost"] += 1
                    return
                if luck < 0.3:
                    self.counts["doubled"] += 1
                    threading.Thread(target=self.late, args=(given,), daemon=True).start()
                if luck < 0.6:
                    time.sleep(0.3 * self.chance.random())
                answer = self.asked(given)
                if luck > 0.9:
                    self.counts["answers lost"] += 1
                    return
                connection.sendall(answer)
            except OSError:
                self.counts["broken"] += 1

    def late(self, given):
        """Carries it once more, behind others."""
        time.sleep(self.chance.random())
        try:
            self.asked(given)
        except OSError:
            self.counts["broken"] += 1

    def asked(self, given):
        """What the controller answers."""
        with self.served.connect() as connection:
            connection.sendall(given)
            answer = processes.response(connection)
        if "\r\n\r\n" in answer:
            self.counts["exchanges"] += 1
        return answer.encode()

    def close(self):
        # Wakes the thread that accepts.
        self.listener.shutdown(socket.SHUT_RDWR)
        self.listener.close()


def one_request(connection):
    """The bytes of one request."""
    given = b""
    while True:
        part = connection.recv(65536)
        if not part:
            raise OSError("cut off")
        given += part
        head, end, body = given.partition(b"\r\n\r\n")
        length = re.search(rb"Content-Length: (\d+)", head)
        if end and length and len(body) >= int(length[1]):
            return given


# ---- a day


class Day:
    """The controllers of a day, and what goes on between them."""

    def __init__(self, seed, counts):
        self.chance, self.counts, self.faults = random.Random(seed), counts, []
        self.ends = time.monotonic() + PATIENCE
        wants(run("new", "mis", given=json.dumps(opening())), (0, "", ""))
        for name in ("press", "bind"):
            begins = json.dumps({"Master": "mis", "Worker": name})
            wants(run("new", name, given=begins), (0, "", ""))
        start = time.monotonic()
        self.served = {name: Served(name, "--limit", "10") for name in ("mis", "press", "bind")}
        self.to_start = (time.monotonic() - start) / 3
        self.proxies = {name: Proxy(served, self.chance, counts)
                        for name, served in self.served.items()}
        self.is_over = False

    def kills(self):
        """Kills a controller now and then, as often as the machine lets it do some work between, and
        starts it again."""
        while not self.is_over:
            time.sleep(0.05 + (0.3 + 10 * self.to_start) * self.chance.random())
            served = self.served[self.chance.choice(("mis", "press", "bind"))]
            served.kill()
            self.counts["servers killed"] += 1
            served.start()

    def order(self, name, order):
        """Gives an order; the command may be killed. Answers its lines, which are none then."""
        command = subprocess.Popen([PROGRAM, "order", name, "--at", "1"], stdin=subprocess.PIPE,
                                   stdout=subprocess.PIPE, stderr=subprocess.PIPE)
        command.stdin.write(json.dumps(order).encode())
        command.stdin.close()
        if self.chance.random() < 0.15:
            time.sleep(0.02 * self.chance.random())
            command.kill()
            self.counts["commands killed"] += 1
        with command.stdout, command.stderr:
            lines, told = command.stdout.read().decode().split("\n"), command.stderr.read().decode()
        status = command.wait()
        wants((status in (0, 1, -9), told), (True, ""))
        return lines if status in (0, 1) else [""]

    def until(self, tried):
        """What comes of a try that is made until something does."""
        while time.monotonic() < self.ends:
            if found := tried():
                return found
        raise AssertionError("the day doesn't end")

    def sent(self, name, order, done_already):
        """The message of an order that may have to be given again: where it has been done already,
        the message is asked for."""
        def tried():
            lines = self.order(name, order)
            if lines[0] == done_already:
                spawn_id = order.get("SpawnID") or self.spawn_ids[order["Node"]]
                lines = self.order(name, {"Order": "Resend", "SpawnID": spawn_id})
            return lines[1] if len(lines) > 2 else None
        return self.until(tried)

    def post(self, name, message):
        """The body of the response to a message; none where no response comes."""
        port = self.proxies[name].port
        if self.chance.random() < 0.15:
            return run("send", f"http://127.0.0.1:{port}/jmf", given=message)[1]
        try:
            with socket.create_connection(("127.0.0.1", port), 10) as connection:
                connection.sendall(request(message))
                return processes.response(connection).partition("\r\n\r\n")[2]
        except OSError:
            return ""

    def hand(self, name, message, sender):
        """Posts a message until it is answered as one that was taken. Its sender gets the answer,
        which may be lost."""
        def tried():
            answer = self.post(name, message)
            return answer if '"Reason":0' in answer else None
        self.post(sender, self.until(tried))

    def carry_out(self, number, message):
        """A part goes out, is worked on, and comes back."""
        worker, spawn_id = worker_of(number), f"S{number + 1}"
        self.hand(worker, message, "mis")
        for order in work(number, spawn_id):
            self.until(lambda order=order: self.order(worker, order)[0] == "Edited")
        back = self.sent(worker, finish(spawn_id), "Refused 31 NotOpen")
        self.hand("mis", back, worker)

    def give_up(self, number, message):
        """A part is given up, and comes when its worker has declined it."""
        worker = worker_of(number)

        def is_back():
            lines = self.order("mis", WITHDRAW)
            answer = self.post(worker, lines[1]) if len(lines) > 2 else ""
            if '"Reason":38' in answer:
                self.post("mis", answer)
            return lines[0] == "Refused 16 NotOut"
        self.until(is_back)
        self.until(lambda: '"Reason":38' in self.post(worker, message))

    def handle(self, number, message):
        """What becomes of a part."""
        try:
            (self.give_up if number == GIVEN_UP else self.carry_out)(number, message)
        except (AssertionError, OSError) as fault:
            self.faults.append(f"part {number}: {fault}")

    def spawn_all(self):
        """The messages of the parts, one after the other, so that each has its number."""
        self.spawn_ids = {f"n{number}": f"S{number + 1}" for number in range(PARTS + 1)}
        return [self.sent("mis", spawn(number), f"Refused 12 NotHeld S{number + 1}")
                for number in range(PARTS + 1)]

    def go_by(self):
        killer = threading.Thread(target=self.kills)
        killer.start()
        try:
            threads = [threading.Thread(target=self.handle, args=one)
                       for one in enumerate(self.spawn_all())]
            for thread in threads:
                thread.start()
            for thread in threads:
                thread.join()
        finally:
            self.is_over = True
            killer.join()
            for proxy in self.proxies.values():
                proxy.close()
            time.sleep(1.2)
            for served in self.served.values():
                served.kill()
        wants(self.faults, [])


def day(seed, counts, wanted):
    """A day of this seed: its ticket, and that each part was merged once."""
    def call():
        one = Day(seed, counts)
        one.go_by()
        status, ticket, told = run("show", "mis")
        wants((status, told), (0, ""))
        merged = sorted(re.findall(r'"MergeID":"(S\d+)"', ticket))
        wants(merged, [f"S{number + 1}" for number in range(PARTS)])
        wants(without_times(ticket), wanted)
        wants(sorted(name for name in os.listdir(".") if "." not in name), ["bind", "mis", "press"])
    return in_folder(call)


def in_folder(call):
    folder = tempfile.mkdtemp()
    os.chdir(folder)
    try:
        return call()
    finally:
        os.chdir("/")
        shutil.rmtree(folder)


# ---- many requests


def memory_of(served):
    """The most memory that a server had, in KiB."""
    with open(f"/proc/{served.process.pid}/status", encoding="utf-8") as status:
        return int(re.search(r"VmHWM:\s+(\d+) kB", status.read())[1])


def many_requests(count, growth):
    """A server answers as many requests, and needs no more memory for the last than for the first.
    """
    wants(run("new", "mis", given=json.dumps(opening())), (0, "", ""))
    wants(run("new", "press", given='{"Master":"mis","Worker":"press"}'), (0, "", ""))
    message = run("order", "mis", "--at", "1", given=json.dumps(spawn(0)))[1].split("\n")[1]
    given = [request(message), request("{}"), request("[" * 90000), b"GET / HTTP/1.0\r\n\r\n",
             request('{"JMF":' + " " * 90000)]
    with Served("press", "--limit", "60") as served:
        start, first = time.monotonic(), 0
        for number in range(count):
            wants(processes.asked(served, given[number % 5]), (200, 400, 400, 405, 400)[number % 5])
            if number == 99:
                first = memory_of(served)
        took, last = time.monotonic() - start, memory_of(served)
    told = f"{count} requests in {took:.0f} s, {first} KiB after 100 and {last} KiB after all"
    assert last - first <= growth, told
    return told


def arguments():
    parser = argparse.ArgumentParser()
    parser.add_argument("program", type=os.path.realpath)
    parser.add_argument("--seconds", type=int, default=60)
    parser.add_argument("--seed", type=int, default=1)
    parser.add_argument("--requests", type=int, default=1000)
    # How many KiB more a server may need after all requests than after the first 100.
    parser.add_argument("--growth", type=int, default=1024)
    return parser.parse_args()


def main():
    args = arguments()
    processes.install(args.program)
    counts = dict.fromkeys(("exchanges", "lost", "doubled", "answers lost", "broken",
                            "servers killed", "commands killed"), 0)
    wanted, start, seed = quiet_day(), time.monotonic(), args.seed
    try:
        while time.monotonic() - start < args.seconds:
            day(seed, counts, wanted)
            seed += 1
        took = time.monotonic() - start
        print(f"  {seed - args.seed} days, {counts['exchanges'] / took:.1f} exchanges a second; "
              + ", ".join(f"{count} {what}" for what, count in counts.items()))
        print("  " + in_folder(lambda: many_requests(args.requests, args.growth)))
        print("chaos: passed")
    except (AssertionError, OSError, subprocess.SubprocessError) as fault:
        print(f"chaos: seed {seed} ... FAILED: {str(fault)[:2000]}")
        sys.exit(1)
    finally:
        shutil.rmtree(os.path.dirname(PROGRAM))


if __name__ == "__main__":
    main()
