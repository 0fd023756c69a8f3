#!/usr/bin/env python3
"""A shop whose controllers are kept in etcd, on three machines of which any may be lost:
cluster.py PROGRAM [--seconds N] [--seed N] [--figures]

Three nodes of etcd and, beside each, a server of all controllers; before them a proxy that picks a
server, and loses, doubles and holds up what comes. Days follow one another for so many seconds,
as those of chaos.py, while nodes and servers are killed or stopped and started or continued at
random, and orders are given at a node that is picked at random. In the end the ticket is that of a
quiet day, each part is merged once, and what was held under each key is one chain of steps: no
audit and no spawn of one value isn't in the next. Then lost answers that land late, four writers on
one controller, a node without the others and a quota that is used up: what is told, and that it
goes on. The last lines say how much went on.
"""
import argparse
import base64
import collections
import contextlib
import json
import os
import random
import re
import shutil
import signal
import socket
import subprocess
import sys
import tempfile
import threading
import time
import urllib.error
import urllib.request

import chaos
import processes
from crowd import free_port, until_so
from processes import AT, PROGRAM, attribute, request, run, wants

NAMES = ("mis", "press", "bind")
# What a step is refused with whose save isn't known, and one whose controller could not be loaded.
AWAY = ("Refused 57 SaveFailed", "Refused 59 LoadFailed")


# ---- nodes of etcd


class Node:
    """A node of a cluster, in a folder of its own."""

    def __init__(self, number, clients, peers, folder, options):
        self.options = options
        self.name, self.client, self.peer = f"n{number}", clients[number], peers[number]
        self.data = os.path.join(folder, self.name)
        self.cluster = ",".join(f"n{one}=http://127.0.0.1:{port}" for one, port in enumerate(peers))
        self.start()

    def start(self):
        client, peer = f"http://127.0.0.1:{self.client}", f"http://127.0.0.1:{self.peer}"
        words = {"name": self.name, "data-dir": self.data, "listen-client-urls": client,
                 "advertise-client-urls": client, "listen-peer-urls": peer,
                 "initial-advertise-peer-urls": peer, "initial-cluster": self.cluster,
                 "snapshot-count": "1000", "heartbeat-interval": "50", "election-timeout": "500",
                 **self.options}
        with open(self.data + ".log", "ab") as log:
            self.process = subprocess.Popen(["etcd", *[f"--{word}={value}" for word, value in
                                                       words.items()]], stdout=log, stderr=log)

    def kill(self):
        self.process.kill()
        self.process.wait()

    def send_signal(self, number):
        self.process.send_signal(number)

    def asks(self, what, **body):
        """What its gateway answers."""
        asked = urllib.request.Request(f"http://127.0.0.1:{self.client}/v3/kv/{what}",
                                       json.dumps(body).encode())
        with urllib.request.urlopen(asked, timeout=5) as answer:
            return json.load(answer)


def key_of(place):
    return base64.b64encode(f"toarnbif/{place}".encode()).decode()


@contextlib.contextmanager
def cluster(count=3, **options):
    """So many nodes that have a leader."""
    clients, peers = ([free_port() for _ in range(count)] for _ in range(2))
    folder = tempfile.mkdtemp(dir=".")
    words = {word.replace("_", "-"): value for word, value in options.items()}
    nodes = [Node(number, clients, peers, folder, words) for number in range(count)]
    try:
        until = time.monotonic() + 60
        while not all(is_well(node) for node in nodes):
            assert time.monotonic() < until, "the nodes have no leader"
            time.sleep(0.2)
        yield nodes
    finally:
        for node in nodes:
            node.send_signal(signal.SIGCONT)
            node.kill()


def is_well(node):
    """Whether it answers for the whole cluster."""
    try:
        node.asks("range", key=key_of("none"))
        return True
    except OSError:
        return False


def settles(nodes):
    until = time.monotonic() + 60
    while not all(is_well(node) for node in nodes):
        assert time.monotonic() < until, "the nodes don't come back"
        time.sleep(0.2)


def history(node, place):
    """What was held in a place, from the first value on."""
    values, key = [], key_of(place)
    answer = node.asks("range", key=key)
    while kvs := answer.get("kvs"):
        one = kvs[0]
        values.append(base64.b64decode(one.get("value", "")).decode())
        if int(one["version"]) == 1:
            break
        answer = node.asks("range", key=key, revision=str(int(one["mod_revision"]) - 1))
    return values[::-1]


# ---- the servers


class Server(processes.Served):
    """A server of a controller beside a node, or of a folder of them."""

    def __init__(self, node, place, *options):
        self.url_of_place = f"etcd://127.0.0.1:{node.client}/{place}"
        self.node, self.place = node, place
        super().__init__(f"{node.name}-{place.strip('/').replace('/', '-')}", *options)

    def command(self):
        return [PROGRAM, "serve", self.url_of_place, "--listen", f"127.0.0.1:{self.port}",
                *self.options]

    def send_signal(self, number):
        self.process.send_signal(number)

    def start(self):
        # Where its node doesn't answer it isn't begun, and is started once more.
        for _ in range(100):
            with open(self.file + ".log", "ab") as log:
                self.process = subprocess.Popen(self.command(), stdout=subprocess.PIPE, stderr=log)
            line = self.process.stdout.readline().decode()
            if line.startswith("Listening on 127.0.0.1:"):
                self.port = int(line.rsplit(":", 1)[1])
                return
            self.process.wait()
            self.process.stdout.close()
            time.sleep(0.3)
        raise AssertionError(f"{self.url_of_place} isn't served")


class Servers:
    """The servers of the machines, of which each connection has one."""

    def __init__(self, servers, chance):
        self.servers, self.chance = servers, chance

    def connect(self):
        return self.chance.choice(self.servers).connect()

    def kill(self):
        for server in self.servers:
            server.send_signal(signal.SIGCONT)
            server.kill()


# ---- a day


class Day(chaos.Day):
    """A day on three machines."""

    def __init__(self, seed, counts, nodes):
        self.chance, self.counts, self.faults = random.Random(seed), counts, []
        self.ends = time.monotonic() + chaos.PATIENCE
        self.nodes, self.folder, self.is_over = nodes, f"day{seed}", False
        settles(nodes)
        self.begin("mis", chaos.opening())
        for name in ("press", "bind"):
            self.begin(name, {"Master": "mis", "Worker": name})
        start = time.monotonic()
        servers = Servers([Server(node, self.folder + "/", "--limit", "10") for node in nodes],
                          self.chance)
        self.served = {"machines": servers}
        self.to_start = (time.monotonic() - start) / 3
        self.proxies = {name: chaos.Proxy(servers, self.chance, counts) for name in NAMES}

    def place(self, name):
        return f"{self.folder}/{name}"

    def anywhere(self, name):
        """The place of a controller, at a node that is picked."""
        node = self.chance.choice(self.nodes)
        return f"etcd://127.0.0.1:{node.client}/{self.place(name)}"

    def begin(self, name, opening):
        wants(run("new", self.anywhere(name), given=json.dumps(opening)), (0, "", ""))

    def kills(self):
        """Kills or stops a node or a server now and then, and starts it again or lets it go on, so
        that two nodes of three are there at any moment."""
        while not self.is_over:
            time.sleep(0.2 + self.chance.random())
            if self.chance.random() < 0.4:
                one, word = self.chance.choice(self.nodes), "nodes"
            else:
                one, word = self.chance.choice(self.served["machines"].servers), "servers"
            if self.chance.random() < 0.5:
                self.counts[word + " stopped"] += 1
                one.send_signal(signal.SIGSTOP)
                time.sleep(3 * self.chance.random())
                one.send_signal(signal.SIGCONT)
            else:
                self.counts[word + " killed"] += 1
                one.kill()
                time.sleep(2 * self.chance.random())
                one.start()
            if word == "nodes":
                # The next is touched once all three agree again.
                with contextlib.suppress(AssertionError):
                    settles(self.nodes)

    def order(self, name, order):
        """Gives an order at some node; the command may be killed. Answers its lines, which are none
        where it gives up: it isn't known then whether the step was made."""
        command = subprocess.Popen([PROGRAM, "order", self.anywhere(name), "--at", "1"],
                                   stdin=subprocess.PIPE, stdout=subprocess.PIPE,
                                   stderr=subprocess.PIPE)
        with contextlib.suppress(BrokenPipeError):
            command.stdin.write(json.dumps(order).encode())
            command.stdin.close()
        if self.chance.random() < 0.1:
            time.sleep(0.02 * self.chance.random())
            command.kill()
            self.counts["commands killed"] += 1
        with command.stdout, command.stderr:
            lines, told = command.stdout.read().decode().split("\n"), command.stderr.read().decode()
        status = command.wait()
        if status == 4:
            assert told.startswith(AWAY), told
            self.counts["commands that gave up"] += 1
            return [""]
        wants((status in (0, 1, -9), told), (True, ""))
        return lines if status in (0, 1) else [""]

    def post(self, name, message):
        """The body of the response to a message; none where no response comes, or one that tells
        that it wasn't taken."""
        body = super().post(name, message)
        return body if '"JMF"' in body else ""


def past_of(value):
    """What a state tells of the past: each audit of a master's ticket, each entry of a worker."""
    state = json.loads(value)
    if "Worker" in state:
        return collections.Counter(entry["ID"] for entry in state["Worker"]["Entries"])
    found = collections.Counter()

    def walk(one):
        if isinstance(one, list):
            for item in one:
                walk(item)
        elif isinstance(one, dict):
            found.update(json.dumps(audit) for audit in one.get("AuditPool", []))
            for item in one.values():
                walk(item)
    walk(state["Master"])
    return found


def is_chain(values):
    """Whether each value that was held is a state that tells of the past what the one before told."""
    pasts = [past_of(value) for value in values if value]
    return all(not before - behind for before, behind in zip(pasts, pasts[1:]))


def day(seed, counts, wanted, nodes):
    """A day of this seed: its ticket, and that each part was merged once."""
    one = Day(seed, counts, nodes)
    one.go_by()
    settles(nodes)
    status, ticket, told = run("show", one.anywhere("mis"))
    wants((status, told), (0, ""))
    merged = sorted(re.findall(r'"MergeID":"(S\d+)"', ticket))
    wants(merged, [f"S{number + 1}" for number in range(chaos.PARTS)])
    wants(chaos.without_times(ticket), wanted)
    for name in NAMES:
        values = history(nodes[0], one.place(name))
        assert len(values) > chaos.PARTS, (name, len(values))
        assert is_chain(values), name
        counts["values held"] += len(values)


def days(args, counts):
    wanted, start, seed = chaos.quiet_day(), time.monotonic(), args.seed
    with cluster() as nodes:
        while time.monotonic() - start < args.seconds:
            day(seed, counts, wanted, nodes)
            seed += 1
    return seed - args.seed, time.monotonic() - start


# ---- some cases


def begun(node, place):
    url = f"etcd://127.0.0.1:{node.client}/{place}"
    wants(run("new", url, given=processes.OPENING), (0, "", ""))
    return url


def names_of(url):
    """The attributes of the root."""
    status, ticket, told = run("show", url)
    wants((status, told), (0, ""))
    return sorted(json.loads(ticket)["Attr"])


def four_writers(nodes):
    """Four at once give 25 orders each to one controller, at any node: each is made once."""
    url = begun(nodes[0], "four")
    urls = [f"etcd://127.0.0.1:{node.client}/four" for node in nodes]
    given, gave_up = [], []

    def writes(number):
        for count in range(25):
            name = f"A{number}x{count}"
            status, text, told = run("order", urls[(number + count) % len(urls)], "--at", AT,
                                     given=attribute(name))
            if status == 0:
                wants((text, told), ("Edited\n", ""))
                given.append(name)
            else:
                assert told.startswith("Refused 57 SaveFailed"), told
                gave_up.append(name)
    threads = [threading.Thread(target=writes, args=(number,)) for number in range(4)]
    for thread in threads:
        thread.start()
    for thread in threads:
        thread.join()
    there = names_of(url)
    assert set(given) <= set(there) <= set(given) | set(gave_up)
    assert len(given) >= 60, f"{len(gave_up)} gave up"
    return f"{len(given)} of 100 steps of four writers made, {len(gave_up)} gave up"


def without_the_others(nodes):
    """A node that is alone makes no step and shows nothing; once the others are back it goes on."""
    url = begun(nodes[0], "alone")
    for node in nodes[1:]:
        node.send_signal(signal.SIGSTOP)
    try:
        for words, given in ((("order", url, "--at", AT), attribute("A")), (("show", url), "")):
            start = time.monotonic()
            status, text, told = run(*words, given=given)
            wants((status, text), (4, ""))
            assert told.startswith(AWAY), told
            assert time.monotonic() - start < 20
    finally:
        for node in nodes[1:]:
            node.send_signal(signal.SIGCONT)
    settles(nodes)
    wants(run("order", url, "--at", AT, given=attribute("B")), (0, "Edited\n", ""))
    assert "B" in names_of(url)
    return "a node without the others makes no step"


class Late:
    """Stands before a node, and holds up the swaps that come until it is told to let them go; their
    answers are lost."""

    def __init__(self, node):
        self.node, self.waiting, self.is_holding = node, [], True
        self.listener = socket.create_server(("127.0.0.1", 0), backlog=64)
        self.port = self.listener.getsockname()[1]
        threading.Thread(target=self.accept, daemon=True).start()

    def accept(self):
        while True:
            try:
                connection = self.listener.accept()[0]
            except OSError:
                return
            threading.Thread(target=self.carry, args=(connection,), daemon=True).start()

    def asked(self, given):
        with socket.create_connection(("127.0.0.1", self.node.client), 10) as connection:
            connection.sendall(given)
            return processes.response(connection).encode()

    def carry(self, connection):
        with connection, contextlib.suppress(OSError):
            given = chaos.one_request(connection)
            if self.is_holding and b"/v3/kv/txn" in given:
                self.waiting.append(given)
                return
            connection.sendall(self.asked(given))

    def lands(self):
        """The swaps come to the node now."""
        self.is_holding = False
        return [self.asked(given) for given in self.waiting]

    def close(self):
        self.listener.shutdown(socket.SHUT_RDWR)
        self.listener.close()


def a_lost_swap_lands_late(nodes):
    """An order whose swap is held up is refused 57. Where it lands before another step, it is made;
    where another step came first it never is."""
    url = begun(nodes[0], "late")
    for first, kept in ((None, ["A0"]), ("B", ["A0", "B"])):
        late, name = Late(nodes[0]), "A0" if first is None else "A1"
        status, text, told = run("order", f"etcd://127.0.0.1:{late.port}/late", "--at", AT,
                                 given=attribute(name))
        wants((status, text), (4, ""))
        assert told.startswith("Refused 57 SaveFailed"), told
        if first is not None:
            wants(run("order", url, "--at", AT, given=attribute(first)), (0, "Edited\n", ""))
        assert late.waiting
        late.lands()
        late.close()
        wants(names_of(url), kept)
    return "a swap whose answer is lost lands late, or never where another step came first"


def what_is_no_place(nodes):
    """What begins so and names no place is no call, and never a file."""
    port = nodes[0].client
    for url in ("etcd://", f"etcd://127.0.0.1:{port}", f"etcd://u@127.0.0.1:{port}/mis",
                f"etcd://127.0.0.1:{port}/a.b", f"etcd://127.0.0.1:{port}/a//b",
                "etcd://127.0.0.1/mis", "etcd://127.0.0.1:0/mis", f"etcd://127.0.0.1:{port}/a?b"):
        for words in (("new", url), ("order", url), ("take", url), ("show", url)):
            status, text, told = run(*words, given=processes.OPENING)
            wants((url, status, text), (url, 2, ""))
            assert told, url
    assert not [name for name in os.listdir(".") if name.startswith("etcd")]
    return "what names no place is no call"


# ---- figures


def large_opening(size):
    """What a master begins with whose state has some so many bytes."""
    nodes = [{"ID": f"n{number}", "JobPartID": "p", "Status": "Waiting", "Type": "Folding",
              "Attr": {"Text": "x" * 100}} for number in range(1, max(1, size // 270))]
    return json.dumps({"Master": "mis", "Workers": ["press"],
                       "Ticket": dict(processes.TICKET, JDF=nodes)})


def ordered(socket_path, order):
    """How long an order over a server's socket takes, in milliseconds, and that it was done."""
    start = time.monotonic()
    with socket.socket(socket.AF_UNIX) as connection:
        connection.settimeout(60)
        connection.connect(socket_path)
        connection.sendall(request(order, target="/mis"))
        answer = processes.response(connection)
    wants(processes.status_in(answer), 200)
    return 1000 * (time.monotonic() - start)


def step_times(served, socket_path):
    """The 50th and the 99th of 100 steps of a controller that is served, in milliseconds."""
    with served:
        until_so(lambda: os.path.exists(socket_path), "a socket")
        times = sorted(ordered(socket_path, attribute("A", f"x{number}")) for number in range(100))
    return f"{times[49]:.1f} / {times[98]:.1f}"


def figures():
    """What a step costs in etcd and in a file, by the size of its state."""
    print("  a step in ms, the 50th and the 99th of 100, in etcd of three nodes and in a file:")
    with cluster() as nodes:
        for size in (1_000, 20_000, 150_000):
            folder = f"size{size}"
            os.mkdir(folder)
            wants(run("new", f"{folder}/mis", given=large_opening(size)), (0, "", ""))
            url = f"etcd://127.0.0.1:{nodes[0].client}/{folder}/mis"
            wants(run("new", url, given=large_opening(size)), (0, "", ""))
            held = os.path.getsize(f"{folder}/mis")
            engine = step_times(Server(nodes[0], f"{folder}/mis", "--orders", f"{folder}/a"),
                                f"{folder}/a")
            file = step_times(processes.Served(f"{folder}/mis", "--orders", f"{folder}/b"),
                              f"{folder}/b")
            print(f"  {held} bytes: {engine} and {file}", flush=True)


def is_kept(node, key, revision):
    """Whether the engine still tells what was under a key at a revision."""
    try:
        node.asks("range", key=key, revision=str(revision))
        return True
    except urllib.error.HTTPError:
        return False


def a_past_that_is_forgotten(nodes):
    """A server of a folder has the engine forget all but the newest thousand revisions."""
    node, key = nodes[0], key_of("past/mis")
    url = begun(node, "past/mis")
    for _ in range(2_100):
        node.asks("put", key=base64.b64encode(b"filler").decode(), value="")
    wants(run("order", url, "--at", AT, given=attribute("A")), (0, "Edited\n", ""))
    newest = int(node.asks("range", key=key)["kvs"][0]["mod_revision"])
    assert is_kept(node, key, newest - 1001)
    with Server(node, "past/", "--orders", "past.orders"):
        until_so(lambda: not is_kept(node, key, newest - 1001), "a past that is forgotten")
    assert is_kept(node, key, newest - 1000)
    wants(run("order", url, "--at", AT, given=attribute("B")), (0, "Edited\n", ""))
    wants(names_of(url), ["A", "B"])
    return "a past that is forgotten: the newest thousand revisions are kept, and steps go on"


def etcdctl(node, *words):
    """What it prints. While the nodes agree on a leader it waits; and it is asked again while etcd
    refuses to change who its nodes are, as it does where one has only just come back."""
    until = time.monotonic() + 60
    while True:
        ran = subprocess.run(["etcdctl", f"--endpoints=127.0.0.1:{node.client}",
                              "--command-timeout=60s", *words],
                             env={**os.environ, "ETCDCTL_API": "3"}, capture_output=True,
                             check=False)
        told = ran.stderr.decode()
        if "unhealthy cluster" not in told or time.monotonic() > until:
            wants((ran.returncode, told if ran.returncode else ""), (0, ""))
            return ran.stdout.decode()
        time.sleep(0.5)


def a_quota_that_is_used_up(node):
    """Where there is no room no step is made and all is shown; then the lines of the document help."""
    url = begun(node, "full")
    filler = base64.b64encode(b"x" * 1_000_000).decode()
    until = time.monotonic() + 60
    with contextlib.suppress(urllib.error.HTTPError):
        while time.monotonic() < until:
            node.asks("put", key=base64.b64encode(b"filler").decode(), value=filler)
    status, text, told = run("order", url, "--at", AT, given=attribute("A"))
    wants((status, text), (4, ""))
    assert told.startswith("Refused 57 SaveFailed"), told
    wants(names_of(url), [])
    revision = node.asks("range", key=key_of("full"))["header"]["revision"]
    etcdctl(node, "compact", revision)
    etcdctl(node, "defrag")
    etcdctl(node, "alarm", "disarm")
    wants(run("order", url, "--at", AT, given=attribute("B")), (0, "Edited\n", ""))
    wants(names_of(url), ["B"])
    return "a quota that is used up: no step is made, all is shown, and it goes on"


def a_node_that_is_lost_for_good(nodes):
    """Another takes its place, with an empty folder."""
    begun(nodes[0], "mended")
    lost = nodes[2]
    lost.kill()
    shutil.rmtree(lost.data)
    settles(nodes[:2])
    members = json.loads(etcdctl(nodes[0], "member", "list", "-w", "json"))["members"]
    number = next(one["ID"] for one in members if one["name"] == lost.name)
    etcdctl(nodes[0], "member", "remove", f"{number:x}")
    settles(nodes[:2])
    etcdctl(nodes[0], "member", "add", lost.name, f"--peer-urls=http://127.0.0.1:{lost.peer}")
    lost.options = {**lost.options, "initial-cluster-state": "existing"}
    lost.start()
    settles(nodes)
    url = f"etcd://127.0.0.1:{lost.client}/mended"
    wants(run("order", url, "--at", AT, given=attribute("A")), (0, "Edited\n", ""))
    wants(names_of(url), ["A"])
    return "a node that is lost for good: another takes its place"


def a_copy_that_is_put_back(nodes):
    """All nodes begin with it anew, as the document's lines say."""
    url = begun(nodes[0], "copied")
    wants(run("order", url, "--at", AT, given=attribute("A")), (0, "Edited\n", ""))
    etcdctl(nodes[0], "snapshot", "save", "copy")
    wants(run("order", url, "--at", AT, given=attribute("B")), (0, "Edited\n", ""))
    for node in nodes:
        node.kill()
        shutil.rmtree(node.data)
        etcdctl(node, "snapshot", "restore", "copy", "--name", node.name, "--data-dir", node.data,
                "--initial-cluster", node.cluster,
                "--initial-advertise-peer-urls", f"http://127.0.0.1:{node.peer}")
    for node in nodes:
        node.start()
    settles(nodes)
    wants(names_of(url), ["A"])
    wants(run("order", url, "--at", AT, given=attribute("C")), (0, "Edited\n", ""))
    wants(names_of(url), ["A", "C"])
    return "a copy that is put back: what it held is there, and steps go on"


CASES = (four_writers, without_the_others, a_lost_swap_lands_late, what_is_no_place,
         a_past_that_is_forgotten, a_node_that_is_lost_for_good, a_copy_that_is_put_back)


def cases():
    with cluster() as nodes:
        for case in CASES:
            settles(nodes)
            print("  " + case(nodes), flush=True)
    with cluster(1, quota_backend_bytes="16777216") as nodes:
        print("  " + a_quota_that_is_used_up(nodes[0]), flush=True)


def arguments():
    parser = argparse.ArgumentParser()
    parser.add_argument("program", type=os.path.realpath)
    parser.add_argument("--seconds", type=int, default=180)
    parser.add_argument("--seed", type=int, default=1)
    parser.add_argument("--figures", action="store_true", help="what a step costs, and no test")
    return parser.parse_args()


def main():
    args = arguments()
    processes.install(args.program)
    counts = dict.fromkeys(
        ("exchanges", "lost", "doubled", "answers lost", "broken", "nodes killed", "nodes stopped",
         "servers killed", "servers stopped", "commands killed", "commands that gave up",
         "values held"), 0)
    folder = tempfile.mkdtemp()
    os.chdir(folder)
    try:
        if args.figures:
            figures()
            return
        cases()
        count, took = days(args, counts)
        print(f"  {count} days, {9 * count} spawns in {took:.0f} s; "
              + ", ".join(f"{number} {what}" for what, number in counts.items()))
        print("cluster: passed")
    except (AssertionError, OSError, subprocess.SubprocessError, urllib.error.URLError) as fault:
        print(f"cluster: FAILED: {str(fault)[:2000]}")
        sys.exit(1)
    finally:
        os.chdir("/")
        shutil.rmtree(folder, ignore_errors=True)
        shutil.rmtree(os.path.dirname(PROGRAM))


if __name__ == "__main__":
    main()
