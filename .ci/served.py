#!/usr/bin/env python3
"""What `serve` does for many at once and against those who harm: served.py PROGRAM [--only WORD]

Slow, idle and hostile clients beside a good one, directly and through nginx and haproxy; a folder
of which one file is locked; more clients than the server has time for; the system out of open
files; requests of all shapes; many messages for one file at once; and kills under many senders. The
good client's times are measured before, and may not be much longer beside the others. The last
line says how many tests passed; --only runs those whose names have a word in them.
"""
import argparse
import collections
import contextlib
import fcntl
import itertools
import json
import os
import random
import re
import resource
import shutil
import signal
import socket
import struct
import subprocess
import sys
import tempfile
import threading
import time

import processes
import shapes
from crowd import (MANY, Watch, answer_to, before, beside, body_of, connected, files_of, good_times,
                   in_threads, injected, is_alive, locked, memory_of, open_order, percentile, proxy,
                   says_nothing, seconds_of, shaped, slowhttptest, that_stay, told_times, until_so)
from processes import (AT, PROGRAM, Served, content, open_shop, order, request, run, spawn,
                       status_in, wants)

# How long a good client may wait at the 99th of 100, in seconds, where that is quick at all times.
QUICK = 0.05
TOOLS = ("slowhttptest", "wrk", "nginx", "haproxy", "strace")


# ---- what is served


def cover():
    """A message for the press."""
    return order("mis", spawn("cover", "press", ["cover.sheets"]))[1]


def numbered(message, number):
    """The message of another spawn."""
    return re.sub(r"\bS1\b", f"S{number}", message)


def spawn_ids(file):
    """The spawns that a worker has."""
    return [line.split(" ", 1)[0] for line in run("show", file)[1].splitlines()]


def is_answer(text, number):
    """Whether a response answers the command of this spawn."""
    return status_in(text) == 200 and \
        json.loads(body_of(text))["JMF"]["Response"]["refID"] == f"Q.S{number}"


def open_large(nodes):
    """A master of so many nodes, and a message of another that it has nothing to do for."""
    ticket = dict(processes.TICKET, JDF=[
        {"ID": f"m{number}", "JobPartID": f"p{number}", "Status": "Waiting", "Type": "Folding"}
        for number in range(nodes - 1)])
    opening = {"Master": "mis", "Workers": ["press"], "Ticket": ticket}
    wants(run("new", "mis", given=json.dumps(opening)), (0, "", ""))


# ---- slow clients


EARLY = b"PUT /jmf HTTP/1.1\r\nHost: h\r\nContent-Length: 100000\r\n\r\n"
SLOW = {
    "slow heads": lambda port: slowhttptest(port, "-H", "-i", "1", "-t", "POST"),
    "slow bodies": lambda port: slowhttptest(port, "-B", "-i", "1", "-s", "8192"),
    "slow readers": lambda port: slowhttptest(port, "-X", "-w", "1", "-y", "2", "-n", "1"),
    "three that come again": lambda port: beside(3, says_nothing(port)),
    "200 idle ones": lambda port: that_stay(port, 200, b""),
    "50 that got an early answer": lambda port: that_stay(port, 50, EARLY),
}
# How many of them a server that nothing stands before has to hold.
HELD = {"slow heads": MANY * 9 // 10, "slow bodies": MANY * 9 // 10, "200 idle ones": 200}


def slow_clients_beside(name):
    """A good client beside slow ones, with what stands before the server."""
    open_shop()
    given = request(cover())
    with Served("press", "--limit", "6") as press, before(name, press) as port:
        quiet, few = good_times(port, given, 1), files_of(press)
        print(f"  before it {name}; alone {told_times(quiet)} at 50 and 99 of 100")
        for kind, slow in SLOW.items():
            until_so(lambda: files_of(press) <= few, "those before are closed")
            with slow(port):
                time.sleep(2)
                held = files_of(press) - few
                times = good_times(port, given, 3)
            told = f"{kind} ({held} held): {told_times(times)}, {len(times)} times"
            print("  " + told)
            if percentile(times, 99) > QUICK:
                # Where the machine has much else to do, one waits as long with nobody beside.
                quiet += good_times(port, given, 3)
            assert percentile(times, 99) <= max(QUICK, 5 * percentile(quiet, 99)), told
            assert name != "nothing" or held >= HELD.get(kind, 0), told


def slow_clients():
    slow_clients_beside("nothing")


def slow_clients_before_nginx():
    slow_clients_beside("nginx")


def slow_clients_before_haproxy():
    slow_clients_beside("haproxy")


def more_clients_than_it_holds():
    """Whoever is above the most that it holds waits until others are closed, and no longer."""
    open_shop()
    given = request(cover())
    with Served("press", "--limit", "2", "--clients", "40") as press:
        with that_stay(press.port, 60, b""):
            start = time.monotonic()
            wants(status_in(answer_to(press.port, given)), 200)
            took = time.monotonic() - start
        print(f"  behind 60 idle ones where 40 are held: {took:.1f} s")
        assert took < 6, took
    with Served("press", "--limit", "1", "--clients", "1") as press:
        with connected(press.port):
            for _ in range(3):
                wants(status_in(answer_to(press.port, given, 10)), 200)
        came = in_threads(30, lambda _: status_in(answer_to(press.port, given, 10)))
        wants(came, 30 * [200])


# ---- files that others have


def open_folder(count):
    """A folder of workers, and a message for the press."""
    open_shop()
    message = cover()
    os.mkdir("shop")
    for number in range(count):
        opening = json.dumps({"Master": "mis", "Worker": f"press{number}"})
        wants(run("new", f"shop/press{number}", given=opening), (0, "", ""))
    return message


def asks_for(message, number):
    """A request that hands a message to one of a folder."""
    return request(message.replace('"ReceiverID":"press"', f'"ReceiverID":"press{number}"'))


def one_file_is_locked():
    """Only those who ask for it wait, and are answered within the limit."""
    message, limit = open_folder(12), 2
    with Served("shop", "--limit", str(limit)) as shop:
        held = {1: locked("shop/press1"), 2: locked("shop/press2", fcntl.LOCK_SH),
                3: locked("shop/press3.new")}
        others = [number for number in range(12) if number not in held]
        with contextlib.ExitStack() as stack:
            stack.enter_context(open_order("shop/press4"))
            for lock in held.values():
                stack.enter_context(lock)
            came = in_threads(12, lambda number: asked_of(shop, number, message))
            for number, (status, took) in enumerate(came):
                wants((number, status), (number, 503 if number in held else 200))
                assert took < (limit + 1 if number in held else 0.5), (number, took)
            slowest = max(came[number][1] for number in others)
        print(f"  others within {1000 * slowest:.0f} ms, those that are locked within "
              f"{max(took for _, took in came):.1f} s")
        for number in held:
            wants(asked_of(shop, number, message)[0], 200)
        until_so(lambda: not [name for name in os.listdir("shop") if ".new" in name], "no `.new`")


def asked_of(shop, number, message):
    """The status of the response of one of a folder, and how long it took."""
    start = time.monotonic()
    return status_in(answer_to(shop.port, asks_for(message, number))), time.monotonic() - start


def a_lock_that_is_given_back_in_time():
    """A message that waits for a lock is taken once that is free."""
    message = open_folder(1)
    with Served("shop", "--limit", "10") as shop, connected(shop.port) as client:
        with locked("shop/press0"):
            client.sendall(asks_for(message, 0))
            time.sleep(0.5)
            wants(shop.log(), "")
        start = time.monotonic()
        wants(status_in(processes.response(client)), 200)
        assert time.monotonic() - start < 0.5
    wants(spawn_ids("shop/press0"), ["S1"])


def who_has_gone_is_passed_over():
    """Of clients that wait for a lock one resets its connection, and one only ends its half."""
    message = open_folder(1)
    with Served("shop", "--limit", "10") as shop, connected(shop.port) as other:
        with locked("shop/press0"):
            with connected(shop.port) as gone:
                gone.sendall(asks_for(numbered(message, 7), 0))
                time.sleep(0.2)
                gone.setsockopt(socket.SOL_SOCKET, socket.SO_LINGER, struct.pack("ii", 1, 0))
            other.sendall(asks_for(numbered(message, 8), 0))
            other.shutdown(socket.SHUT_WR)
            time.sleep(0.2)
        assert is_answer(processes.response(other), 8)
        wants(shop.told(2), ["press0 499", "press0 200 Taken S8 from mis"])
    wants(spawn_ids("shop/press0"), ["S8"])


# ---- many messages at once


def many_messages_at_once():
    """Those that wait for one file at one moment are taken with one save, and each client gets the
    answer to its own."""
    open_shop()
    message, count = cover(), 200
    watch = Watch(".")
    with Served("press", "--limit", "30") as press:
        with contextlib.ExitStack() as stack:
            clients = [stack.enter_context(connected(press.port)) for _ in range(count)]
            with locked("press"):
                for number, client in enumerate(clients, 1):
                    client.sendall(request(numbered(message, number)))
                time.sleep(1)
                wants(watch.count(), 0)
            for number, client in enumerate(clients, 1):
                assert is_answer(processes.response(client), number), number
        saves = watch.count()
        print(f"  {count} messages that wait for a file are {saves} saves")
        assert 1 <= saves <= 3, saves
        came = in_threads(64, lambda number: sends_in_turn(press.port, message, 1000 + 10 * number))
        wants(came, 64 * [10])
        print(f"  640 messages of 64 clients are {watch.count()} saves")
    wants(sorted(spawn_ids("press")), sorted(f"S{number}" for number in (
        *range(1, count + 1), *range(1000, 1640))))


def sends_in_turn(port, message, first):
    """Ten messages from this one on; answers how many were answered as their own."""
    return sum(is_answer(answer_to(port, request(numbered(message, number))), number)
               for number in range(first, first + 10))


# ---- more than it has time for


def overload():
    """A hundred clients that give up after 5 s and come again get as many answers as one alone, at
    a master of 10,000 nodes that has nothing to do for them, and at a worker whose state of the
    same size each message changes."""
    open_shop()
    message = cover()
    same = request(message.replace('"ReceiverID":"press"', '"ReceiverID":"mis"'))
    withdrawn = order("mis", json.dumps({"Order": "Withdraw", "SpawnID": "S1"}))[1]
    os.remove("mis")
    open_large(10_000)
    wants(run("take", "press", "--at", AT, given=message)[0], 0)
    fill("press", len(content("mis")) // 1000)
    numbers = itertools.count(2)
    for file, given in (("mis", lambda: same),
                        ("press", lambda: request(numbered(withdrawn, next(numbers))))):
        with Served(file) as served:
            size = len(content(file))
            alone = answers_in(4, served.port, given, 1)
            many = answers_in(15, served.port, given, 100)
            print(f"  {file}, a state of {size / 1e6:.1f} MB: {alone:.0f} answers a second to one "
                  f"client, {many:.0f} to 100 that give up after 5 s")
            assert many >= 0.9 * alone, (many, alone)


def answers_in(seconds, port, given, clients):
    """How many answers a second so many clients get, each of whom gives up after 5 s."""
    until = time.monotonic() + seconds

    def client(_):
        count = 0
        while time.monotonic() < until:
            with contextlib.suppress(TimeoutError):
                count += status_in(answer_to(port, given(), 5)) == 200
        return count
    came = in_threads(clients, client)
    faults = [one for one in came if not isinstance(one, int)]
    wants(faults, [])
    return sum(came) / seconds


# ---- the system refuses


def open_files_run_out():
    """While it may open no more files it serves those it can, and all once it may again."""
    open_shop()
    given = request(cover())
    with Served("press", "--limit", "20") as press:
        wants(status_in(answer_to(press.port, given)), 200)
        old = resource.prlimit(press.process.pid, resource.RLIMIT_NOFILE)
        most = max(int(name) for name in os.listdir(f"/proc/{press.process.pid}/fd")) + 1
        for room in (0, 1, 3, 6):
            resource.prlimit(press.process.pid, resource.RLIMIT_NOFILE, (most + room, old[1]))
            took = seconds_of(press)
            with contextlib.ExitStack() as stack:
                clients = [stack.enter_context(connected(press.port)) for _ in range(20)]
                for client in clients:
                    client.sendall(given)
                time.sleep(1)
                took = seconds_of(press) - took
                resource.prlimit(press.process.pid, resource.RLIMIT_NOFILE, old)
                came = collections.Counter(status_in(processes.response(client))
                                           for client in clients)
            print(f"  room for {room} more files: {dict(came)}, {took:.2f} s of the processor")
            assert set(came) <= {200, 503} and took < 0.6, (came, took)
            wants(status_in(answer_to(press.port, given)), 200)
        is_alive(press)


def the_system_gives_no_connections():
    open_shop()
    given = request(cover())
    with Served("press", "--limit", "20") as press:
        for fault in ("ENFILE", "EMFILE", "ENOMEM", "ENOBUFS", "ECONNABORTED", "EPERM", "EINTR"):
            took = seconds_of(press)
            with contextlib.ExitStack() as stack:
                with injected(press, f"accept4:error={fault}"):
                    clients = [stack.enter_context(connected(press.port)) for _ in range(20)]
                    for client in clients:
                        client.sendall(given)
                    time.sleep(0.5)
                    is_alive(press)
                came = [status_in(processes.response(client)) for client in clients]
            took = seconds_of(press) - took
            wants((fault, came), (fault, 20 * [200]))
            assert took < 0.6, (fault, took)
        wants(status_in(answer_to(press.port, given)), 200)


# ---- what comes over the wire


def the_body_is_asked_for_at_once():
    open_shop()
    message = cover()
    head, _, body = request(message, "Expect: 100-continue\r\n").partition(b"\r\n\r\n")
    with Served("press") as press:
        with connected(press.port) as client:
            start = time.monotonic()
            client.sendall(head + b"\r\n\r\n")
            wants(client.recv(100), b"HTTP/1.1 100 Continue\r\n\r\n")
            assert time.monotonic() - start < 0.5
            client.sendall(body)
            assert is_answer(processes.response(client), 1)
        with connected(press.port) as client:
            client.sendall(re.sub(rb"Length: \d+", b"Length: 99999999", head) + b"\r\n\r\n")
            wants(status_in(processes.response(client)), 413)


def what_stands_behind_a_body_loses_no_response():
    """A line, and another request during the step."""
    open_shop()
    given = request(cover())
    behind = (b"\r\n", given, given[:40], 100_000 * b"x")
    with Served("press") as press:
        def call(number):
            with connected(press.port) as client:
                client.setsockopt(socket.IPPROTO_TCP, socket.TCP_NODELAY, 1)
                client.sendall(given)
                time.sleep(0.0005 * (number % 5))
                with contextlib.suppress(BrokenPipeError):
                    client.sendall(behind[number % 4])
                return is_answer(processes.response(client), 1)
        came = in_threads(60, call)
        wants([one for one in came if one is not True], [])


def a_step_longer_than_the_limit_is_answered():
    """A disk that takes 1.5 s for each call, and a large state."""
    open_shop()
    message = cover()
    with Served("press", "--limit", "1") as press, injected(press, "fsync:delay_enter=1500000"):
        start = time.monotonic()
        assert is_answer(answer_to(press.port, request(message)), 1)
        took = time.monotonic() - start
        assert took > 1.5, took
        print(f"  a step of {took:.1f} s is answered, where the limit is 1 s")
    fill("press", 60_000)
    with Served("press", "--limit", "1") as press:
        for number in (1, 2):
            start = time.monotonic()
            assert is_answer(answer_to(press.port, request(numbered(message, number))), number)
            print(f"  a step of a state of {len(content('press')) / 1e6:.0f} MB: "
                  f"{time.monotonic() - start:.2f} s, {memory_of(press)} MiB")


def fill(file, count):
    """Gives the one part that a worker keeps so many notes of 1,000 bytes."""
    state = json.loads(content(file))
    note = {"Name": "Notification", "Text": 1000 * "x", "TimeStamp": 1}
    state["Worker"]["Entries"][0]["Part"]["AuditPool"] = count * [note]
    with open(file, "w", encoding="utf-8") as text:
        text.write(json.dumps(state, sort_keys=True, separators=(",", ":")))


def a_part_that_grew_comes_back():
    """One of 20 MB goes to its master, which refuses one above `--body`."""
    open_shop()
    wants(run("take", "press", "--at", AT, given=cover())[0], 0)
    fill("press", 20_000)
    back = order("press", processes.FINISH)[1]
    with Served("mis", "--body", "10000000") as mis:
        wants(status_in(answer_to(mis.port, request(back)[:-19_000_000])), 413)
    with Served("mis") as mis:
        start = time.monotonic()
        wants(status_in(answer_to(mis.port, request(back))), 200)
        took = time.monotonic() - start
        print(f"  a part of {len(back) / 1e6:.0f} MB comes back in {took:.2f} s")
        wants(mis.told(2), ["- 413 53 TooLarge", "mis 200 Merged S1 from press"])
    wants(run("show", "mis")[1].count('"Name":"Merged"'), 1)


def memory_is_bounded():
    """Twenty clients who send 8 MB each where 16 MiB may be kept; each is answered. A message is
    read whole before it is refused, which takes some more."""
    open_shop()
    body = "[" + 8_000_000 * " "
    with Served("press", "--limit", "20", "--memory", str(16 << 20)) as press:
        came = in_threads(20, lambda _: status_in(answer_to(press.port, request(body))))
        print(f"  twenty requests of 8 MB where 16 MiB may be kept: {memory_of(press)} MiB at most")
        wants(came, 20 * [400])
        assert memory_of(press) < 80, memory_of(press)
    with Served("press", "--limit", "20") as press:
        start = time.monotonic()
        wants(status_in(answer_to(press.port, request("[" + 500_000 * "[1,1],[" + "1"))), 400)
        print(f"  3.5 MB of lists that are no message: {time.monotonic() - start:.2f} s, "
              f"{memory_of(press)} MiB at most")
        assert memory_of(press) < 180, memory_of(press)


# ---- the log


def a_log_that_nobody_reads():
    """Its lines wait, and are dropped where they are too many; nobody else waits. Its reader may
    go."""
    open_shop()
    given = request(cover())
    reader, writer = os.pipe()
    command = [PROGRAM, "serve", "press", "--listen", "127.0.0.1:0"]
    press = subprocess.Popen(command, stdout=subprocess.PIPE, stderr=writer)
    os.close(writer)
    try:
        port = int(press.stdout.readline().decode().rsplit(":", 1)[1])
        wrk = subprocess.run(["wrk", "-t", "2", "-c", "16", "-d", "6", f"http://127.0.0.1:{port}/"],
                             capture_output=True, check=True).stdout.decode()
        asked = int(re.search(r"(\d+) requests in", wrk)[1])
        times = good_times(port, given, 1)
        lines, dropped = read_log(reader, port, given, asked + len(times))
        os.close(reader)
        good_times(port, given, 0)
        wants(press.poll(), None)
    finally:
        press.kill()
        press.wait()
        press.stdout.close()
    print(f"  {asked} requests, {lines} lines came and {dropped} were dropped")
    assert lines > 5000 and lines + dropped >= asked, "lines that nobody tells of"


def read_log(reader, port, given, wanted):
    """Reads the log until it has told of so many requests. Answers how many lines came, and how
    many were dropped."""
    os.set_blocking(reader, False)
    text, until = b"", time.monotonic() + 20
    while time.monotonic() < until:
        with contextlib.suppress(BlockingIOError):
            while part := os.read(reader, 65536):
                text += part
        whole = text[:text.rfind(b"\n") + 1].decode().splitlines()
        told = [re.fullmatch(r"(\d+) lines of the log were dropped", line) for line in whole]
        dropped = sum(int(one[1]) for one in told if one)
        lines = sum(one is None for one in told)
        for line, one in zip(whole, told):
            assert one or processes.LINE.fullmatch(line), f"a line {line!r}"
        if lines + dropped >= wanted:
            break
        wants(status_in(answer_to(port, given)), 200)
        time.sleep(0.05)
    return lines, dropped


def two_servers_write_one_log():
    """Each line is whole."""
    open_shop()
    given = request(cover())
    with Served("press") as press, Served("press") as other:
        in_threads(16, lambda number: [answer_to((press, other)[number % 2].port, given)
                                       for _ in range(100)])
        # Lines of both are in one file.
        wants(set(press.told(1600)), {"press 200 Taken S1 from mis", "press 200 Again S1 from mis"})


# ---- requests of all shapes

HIDDEN = shapes.HIDDEN.encode()


def open_hidden():
    """A folder with a controller that all are for, and one for which nothing goes to its end."""
    open_shop()
    message = cover()
    os.mkdir("shop")
    os.rename("press", "shop/press")
    opening = json.dumps({"Master": "mis", "Worker": "hidden"})
    wants(run("new", "shop/hidden", given=opening), (0, "", ""))
    return shapes.shapes(message)


def requests_of_all_shapes():
    table = open_hidden()
    with Served("shop", "--limit", "2") as shop:
        for name, given, wanted in table:
            wants((name, shaped(shop.port, given, 5)), (name, wanted))
        statuses = [told.split(" ")[1] for told in shop.told(len(table))]
        wants(collections.Counter(statuses),
              collections.Counter("no" if one is None else str(one) for _, _, one in table))
        is_alive(shop)
        print(f"  {len(table)} shapes, {memory_of(shop)} MiB at most")


def shapes_before(name):
    """The shapes through a proxy: each that it passes is one line, and none is what it hides."""
    table = open_hidden()
    hidden = content("shop/hidden")
    with Served("shop", "--limit", "2") as shop, proxy(name, shop.port) as port:
        came, most, told, few = collections.Counter(), 0, [], files_of(shop)
        for what, given, wanted in table:
            status = None
            # A proxy may wait for more as long as it likes.
            with contextlib.suppress(TimeoutError):
                status = shaped(port, given, 3)
            came[status] += 1
            # A proxy may pass what stands behind a body, which is a request then.
            most += 1 + (HIDDEN in given)
            time.sleep(0.02)
            told = shop.told(0)
            assert len(told) <= most, (what, told[-3:])
            assert wanted != 200 or status in (200, 400, 403), (what, status)
        wants([line for line in told if line.startswith("hidden")], [])
        wants(content("shop/hidden"), hidden)
        until_so(lambda: files_of(shop) <= few, "each connection is closed", 5)
        is_alive(shop)
        print(f"  {len(table)} shapes to {name}: {dict(came)}, {len(told)} passed")


def shapes_before_nginx():
    shapes_before("nginx")


def shapes_before_haproxy():
    shapes_before("haproxy")


# ---- kills


def kills_under_many_senders(seconds=25):
    """Two servers of one file are killed at random under 24 senders. What was acknowledged is there
    behind each kill, and nothing is there twice."""
    open_shop()
    message, chance, acked, until = cover(), random.Random(5), set(), time.monotonic() + seconds
    kills, watch, saves = 0, Watch("."), 0
    with Served("press", "--limit", "3") as press, Served("press", "--limit", "3") as other:
        served = (press, other)
        senders = threading.Thread(target=lambda: in_threads(24, lambda number: send_until(
            served, message, number, acked, until)))
        senders.start()
        while time.monotonic() < until:
            time.sleep(0.3 * chance.random())
            one = served[chance.randrange(2)]
            known = set(acked)
            one.kill()
            kills, saves = kills + 1, saves + watch.count()
            held = spawn_ids("press")
            wants((len(held), sorted(known - set(held))), (len(set(held)), []))
            one.start()
        senders.join()
    held = spawn_ids("press")
    wants((len(held), acked - set(held)), (len(set(held)), set()))
    assert kills > 20 and len(acked) > 100, (kills, len(acked))
    print(f"  {kills} servers killed, {len(acked)} messages acknowledged, {len(held)} there, in "
          f"{saves} saves")


def send_until(served, message, number, acked, until):
    """Sends one message after the other, each to one of the servers until it is answered."""
    chance, turn = random.Random(number), 0
    while time.monotonic() < until:
        own = 100_000 * (number + 1) + turn
        turn += 1
        while time.monotonic() < until:
            with contextlib.suppress(OSError, AssertionError, ValueError):
                port = served[chance.randrange(2)].port
                if is_answer(answer_to(port, request(numbered(message, own)), 5), own):
                    acked.add(f"S{own}")
                    break


TESTS = [
    slow_clients,
    slow_clients_before_nginx,
    slow_clients_before_haproxy,
    more_clients_than_it_holds,
    one_file_is_locked,
    a_lock_that_is_given_back_in_time,
    who_has_gone_is_passed_over,
    many_messages_at_once,
    overload,
    open_files_run_out,
    the_system_gives_no_connections,
    the_body_is_asked_for_at_once,
    what_stands_behind_a_body_loses_no_response,
    a_step_longer_than_the_limit_is_answered,
    a_part_that_grew_comes_back,
    memory_is_bounded,
    a_log_that_nobody_reads,
    two_servers_write_one_log,
    requests_of_all_shapes,
    shapes_before_nginx,
    shapes_before_haproxy,
    kills_under_many_senders,
]


def timed(test):
    """Whether a test passes within two minutes."""
    def late(*_):
        raise AssertionError("no end within 120 s")
    start = time.monotonic()
    signal.signal(signal.SIGALRM, late)
    signal.alarm(120)
    try:
        return processes.passes(test)
    finally:
        signal.alarm(0)
        print(f"  {time.monotonic() - start:.1f} s", flush=True)


def prepare(program):
    """Room for many connections, states in memory where there is such a disk, and the tools."""
    os.environ["PATH"] += ":/usr/sbin"
    missing = [tool for tool in TOOLS if not shutil.which(tool)]
    if missing:
        sys.exit(f"served: not there: {' '.join(missing)}")
    most = resource.getrlimit(resource.RLIMIT_NOFILE)[1]
    if most < 4 * MANY:
        sys.exit(f"served: {most} open files are too few")
    resource.setrlimit(resource.RLIMIT_NOFILE, (most, most))
    processes.install(program)
    if os.path.isdir("/dev/shm"):
        tempfile.tempdir = "/dev/shm"


def main():
    parser = argparse.ArgumentParser()
    parser.add_argument("program")
    parser.add_argument("--only", default="")
    args = parser.parse_args()
    prepare(args.program)
    start = time.monotonic()
    tests = [test for test in TESTS if args.only in test.__name__]
    passed = sum([timed(test) for test in tests])
    shutil.rmtree(os.path.dirname(PROGRAM))
    print(f"served: {passed} passed, {len(tests) - passed} failed, "
          f"{time.monotonic() - start:.0f} s")
    sys.exit(passed != len(tests))


if __name__ == "__main__":
    main()
