#!/usr/bin/env python3
"""Orders over the local socket of a server: orders.py PROGRAM [--only WORD] [--count N]

Who may give them, what each is answered, that the same is done as by `order` on the file, and that
none is lost or done twice beside those, beside messages, and where a server is killed. Each test runs
the program in a folder of its own, and all together end within two minutes with the count of 200; of
10,000 on each side it takes a quarter of an hour. The last line says how many passed; --only runs
those whose names have a word in them.
"""
import argparse
import json
import os
import shutil
import socket
import stat
import subprocess
import sys
import threading
import time

import processes
from crowd import free_port, until_so
from houses import HOUSES, House, all_files, begins_master, opens_folders, shown
from page import COVER, timed
from processes import PROGRAM, attribute, begin, request, response, run, wants
from told import is_told

COUNT = 200
SOCKET = "orders.sock"


class Driven(House):
    """What is served, with a socket for orders."""

    def __init__(self, place, *options):
        super().__init__(place, free_port(), "--orders", SOCKET, *options)
        until_so(is_open, "a socket that is listened on")


def is_open():
    with socket.socket(socket.AF_UNIX) as connection:
        return connection.connect_ex(SOCKET) == 0


def text_of(method, target, body=""):
    return (f"{method} {target} HTTP/1.1\r\nHost: shop\r\nContent-Length: {len(body.encode())}"
            f"\r\n\r\n{body}").encode()


def asks(given):
    """The status and the body of the response to these bytes."""
    with socket.socket(socket.AF_UNIX) as connection:
        connection.settimeout(60)
        connection.connect(SOCKET)
        connection.sendall(given)
        head, body = response(connection).split("\r\n\r\n", 1)
        return int(head.split()[1]), body


def orders(name, order):
    status, body = asks(text_of("POST", f"/{name}", order))
    wants(status, 200)
    return is_told(json.loads(body), "orderAnswer")


def at_the_brochure(name):
    return json.dumps({"Order": "Edit", "Edit": {"Edit": "SetAttr", "Node": "brochure",
                                                 "Name": name, "Value": "x"}})


def is_answered_and_saved():
    with one_master("shop") as _:
        wants(orders("job-17", COVER), {"Reply": "Spawned", "SpawnID": "S1"})
        wants(run("list", "shop", "--open")[1].count("\tS1\tOut\t"), 1)
        wants(orders("job-17", COVER), {"Name": "NotHeld", "Refused": 12, "SpawnID": "S1"})
        wants(orders("job-17", json.dumps({"Order": "Resend", "SpawnID": "S1"})),
              {"Reply": "Sent", "SpawnID": "S1"})
        before = all_files("shop")
        for body, refused in (("{", {"Name": "NotJson", "Refused": 40}),
                              ("{}", {"Name": "NotProfile", "Refused": 41})):
            status, told = asks(text_of("POST", "/job-17", body))
            wants((status, json.loads(told)), (400, refused))
        wants(all_files("shop"), before)


def one_master(folder):
    os.mkdir(folder)
    begins_master(f"{folder}/job-17", "job-17")
    return Driven(folder)


def shows_what_is_where():
    with one_master("shop"):
        orders("job-17", COVER)
        status, text = asks(text_of("GET", "/job-17"))
        wants((status, text), (200, shown("shop/job-17")))
        status, text = asks(text_of("GET", "/list"))
        found = is_told(json.loads(text), "shop")
        wants((status, [one["SpawnID"] for one in found["Open"]]), (200, ["S1"]))
        for target in ("/none", "/", "/job-17/none", "/../shop/job-17", "/job-17.new"):
            for method, body in (("GET", ""), ("POST", COVER)):
                wants((target, method, asks(text_of(method, target, body))[0]),
                      (target, method, 404))
        wants(asks(text_of("PUT", "/job-17", COVER))[0], 405)
        wants(asks(b"POST /job-17 HTTP/1.1\r\nHost: a\r\n\r\n")[0], 411)


def drives_one_file():
    begin()
    with Driven("mis"):
        wants(orders("mis", attribute("A1")), {"Reply": "Edited"})
        wants(asks(text_of("POST", "/job-17", attribute("A2")))[0], 404)
    wants(json.loads(run("show", "mis")[1])["Attr"], {"A1": "x"})


def drives_a_worker_of_many_masters():
    ports = {folder: free_port() for folder in HOUSES}
    opens_folders(ports)
    begins_master("office/job-17", "job-17")
    with House("office", ports["office"]), House("printers", ports["printers"], "--orders", SOCKET):
        wants(run("order", "office/job-17", "--at", processes.AT, given=COVER)[1].split("\n")[0],
              "Spawned S1")
        until_so(lambda: shown("printers/press/job-17").startswith("S1 Open "), "a part at the press")
        finish = json.dumps({"Order": "Finish", "SpawnID": "S1", "Status": "Completed"})
        wants(orders("press/job-17", finish), {"Reply": "Finished", "SpawnID": "S1"})
        until_so(lambda: "\tMerged\t" in run("list", "office")[1], "a part that is merged")


def is_its_owners_alone():
    with one_master("shop"):
        wants(stat.S_IMODE(os.stat(SOCKET).st_mode), 0o600)
        if os.geteuid() == 0:
            os.chmod(".", 0o755)
            told = subprocess.run(
                ["setpriv", "--reuid=65534", "--regid=65534", "--clear-groups", sys.executable,
                 "-c", f"import socket; socket.socket(socket.AF_UNIX).connect({SOCKET!r})"],
                capture_output=True, text=True, timeout=60)
            assert "PermissionError" in told.stderr, told


def begins_where_one_was_left():
    served = one_master("shop")
    served.kill()
    assert os.path.exists(SOCKET)
    with Driven("shop"):
        wants(orders("job-17", at_the_brochure("A1")), {"Reply": "Edited"})
        second = subprocess.run([PROGRAM, "serve", "shop", "--listen", "127.0.0.1:0", "--orders",
                                 SOCKET], capture_output=True, text=True, timeout=60)
        wants(second.returncode, 4)
        assert second.stderr.startswith("Refused 61 NoConnection: orders.sock: "), second.stderr
        wants(orders("job-17", at_the_brochure("A2")), {"Reply": "Edited"})
    with open("file", "w", encoding="utf-8") as file:
        file.write("kept")
    other = subprocess.run([PROGRAM, "serve", "shop", "--listen", "127.0.0.1:0", "--orders",
                            "file"], capture_output=True, text=True, timeout=60)
    wants((other.returncode, processes.content("file")), (4, b"kept"))


def goes_out_by_itself():
    """What is ordered goes to its worker, and what it was is in the journal."""
    ports = {folder: free_port() for folder in HOUSES}
    opens_folders(ports)
    begins_master("office/job-17", "job-17")
    with House("printers", ports["printers"]), \
            House("office", ports["office"], "--orders", SOCKET, "--journal", "journal"):
        until_so(lambda: os.path.exists(SOCKET), "a socket")
        orders("job-17", COVER)
        until_so(lambda: shown("printers/press/job-17").startswith("S1 Open "), "a part at the press")
        with open("journal", encoding="utf-8") as journal:
            line = is_told(json.loads(journal.readline()), "journaled")
        del line["Time"]
        wants(line, {"Controller": "job-17", "Reply": "Spawned", "SpawnID": "S1",
                     "What": "Spawn"})


def in_threads(calls):
    """Makes calls side by side, and tells the first failure."""
    failed = []

    def one(call):
        try:
            call()
        except BaseException as fault:
            failed.append(fault)
    threads = [threading.Thread(target=one, args=(call,)) for call in calls]
    for thread in threads:
        thread.start()
    for thread in threads:
        thread.join()
    if failed:
        raise failed[0]


def all_are_there_once():
    """Orders over the socket, beside as many by `order` on the same file, and messages."""
    begin()
    with Driven("mis") as served:
        def over_the_socket():
            for number in range(COUNT):
                wants(orders("mis", attribute(f"S{number}")), {"Reply": "Edited"})

        def on_the_file():
            for number in range(COUNT):
                wants(run("order", "mis", "--at", processes.AT, given=attribute(f"F{number}"))[:2],
                      (0, "Edited\n"))

        def by_messages():
            for _ in range(COUNT):
                wants(processes.asked(served, request("{}")), 400)
        in_threads([over_the_socket, on_the_file, by_messages])
    wanted = {f"{side}{number}": "x" for side in "SF" for number in range(COUNT)}
    wants(json.loads(run("show", "mis")[1])["Attr"], wanted)


def a_killed_server_keeps_what_it_answered():
    begin()
    done = []
    for life in range(5):
        served = Driven("mis")
        killer = threading.Timer(0.3, served.process.kill)
        killer.start()
        try:
            for number in range(10_000):
                name = f"L{life}N{number}"
                wants(orders("mis", attribute(name)), {"Reply": "Edited"})
                done.append(name)
        except (OSError, ValueError):
            pass
        killer.join()
        served.kill()
    found = json.loads(run("show", "mis")[1])["Attr"]
    assert set(done) <= set(found) and len(found) <= len(done) + 5, (len(done), len(found))
    assert len(done) > 5, done


def waits_for_nobody():
    """Those who ask and send nothing, or don't read, hold up no order and no message."""
    with one_master("shop") as served:
        slow = []
        for number in range(200):
            connection = socket.socket(socket.AF_UNIX)
            connection.connect(SOCKET)
            connection.sendall(b"POST /job-17 HTTP/1.1\r\n" if number % 2 else
                               text_of("GET", "/job-17"))
            slow.append(connection)
        longest = 0
        for number in range(20):
            begun = time.monotonic()
            wants(orders("job-17", at_the_brochure(f"A{number}")), {"Reply": "Edited"})
            wants(processes.asked(served, request("{}")), 400)
            longest = max(longest, time.monotonic() - begun)
        assert longest < 2, longest
        for connection in slow:
            connection.close()


def is_told_in_the_log():
    with one_master("shop") as served:
        orders("job-17", COVER)
        orders("job-17", COVER)
        lines = [line.split(" ", 1)[1] for line in served.log(2).splitlines()]
        wants(lines, ["order job-17 200 Spawned S1", "order job-17 200 12 NotHeld"])


def is_driven_by_curl():
    if not shutil.which("curl"):
        return
    with one_master("shop"):
        with open("order.json", "w", encoding="utf-8") as file:
            file.write(COVER)
        told = subprocess.run(["curl", "-s", "--unix-socket", SOCKET, "http://shop/job-17", "-d",
                               "@order.json"], capture_output=True, text=True, timeout=60)
        wants((told.returncode, json.loads(told.stdout)),
              (0, {"Reply": "Spawned", "SpawnID": "S1"}))


TESTS = [is_answered_and_saved, shows_what_is_where, drives_one_file,
         drives_a_worker_of_many_masters, is_its_owners_alone, begins_where_one_was_left,
         goes_out_by_itself, all_are_there_once, a_killed_server_keeps_what_it_answered,
         waits_for_nobody, is_told_in_the_log, is_driven_by_curl]


def main():
    global COUNT
    parser = argparse.ArgumentParser()
    parser.add_argument("program")
    parser.add_argument("--only", default="")
    parser.add_argument("--count", type=int, default=COUNT)
    args = parser.parse_args()
    COUNT = args.count
    processes.install(args.program)
    tests = [test for test in TESTS if args.only in test.__name__]
    passed = sum([timed(test, 120 if COUNT <= 1_000 else 3_600) for test in tests])
    shutil.rmtree(os.path.dirname(PROGRAM))
    print(f"orders: {passed} passed, {len(tests) - passed} failed")
    sys.exit(passed != len(tests))


if __name__ == "__main__":
    main()
