#!/usr/bin/env python3
"""The page of a served folder: page.py PROGRAM [--only WORD]

What a person reads on it, what a monitor gets, and that nothing which a ticket has is ever markup;
that it changes nothing, and that those who look hold up no message. Each test runs the program in a
folder of its own, and all together end within two minutes. With a chromium on PATH the page is
loaded in it, and what stands on its first screen is looked for in what it made of the page. The last
line says how many passed; --only runs those whose names have a word in them.
"""
import argparse
import contextlib
import json
import os
import resource
import shutil
import signal
import socket
import subprocess
import sys
import time

import processes
from crowd import free_port, proxy_of, until_so
from houses import (HOUSES, House, all_files, begins, begins_master, begins_worker, gives,
                    master_opening, opens_folders)
from processes import PROGRAM, request, response, run, spawn, wants
from told import is_told

COVER = spawn("cover", "press", ["cover.sheets"])
LINES = {
    "cache-control": "no-store",
    "x-content-type-options": "nosniff",
    "connection": "close",
}
HOSTILE = "<script>document.title='run'</script><b onclick=\"x\">'&"


class Paged(House):
    """A folder that is served, with its page."""

    def __init__(self, folder, *options):
        self.page = free_port()
        super().__init__(folder, free_port(), "--page", f"127.0.0.1:{self.page}", *options)

    def get(self, path, method="GET", version="1.1"):
        """The status, the head's lines and the body of what is answered."""
        with socket.create_connection(("127.0.0.1", self.page), timeout=20) as connection:
            connection.sendall(f"{method} {path} HTTP/{version}\r\nHost: shop\r\n\r\n".encode())
            whole = b""
            while True:
                piece = connection.recv(65536)
                if not piece:
                    break
                whole += piece
        head, body = whole.split(b"\r\n\r\n", 1)
        first, *lines = head.decode().split("\r\n")
        fields = dict(line.lower().split(": ", 1) for line in lines)
        return int(first.split()[1]), fields, body

    def until(self, path, is_so):
        """What is answered once this is so."""
        end = time.monotonic() + 20
        while True:
            with contextlib.suppress(ConnectionRefusedError):
                status, _, body = self.get(path)
                if is_so(status, body) or time.monotonic() > end:
                    return status, body
            time.sleep(0.05)


class Bounded(Paged):
    """The same, which a write behind the limit of a file's bytes doesn't end, but fails."""

    def command(self):
        return ["env", "--ignore-signal=XFSZ", *super().command()]


def opening_named(name, descriptive):
    opening = master_opening(name)
    nodes = opening["Ticket"]["JDF"]
    for node in nodes:
        node.setdefault("Attr", {})["DescriptiveName"] = descriptive
    return opening


@contextlib.contextmanager
def one_shop(descriptive="The cover"):
    """A folder with one master, whose cover is out and carried by nobody."""
    os.mkdir("shop")
    begins("shop/job-17", opening_named("job-17", descriptive))
    gives("shop/job-17", COVER, "Spawned S1")
    with Paged("shop") as served:
        served.until("/list.json", lambda _, body: json.loads(body)["Controllers"] == 1)
        yield served


def tells_what_is_out():
    with one_shop() as served:
        status, fields, body = served.get("/")
        wants(status, 200)
        for name, value in LINES.items():
            wants((name, fields[name]), (name, value))
        wants(fields["content-type"], "text/html; charset=utf-8")
        assert fields["content-security-policy"].startswith("default-src 'none'; "), fields
        text = body.decode()
        for word in ("1 out", "0 without an answer", "0 refused", "The cover", "press", ">S1<",
                     '<a href="/job-17">'):
            assert word in text, (word, text)
        found = is_told(json.loads(served.get("/list.json")[2]), "shop")
        wants([one["SpawnID"] for one in found["Open"]], ["S1"])
        wants((found["Open"][0]["With"], found["Open"][0]["Controller"]), ("press", "job-17"))
        wants((found["Refused"], found["Waiting"]), ([], []))


def tells_what_the_list_tells():
    with one_shop() as served:
        status, lines, told = run("list", "shop", "--open", "--json")
        wants((status, told), (0, ""))
        known = [is_told(json.loads(line), "listed") for line in lines.splitlines()]
        found = json.loads(served.get("/list.json")[2])["Open"]
        for one in known + found:
            del one["Bytes"], one["Seconds"]
        wants(found, known)


def shows_a_controller():
    with one_shop() as served:
        status, _, body = served.get("/job-17")
        wants(status, 200)
        assert b"<svg " in body and b"Job job-17" in body, body[:2000]
        status, fields, body = served.get("/job-17.json")
        wants((status, fields["content-type"]), (200, "application/json"))
        wants(body.decode(), run("show", "shop/job-17")[1])


def is_missed():
    with one_shop() as served:
        for path in ("/none", "/job-17/none", "/../shop/job-17", "/job-17.new", "/peers.json",
                     "//job-17", "/%6aob-17", "/.json"):
            wants((path, served.get(path)[0]), (path, 404))


def is_read_only():
    with one_shop() as served:
        before = all_files("shop")
        for method in ("POST", "PUT", "DELETE", "OPTIONS", "PATCH"):
            status, fields, _ = served.get("/job-17", method)
            wants((method, status, fields["allow"]), (method, 405, "get, head"))
        status, fields, body = served.get("/", "HEAD")
        wants((status, body), (200, b""))
        assert int(fields["content-length"]) > 1000, fields
        with socket.create_connection(("127.0.0.1", served.page), timeout=20) as connection:
            connection.sendall(b"GET / HTTP/1.1\r\nHost: a\r\nContent-Length: 3\r\n\r\nabc")
            assert b" 4" in connection.recv(65536)[:13]
        served.get("/health")
        wants(all_files("shop"), before)


def is_plain():
    with one_shop(HOSTILE) as served:
        for path in ("/", "/job-17"):
            text = served.get(path)[2].decode()
            assert "<script" not in text and "<b on" not in text, text
        assert "&lt;script&gt;" in served.get("/")[2].decode()


def tells_health():
    with one_shop() as served:
        wants(served.get("/health")[::2], (200, b"ok\n"))
    os.mkdir("other")
    with open("other/mis", "w", encoding="utf-8") as file:
        file.write("{}")
    with Paged("other") as served:
        status, body = served.until("/health", lambda status, _: status == 503)
        wants((status, body), (503, b"no file holds a controller of its name\n"))
    os.mkdir("full")
    with Bounded("full") as served:
        served.until("/health", lambda status, _: status == 200)
        # No file may have any bytes, as where the disk is full.
        resource.prlimit(served.process.pid, resource.RLIMIT_FSIZE, (0, 0))
        status, body = served.until("/health", lambda status, _: status == 503)
        wants((status, body), (503, b"the folder of the controllers can't be written\n"))


def tells_measures():
    with one_shop() as served:
        with served.connect() as connection:
            connection.sendall(request("{}"))
            response(connection)
        text = served.until("/metrics", lambda _, body: b'code="400"} 1' in body)[1].decode()
        for line in ('jdf_requests_total{code="400"} 1', 'jdf_requests_total{code="200"} 0',
                     "jdf_open 1", "jdf_controllers 1", "jdf_refused 0",
                     'jdf_controller_open{controller="job-17"} 1',
                     'jdf_controller_refused{controller="job-17"} 0'):
            assert line in text.splitlines(), (line, text)
        if shutil.which("promtool"):
            told = subprocess.run(["promtool", "check", "metrics"], input=text, text=True,
                                  capture_output=True, timeout=60)
            wants((told.returncode, told.stderr), (0, ""))


def tells_what_was_refused():
    """A press that knows another master."""
    ports = {folder: free_port() for folder in HOUSES}
    opens_folders(ports)
    begins_master("office/job-17", "job-17")
    os.rmdir("printers/press")
    begins_worker("printers/press", "press", "job-18")
    gives("office/job-17", COVER, "Spawned S1")
    with House("printers", ports["printers"]), Paged("office") as office:
        _, body = office.until("/list.json", lambda _, body: json.loads(body)["Refused"])
        refused = is_told(json.loads(body), "shop")["Refused"]
        wants([(one["Controller"], one["Refused"], one["SpawnID"]) for one in refused],
              [("job-17", 21, "S1")])
        text = office.get("/")[2].decode()
        assert "1 refused" in text and "refused: 21 WrongSender" in text, text
        told = office.get("/metrics")[2].decode().splitlines()
        assert "jdf_refused 1" in told and 'jdf_controller_refused{controller="job-17"} 1' in told


def follows_the_files():
    with one_shop() as served:
        begins("shop/job-18", opening_named("job-18", "Another"))
        gives("shop/job-18", COVER, "Spawned S1")
        served.until("/list.json", lambda _, body: len(json.loads(body)["Open"]) == 2)
        os.remove("shop/job-18")
        status, body = served.until("/list.json",
                                    lambda _, body: len(json.loads(body)["Open"]) == 1)
        wants([one["Controller"] for one in json.loads(body)["Open"]], ["job-17"])


def holds_up_no_message():
    """Two hundred who ask and don't read, and some who send a byte at a time."""
    with one_shop() as served:
        slow = []
        for number in range(200):
            connection = socket.create_connection(("127.0.0.1", served.page), timeout=20)
            slow.append(connection)
            connection.sendall(b"GET /job-17 HTTP/1.1\r\n" if number % 2 else
                               b"GET /job-17 HTTP/1.1\r\nHost: a\r\n\r\n")
        longest = 0
        for _ in range(50):
            begun = time.monotonic()
            with served.connect() as connection:
                connection.sendall(request("{}"))
                response(connection)
            longest = max(longest, time.monotonic() - begun)
        assert longest < 1, longest
        for connection in slow:
            connection.close()
        wants(served.until("/health", lambda status, _: status == 200)[0], 200)


CHECKED = """
defaults
    mode http
    timeout connect 5s
    timeout client 10s
    timeout server 10s
frontend front
    bind 127.0.0.1:{port}
    http-request return status 200 content-type text/plain string up if {{ nbsrv(shop) gt 0 }}
    http-request return status 503 content-type text/plain string down
backend shop
    option httpchk GET /health
    http-check expect status 200
    server one 127.0.0.1:{page} check inter 100 fall 1 rise 1
"""
PASSED = """
server {{
    listen 127.0.0.1:{port};
    location = /health {{ proxy_pass http://127.0.0.1:{page}; }}
    location / {{ return 404; }}
}}
"""


def answer_at(port, path):
    """The status and the body of what is answered there."""
    with socket.create_connection(("127.0.0.1", port), timeout=20) as connection:
        connection.sendall(f"GET {path} HTTP/1.0\r\nHost: shop\r\n\r\n".encode())
        head, body = response(connection).split("\r\n\r\n", 1)
        return int(head.split()[1]), body


def is_watched_by_proxies():
    """haproxy counts on a shop by its health, and nginx passes that on."""
    with one_shop() as served:
        for name, text in (("haproxy", CHECKED), ("nginx", PASSED)):
            if not shutil.which(name, path=os.environ["PATH"] + ":/usr/sbin"):
                continue
            port = free_port()
            with proxy_of(name, text.format(port=port, page=served.page), [port]):
                until_so(lambda: answer_at(port, "/health")[0] == 200, f"health by {name}")
                os.rename("shop/job-17", "kept")
                with open("shop/job-17", "w", encoding="utf-8") as file:
                    file.write("{}")
                until_so(lambda: answer_at(port, "/health")[0] == 503, f"no health by {name}")
                os.rename("kept", "shop/job-17")
                until_so(lambda: answer_at(port, "/health")[0] == 200, f"health again by {name}")


def is_seen_in_a_browser():
    browser = shutil.which("chromium")
    if not browser:
        return
    with one_shop(HOSTILE) as served:
        for path, words in (("", ("1 out", "job-17", "press")), ("job-17", ("Job job-17",))):
            told = subprocess.run(
                [browser, "--headless", "--no-sandbox", "--disable-gpu", "--dump-dom",
                 f"http://127.0.0.1:{served.page}/{path}"],
                capture_output=True, text=True, timeout=60)
            wants(told.returncode, 0)
            for word in words:
                assert word in told.stdout, (word, told.stdout[:3000])
            assert "<title>run" not in told.stdout, told.stdout[:3000]


TESTS = [tells_what_is_out, tells_what_the_list_tells, shows_a_controller, is_missed, is_read_only,
         is_plain, tells_health, tells_measures, tells_what_was_refused, follows_the_files,
         holds_up_no_message, is_watched_by_proxies, is_seen_in_a_browser]


def timed(test, seconds):
    """Whether a test passes within so many seconds."""
    def late(*_):
        raise AssertionError(f"no end within {seconds} s")
    start = time.monotonic()
    signal.signal(signal.SIGALRM, late)
    signal.alarm(seconds)
    try:
        return processes.passes(test)
    finally:
        signal.alarm(0)
        print(f"  {time.monotonic() - start:.1f} s", flush=True)


def main():
    parser = argparse.ArgumentParser()
    parser.add_argument("program")
    parser.add_argument("--only", default="")
    args = parser.parse_args()
    processes.install(args.program)
    tests = [test for test in TESTS if args.only in test.__name__]
    passed = sum([timed(test, 120) for test in tests])
    shutil.rmtree(os.path.dirname(PROGRAM))
    print(f"page: {passed} passed, {len(tests) - passed} failed")
    sys.exit(passed != len(tests))


if __name__ == "__main__":
    main()
