"""Houses that are served, each from a folder of its own: for house.py and days.py."""
import contextlib
import json
import os
import re
import time

import processes
from crowd import free_port
from processes import AT, EXAMPLES, Served, content, run, wants


def put_peers(folder, table):
    """A peers' file, whole at any moment."""
    path = os.path.join(folder, "peers.json")
    with open(path + ".part", "w", encoding="utf-8") as file:
        file.write(table if isinstance(table, str) else json.dumps(table))
    os.rename(path + ".part", path)


# A line of what went out.
SENT = re.compile(r"[1-9]\d* (\S+ S\d+) to (http://\S+) (taken|refused|not taken(?: \d{3})?)")


class House(Served):
    """A folder that is served on a port that is known before."""

    def __init__(self, folder, port, *options):
        self.file, self.options, self.port = folder, options, port
        self.start()

    def told(self, count):
        """What is told of so many requests, and not of what went out."""
        until = time.monotonic() + 30
        while True:
            lines = [line for line in self.log().splitlines() if not SENT.fullmatch(line)]
            if len(lines) >= count or time.monotonic() > until:
                return [processes.told_of(line) for line in lines]
            time.sleep(0.01)

    def sent(self):
        """What is told of what went out: what, and what came of it."""
        return [f"{one[1]} {one[3]}" for one in self.found()]

    def ends(self):
        """What came of each that went out."""
        return [one[3] for one in self.found()]

    def found(self):
        return [one for one in map(SENT.fullmatch, self.log().splitlines()) if one]


def url_to(port):
    return f"http://127.0.0.1:{port}/jmf"


def master_opening(name):
    opening = json.loads(content(os.path.join(EXAMPLES, "shop", "mis.json")))
    opening["Master"] = name
    opening["Workers"] = ["press", "bind"]
    opening["Ticket"]["JobID"] = name
    return opening


def begins(path, opening):
    wants(run("new", path, given=json.dumps(opening)), (0, "", ""))


def begins_master(path, name):
    begins(path, master_opening(name))


def begins_worker(path, name, master):
    begins(path, {"Master": master, "Worker": name})


def shown(path):
    """What a controller shows, and nothing where no command has begun it."""
    if not os.path.exists(path):
        return ""
    status, text, told = run("show", path)
    wants((path, status, told), (path, 0, ""))
    return text


def entries_in(text):
    """The spawn, and how far each is, of each entry that a worker shows."""
    return [line.split(" ")[:3] if line.split(" ")[1] == "Closed" else line.split(" ")[:2]
            for line in text.split("\n")[:-1]]


def lines_of(path):
    """The entries of a worker."""
    return entries_in(shown(path))


def all_files(folder):
    """The bytes of each file of a folder, also of those below it."""
    found = {}
    for place, _, names in os.walk(folder):
        found.update({os.path.join(place, name): content(os.path.join(place, name))
                      for name in names if not os.path.islink(os.path.join(place, name))
                      and os.path.isfile(os.path.join(place, name))})
    return found


def gives(path, given, reply):
    """Gives an order, once, whose message nobody carries."""
    status, lines, told = run("order", path, "--at", AT, given=given)
    wants((status, lines.split("\n")[0], told), (0, reply, ""))


# The three houses, and whose folder a worker lies in.
HOUSES = ("office", "printers", "binders")
WORKERS = {"press": "printers", "bind": "binders", "fold": "binders"}


def opens_folders(ports):
    """The folders of three houses, that are or will be at these ports; the workers are begun by what
    comes. Answers the peers' file by which they know one another."""
    table = {"job-*": url_to(ports["office"])}
    table.update({worker: url_to(ports[folder]) for worker, folder in WORKERS.items()})
    for folder in HOUSES:
        os.mkdir(folder)
        put_peers(folder, table)
    for worker, folder in WORKERS.items():
        os.mkdir(f"{folder}/{worker}")
    return table


@contextlib.contextmanager
def three_houses(jobs, office_peers=None, options=()):
    """An office with a master for each job, and the houses of its workers; `office_peers` tells of
    other URLs."""
    ports = {folder: free_port() for folder in HOUSES}
    table = opens_folders(ports)
    put_peers("office", {**table, **(office_peers or {})})
    for job in jobs:
        begins_master(f"office/{job}", job)
    with contextlib.ExitStack() as stack:
        yield [stack.enter_context(House(folder, port, *options))
               for folder, port in ports.items()], table
