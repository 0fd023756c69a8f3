#!/usr/bin/env python3
"""What is out, in lists and pictures, reckoned from the states: pictures.py PROGRAM [--draw]

Shops are driven by orders and messages; then what `list` and `show --picture` print is compared with
what stands in the files, as it is told in docs/FORMATS.md. The pictures in docs/ are drawn of the
brochure's day, and compared; with --draw they are written. The last line says how many passed.
"""
import json
import os
import random
import re
import shutil
import sys
import tempfile
import time
from xml.etree import ElementTree

import processes
from processes import EXAMPLES, run, wants

TOP = os.path.dirname(os.path.dirname(os.path.realpath(__file__)))
HEAD = ("Controller", "JobID", "SpawnID", "Phase", "With", "Node", "DescriptiveName", "At",
        "Seconds", "Status", "Bytes")
BEGUN = ("InProgress", "Setup", "Cleanup", "TestRunInProgress", "Suspended", "Stopped")
DAYS = ("Thu", "Fri", "Sat", "Sun", "Mon", "Tue", "Wed")
# A name that is hostile to lines, to JSON and to XML.
HOSTILE = "a\tb\nc\r\\d\x07 <script>alert('1')</script> \"q\" & ]]> \u2028 \U0001f5a8 " + "x" * 60


# ---- states


def state_in(path):
    """The member that tells the kind of a controller, and the controller."""
    with open(path, encoding="utf-8") as file:
        (kind, rest), = [pair for pair in json.load(file).items() if pair[0] != "Format"]
    return kind, rest


def nodes_of(node, depth=1):
    yield depth, node
    for one in node["JDF"]:
        yield from nodes_of(one, depth + 1)


def size(message):
    return len(json.dumps(message, ensure_ascii=False, separators=(",", ":")).encode())


def returned(worker, entry):
    """The message that gives the part of an entry back."""
    command = {"ID": "R." + entry["ID"], "Type": "ReturnQueueEntry",
               "ReturnQueueEntryParams": {"QueueEntryID": entry["ID"], "URL": "cid:jdf"}}
    return {"JDF": entry["Part"],
            "JMF": {"Command": command, "ReceiverID": worker["Master"],
                    "SenderID": worker["Name"], "TimeStamp": entry["At"], "Version": "1.5"}}


def works_in(path, sizes):
    """What is out and what isn't at the controller of a file; sizes tells those of what was sent."""
    kind, it = state_in(path)
    if kind == "Master":
        nodes = {node["ID"]: node for _, node in nodes_of(it["Ticket"])}
        for spawn in it["Spawns"]:
            node = nodes[spawn["Node"]]
            is_out = spawn["Phase"] == "Out"
            bytes_of = sizes[it["Name"], spawn["ID"]] if is_out else None
            yield is_out, (it["Name"], it["Ticket"]["JobID"], spawn["ID"], spawn["Phase"],
                           spawn["Worker"], node["ID"], node["Attr"].get("DescriptiveName"),
                           spawn["At"], node["Status"], bytes_of)
        return
    for entry in it["Entries"]:
        part = entry.get("Part")
        phase = entry["End"] if entry["Phase"] == "Done" else entry["Phase"]
        known = (None,) * 3
        if part:
            known = part["JobID"], part["ID"], part["Attr"].get("DescriptiveName")
        yield bool(part), (it["Name"], known[0], entry["ID"], phase, it["Master"], *known[1:],
                           entry["At"], part and part["Status"],
                           part and size(returned(it, entry)))


def plain(name):
    """A name in a line with tabs."""
    short = {"\t": "\\t", "\n": "\\n", "\r": "\\r", "\\": "\\\\"}
    return "".join(short.get(c, "\ufffd" if c < " " or c == "\x7f" else c) for c in name)


def listed(paths, sizes, now, is_open, is_json):
    """What `list` prints of these files."""
    works = [work for path in paths for work in works_in(path, sizes)]
    lines = [] if is_json else ["\t".join(HEAD)]
    for so in [True] if is_open else [True, False]:
        for is_out, work in works:
            if is_out != so:
                continue
            places = dict(zip(HEAD, (*work[:8], max(now - work[7], 0), *work[8:])))
            if is_json:
                lines.append(json.dumps(dict(sorted(places.items())), ensure_ascii=False,
                                        separators=(",", ":")))
            else:
                name = places["DescriptiveName"]
                places["DescriptiveName"] = name and plain(name)
                lines.append("\t".join("" if x is None else str(x) for x in places.values()))
    return "".join(line + "\n" for line in lines)


# ---- pictures


def escaped(text):
    short = {"&": "&amp;", "<": "&lt;", ">": "&gt;", '"': "&quot;", "'": "&#39;"}
    return "".join(short.get(c, "\ufffd" if c < " " or c in "\ufffe\uffff" else c) for c in text)


def shortened(most, text):
    return escaped(text) if len(text) <= most else escaped(text[:most - 1]) + "&#8230;"


def moment(at):
    return f"{DAYS[at // 86400 % 7]} {at // 3600 % 24:02}:{at // 60 % 60:02} UTC"


def span(seconds):
    if seconds < 3600:
        return f"{seconds // 60} min"
    if seconds < 86400:
        return f"{seconds // 3600} h {seconds // 60 % 60} min"
    return f"{seconds // 86400} d {seconds // 3600 % 24} h"


def progress(status):
    if status in ("Completed", "Aborted"):
        return 2 if status == "Completed" else 3
    return 1 if status in BEGUN else 0


def shade(spawn):
    return 0 if spawn is None else int(spawn[1:]) % 8 + 1


def label(kind, x, y, text):
    return f"<text class='{kind}' x='{x}' y='{y}'>{text}</text>"


def shape(number, x, y):
    return f"<use href='#p{number}' x='{x}' y='{y}'/>"


def placed(x, y, drawn):
    return f"<g transform='translate({x} {y})'>{drawn}</g>\n"


def since(kind, phase):
    if kind == "Master":
        return "out since "
    return "here since " if phase == "Open" else "given back "


def card(kind, now, work):
    _, _, spawn, phase, other, node, name, at, status, _ = work
    whole = escaped(name) if name is not None else None
    title = f"{spawn} {other}: {node}{'' if whole is None else ', ' + whole}: {status}"
    name = "" if name is None else " " + shortened(38 - min(len(node), 22), name)
    head = (label("u", 16, 36, f"{spawn} {shortened(12, other)}")
            + label("u e", 434, 36, span(max(now - at, 0))))
    middle = label("n", 16, 69, f"<tspan class='b'>{shortened(22, node)}</tspan>{name}")
    foot = (shape(progress(status), 16, 82) + label("n", 44, 98, shortened(14, status))
            + label("s e", 434, 98, since(kind, phase) + moment(at)))
    return (f"<title>{title}</title>"
            f"<rect class='c{shade(spawn)} o' width='450' height='112' rx='8'/>"
            f"<svg width='450' height='112'>{head}{middle}{foot}</svg>")


def row(depth, node, held, marks):
    name = node["Attr"].get("DescriptiveName")
    pool = [one for one in node["ResourcePool"] if one["SpawnStatus"] == "NotSpawned"]
    copies = [one for one in node["ResourcePool"] if one["SpawnStatus"] != "NotSpawned"]
    title = f"{node['ID']} {node['Type']}"
    title += "" if name is None else f", {escaped(name)}"
    title += f": {node['Status']}"
    for one in pool + copies:
        title += f"&#10;{one['ID']} {one['Class']} {one['Name']} {one['Status']}"
        mark = marks.get(one["ID"], [])
        if one in copies:
            mark = [one["SpawnStatus"], *one["SpawnIDs"]]
        title += "".join(" " + word for word in mark)
    called = shortened(34 - min(len(node["ID"]), 20), node["Type"] if name is None else name)
    tree = (shape(progress(node["Status"]), 10 * depth, 3)
            + label("n", 10 * depth + 26, 18,
                    f"<tspan class='b'>{shortened(20, node['ID'])}</tspan> {called}"))
    ready = sum(one["Status"] == "Available" for one in pool)
    facts = (label("s", 410, 18, shortened(13, node["Status"]))
             + label("s b", 514, 18, held or "")
             + label("s e", 604, 18, f"{ready}/{len(pool)}" if pool else ""))
    return (f"<title>{title}</title><rect class='c{shade(held)}' width='610' height='25'/>"
            f"<svg width='404' height='25'>{tree}</svg>{facts}")


def wall(now, title, closed, word, cards, rows):
    """A picture without its style; rows are pairs of how far and what is drawn."""
    head = ("<svg xmlns='http://www.w3.org/2000/svg' viewBox='0 0 1920 1080'>\n"
            f"<title>{title}</title>\n<rect width='1920' height='1080' fill='#fff'/>\n"
            + label("t", 30, 52, title) + label("n e", 1890, 52, "Drawn " + moment(now)) + "\n")
    for far, words, x in ((0, "waiting", 30), (1, "in progress", 230), (2, "completed", 460),
                          (3, "aborted", 690)):
        count = sum(one[0] == far for one in rows)
        head += shape(far, x, 76) + label("n", x + 28, 94, f"{count} {words}")
    head += label("n e", 1890, 94, closed) + "\n"
    more = f", {len(cards) - 24} without room here" if len(cards) > 24 else ""
    drawn = head + label("h", 30, 136, f"{word}: {len(cards)}{more}") + "\n"
    for number, one in enumerate(cards[:24]):
        drawn += placed(30 + 470 * (number % 4), 148 + 124 * (number // 4), one)
    top = 184 + 124 * ((min(len(cards), 24) + 3) // 4)
    room = 3 * ((1070 - top) // 27)
    left = [one for one in rows if one[0] < 2]
    told = f"Nodes: {len(rows)}"
    if len(rows) > room:
        told += f", {len(rows) - len(left)} folded (completed or aborted)"
        if len(left) > room:
            told += f", {len(left) - room} more without room here"
        rows = left[:room]
    drawn += (label("h", 30, top - 14, told)
              + label("s e", 1890, top - 14,
                      "Status, spawn, and how many resources are available of how many") + "\n")
    high = max(len(rows) - 1, 0) // 3 + 1
    for number, one in enumerate(rows):
        drawn += placed(30 + 627 * (number // high), top + 27 * (number % high), one[1])
    return drawn + "</svg>\n"


def holders_of(master):
    """The spawn that holds each id of a ticket, and the marks of the resources of which copies are
    out: read from what was claimed by the spawns that are out."""
    held, marks = {}, {}
    for spawn in master["Spawns"]:
        if spawn["Phase"] != "Out":
            continue
        below = next(node for _, node in nodes_of(master["Ticket"]) if node["ID"] == spawn["Node"])
        for _, node in nodes_of(below):
            held.setdefault(node["ID"], spawn["ID"])
        copied = [(name, "SpawnedRW") for name in spawn["RW"]]
        copied += [(one["ID"], "SpawnedRO") for one in spawn["RO"]]
        for name, strength in copied:
            mark = marks.setdefault(name, ["SpawnedRO"])
            mark[0] = max(mark[0], strength)
            mark.append(spawn["ID"])
    return held, marks


def pictured(path, now):
    """What `show --picture` prints of a file at a time, without the style."""
    kind, it = state_in(path)
    cards = [card(kind, now, work) for is_out, work in works_in(path, Sizeless()) if is_out]
    if kind == "Master":
        held, marks = holders_of(it)
        rows = [(progress(node["Status"]), row(depth, node, held.get(node["ID"]), marks))
                for depth, node in nodes_of(it["Ticket"])]
        done = [sum(spawn["Phase"] == phase for spawn in it["Spawns"])
                for phase in ("Merged", "Withdrawn")]
        title = f"Job {it['Ticket']['JobID']}, master {it['Name']}"
        return wall(now, title, f"{done[0]} came back, {done[1]} withdrawn", "Out", cards, rows)
    rows = []
    for entry in it["Entries"]:
        if entry.get("Part"):
            held = entry["ID"] if entry["Phase"] == "Open" else None
            rows += [(progress(node["Status"]), row(depth, node, held, {}))
                     for depth, node in nodes_of(entry["Part"])]
    done = [sum(entry["Phase"] == phase for entry in it["Entries"])
            for phase in ("Closed", "Declined")]
    title = f"Worker {it['Name']}, master {it['Master']}"
    return wall(now, title, f"{done[0]} closed, {done[1]} declined", "Here", cards, rows)


class Sizeless(dict):
    """No picture tells a size."""

    def __missing__(self, key):
        return 0


def unstyled(picture):
    found = re.fullmatch(r"(.*?\n.*?\n)<style>.*?</style><defs>.*?</defs>(<rect.*)", picture, re.S)
    assert found, picture[:300]
    return found[1] + found[2]


# ---- shops


def node(name, called=None, kids=(), pool=(), links=()):
    attr = {} if called is None else {"DescriptiveName": called}
    return {"ID": name, "Type": "ProcessGroup" if kids else "Cutting", "JobPartID": name,
            "Status": "Waiting", "Attr": attr, "JDF": list(kids),
            "ResourcePool": [{"ID": one, "Name": "Component", "Class": "Quantity",
                              "Status": "Unavailable"} for one in pool],
            "ResourceLinkPool": [{"Usage": "Input", "rRef": one} for one in links]}


class Shop:
    """Controllers in a folder, driven by hand: masters in its files, workers in folders in it."""

    def __init__(self, folder, chance):
        self.folder, self.chance, self.sizes, self.at = folder, chance, {}, 1_795_860_000
        self.masters = {}

    def path(self, *names):
        return os.path.join(self.folder, *names)

    def files(self):
        """The files in the order of their names, those in folders too."""
        for name in sorted(os.listdir(self.folder)):
            if "." in name:
                continue
            if os.path.isdir(self.path(name)):
                yield from (self.path(name, one) for one in sorted(os.listdir(self.path(name))))
            else:
                yield self.path(name)

    def begin(self, master, parts, steps, workers):
        kids = [node(f"p{p}", HOSTILE if p == 0 else f"Part {p}",
                     [node(f"p{p}.s{s}", None if s % 2 else f"Step {s}", links=[f"r{p}"])
                      for s in range(steps)], [f"p{p}.r"]) for p in range(parts)]
        ticket = node("job", f"The job of {master}", kids, [f"r{p}" for p in range(parts)])
        ticket["JobID"] = "J-" + master
        opening = {"Master": master, "Workers": workers, "Ticket": ticket}
        wants(run("new", self.path(master), given=json.dumps(opening)), (0, "", ""))
        for worker in workers:
            os.makedirs(self.path(worker), exist_ok=True)
            opening = {"Master": master, "Worker": worker}
            wants(run("new", self.path(worker, master), given=json.dumps(opening)), (0, "", ""))
        self.masters[master] = parts, steps, workers

    def step(self, word, path, given):
        """The status of a step, its reply, and the message that goes out."""
        self.at += self.chance.randrange(1, 20_000)
        status, out, _ = run(word, path, "--at", str(self.at), given=given)
        lines = out.split("\n")
        return status, lines[0], lines[1] if len(lines) > 2 else None

    def spawn(self, master):
        """Sends a part out, which its worker takes or doesn't."""
        parts, _, workers = self.masters[master]
        number = self.chance.randrange(parts)
        worker = self.chance.choice(workers)
        order = {"Order": "Spawn", "Node": f"p{number}", "Worker": worker,
                 "RW": [f"r{number}"] if self.chance.random() < 0.5 else []}
        status, reply, message = self.step("order", self.path(master), json.dumps(order))
        if status:
            return
        spawned = reply.split()[1]
        self.sizes[master, spawned] = len(message.encode())
        if self.chance.random() < 0.8:
            _, _, answer = self.step("take", self.path(worker, master), message)
            self.step("take", self.path(master), answer)

    def work(self, master):
        """Edits an entry, or gives it back, which its master takes or doesn't."""
        _, steps, workers = self.masters[master]
        worker = self.chance.choice(workers)
        path = self.path(worker, master)
        entries = [one for one in state_in(path)[1]["Entries"] if one["Phase"] == "Open"]
        if not entries:
            return
        entry = self.chance.choice(entries)
        if self.chance.random() < 0.6:
            status = self.chance.choice(("InProgress", "Completed", "Aborted", "Stopped", "Setup"))
            edit = {"Edit": "SetStatus", "Status": status,
                    "Node": f"{entry['Part']['ID']}.s{self.chance.randrange(steps)}"}
            order = {"Order": "Edit", "SpawnID": entry["ID"], "Edit": edit}
            self.step("order", path, json.dumps(order))
            return
        end = self.chance.choice(("Completed", "Aborted"))
        order = {"Order": "Finish", "SpawnID": entry["ID"], "Status": end}
        _, _, message = self.step("order", path, json.dumps(order))
        if self.chance.random() < 0.7:
            _, _, answer = self.step("take", self.path(master), message)
            self.step("take", path, answer)

    def drive(self, count):
        for _ in range(count):
            master = self.chance.choice(list(self.masters))
            self.chance.choice((self.spawn, self.work, self.work))(master)

    def check(self):
        """What is printed of each file, and of the folder."""
        files = list(self.files())
        now = self.at + self.chance.randrange(200_000)
        for path in files:
            status, out, told = run("show", path, "--picture", "--at", str(now))
            wants((status, told), (0, ""))
            wants(unstyled(out), pictured(path, now))
            ElementTree.fromstring(out)
        for place, paths in [(self.folder, files)] + [(path, [path]) for path in files]:
            for options in ((), ("--open",), ("--json",), ("--open", "--json")):
                wanted = listed(paths, self.sizes, now, "--open" in options, "--json" in options)
                wants(run("list", place, "--at", str(now), *options), (0, wanted, ""))


# ---- tests


def a_small_shop():
    shop = Shop(os.getcwd(), random.Random(1))
    shop.begin("mis", 3, 2, ["press"])
    shop.check()
    shop.drive(30)
    shop.check()


def a_shop_of_three_jobs():
    shop = Shop(os.getcwd(), random.Random(2))
    for master in ("job-1", "job-2", "job-3"):
        shop.begin(master, 5, 3, ["bind", "press"])
    for _ in range(4):
        shop.drive(30)
        shop.check()


def a_job_with_more_out_than_has_room():
    shop = Shop(os.getcwd(), random.Random(3))
    shop.begin("wide", 40, 6, ["press", "bind", "cut"])
    shop.drive(150)
    shop.check()


def the_time_of_the_clock():
    """A list without --at counts to now."""
    shop = Shop(os.getcwd(), random.Random(4))
    shop.begin("mis", 1, 1, ["press"])
    shop.spawn("mis")
    status, out, told = run("list", "mis", "--json")
    wants((status, told), (0, ""))
    work = json.loads(out)
    wants(abs(work["At"] + work["Seconds"] - max(time.time(), work["At"])) < 30, True)


def files_that_are_not_listed():
    """A file that holds no controller of its name is noted, and the others are listed."""
    shop = Shop(os.getcwd(), random.Random(5))
    shop.begin("mis", 1, 1, ["press"])
    shop.spawn("mis")
    files = list(shop.files())
    shutil.copy("mis", "other")
    shutil.copy(os.path.join("press", "mis"), os.path.join("press", "other"))
    for name, text in (("note", "a note"), ("peers.json", "{}"), ("mis.bak", "{}")):
        with open(name, "w", encoding="utf-8") as file:
            file.write(text)
    os.mkdir("empty")
    wanted = listed(files, shop.sizes, 1_800_000_000, False, False)
    told = "".join(f"{os.path.join('.', name)}: {why}\n" for name, why in (
        ("note", "Refused 40 NotJson"), ("other", "Refused 62 OtherName"),
        ("press/other", "Refused 62 OtherName")))
    wants(run("list", ".", "--at", "1800000000"), (1, wanted, told))
    missing = "Refused 59 LoadFailed: nothing: No such file or directory\n"
    wants(run("list", "nothing"), (4, "", missing))
    wants(run("list", "note"), (4, "", "Refused 40 NotJson\n"))


def draw_docs(is_drawn):
    """The brochure while its cover is printed, of the master and of the press."""
    for name in ("mis", "press", "bindery"):
        with open(os.path.join(EXAMPLES, "shop", name + ".json"), encoding="utf-8") as file:
            wants(run("new", name, given=file.read()), (0, "", ""))

    def step(word, name, minute, given):
        at = str(1_782_806_400 + 60 * minute)
        status, out, told = run(word, name, "--at", at, given=given)
        wants((status, told), (0, ""))
        return out.split("\n")[1]

    def order(name, minute, **members):
        return step("order", name, minute, json.dumps(members))

    def changed(name, minute, status):
        order("press", minute, Order="Edit", SpawnID="S1",
              Edit={"Edit": "SetStatus", "Node": name, "Status": status})

    cover = order("mis", 0, Order="Spawn", Node="cover", Worker="press", RW=["cover.sheets"])
    step("take", "mis", 3, step("take", "press", 2, cover))
    changed("cover.plates", 40, "Completed")
    changed("cover.print", 45, "InProgress")
    finishing = order("mis", 60, Order="Spawn", Node="finish", Worker="bindery",
                      RW=["brochures"])
    step("take", "bindery", 61, finishing)
    for name in ("mis", "press"):
        status, out, told = run("show", name, "--picture", "--at", str(1_782_806_400 + 7500))
        wants((status, told), (0, ""))
        wants(unstyled(out), pictured(name, 1_782_806_400 + 7500))
        path = os.path.join(TOP, "docs", name + ".svg")
        if is_drawn:
            with open(path, "w", encoding="utf-8") as file:
                file.write(out)
        with open(path, encoding="utf-8") as file:
            wants(out, file.read())


def the_pictures_of_docs():
    """They are as the program draws them."""
    draw_docs(False)


TESTS = [a_small_shop, a_shop_of_three_jobs, a_job_with_more_out_than_has_room,
         the_time_of_the_clock, files_that_are_not_listed, the_pictures_of_docs]


def main():
    processes.install(sys.argv[1])
    if "--draw" in sys.argv:
        with tempfile.TemporaryDirectory() as folder:
            os.chdir(folder)
            draw_docs(True)
            os.chdir("/")
    passed = sum([processes.passes(test) for test in TESTS])
    shutil.rmtree(os.path.dirname(processes.PROGRAM))
    print(f"pictures: {passed} passed, {len(TESTS) - passed} failed")
    sys.exit(passed != len(TESTS))


if __name__ == "__main__":
    main()
