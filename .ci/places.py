#!/usr/bin/env python3
"""Places of faults that `check` tells: places.py PROGRAM [--cases N] [--first N] [--seconds N]

First a table of faults, each planted alone in a good document: what is told of each was written by
hand, and where the value stands is found by this script. Then random documents: each, damaged at
random, is refused by `check` for what the command refuses it for that reads it, and taken where
that takes it; and in good ones a fault of each sort is planted anywhere, and has to be found there.
No random one is begun after so many seconds.
"""
import argparse
import copy
import json
import random
import re
import subprocess
import sys
import tempfile
import time
from pathlib import Path

from texts import damaged, edit_input, message, opening, order, script, state

ROOT = Path(__file__).resolve().parent.parent
REFUSALS = dict(re.findall(r"^\| (\d+) `(\w+)`", (ROOT / "docs/REFUSALS.md").read_text(), re.M))
GONE = object()
LONG = "x" * 1025


def example(kind, number=0):
    """An example of docs/FORMATS.md."""
    text = (ROOT / "docs/FORMATS.md").read_text(encoding="utf-8")
    found = re.findall(rf"^```json {kind}\n(.*?)^```", text, re.M | re.S)
    return json.loads(found[number])


def documents():
    """The good documents, by the name that the table has for each, with their kinds."""
    edits = json.loads((ROOT / "examples/brochure.json").read_text(encoding="utf-8"))
    world = json.loads((ROOT / "examples/shop.json").read_text(encoding="utf-8"))
    mis = json.loads((ROOT / "examples/shop/mis.json").read_text(encoding="utf-8"))
    return {"edits": ("edits", edits), "ticket": ("ticket", edits["Ticket"]),
            "script": ("script", world), "mis": ("opening", mis),
            "press": ("opening", {"Master": "mis", "Worker": "press"}),
            "spawn": ("order", example("masterOrder")),
            "finish": ("order", example("workerOrder")),
            "submit": ("message", example("message")), "abort": ("message", example("message", 1)),
            "refusal": ("message", example("message", 2)),
            "answer": ("message", example("message", 3)),
            "master": ("state", example("masterState")),
            "worker": ("state", example("workerState")),
            "first": ("state", example("workerState", 1))}


NAME = "is no id or name: 1 to 64 of A-Z a-z 0-9 _ . -, the first a letter or _"
SPAWN = "is no SpawnID: S and a number from 1 to 999999999"

# A document; the path of what is changed in it, and the value that is put there; the path where
# the fault is told (None: the same), what is told, and the refusal's number. What is put is GONE
# where a member is taken away.
PLANTED = [
    # the faults of a ticket that people met
    ("edits", "Ticket.JDF[2].JDF[1].DescriptiveNam", "Binding", None,
     "no such member is known here; these are: Attr AuditPool ID JDF JobPartID ResourceLinkPool "
     "ResourcePool Status Type", 41),
    ("edits", "Ticket.JDF[0].JDF[1].ResourceLinkPool[0].Usage", "input", None,
     '"input" is neither "Input" nor "Output"', 41),
    ("edits", "Ticket.JDF[0].Attr.DescriptiveName", 5, None, "a number stands where a text belongs",
     41),
    ("edits", "Ticket.JDF[1].Status", GONE, "Ticket.JDF[1]", "the member Status is missing", 41),
    ("edits", "Ticket.JDF[1].JobID", "J-1", None,
     "no such member is known here; these are: Attr AuditPool ID JDF JobPartID ResourceLinkPool "
     "ResourcePool Status Type", 41),
    ("edits", "Ticket.JDF[1].ID", "te xt", None, f'"te xt" {NAME}', 1),
    ("edits", "Ticket.JDF[1].Type", "Prozeß", None, f'"Prozeß" {NAME}', 1),
    ("edits", "Ticket.JDF[1].ID", "2text", None, f'"2text" {NAME}', 1),
    ("edits", "Ticket.JDF[2].JDF[1].ID", "cover.print", None,
     '"cover.print" stands at Ticket.JDF[0].JDF[1] too', 2),
    ("edits", "Ticket.JDF[1].ResourcePool[0].ID", "brochures", None,
     '"brochures" stands at Ticket.ResourcePool[2] too', 2),
    ("edits", "Ticket.JDF[0].JDF[0].ResourceLinkPool[0].rRef", "cover.plat", None,
     '"cover.plat" is no resource in the pool of this node or of one above it', 3),
    ("edits", "Ticket.JDF[0].JDF[1].ResourceLinkPool[0].rRef", "text.paper", None,
     '"text.paper" is no resource in the pool of this node or of one above it', 3),
    ("edits", "Ticket.JDF[0].Status", "Spawned", None,
     'a node that is read can\'t have the Status "Spawned"', 5),
    ("edits", "Ticket.ResourcePool[1].Locked", True, None, "true stands where false belongs", 5),
    ("edits", "Ticket.JDF[0].Attr.DescriptiveName", LONG, None,
     "a text of 1025 bytes, where 1024 are the most", 6),
    ("edits", "Ticket.JDF[0].Attr.DescriptiveName", "ü" * 513, None,
     "a text of 1026 bytes, where 1024 are the most", 6),
    # the rest of a ticket
    ("ticket", "Status", GONE, ".", "the member Status is missing", 41),
    ("ticket", "JobID", None, None, "null stands where a text belongs", 41),
    ("ticket", "JDF", {}, None, "an object stands where a list belongs", 41),
    ("ticket", "JDF[1]", "text", None, "a text stands where an object belongs", 41),
    ("ticket", "ResourcePool[0].SpawnStatus", "Spawned", None, '"Spawned" isn\'t "NotSpawned"', 41),
    ("ticket", "ResourcePool[0].SpawnStatus", "SpawnedRO", None,
     '"SpawnedRO" isn\'t "NotSpawned"', 5),
    ("ticket", "ResourcePool[0].SpawnIDs", ["S1"], None,
     "a list with an item, where no spawn is shown", 5),
    ("ticket", "ResourcePool[0].SpawnIDs", [1], "ResourcePool[0].SpawnIDs[0]",
     "a number stands where a text belongs", 41),
    ("ticket", 'Attr.Descriptive Name', "x", 'Attr."Descriptive Name"',
     f'"Descriptive Name" {NAME}', 1),
    ("ticket", "AuditPool", [{"Name": "Notification", "Text": "x", "TimeStamp": -1}],
     "AuditPool[0].TimeStamp", "a number stands where a whole number belongs", 41),
    ("ticket", "AuditPool", [{"Name": "Notified", "Text": "x", "TimeStamp": 1}],
     "AuditPool[0].Name", '"Notified" isn\'t "Notification"', 41),
    ("ticket", "AuditPool", [{"MergeID": "S1", "Name": "Merged", "TimeStamp": 1, "jRef": "a",
                              "rRefsOverwritten": ["a", "b c"]}],
     "AuditPool[0].rRefsOverwritten[1]", f'"b c" {NAME}', 1),
    # edits
    ("edits", "Edits[0].Edit", "SetState", None, '"SetState" isn\'t "SetStatus"', 41),
    ("edits", "Edits[0].Node", GONE, "Edits[0]", "the member Node is missing", 41),
    ("edits", "Edits[4].Text", LONG, None, "a text of 1025 bytes, where 1024 are the most", 6),
    ("edits", "Edits[5].JobPartID", GONE, "Edits[5]", "the member JobPartID is missing", 41),
    ("edits", "Edits[7].Usage", "Both", None, '"Both" is neither "Input" nor "Output"', 41),
    ("edits", "At", "1782806400", None, "a text stands where a whole number belongs", 41),
    ("edits", "At", 1.5, None, "a number stands where a whole number belongs", 41),
    # orders
    ("spawn", "Worker", GONE, ".", "the member Worker is missing", 41),
    ("spawn", "RW[0]", "r 2", None, f'"r 2" {NAME}', 1),
    ("spawn", "Order", "Spwan", None, '"Spwan" isn\'t "Spawn"', 41),
    ("finish", "SpawnID", "S0", None, f'"S0" {SPAWN}', 1),
    ("finish", "Status", "Done", None, '"Done" is neither "Completed" nor "Aborted"', 41),
    # messages
    ("submit", "JMF.Version", "1.6", None, '"1.6" isn\'t "1.5"', 46),
    ("submit", "JMF.SenderID", "office", "JMF.Command.QueueSubmissionParams.ReturnJMF",
     '"jmf:mis" isn\'t "jmf:office", as its SenderID has it', 45),
    ("abort", "JMF.SenderID", "m is", None, f'"m is" {NAME}', 1),
    ("submit", "JMF.Command.ID", "Q.S2", None,
     '"Q.S2" isn\'t "Q.S1", as its QueueEntryID has it', 45),
    ("submit", "JMF.Command.QueueSubmissionParams.ReturnJMF", "jmf:press", None,
     '"jmf:press" isn\'t "jmf:mis", as its SenderID has it', 45),
    ("submit", "JMF.Command.QueueSubmissionParams.URL", GONE,
     "JMF.Command.QueueSubmissionParams", "the member URL is missing", 41),
    ("submit", "JDF.SpawnID", "S2", "JDF.ResourcePool[0].SpawnIDs[0]",
     '"S1" isn\'t the part\'s SpawnID "S2"', 41),
    ("submit", "JDF.ResourcePool[1].SpawnIDs[0]", "S2", None,
     '"S2" isn\'t the part\'s SpawnID "S1"', 41),
    ("submit", "JMF.TimeStamp", GONE, "JMF", "the member TimeStamp is missing", 41),
    ("abort", "JDF", example("part"), None, "no such member is known here; these are: JMF", 41),
    ("answer", "JMF.Response.QueueEntry.Status", "Waiting", None,
     '"Waiting" is none of "Running", "Completed", "Aborted"', 45),
    ("answer", "JMF.Response.QueueEntry.QueueEntryID", "S2", None,
     '"S2" isn\'t "S1", as the refID has it', 45),
    ("refusal", "JMF.Response.Reason", 1000, None, "the number isn't one that is known", 45),
    ("refusal", "JMF.Response.Type", "SubmitQueueEntry", None,
     '"SubmitQueueEntry" isn\'t "ReturnQueueEntry", as its refID has it', 45),
    ("refusal", "JMF.Response.refID", GONE, "JMF.Response", "the member refID is missing", 41),
    # scripts and openings
    ("script", "Workers[1]", "mis", None, 'another controller is called "mis" too', 18),
    ("script", "Events[0].Event", "Ordered", None, '"Ordered" isn\'t "Order"', 41),
    ("script", "Events[0].To", "press", "Events[0].Order",
     "the order is no worker's, and goes to no master", 41),
    ("mis", "Workers", GONE, ".", "the member Workers is missing", 41),
    ("mis", "Workers[0]", "mis", None, 'another controller is called "mis" too', 18),
    ("press", "Worker", "mis", None, 'another controller is called "mis" too', 18),
    # states
    ("master", "Format", 3, None, "the number isn't one that is known", 47),
    ("master", "Format", GONE, ".", "the member Format is missing", 41),
    ("master", "Master.Spawns[0].Worker", "pres", None, '"pres" is none of the Workers', 47),
    ("master", "Master.Spawns[0].ID", "S2", None,
     '"S2" isn\'t the next number, as spawns go from S1 on', 47),
    ("master", "Master.Spawns[0].Node", "n0", None,
     '"n0" is no node of the ticket, or its root', 47),
    ("master", "Master.Spawns[0].RW[0]", "r9", None, '"r9" is no resource of the ticket', 47),
    ("master", "Master.Spawns[0].Phase", "Open", None,
     '"Open" is none of "Out", "Merged", "Withdrawn"', 41),
    ("worker", "Worker.Master", "press", "Worker.Name",
     'another controller is called "press" too', 47),
    ("worker", "Worker.Entries[0].ID", "S2", "Worker.Entries[1]",
     'another entry is of "S2" too', 47),
    ("worker", "Worker.Entries[0].End", GONE, "Worker.Entries[0]", "the member End is missing", 41),
    ("worker", "Worker.Entries[1].ID", "S3", None, '"S3" isn\'t the SpawnID of its part', 47),
    ("first", "Worker.Entries[0].Phase", "Completed", "Worker.Entries[0].Part.Status",
     '"Waiting" isn\'t the Phase of the entry, which has ended', 47),
    ("first", "Worker.Entries[0].ID", "S2", None,
     "no such member is known here; these are: At Part Phase", 41),
]

# Texts that are no JSON, where that is told, and what is.
TEXTS = [
    (b'{"At":1,\n "Edits":[],,"Ticket":{}}', "2:13: from here on it isn't JSON (40 NotJson)"),
    (b'{"At":1,\n "Edits":[]', "2:12: from here on it isn't JSON (40 NotJson)"),
    (b'\xef\xbb\xbf{"At":1}', "1:1: from here on it isn't JSON (40 NotJson)"),
    (b'{"At":1} {}', "1:10: from here on it isn't JSON (40 NotJson)"),
    (b'{"At":"\xff"}', "1:8: the byte is none of UTF-8 (40 NotJson)"),
    (b'{"At":1e999}', "1:7: the number is beyond a 64-bit float (40 NotJson)"),
    (b'{"At":' + b"[" * 130 + b"]" * 130 + b"}",
     "1:133: lists and objects nest deeper than 127 (40 NotJson)"),
]


def steps_of(path):
    """The names and indices that a path is made of."""
    found = re.findall(r'\[(\d+)\]|([^.\[\]]+)', path)
    return [int(index) if index else name for index, name in found]


def planted(document, path, value):
    """A document with another value at a path, or with none."""
    document = copy.deepcopy(document)
    *above, last = steps_of(path)
    at = document
    for step in above:
        at = at[step]
    if value is GONE:
        del at[last]
    else:
        at[last] = value
    return document


def written(value, style, places, steps=(), indent=0, out=None):
    """The text of a value, with white space by its style, and where each value of it begins."""
    out = [] if out is None else out
    places[steps] = sum(map(len, out))
    end = "\n" + " " * indent if style else ""
    more = end + " " if style else ""
    if isinstance(value, dict) and value:
        for number, (name, one) in enumerate(value.items()):
            out.append(("," if number else "{").encode() + more.encode()
                       + json.dumps(name, ensure_ascii=False).encode() + (b": " if style else b":"))
            written(one, style, places, (*steps, name), indent + 1, out)
        out.append(end.encode() + b"}")
    elif isinstance(value, list) and value:
        for number, one in enumerate(value):
            out.append(("," if number else "[").encode() + more.encode())
            written(one, style, places, (*steps, number), indent + 1, out)
        out.append(end.encode() + b"]")
    else:
        out.append(json.dumps(value, ensure_ascii=False).encode())
    return out


def text_of(value, style):
    places = {}
    return b"".join(written(value, style, places)), places


def line_and_column(text, at):
    return text.count(b"\n", 0, at) + 1, at - (text.rfind(b"\n", 0, at) + 1) + 1


class Program:
    def __init__(self, path):
        self.path = path
        self.faults = 0

    def run(self, words, text):
        ran = subprocess.run([self.path, *words], input=text, capture_output=True, timeout=60,
                             check=False)
        return ran.returncode, ran.stdout.decode(), ran.stderr.decode()

    def tell(self, *what):
        self.faults += 1
        print(*what, flush=True)


def try_table(program):
    known = documents()
    for name, (kind, document) in known.items():
        for words in ([], [kind]):
            if kind == "ticket" and not words:
                continue
            ran = program.run(["check", *words], text_of(document, 1)[0])
            if ran != (0, "ok\n", ""):
                program.tell("a good document:", name, words, ran)
    for name, path, value, told_at, what, number in PLANTED:
        kind, document = known[name]
        bad = planted(document, path, value)
        told_at = path if told_at is None else told_at
        for style in (0, 1):
            text, places = text_of(bad, style)
            steps = () if told_at == "." else tuple(steps_of(told_at.replace('"', "")))
            line, column = line_and_column(text, places[steps])
            line_told = f"{line}:{column}: {told_at}: {what} ({number} {REFUSALS[str(number)]})\n"
            ran = program.run(["check", kind], text)
            if ran != (1, line_told, ""):
                program.tell("planted:", name, path, repr(value)[:60], "\n  told:", ran,
                             "\n  wanted:", line_told)
    for text, told in TEXTS:
        ran = program.run(["check"], text)
        if ran != (1, told + "\n", ""):
            program.tell("text:", text[:60], "\n  told:", ran, "\n  wanted:", told)
    return len(PLANTED) + len(TEXTS)


# ---- random documents


def made(chance, kind):
    """A text of a kind, and the words of the command that reads it."""
    if kind == "edits":
        return edit_input(chance)
    if kind == "script":
        return script(chance, True)
    if kind == "opening":
        return opening(chance)
    if kind == "state":
        return state(chance, chance.choice(("master", "worker")))
    if kind == "order":
        return order(chance, chance.choice(("master", "worker")))
    return message(chance, chance.choice(("master", "worker")))


def refused_by_reader(program, kind, text, folder):
    """The number for which the command that reads a text refuses it, or 0."""
    file = Path(folder) / "state"
    file.unlink(missing_ok=True)
    if kind == "state":
        file.write_bytes(text)
        ran = program.run(["show", str(file)], b"")
        number = told_number(ran[2]) if ran[0] == 4 else 0
        return number
    words = {"edits": ["edit"], "script": ["world"], "opening": ["new", str(file)]}[kind]
    ran = program.run(words, text)
    return told_number(ran[2]) if ran[0] == 3 else 0


def told_number(told):
    found = re.search(r"Refused (\d+) ", told)
    return int(found.group(1)) if found else -1


CHECKED = re.compile(r"(?:\d+:\d+: .*\((\d+) \w+\)|Refused (\d+) \w+)\n")


def checked_number(program, kind, text, words=()):
    """The number for which `check` refuses a text, or 0; and whether it tells where."""
    status, told, faults = program.run(["check", kind, *words], text)
    if (status, told, faults) == (0, "ok\n", ""):
        return 0, True
    found = CHECKED.match(told)
    if status != 1 or faults or not found:
        return -1, False
    return int(found.group(1) or found.group(2)), bool(found.group(1))


def try_agreement(program, chance, folder, counts):
    """`check` and the reader of a text say the same of it."""
    kind = chance.choice(("edits", "script", "opening", "state"))
    text = made(chance, kind)
    if chance.random() < 0.7:
        text = damaged(chance, text)
    if kind == "state" and b"\0" in text:
        return
    wanted = refused_by_reader(program, kind, text, folder)
    number, is_placed = checked_number(program, kind, text)
    if number != wanted:
        program.tell("the reader of", kind, "says", wanted, "and check", number, text[:200])
    counts["placed" if is_placed else "unplaced"] += 1
    if not is_placed:
        counts[wanted] = counts.get(wanted, 0) + 1


MAY_BE_ABSENT = {"Attr", "AuditPool", "JDF", "Locked", "ResourceLinkPool", "ResourcePool",
                 "SpawnIDs", "SpawnStatus", "Stop"}


def objects_in(value, steps=()):
    """Each object in a document that isn't a table of attributes, with its path."""
    if isinstance(value, dict):
        yield steps, value
        for name, one in value.items():
            if name != "Attr":
                yield from objects_in(one, (*steps, name))
    if isinstance(value, list):
        for index, one in enumerate(value):
            yield from objects_in(one, (*steps, index))


def path_of(steps):
    told = ""
    for step in steps:
        told += f"[{step}]" if isinstance(step, int) else ("." if told else "") + step
    return told or "."


# Members by which one object is told from another: a wrong one may be told of another member.
TELLING = {"Edit", "Order", "Event", "Name", "Phase", "Format", "Usage", "Stop", "Status",
           "SpawnStatus", "End"}


def try_plant(program, chance, counts):
    """A fault that is planted somewhere in a good document is told there."""
    kind = chance.choice(("edits", "script", "opening", "state", "order", "message"))
    for _ in range(50):
        text = made(chance, kind)
        if checked_number(program, kind, text)[0] == 0:
            break
    else:
        return
    document = json.loads(text)
    where, at = chance.choice(list(objects_in(document)))
    told_at, number = where, 41
    plant = chance.choice(("unknown", "missing", "kind", "name"))
    if plant == "unknown":
        at["Foo"] = 1
        told_at = (*where, "Foo")
    elif plant == "missing":
        # Without its SpawnID an order to edit is a master's.
        kept = {"SpawnID"} if "Edit" in at else set()
        names = [name for name in at if name not in MAY_BE_ABSENT | TELLING | kept]
        if not names:
            return
        del at[chance.choice(names)]
    elif plant == "kind":
        names = [name for name in at if name not in TELLING]
        if not names:
            return
        name = chance.choice(names)
        at[name] = None
        told_at = (*where, name)
    else:
        names = [name for name, one in at.items() if isinstance(one, str)
                 and name in ("ID", "Class", "JobPartID", "Type", "Node", "JobID", "Worker",
                              "Resource", "rRef") and kind != "message"]
        if not names:
            return
        name = chance.choice(names)
        at[name] = "a b"
        told_at, number = (*where, name), 1
    text, places = text_of(document, chance.randrange(2))
    line, column = line_and_column(text, places[told_at])
    status, told, faults = program.run(["check", kind, "--all"], text)
    lines = told.splitlines()
    front = f"{line}:{column}: {path_of(told_at)}: "
    back = f" ({number} {REFUSALS[str(number)]})"
    counts[plant] = counts.get(plant, 0) + 1
    if status != 1 or faults or not lines or not lines[0].startswith(front) \
            or not lines[0].endswith(back):
        program.tell("planted", plant, kind, path_of(told_at), "\n  told:", status, told[:300],
                     "\n  wanted:", front, back)


def main():
    words = argparse.ArgumentParser()
    words.add_argument("program")
    words.add_argument("--cases", type=int, default=1500)
    words.add_argument("--first", type=int, default=0)
    words.add_argument("--seconds", type=int, default=120)
    given = words.parse_args()
    program = Program(str(Path(given.program).resolve()))
    count, counts, tried = try_table(program), {"placed": 0, "unplaced": 0}, 0
    end = time.monotonic() + given.seconds
    with tempfile.TemporaryDirectory() as folder:
        for number in range(given.first, given.first + given.cases):
            if time.monotonic() > end:
                break
            before = program.faults
            try_agreement(program, random.Random(f"agree {number}"), folder, counts)
            try_plant(program, random.Random(f"plant {number}"), counts)
            if program.faults > before:
                print("case", number)
            tried += 1
    print(f"places: {count} faults of the table, {tried} random cases {counts}, "
          f"{program.faults} faults")
    return 1 if program.faults else 0


if __name__ == "__main__":
    sys.exit(main())
