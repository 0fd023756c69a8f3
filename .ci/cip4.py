#!/usr/bin/env python3
"""What docs/CIP4.md says of JDF as others write it: cip4.py PROGRAM

Each row of its tables that tells a number is tried: in a ticket, in a part that comes back, or in a
message to a press that is served. And names are tried that go there and back. The last line says
how many tests passed; all end within a minute.
"""
import copy
import json
import os
import random
import re
import shutil
import signal
import subprocess
import sys

import processes
from processes import (AT, EXAMPLES, FINISH, PROGRAM, Served, content, order, request, response,
                       run, spawn, status_in, wants)

sys.path.insert(0, os.path.join(EXAMPLES, "cip4"))
import names  # noqa: E402

TICKET = json.loads(content(os.path.join(EXAMPLES, "sheet.json")))["Ticket"]
NOTE = {"Name": "Notification", "Text": "washed", "TimeStamp": 1782806400}


def refusal_of(ticket):
    """The number for which a ticket is refused, or None."""
    status, _, told = run("edit", given=json.dumps({"At": 1, "Edits": [], "Ticket": ticket}))
    assert status in (0, 3), told
    return int(told.split()[1]) if status else None


def changed(**members):
    """The ticket with other members at its root."""
    return {**copy.deepcopy(TICKET), **members}


def with_resource(**members):
    """The ticket with a resource more."""
    added = {"ID": "r9", "Name": "Media", "Class": "Consumable", "Status": "Available", **members}
    return changed(ResourcePool=TICKET["ResourcePool"] + [added])


def what_a_ticket_may_have():
    wants(refusal_of(TICKET), None)
    wants(refusal_of(changed(AuditPool=[NOTE])), None)
    wants(refusal_of(changed(Type="Combined", Attr={"Types": "Cutting Folding"})), None)
    wants(refusal_of(changed(Type="ProcessGroup")), None)
    wants(refusal_of(with_resource(Name="NodeInfo", Class="Parameter", Attr={"End": "1782806400"})),
          None)
    wants(refusal_of(changed(Attr={names.ours("HDM:Foo"): "1"})), None)


def what_a_ticket_may_not_have():
    wants(refusal_of(changed(AuditPool=[dict(NOTE, TimeStamp="2026-06-30T10:00:00+02:00")])), 41)
    for audit in ("PhaseTime", "ProcessRun", "ResourceAudit"):
        wants(refusal_of(changed(AuditPool=[{"Name": audit, "TimeStamp": 1}])), 41)
    wants(refusal_of(with_resource(PartIDKeys="SheetName")), 41)
    wants(refusal_of(with_resource(Part=[{"SheetName": "s1"}])), 41)
    wants(refusal_of(changed(**{"HDM:Foo": "1"})), 41)
    wants(refusal_of(changed(Attr={"HDM:Foo": "1"})), 1)
    for member in ("ID", "JobID", "JobPartID", "Type"):
        wants(refusal_of(changed(**{member: "2026-4711"})), 1)


# ---- messages


def begin_press():
    """A press that is to be served, and the cover that it is sent."""
    for name in ("mis", "press"):
        opening = content(os.path.join(EXAMPLES, "shop", name + ".json")).decode()
        wants(run("new", name, given=opening), (0, "", ""))
    reply, message = order("mis", spawn("cover", "press", ["cover.sheets"]))
    wants(reply, "Spawned S1")
    return json.loads(message)


def answered(served, body, head=""):
    """The status of the response to a body, and the number for which it is refused."""
    with served.connect() as connection:
        connection.sendall(request(body, head))
        text = response(connection)
    found = re.search(r'"Refused":(\d+)', text)
    return status_in(text), int(found[1]) if found else None


def jmf(message, **said):
    """A message that says something else."""
    kept = {name: value for name, value in message["JMF"].items() if name != "Command"}
    return json.dumps({"JMF": {**kept, **said}})


def what_no_press_is_asked():
    message = begin_press()
    with Served("press") as press:
        for query in ("KnownMessages", "KnownDevices", "SubmissionMethods", "QueueStatus",
                      "Status"):
            asks = jmf(message, Query={"ID": "M1", "Type": query})
            wants((query, answered(press, asks)), (query, (400, 41)))
        signals = jmf(message, Signal={"ID": "M1", "Type": "Status"})
        wants(answered(press, signals), (400, 41))
        for command in ("HoldQueueEntry", "ResumeQueueEntry", "RemoveQueueEntry",
                        "SetQueueEntryPriority"):
            said = {"ID": "M1", "Type": command, command + "Params": {"QueueEntryID": "S1"}}
            wants((command, answered(press, jmf(message, Command=said))), (command, (400, 41)))
        xml = '<?xml version="1.0"?><JMF xmlns="http://www.CIP4.org/JDFSchema_1_1"/>'
        kind = "Content-Type: application/vnd.cip4-jmf+xml\r\n"
        wants(answered(press, xml, kind), (400, 40))
        package = "--b\r\nContent-Type: application/vnd.cip4-jmf+xml\r\n\r\n<JMF/>\r\n--b--\r\n"
        mime = "Content-Type: multipart/related; boundary=b\r\n"
        wants(answered(press, package, mime), (400, 40))
        iso = {**message["JMF"], "TimeStamp": "2026-06-30T10:00:00Z"}
        wants(answered(press, json.dumps({**message, "JMF": iso})), (400, 41))
        # The type isn't looked at.
        wants(answered(press, json.dumps(message), kind), (200, None))
        wants(run("show", "press")[1].split(" ", 2)[:2], ["S1", "Open"])


def what_does_not_fit():
    """A node that is out already; and a part that comes back with a node or a resource more, or
    with what a press really did."""
    message = begin_press()
    wants(order("mis", spawn("cover", "press", ["cover.sheets"])), ["Refused 12 NotHeld S1", ""])
    wants(run("take", "press", "--at", AT, given=json.dumps(message))[0], 0)
    _, back = order("press", FINISH)
    more = processes.node("n99")
    node = json.loads(back)
    node["JDF"]["JDF"].append(more)
    pool = json.loads(back)
    pool["JDF"]["ResourcePool"].insert(0, {"Attr": {}, "Class": "Consumable", "ID": "r99",
                                           "Locked": False, "Name": "Ink", "SpawnIDs": [],
                                           "SpawnStatus": "NotSpawned", "Status": "Available"})
    for part in (node, pool):
        status, lines, _ = run("take", "mis", "--at", AT, given=json.dumps(part))
        wants((status, lines.splitlines()[0]), (1, "Refused 22 WrongShape"))
    for audit in ("PhaseTime", "ProcessRun", "ResourceAudit"):
        done = json.loads(back)
        done["JDF"]["AuditPool"].append({"Name": audit, "TimeStamp": 1})
        wants(run("take", "mis", "--at", AT, given=json.dumps(done)),
              (3, "", "Refused 41 NotProfile\n"))


# ---- names


def names_go_there_and_back():
    folder = os.path.join(EXAMPLES, "cip4")
    wants(subprocess.run([sys.executable, "-m", "doctest", "names.py"], cwd=folder).returncode, 0)
    source = random.Random(7)
    seen = {}
    for _ in range(20_000):
        text = "".join(source.choices("aZ09_.-: äß€😀", k=source.randint(0, 7)))
        name = names.ours(text)
        assert re.fullmatch(r"[A-Za-z_][A-Za-z0-9_.-]{0,63}", name), (text, name)
        wants((names.theirs(name), seen.setdefault(name, text)), (text, text))
    script = [sys.executable, os.path.join(folder, "names.py")]
    ran = subprocess.run(script, input=64 * "1" + "\n", capture_output=True, text=True)
    wants((ran.returncode, ran.stdout), (1, ""))


TESTS = (what_a_ticket_may_have, what_a_ticket_may_not_have, what_no_press_is_asked,
         what_does_not_fit, names_go_there_and_back)


def main():
    processes.install(sys.argv[1])
    signal.alarm(60)
    passed = sum([processes.passes(test) for test in TESTS])
    shutil.rmtree(os.path.dirname(PROGRAM))
    print(f"cip4: {passed} passed, {len(TESTS) - passed} failed")
    sys.exit(passed != len(TESTS))


if __name__ == "__main__":
    main()
