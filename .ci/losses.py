#!/usr/bin/env python3
"""What a shop would lose if nobody were told, or if one waited for another: losses.py PROGRAM

Several jobs of one shop, messages that the other end refuses, controllers that go on from an older
copy, orders that wait for their input, and parts that grow. Each test runs the program in a folder
of its own. The last line says how many passed.
"""
import contextlib
import http.server
import json
import os
import select
import shutil
import subprocess
import sys
import threading
import time

import processes
from processes import (AT, EXAMPLES, FINISH, PROGRAM, Served, asked, attribute, begin, content,
                       open_shop, order, passes, request, run, spawn, wants)

COVER = spawn("cover", "press", ["cover.sheets"])
TEXT = spawn("text", "press", ["text.sections"])
RESEND = json.dumps({"Order": "Resend", "SpawnID": "S1"})
# What a message over HTTP holds in bytes, and from how many on a part is noted.
MESSAGE = 1048576
LARGE = MESSAGE * 3 // 4
# What is said where a person is to type.
WAITS = b"Waiting for input; end it with Ctrl-D on a line of its own.\n"


def withdraw(spawn_id):
    return json.dumps({"Order": "Withdraw", "SpawnID": spawn_id})


def sends(file, given, url):
    """What comes of an order whose message is sent."""
    return run("order", file, "--at", AT, "--send", url, given=given)


class Nobody(http.server.BaseHTTPRequestHandler):
    """No controller: it answers each message with 200, and with nothing behind the head."""

    def do_POST(self):
        self.rfile.read(int(self.headers["Content-Length"]))
        self.send_response(200)
        self.send_header("Content-Length", "0")
        self.end_headers()

    def log_message(self, *_):
        pass


@contextlib.contextmanager
def answering_nothing():
    """The URL of one that does so."""
    with http.server.HTTPServer(("127.0.0.1", 0), Nobody) as server:
        thread = threading.Thread(target=server.serve_forever)
        thread.start()
        try:
            yield f"http://127.0.0.1:{server.server_port}/jmf"
        finally:
            server.shutdown()
            thread.join()


def begins_worker(file, master):
    wants(run("new", file, given=json.dumps({"Master": master, "Worker": "press"})), (0, "", ""))


def nodes_at(file):
    """The spawn of each part that a worker keeps, and the part's node."""
    parts = [line.split(" ", 2) for line in run("show", file)[1].splitlines()]
    return [(spawn_id, json.loads(part)["ID"]) for spawn_id, _, part in parts]


# ---- many jobs


def each_job_has_a_master_and_a_file_at_the_press():
    jobs = ("job-17", "job-18")
    opening = json.loads(content(os.path.join(EXAMPLES, "shop", "mis.json")))
    for folder in ("office", "printers/press"):
        os.makedirs(folder)
    for job in jobs:
        opening["Master"] = opening["Ticket"]["JobID"] = job
        wants(run("new", "office/" + job, given=json.dumps(opening)), (0, "", ""))
        begins_worker("printers/press/" + job, job)
    with Served("office") as office, Served("printers") as printers:
        for job in jobs:
            wants(sends("office/" + job, COVER, printers.url()),
                  (0, "Spawned S1\nNoted S1 Running\n", ""))
            wants(nodes_at("printers/press/" + job), [("S1", "cover")])
            assert f'"JobID":"{job}"' in run("show", "printers/press/" + job)[1]
        for job in jobs:
            wants(sends("printers/press/" + job, FINISH, office.url()),
                  (0, "Finished S1\nAcked S1 Completed\n", ""))
            wants(run("show", "office/" + job)[1].count('"Name":"Merged"'), 1)


# ---- what the other end says


def what_an_answer_says_is_told():
    open_shop()
    with Served("press") as press, Served("mis") as mis:
        wants(sends("mis", COVER, press.url()), (0, "Spawned S1\nNoted S1 Running\n", ""))
        wants(sends("mis", TEXT, press.url()), (0, "Spawned S2\nNoted S2 Running\n", ""))
        wants(order("press", FINISH)[0], "Finished S1")
        wants(sends("mis", RESEND, press.url()), (0, "Sent S1\nNoted S1 Completed\n", ""))
        wants(sends("mis", withdraw("S2"), press.url()), (0, "Asked S2\nNoted S2 Aborted\n", ""))
        wants(sends("press", RESEND, mis.url()), (0, "Sent S1\nAcked S1 Completed\n", ""))


def that_the_other_end_refuses_is_told():
    open_shop()
    os.remove("press")
    begins_worker("press", "office")
    with Served("press") as press, Served("bindery") as bindery:
        told = "Refused 21 WrongSender by press\n"
        wants(sends("mis", COVER, press.url()), (1, "Spawned S1\nNoted S1\n" + told, ""))
        message = order("mis", RESEND)[1]
        status, answer, said = run("send", press.url(), given=message)
        wants((status, said), (1, told))
        wants(json.loads(answer)["JMF"]["Response"]["Reason"], 21)
        # What another controller answers isn't taken: the office refuses it itself.
        wants(sends("mis", RESEND, bindery.url()), (1, "Sent S1\nRefused 21 WrongSender\n", ""))
    os.remove("press")
    begins_worker("press", "mis")
    wants(run("take", "press", "--at", AT, given=message)[0], 0)
    os.remove("mis")
    wants(run("new", "mis", given=json.dumps(
        {"Master": "mis", "Workers": ["press"], "Ticket": processes.TICKET})), (0, "", ""))
    with Served("mis") as mis:
        wants(sends("press", FINISH, mis.url()),
              (1, "Finished S1\nNoted S1\nRefused 20 UnknownSpawn by mis\n", ""))


def that_a_spawn_is_declined_is_no_failure_of_a_withdrawal():
    open_shop()
    late = order("mis", spawn("finish", "bindery", ["brochures"]))[1]
    asks = order("mis", withdraw("S1"))[1]
    with Served("bindery") as bindery:
        wants(run("send", bindery.url(), given=asks)[::2], (0, ""))
        wants(sends("mis", withdraw("S1"), bindery.url()), (0, "Asked S1\nFreed S1\n", ""))
        # Of the part it is one.
        wants(run("send", bindery.url(), given=late)[::2], (1, "Refused 38 Declined by bindery\n"))


def a_200_with_no_message_is_no_answer():
    """It is told with the URL that the message went to. No step is made of it: the file and the
    journal hold what the same order leaves that isn't sent."""
    open_shop()
    with answering_nothing() as url:
        told = f"Answered with no message by {url}: 200\n"
        with open("table.json", "w", encoding="utf-8") as table:
            json.dump({"press": url}, table)
        for given, reply, place in ((COVER, "Spawned S1", url), (RESEND, "Sent S1", url),
                                    (RESEND, "Sent S1", "@table.json"),
                                    (withdraw("S1"), "Asked S1", url)):
            shutil.copy("mis", "mis.bak")
            beside = run("order", "mis.bak", "--at", AT, "--journal", "beside.log", given=given)
            wants(beside[1].split("\n")[0], reply)
            wants(run("order", "mis", "--at", AT, "--journal", "journal.log", "--send", place,
                      given=given), (1, reply + "\n", told))
            wants(content("mis"), content("mis.bak"))
            wants(content("journal.log"), content("beside.log"))
        # A message that is sent by itself may be an answer, to which there is none.
        wants(run("send", url, given=order("mis", RESEND)[1]), (0, "", ""))


# ---- older copies


def an_older_master_is_not_safe():
    """What it spawns has a number that the press knows, so the press has nothing to do: the office
    reads of the old work. Under another name the ticket goes on."""
    open_shop()
    shutil.copy("mis", "mis.bak")
    with Served("press") as press:
        wants(sends("mis", COVER, press.url()), (0, "Spawned S1\nNoted S1 Running\n", ""))
        os.replace("mis.bak", "mis")
        shutil.copy("mis", "mis.bak")
        wants(sends("mis", TEXT, press.url()), (0, "Spawned S1\nNoted S1 Running\n", ""))
        wants(nodes_at("press"), [("S1", "cover")])
        wants(order("press", FINISH)[0], "Finished S1")
        wants(sends("mis", RESEND, press.url()), (0, "Sent S1\nNoted S1 Completed\n", ""))
        wants(run("take", "press", "--at", AT, given=order("mis", RESEND)[1])[1].split("\n")[0],
              "Again S1")
    goes_on(json.loads(run("show", "mis.bak")[1]))
    # Of a copy in which something is out, the file has the ticket without marks.
    shown = json.loads(run("show", "mis")[1])
    wants(run("new", "marked", given=opening("marked", shown)),
          (3, "", "Refused 5 ReservedStatus\n"))
    for name in ("mis-2", "press-2"):
        os.remove(name)
    goes_on(json.loads(content("mis"))["Master"]["Ticket"])


def opening(name, ticket):
    return json.dumps({"Master": name, "Workers": ["press", "bindery"], "Ticket": ticket})


def goes_on(ticket):
    """The ticket goes on as that of a new master."""
    wants(run("new", "mis-2", given=opening("mis-2", ticket)), (0, "", ""))
    begins_worker("press-2", "mis-2")
    with Served("press-2") as press:
        wants(sends("mis-2", TEXT, press.url()), (0, "Spawned S1\nNoted S1 Running\n", ""))
        wants(nodes_at("press-2"), [("S1", "text")])


def an_older_worker_harms_no_ticket():
    """It does once more what came back or what it declined, and neither is put in."""
    open_shop()
    for name in ("press", "bindery"):
        shutil.copy(name, name + ".bak")
    with Served("mis") as mis, Served("press") as press, Served("bindery") as bindery:
        cover = order("mis", COVER)[1]
        wants(run("send", press.url(), given=cover)[0], 0)
        wants(sends("press", FINISH, mis.url()), (0, "Finished S1\nAcked S1 Completed\n", ""))
        late = order("mis", spawn("finish", "bindery", ["brochures"]))[1]
        wants(sends("mis", withdraw("S2"), bindery.url()), (0, "Asked S2\nFreed S2\n", ""))
        ticket = run("show", "mis")[1]
        for name, message in (("press", cover), ("bindery", late)):
            os.replace(name + ".bak", name)
            wants(run("take", name, "--at", AT, given=message)[1].split(" ")[0], "Taken")
        wants(sends("press", FINISH, mis.url()), (0, "Finished S1\nAcked S1 Completed\n", ""))
        wants(sends("bindery", FINISH.replace("S1", "S2"), mis.url()),
              (1, "Finished S2\nNoted S2\nRefused 16 NotOut by mis\n", ""))
        wants(run("show", "mis")[1], ticket)


# ---- commands that wait for their input


def waiting(*words):
    """A command whose input is still to come."""
    return subprocess.Popen([PROGRAM, *words], stdin=subprocess.PIPE, stdout=subprocess.PIPE,
                            stderr=subprocess.PIPE)


def given_now(command, given):
    """What comes of a command whose input comes now."""
    out, told = command.communicate(given.encode(), timeout=30)
    return command.returncode, out.decode(), told.decode()


def a_command_that_waits_for_its_input_holds_nothing():
    open_shop()
    message = order("mis", COVER)[1]
    os.mkdir("office")
    for job in ("job-17", "job-18"):
        opening = processes.OPENING.replace('"mis"', json.dumps(job))
        wants(run("new", "office/" + job, given=opening), (0, "", ""))
    with Served("office") as office:
        waits = waiting("order", "office/job-17", "--at", AT)
        takes = waiting("take", "office/job-18", "--at", AT)
        time.sleep(0.5)
        assert waits.poll() is None and takes.poll() is None
        start = time.monotonic()
        for number, job in enumerate(("job-17", "job-18"), 1):
            to_job = message.replace('"ReceiverID":"press"', f'"ReceiverID":"{job}"')
            wants(asked(office, request(to_job)), 200)
            wants(office.told(number)[-1], job + " 200 45 WrongMessage")
            wants(order("office/" + job, attribute("A"))[0], "Edited")
            assert '"A":"x"' in run("show", "office/" + job)[1]
        took = time.monotonic() - start
        assert took < 10 and waits.poll() is None and takes.poll() is None, took
        wants(given_now(waits, attribute("B")), (0, "Edited\n", ""))
        wants(given_now(takes, "{}"), (3, "", "Refused 41 NotProfile\n"))
        # The order is of the controller that the file holds when it is there, and none is lost.
        wants(sorted(json.loads(run("show", "office/job-17")[1])["Attr"]), ["A", "B"])


def a_file_is_looked_at_before_an_input_is_read():
    begin()
    for words in (("order", "none"), ("take", "none")):
        command = waiting(*words, "--at", AT)
        # Nothing of its input comes, and it ends.
        wants((command.wait(10), command.stderr.read()), (4, b"Refused 59 LoadFailed\n"))
        command.stdin.close()
    waits = waiting("order", "mis", "--at", AT)
    time.sleep(0.5)
    os.rename("mis", "away")
    wants(given_now(waits, attribute("A")), (4, "", "Refused 59 LoadFailed\n"))
    wants(os.listdir("."), ["away"])


def who_types_is_told_that_input_is_waited_for():
    begin()
    ours, theirs = os.openpty()
    command = subprocess.Popen([PROGRAM, "order", "mis", "--at", AT], stdin=theirs,
                               stdout=subprocess.PIPE, stderr=subprocess.PIPE)
    os.close(theirs)
    try:
        assert select.select([command.stderr], [], [], 10)[0], "nothing is told"
        wants((os.read(command.stderr.fileno(), 100), command.poll()), (WAITS, None))
        os.write(ours, attribute("A").encode() + b"\n\x04")
        wants((command.wait(10), command.stdout.read(), command.stderr.read()),
              (0, b"Edited\n", b""))
    finally:
        command.kill()
        os.close(ours)


# ---- parts that grow


def grow(file, count):
    """Gives the one part that a worker keeps so many notes of 1,000 bytes, as orders would; answers
    how many bytes the part has then."""
    state = json.loads(content(file))
    part = state["Worker"]["Entries"][0]["Part"]
    part["AuditPool"] = count * [{"Name": "Notification", "Text": 1000 * "x", "TimeStamp": 1}]
    with open(file, "w", encoding="utf-8") as text:
        text.write(json.dumps(state, sort_keys=True, separators=(",", ":")))
    return len(json.dumps(part, sort_keys=True, separators=(",", ":")))


def a_part_that_grows_is_noted_and_stays_beyond_what_a_message_holds():
    open_shop()
    wants(run("take", "press", "--at", AT, given=order("mis", COVER)[1])[0], 0)
    edit = json.dumps({"Order": "Edit", "SpawnID": "S1", "Edit":
                       {"Edit": "SetStatus", "Node": "cover.print", "Status": "Completed"}})
    grow("press", 700)
    wants(run("order", "press", "--at", AT, given=edit), (0, "Edited\n", ""))
    wants(run("show", "press")[::2], (0, ""))
    size = grow("press", 800)
    assert LARGE < size < MESSAGE, size
    note = f"Note: the part of S1 has {size} bytes; over HTTP a message has {MESSAGE} at most\n"
    wants(run("show", "press")[::2], (0, note))
    wants(run("order", "press", "--at", AT, given=edit), (0, "Edited\n", note))
    with Served("mis") as mis:
        grow("press", 1000)
        wants(sends("press", FINISH, mis.url()),
              (3, "Finished S1\n", "Refused 53 TooLarge\n"))
        # By hand it comes back, up to what `take` reads.
        wants(run("take", "mis", "--at", AT, given=order("press", RESEND)[1])[1].split("\n")[0],
              "Merged S1")


TESTS = [
    each_job_has_a_master_and_a_file_at_the_press,
    what_an_answer_says_is_told,
    that_the_other_end_refuses_is_told,
    that_a_spawn_is_declined_is_no_failure_of_a_withdrawal,
    a_200_with_no_message_is_no_answer,
    an_older_master_is_not_safe,
    an_older_worker_harms_no_ticket,
    a_command_that_waits_for_its_input_holds_nothing,
    a_file_is_looked_at_before_an_input_is_read,
    who_types_is_told_that_input_is_waited_for,
    a_part_that_grows_is_noted_and_stays_beyond_what_a_message_holds,
]


def main():
    processes.install(sys.argv[1])
    passed = sum([passes(test) for test in TESTS])
    shutil.rmtree(os.path.dirname(PROGRAM))
    print(f"losses: {passed} passed, {len(TESTS) - passed} failed")
    sys.exit(passed != len(TESTS))


if __name__ == "__main__":
    main()
