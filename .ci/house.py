#!/usr/bin/env python3
"""Houses with a folder each, whose messages go by themselves:
house.py PROGRAM [--only WORD] [--long] [--seed N] [--jobs N] [--patience N]

Which file of a folder a message leads to, and which controller may lie there; who may send; and
what is sent by itself: through a network that loses, doubles, delays and cuts, to a house that is
away for a while, and beside destinations that never answer, while the servers are killed. Operators
give each order once. Each test runs the program in a folder of its own. The last line says how many
passed; --only runs those whose names have a word in them. All together end within four minutes.

With --long these are two days of as many jobs, whose shapes come from the seed: one of five minutes
on which servers are killed, and one on which a house is away for a minute. All has to be home within
so many seconds behind that.
"""
import argparse
import contextlib
import json
import math
import os
import shutil
import signal
import socket
import subprocess
import sys
import time

import days
import processes
from crowd import free_port, locked, until_so
from harmful import HARMS, Harmful, takes_no_connection
from houses import (House, all_files, begins, begins_master, begins_worker, gives, lines_of,
                    master_opening, put_peers, three_houses, url_to)
from processes import (AT, FINISH, PROGRAM, Served, asked, content, order, request, response, run,
                       spawn, wants)

COVER = spawn("cover", "press", ["cover.sheets"])
FINISHING = spawn("finish", "bind", ["brochures"])
# How long what goes by itself may take where nothing is in its way, in seconds.
SOON = 10
# How many in a row come to nothing in a short day's network at most: behind more the sender may wait
# longer than the day is.
MOST = 2


# ---- the file that a message leads to


MISSING = ("HTTP/1.1 404 Not Found\r\nContent-Type: text/plain\r\nContent-Length: 27\r\n"
           "Connection: close\r\n\r\nno controller of this name\n")
TARGETS = ("/jmf", "/", "/jmf/none", "/..", "*", "/#", "/press#/none", "/?press", "http://h/none")


def cover_from(master):
    """The message that brings the cover of a master to the press."""
    begins_master("aside", master)
    message = order("aside", COVER)[1]
    os.remove("aside")
    return message


def between(message, receiver, sender):
    """A command to another receiver, from another sender."""
    jmf = json.loads(message)
    old = "jmf:" + jmf["JMF"]["SenderID"]
    jmf["JMF"].update(ReceiverID=receiver, SenderID=sender)
    text = json.dumps(jmf, sort_keys=True, separators=(",", ":"))
    return text.replace(json.dumps(old), json.dumps("jmf:" + sender))


def answered(served, message, target="/jmf"):
    with served.connect() as connection:
        connection.sendall(request(message, target=target))
        return response(connection)


def open_shelves():
    """A folder with a worker for one master and one for many, and what is no controller of it."""
    os.mkdir("shop")
    os.mkdir("shop/bind")
    begins_worker("shop/press", "press", "mis")
    begins_worker("shop/press.old", "press.old", "mis")
    for master in ("mis", "mis-2"):
        begins_worker("shop/bind/" + master, "bind", master)
    begins_worker("shop/bind/mis.new", "bind", "mis.new")
    os.symlink("press", "shop/linked")
    os.symlink("bind", "shop/linked-folder")
    os.symlink("mis", "shop/bind/linked")
    os.mkfifo("shop/pipe")
    os.mkdir("shop/deep")
    os.mkdir("shop/deep/mis")
    begins_worker("shop/deep/mis/mis", "deep", "mis")
    begins_worker("outside", "outside", "mis")


def a_message_leads_to_its_file():
    open_shelves()
    message = cover_from("mis")
    found = {("press", "mis"): "press", ("bind", "mis"): "bind/mis",
             ("bind", "mis-2"): "bind/mis-2"}
    missing = [("none", "mis"), ("bind", "none"), ("press.old", "mis"), ("bind", "mis.new"),
               ("linked", "mis"), ("linked-folder", "mis"), ("pipe", "mis"), ("outside", "mis"),
               ("Press", "mis"), ("shop", "mis")]
    with Served("shop") as shop:
        for number, ((receiver, sender), path) in enumerate(found.items()):
            before = all_files("shop")
            given = request(between(message, receiver, sender), target=TARGETS[number])
            wants((path, asked(shop, given)), (path, 200))
            changed = {name for name, text in all_files("shop").items() if before[name] != text}
            wants(changed, {"shop/" + path})
        before = all_files("shop")
        wants(run("send", shop.url(), given=between(message, "none", "mis")),
              (1, "", "Refused by the controller: 404\n"))
        for receiver, sender in missing:
            for target in ("/jmf", f"/jmf/{receiver}", "/press", "/bind/mis"):
                wants((receiver, answered(shop, between(message, receiver, sender), target)),
                      (receiver, MISSING))
        # What lies in a folder under the sender's name and is no file can't be loaded.
        for receiver, sender in (("bind", "linked"), ("deep", "mis")):
            wants((receiver, asked(shop, request(between(message, receiver, sender)))),
                  (receiver, 503))
        # What can't be the name of a file is no name of a message.
        for name in ("..", ".", "a/b", "1press", ""):
            wants((name, asked(shop, request(between(message, name, "mis")))), (name, 400))
            wants((name, asked(shop, request(between(message, "bind", name)))), (name, 400))
        # Of a folder nothing tells for whom it is what is no message.
        for target in TARGETS:
            wants((target, asked(shop, request("{}", target=target))), (target, 400))
        wants(all_files("shop"), before)
        assert "- 404" in shop.told(4) and "- 400 41 NotProfile" in shop.told(4)
        # A file is there from the moment on at which it comes.
        os.rename("shop/press", "away")
        wants(asked(shop, request(between(message, "press", "mis"))), 404)
        os.rename("away", "shop/press")
        wants(asked(shop, request(between(message, "press", "mis"))), 200)


def one_file_is_for_any_message():
    begins_worker("press", "press", "mis")
    message = cover_from("mis")
    with Served("press") as press:
        for target in TARGETS:
            wants((target, asked(press, request(message, target=target))), (target, 200))
        wants(json.loads(answered(press, between(message, "none", "mis")).split("\r\n\r\n")[1])
              ["JMF"]["Response"]["Reason"], 45)
        wants(asked(press, request("{}")), 400)
        os.rename("press", "away")
        wants(asked(press, request("{}")), 503)
        wants(asked(press, request(message)), 503)


# ---- the controller that lies there


def a_state_of_another_name_is_no_controller():
    os.makedirs("shop/bind")
    begins_worker("shop/press", "press", "mis")
    begins_worker("shop/bind/mis", "bind", "mis")
    message = cover_from("mis")
    moves = (("press", "mis", "press", "print"), ("bind", "mis", "bind/mis", "bind/mis-2"))
    with Served("shop") as shop:
        for receiver, sender, old, new in moves:
            wants(asked(shop, request(between(message, receiver, sender))), 200)
            # Both its name and its master's are the file's, or it is none.
            os.rename("shop/" + old, "shop/" + new)
            before = all_files("shop")
            other = (new, sender) if "/" not in new else tuple(new.split("/"))
            wants(asked(shop, request(between(message, *other))), 503)
            wants(asked(shop, request(between(message, receiver, sender))), 404)
            wants(all_files("shop"), before)
            os.rename("shop/" + new, "shop/" + old)
            wants(asked(shop, request(between(message, receiver, sender))), 200)
        # A worker of the right name, whose master is another, isn't the one either.
        shutil.copy("shop/press", "shop/bind/press")
        wants(asked(shop, request(between(message, "bind", "press"))), 503)
        refused = [line for line in shop.log(9).splitlines() if " 503 62 OtherName " in line]
        wants(len(refused), 3)


def new_begins_what_the_file_is_called():
    """Where a folder has a peers' file, or the folder above has; elsewhere a name is free."""
    os.makedirs("shop/press/deep")
    begins_worker("shop/any", "press", "mis")
    os.remove("shop/any")
    put_peers("shop", {})
    told = (3, "", "Refused 62 OtherName\n")
    for path, opening in (("shop/job-18", master_opening("job-17")),
                          ("shop/print", {"Master": "mis", "Worker": "press"}),
                          ("shop/press/job-18", {"Master": "job-17", "Worker": "press"}),
                          ("shop/press/job-17", {"Master": "job-17", "Worker": "bind"}),
                          ("shop/press/job-17", master_opening("job-17"))):
        wants((path, run("new", path, given=json.dumps(opening))), (path, told))
        assert not os.path.exists(path), path
    begins_master("shop/job-17", "job-17")
    begins_worker("shop/bind", "bind", "job-17")
    begins_worker("shop/press/job-17", "press", "job-17")
    # The same from within the served folder.
    for place, path, opening in (("shop", "job-18", master_opening("job-17")),
                                 ("shop", "press/job-18", {"Master": "m", "Worker": "press"})):
        came = subprocess.run([PROGRAM, "new", path], input=json.dumps(opening).encode(), cwd=place,
                              capture_output=True)
        wants((place, path, came.returncode, came.stderr), (place, path, 3, told[2].encode()))
    # Two folders below nothing is served.
    begins_worker("shop/press/deep/any", "press", "mis")


# ---- two jobs of one shop


def a_second_job_is_not_mistaken_for_the_first():
    """Masters that were given one name are refused where they begin; two of different names have
    each its own file at the press."""
    with three_houses(("job-17", "job-18")) as ((office, printers, _), _):
        wants(run("new", "office/job-19", given=json.dumps(master_opening("job-17"))),
              (3, "", "Refused 62 OtherName\n"))
        shutil.copy("office/job-17", "office/job-19")
        message = between(cover_from("job-17"), "job-19", "press")
        wants(asked(office, request(message)), 503)
        os.remove("office/job-19")
        for job in ("job-17", "job-18"):
            gives("office/" + job, COVER, "Spawned S1")
        for job in ("job-17", "job-18"):
            until_so(lambda job=job: lines_of("printers/press/" + job) == [["S1", "Open"]],
                     "the press has each cover", SOON)
            assert f'"JobID":"{job}"' in run("show", "printers/press/" + job)[1]
            gives("printers/press/" + job, FINISH, "Finished S1")
        for job in ("job-17", "job-18"):
            closes("printers/press/" + job)
            wants(run("show", "office/" + job)[1].count('"Name":"Merged"'), 1)


def what_cannot_be_served_is_not_begun():
    """A name that no message leads to begins no controller of a folder that is served."""
    os.mkdir("jobs")
    put_peers("jobs", {})
    for name in ("2026-17", "mis.json", "a b", "peers.json"):
        for opening in (master_opening("mis"), master_opening(name),
                        {"Master": "mis", "Worker": name}):
            status, lines, told = run("new", "jobs/" + name, given=json.dumps(opening))
            assert status in (3, 4) and lines == "" and told.startswith("Refused "), (name, told)
    wants(os.listdir("jobs"), ["peers.json"])


def a_link_to_a_peers_file_is_one():
    """What lies as `peers.json` is never passed over: a link is followed, and else it is 59."""
    os.mkdir("shop")
    begins_worker("shop/press", "press", "mis")
    message = cover_from("mis")
    with open("table.json", "w", encoding="utf-8") as table:
        table.write('{"office":"http://127.0.0.1:9/jmf"}')
    os.symlink("../table.json", "shop/peers.json")
    wants(run("new", "shop/other", given=json.dumps(master_opening("mis")))[0], 3)
    with Served("shop") as shop:
        wants(asked(shop, request(message)), 403)
    os.remove("table.json")
    status, _, told = run("serve", "shop", "--listen", "127.0.0.1:0")
    wants((status, told[:22]), (4, "Refused 59 LoadFailed:"))
    os.remove("shop/peers.json")
    os.mkdir("shop/peers.json")
    wants(run("serve", "shop", "--listen", "127.0.0.1:0")[0], 4)


# ---- who may send


def a_name_that_no_field_can_have_is_refused():
    """Nothing is listened on then, and FILE, which isn't there, not looked for. Each name that a
    field can have is taken."""
    for name in ("", "a:b", "a b", " a", "X-Sender:", "a\tb", "(a)", "X-S\u00e4nder"):
        told = (f"error: invalid value '{name}' for '--sender-field <NAME>': "
                "it is no name of a header field\n")
        wants(run("serve", "nothing", "--listen", "127.0.0.1:0", "--sender-field", name),
              (2, "", told))
    begins_worker("press", "press", "mis")
    message = cover_from("mis")
    name = "!#$%&'*+-.^_`|~0aZ"
    with Served("press", "--sender-field", name) as press:
        wants(asked(press, request(message, "X-Sender: mis\r\n")), 403)
        wants(asked(press, request(message, name + ": mis\r\n")), 200)


def a_sender_is_who_it_says():
    """A proxy tells in a field who sends; a message with another's name is refused."""
    begins_master("mis", "mis")
    begins_worker("bind", "bind", "mis")
    wants(run("take", "bind", "--at", AT, given=order("mis", FINISHING)[1])[0], 0)
    back = order("bind", FINISH)[1]
    before = content("mis")
    with Served("mis", "--sender-field", "X-Sender") as mis:
        for head in ("", "X-Sender: mis\r\n", "X-Sender: \r\n", "X-Sender: bind, bind\r\n",
                     "X-Sender: bind\r\nX-Sender: bind\r\n", "X-Sender: Bind\r\n",
                     "X-Sender: bind\r\nX-Sender: mis\r\n", "X-Senders: bind\r\n"):
            wants((head, asked(mis, request(back, head))), (head, 403))
        for head in ("Origin: http://127.0.0.1\r\n", "origin: null\r\n"):
            wants((head, asked(mis, request(back, head + "X-Sender: bind\r\n"))), (head, 403))
        wants(content("mis"), before)
        wants(set(mis.told(10)), {"- 403 63 Forbidden"})
        wants(asked(mis, request(back, "x-sender:  bind \r\n")), 200)
        wants(mis.told(11)[-1], "mis 200 Merged S1 from bind")


def no_page_in_a_browser_sends():
    """What a page has a browser send, anybody's page, is refused where anybody may send, too."""
    begins_worker("press", "press", "mis")
    message = cover_from("mis")
    with Served("press") as press:
        for head in ("Origin: http://elsewhere.example\r\n", "ORIGIN: null\r\n"):
            wants((head, asked(press, request(message, head))), (head, 403))
        wants(lines_of("press"), [])
        wants(asked(press, request(message, "Referer: http://elsewhere.example\r\n")), 200)
        wants(press.told(3)[:2], 2 * ["- 403 63 Forbidden"])


def a_sender_is_known():
    os.mkdir("shop")
    begins_worker("shop/press", "press", "mis")
    message = cover_from("mis")
    put_peers("shop", {"mis": "http://127.0.0.1:9/jmf", "job-*": "http://127.0.0.1:9/jmf"})
    with Served("shop") as shop:
        for sender in ("office", "mi", "mis2", "job", "Job-1"):
            wants((sender, asked(shop, request(between(message, "press", sender)))), (sender, 403))
        wants(asked(shop, request(message)), 200)
        # What the press says of a master that is known, but isn't its own.
        wants(asked(shop, request(between(message, "press", "job-7"))), 200)
        wants([line.split(" ", 1)[1] for line in shop.told(7)],
              5 * ["403 63 Forbidden"] + ["200 Taken S1 from mis", "200 21 WrongSender"])


# ---- the peers' file


def a_peers_file_is_read_again():
    os.mkdir("shop")
    begins_worker("shop/press", "press", "mis")
    message = cover_from("mis")
    here = "http://127.0.0.1:9/jmf"

    def is_let_in(wanted):
        return lambda: asked(shop, request(message)) == (200 if wanted else 403)
    for wrong in ("", "[]", '{"mis":7}', '{"mis":"https://h/jmf"}', '{"1":"http://h/jmf"}',
                  '{"mis":"http://h/jmf?a"}', '{"m*s":"http://h/jmf"}'):
        put_peers("shop", wrong)
        wants((wrong, run("serve", "shop", "--listen", "127.0.0.1:0")[0]), (wrong, 4))
    put_peers("shop", {"office": here})
    with Served("shop") as shop:
        wants(asked(shop, request(message)), 403)
        for table, wanted in (({"mis": here}, True), ({"office": here}, False), ({"*": here}, True),
                              ({"office": here}, False), ({"m*": here}, True)):
            put_peers("shop", table)
            until_so(is_let_in(wanted), f"it is read: {table}", 3)
        # Of one that is wrong nothing is taken, and the last one stays.
        put_peers("shop", '{"office":"http://h/jmf","mis":7}')
        time.sleep(2.5)
        wants(asked(shop, request(message)), 200)
        os.remove("shop/peers.json")
        time.sleep(2.5)
        wants(asked(shop, request(message)), 200)
        put_peers("shop", {"office": here})
        until_so(is_let_in(False), "one that comes again is read", 3)
    # One that is named is taken, and the folder's isn't.
    put_peers("shop", {"office": here})
    with open("table", "w", encoding="utf-8") as file:
        json.dump({"mis": here}, file)
    with Served("shop", "--peers", "table") as shop:
        wants(asked(shop, request(message)), 200)
    with Served("shop/press", "--peers", "table") as press:
        wants(asked(press, request(message)), 200)
        wants(asked(press, request(between(message, "press", "office"))), 403)


# ---- what goes by itself


def closes(path, patience=SOON):
    """Waits until the one part of a worker came back, and is closed."""
    until_so(lambda: lines_of(path) == [["S1", "Closed", "Completed"]], f"{path} is closed",
             patience)


def orders_are_given_once_and_nothing_else():
    """A part goes out, comes home and is closed, by two orders that nobody sends."""
    with three_houses(("job-17",)) as ((office, printers, _), _):
        start = time.monotonic()
        gives("office/job-17", COVER, "Spawned S1")
        until_so(lambda: lines_of("printers/press/job-17") == [["S1", "Open"]], "it goes out", SOON)
        out = time.monotonic() - start
        start = time.monotonic()
        gives("printers/press/job-17", FINISH, "Finished S1")
        closes("printers/press/job-17")
        home = time.monotonic() - start
        wants(run("show", "office/job-17")[1].count('"Name":"Merged"'), 1)
        print(f"  out within {out:.1f} s, home within {home:.1f} s")
        assert max(out, home) < 4, (out, home)
        # What was taken doesn't come again.
        time.sleep(3)
        wants((len(printers.told(1)), len(office.told(1))), (1, 1))
        wants((office.sent(), printers.sent()), (["job-17 S1 taken"], ["press/job-17 S1 taken"]))
        # After a start what is out is sent once, since it may have been lost.
        gives("office/job-17", spawn("text", "press", ["text.sections"]), "Spawned S2")
        until_so(lambda: len(printers.told(2)) == 2, "the second goes out", SOON)
        office.kill()
        office.start()
        until_so(lambda: len(printers.told(3)) == 3, "it is sent once more", SOON)
        time.sleep(3)
        wants(printers.told(3),
              [f"press/job-17 200 {what} from job-17" for what in ("Taken S1", "Taken S2", "Again S2")])


def a_server_that_is_started_later_has_it():
    """An order whose receiver isn't there yet, nor the server of its own house."""
    with three_houses(("job-17",)) as ((office, printers, _), _):
        printers.kill()
        office.kill()
        gives("office/job-17", COVER, "Spawned S1")
        office.start()
        time.sleep(2)
        printers.start()
        until_so(lambda: lines_of("printers/press/job-17") == [["S1", "Open"]], "it goes out", 15)
        until_so(lambda: "job-17 S1 taken" in office.sent(), "it is told", SOON)
        *before, last = office.sent()
        wants((set(before), last), ({"job-17 S1 not taken"}, "job-17 S1 taken"))


def a_house_that_does_not_know_the_sender():
    """What the other end says with its status stands in the log."""
    with three_houses(("job-17",)) as ((office, printers, _), _):
        put_peers("printers", {"bind": "http://127.0.0.1:9/jmf"})
        message = between(cover_from("mis"), "press", "job-17")
        until_so(lambda: asked(printers, request(message)) == 403, "the table is read", SOON)
        gives("office/job-17", COVER, "Spawned S1")
        until_so(lambda: "job-17 S1 not taken 403" in office.sent(), "it is told", SOON)


def a_house_that_speaks_is_back():
    """What waits for a house goes as a message comes from there, however long it would wait."""
    with three_houses(("job-17",)) as ((office, printers, _), _):
        gives("office/job-17", COVER, "Spawned S1")
        until_so(lambda: lines_of("printers/press/job-17") == [["S1", "Open"]], "it goes out", SOON)
        printers.kill()
        gives("office/job-17", spawn("text", "press", ["text.sections"]), "Spawned S2")
        until_so(lambda: office.ends().count("not taken") == 4, "8 seconds are waited", 20)
        gives("printers/press/job-17", FINISH, "Finished S1")
        printers.start()
        until_so(lambda: "job-17 S2 taken" in office.sent(), "it goes", 6)


def one_file_sends_what_is_out():
    """A master and a worker that are served by themselves, from files of any names."""
    begins_master("office", "mis")
    begins_worker("worker.json", "press", "mis")
    ports = {"mis": free_port(), "press": free_port()}
    with open("table", "w", encoding="utf-8") as file:
        json.dump({name: f"http://localhost:{port}/jmf" for name, port in ports.items()}, file)
    with House("office", ports["mis"], "--peers", "table"), \
            House("worker.json", ports["press"], "--peers", "table"):
        gives("office", COVER, "Spawned S1")
        until_so(lambda: lines_of("worker.json") == [["S1", "Open"]], "it goes out", SOON)
        gives("worker.json", FINISH, "Finished S1")
        closes("worker.json")
    wants(run("show", "office")[1].count('"Name":"Merged"'), 1)


def one_house_sends_to_itself():
    """A master and its workers in one folder, served by one process."""
    os.makedirs("shop/press")
    port = free_port()
    put_peers("shop", {"*": url_to(port)})
    begins_master("shop/job-17", "job-17")
    begins_worker("shop/bind", "bind", "job-17")
    with House("shop", port):
        for given, reply, path in ((COVER, "Spawned S1", "shop/press/job-17"),
                                   (FINISHING, "Spawned S2", "shop/bind")):
            gives("shop/job-17", given, reply)
            spawn_id = reply.split(" ")[1]
            until_so(lambda path=path: lines_of(path), "it goes out", SOON)
            gives(path, FINISH.replace("S1", spawn_id), f"Finished {spawn_id}")
            until_so(lambda path=path, spawn_id=spawn_id:
                     lines_of(path) == [[spawn_id, "Closed", "Completed"]], "it is home", SOON)
    wants(run("show", "shop/job-17")[1].count('"Name":"Merged"'), 2)


def a_job_that_is_away_holds_up_no_other():
    """Jobs whose files were moved away, or are locked, while their parts are out: what others have
    for the same press goes there as ever, and theirs once their files are back."""
    jobs = [f"job-{number}" for number in range(1, 8)]
    with three_houses(jobs) as ((_, printers, _), _):
        printers.kill()
        for job in jobs[:-1]:
            gives("office/" + job, COVER, "Spawned S1")
        time.sleep(2.5)
        os.mkdir("away")
        for job in jobs[:5]:
            os.rename("office/" + job, "away/" + job)
        with locked("office/job-6"):
            printers.start()
            gives("office/job-7", COVER, "Spawned S1")
            until_so(lambda: lines_of("printers/press/job-7"), "it goes out", SOON)
            # One more may have been under way before its file was moved, and no other.
            assert len(os.listdir("printers/press")) <= 2, os.listdir("printers/press")
        for job in jobs[:5]:
            os.rename("away/" + job, "office/" + job)
        until_so(lambda: sorted(os.listdir("printers/press")) == jobs, "all go out", 2 * SOON)


def what_is_refused_is_not_repeated():
    """A press that knows another master, and a part that is larger than the other end takes."""
    with three_houses(("job-17", "job-18"), options=("--body", "100000")) as (
            (office, printers, _), _):
        shutil.rmtree("printers/press")
        begins_worker("printers/press", "press", "job-18")
        gives("office/job-17", COVER, "Spawned S1")
        until_so(lambda: printers.told(1) == ["press 200 21 WrongSender"], "it is refused", SOON)
        large = {"Order": "Edit", "Edit": {"Edit": "Note", "Node": "cover", "Text": 1000 * "x"}}
        for _ in range(150):
            gives("office/job-18", json.dumps(large), "Edited")
        gives("office/job-18", COVER, "Spawned S1")
        until_so(lambda: len(printers.told(2)) == 2, "it is too large", SOON)
        wants(printers.told(2)[1], "- 413 53 TooLarge")
        time.sleep(4)
        wants(len(printers.told(2)), 2)
        wants(office.sent(), ["job-17 S1 refused", "job-18 S1 refused"])
        # Others of that house go out, and what was refused once more by hand alone.
        gives("office/job-18", spawn("text", "press", ["text.sections"]), "Spawned S2")
        until_so(lambda: lines_of("printers/press") == [["S2", "Open"]], "others go out", SOON)


def a_withdrawal_goes_once_by_its_order():
    """It isn't kept, so nobody but the order sends it; and what it frees goes out no more."""
    with three_houses(("job-17",)) as ((_, printers, binders), table):
        binders.kill()
        gives("office/job-17", FINISHING, "Spawned S1")
        withdraw = json.dumps({"Order": "Withdraw", "SpawnID": "S1"})
        given = ("order", "office/job-17", "--at", AT, "--send", table["bind"])
        wants(run(*given, given=withdraw)[:2], (4, "Asked S1\n"))
        # The courier tries until the house is back; a withdrawal that comes before is in time.
        binders.port = free_port()
        binders.start()
        wants(run(*given[:-1], binders.url(), given=withdraw), (0, "Asked S1\nFreed S1\n", ""))
        wants(lines_of("binders/bind/job-17"), [["S1", "Declined"]])
        told = len(binders.told(1))
        put_peers("office", {**table, "bind": binders.url()})
        time.sleep(4)
        wants(len(binders.told(told)), told)
        wants(printers.log(), "")


def a_receiver_moves():
    """What is out goes to where the peers' file has its receiver now: one that comes into the file
    later, and one whose URL was wrong while its part was under way."""
    with three_houses(("job-17", "job-18")) as ((office, printers, _), table), \
            socket.create_server(("127.0.0.1", 0)) as silent:
        put_peers("office", {"bind": table["bind"]})
        gives("office/job-17", COVER, "Spawned S1")
        time.sleep(3)
        wants((printers.log(), office.sent()), ("", []))
        put_peers("office", table)
        until_so(lambda: office.sent() == ["job-17 S1 taken"], "it goes to one that came", SOON)
        put_peers("office", {**table, "press": url_to(silent.getsockname()[1])})
        time.sleep(2)
        gives("office/job-18", COVER, "Spawned S1")
        with silent.accept()[0]:
            # The house is called by its name, which is looked up.
            moved = f"http://localhost:{printers.port}/jmf"
            put_peers("office", {**table, "press": moved})
            time.sleep(2)
        until_so(lambda: lines_of("printers/press/job-18") == [["S1", "Open"]], "it moves", SOON)
        until_so(lambda: "job-18 S1 taken" in office.sent(), "it is told", SOON)


def a_host_that_is_not_found_holds_up_no_other():
    nowhere = {"bind": "http://none.invalid/jmf"}
    with three_houses(("job-17", "job-18"), nowhere) as ((office, *_), _):
        gives("office/job-17", FINISHING, "Spawned S1")
        gives("office/job-18", COVER, "Spawned S1")
        until_so(lambda: "job-18 S1 taken" in office.sent(), "the other goes", SOON)
        until_so(lambda: "job-17 S1 not taken" in office.sent(), "that fails", SOON)


def a_peers_file_stands_in_the_place_of_a_url():
    """By `order --send` and `send` a message goes to the URL that the file has for its receiver."""
    with three_houses(("job-17",)) as ((office, printers, _), table):
        office.kill()
        given = ("order", "office/job-17", "--at", AT, "--send")
        missing = "Refused 59 LoadFailed: none: No such file or directory\n"
        wants(run(*given, "@none", given=COVER), (4, "", missing))
        wants(run(*given, "@office/job-17", given=COVER)[:2], (4, ""))
        lines = "Spawned S1\nNoted S1 Running\n"
        wants(run(*given, "@office/peers.json", given=COVER), (0, lines, ""))
        wants(lines_of("printers/press/job-17"), [["S1", "Open"]])
        message = cover_from("job-17")
        status, answer, told = run("send", "@office/peers.json", given=message)
        wants((status, told, '"Running"' in answer), (0, "", True))
        put_peers("office", {"bind": table["bind"]})
        unknown = "No URL is known for the receiver\n"
        wants(run("send", "@office/peers.json", given=message), (1, "", unknown))
        resend = json.dumps({"Order": "Resend", "SpawnID": "S1"})
        wants(run(*given, "@office/peers.json", given=resend), (1, "Sent S1\n", unknown))
        wants(run("send", "@office/peers.json", given="{}"), (3, "", "Refused 41 NotProfile\n"))
        wants(printers.told(2),
              [f"press/job-17 200 {what} from job-17" for what in ("Taken S1", "Again S1")])


def a_worker_is_begun_by_its_first_command():
    """The first command of a master that the peers' file knows begins the worker's file for it."""
    with three_houses(("job-17",)) as ((_, printers, _), _):
        wants(os.listdir("printers/press"), [])
        gives("office/job-17", COVER, "Spawned S1")
        until_so(lambda: os.path.exists("printers/press/job-17"), "it is begun", SOON)
        until_so(lambda: lines_of("printers/press/job-17") == [["S1", "Open"]], "it goes out", SOON)
        message = cover_from("job-17")
        wants(asked(printers, request(between(message, "press", "mis"))), 403)
        wants(asked(printers, request(between(message, "none", "job-18"))), 404)
        wants(asked(printers, request(between(message, "press", "job-1.8"))), 404)
        wants(os.listdir("printers/press"), ["job-17"])
        gives("printers/press/job-17", FINISH, "Finished S1")
        closes("printers/press/job-17")
        # An answer begins none.
        reply = answered(printers, message).split("\r\n\r\n")[1]
        wants(asked(printers, request(between(reply, "press", "job-19"))), 404)
        wants(os.listdir("printers/press"), ["job-17"])


# ---- destinations that harm


def a_destination_that_harms_holds_up_no_other():
    """Each of these has a part of one job and is tried again and again; what goes to others isn't
    held up. Where it is told of another URL it has its part."""
    jobs = ("job-1",)
    with contextlib.ExitStack() as stack:
        harmful = {name: stack.enter_context(Harmful(call)) for name, call in HARMS.items()}
        harmful["takes no connection"] = stack.enter_context(takes_no_connection())
        office_peers = {f"h{number}": one.url for number, one in enumerate(harmful.values())}
        (office, printers, _), table = stack.enter_context(three_houses(jobs, office_peers))
        opening = master_opening("job-2")
        opening["Workers"] = sorted(office_peers)
        nodes = [{"ID": f"m{number}", "JobPartID": f"p{number}", "Status": "Waiting",
                  "Type": "Folding"} for number in range(len(office_peers))]
        opening["Ticket"] = dict(processes.TICKET, JDF=nodes)
        begins("office/job-2", opening)
        for number in range(len(office_peers)):
            gives("office/job-2", spawn(f"m{number}", f"h{number}", []), f"Spawned S{number + 1}")
        time.sleep(3)
        start = time.monotonic()
        gives("office/job-1", COVER, "Spawned S1")
        until_so(lambda: lines_of("printers/press/job-1") == [["S1", "Open"]], "it goes out", SOON)
        gives("printers/press/job-1", FINISH, "Finished S1")
        closes("printers/press/job-1")
        took = time.monotonic() - start
        print(f"  beside {len(harmful)} that harm a part is home within {took:.1f} s")
        assert took < 8, took
        wants(office.process.poll(), None)
        time.sleep(max(0, 9 - took))
        counts = {name: one.count for name, one in harmful.items()}
        print(f"  connections within some twelve seconds: {counts}")
        for name, count in counts.items():
            # A wait of 1, 2 and 4 seconds: nobody is asked without a pause.
            held = name in ("drips", "is silent", "takes no connection")
            assert (name, count <= 1 if held else 2 <= count <= 6) == (name, True), counts
        mends(printers, table, sorted(office_peers, key=lambda name: int(name[1:])), harmful)


def mends(printers, table, names, harmful):
    """Those that failed at once are told of the press's house, and a part goes there."""
    quick = [name for name, one in zip(names, harmful)
             if one not in ("drips", "is silent", "takes no connection")]
    for name in quick:
        begins_worker("printers/" + name, name, "job-2")
    put_peers("office", {**table, **{name: printers.url() for name in names}})
    for name in quick:
        until_so(lambda name=name: len(lines_of("printers/" + name)) == 1,
                 f"{name} ({list(harmful)[int(name[1:])]}) has its part", 30)


# ---- a network that harms


def a_network_that_harms_and_servers_that_are_killed():
    days.goes_through(1, days.some_jobs(1, 2, 8, 8), MOST, days.kills, 15, 100)


def a_house_that_is_away():
    days.goes_through(2, days.some_jobs(2, 2, 8, 8), MOST, days.is_away, 15, 100)


TESTS = [
    a_message_leads_to_its_file,
    one_file_is_for_any_message,
    a_state_of_another_name_is_no_controller,
    new_begins_what_the_file_is_called,
    a_second_job_is_not_mistaken_for_the_first,
    what_cannot_be_served_is_not_begun,
    a_link_to_a_peers_file_is_one,
    a_name_that_no_field_can_have_is_refused,
    a_sender_is_who_it_says,
    no_page_in_a_browser_sends,
    a_sender_is_known,
    a_peers_file_is_read_again,
    orders_are_given_once_and_nothing_else,
    a_server_that_is_started_later_has_it,
    a_house_that_does_not_know_the_sender,
    a_house_that_speaks_is_back,
    one_file_sends_what_is_out,
    one_house_sends_to_itself,
    a_job_that_is_away_holds_up_no_other,
    what_is_refused_is_not_repeated,
    a_withdrawal_goes_once_by_its_order,
    a_receiver_moves,
    a_host_that_is_not_found_holds_up_no_other,
    a_peers_file_stands_in_the_place_of_a_url,
    a_worker_is_begun_by_its_first_command,
    a_destination_that_harms_holds_up_no_other,
    a_network_that_harms_and_servers_that_are_killed,
    a_house_that_is_away,
]


def long_tests(args):
    """The days of --long."""
    jobs = days.some_jobs(args.seed, args.jobs, 1, 4)

    def a_long_day_on_which_servers_are_killed():
        days.goes_through(args.seed, jobs, math.inf, days.kills, 300, args.patience)

    def a_long_day_on_which_a_house_is_away():
        days.goes_through(args.seed, jobs, math.inf, days.is_away, 60, args.patience)
    return [a_long_day_on_which_servers_are_killed, a_long_day_on_which_a_house_is_away]


def timed(test, seconds):
    """Whether a test passes within so many seconds."""
    def late(*_):
        raise AssertionError(f"no end within {seconds} s")
    start = time.monotonic()
    signal.signal(signal.SIGALRM, late)
    signal.alarm(seconds)
    try:
        return processes.passes(test)
    finally:
        signal.alarm(0)
        print(f"  {time.monotonic() - start:.1f} s", flush=True)


def arguments():
    parser = argparse.ArgumentParser()
    parser.add_argument("program")
    parser.add_argument("--only", default="")
    parser.add_argument("--long", action="store_true")
    parser.add_argument("--seed", type=int, default=1)
    parser.add_argument("--jobs", type=int, default=40)
    parser.add_argument("--patience", type=int, default=120)
    return parser.parse_args()


def main():
    args = arguments()
    processes.install(args.program)
    start = time.monotonic()
    tests = [test for test in (long_tests(args) if args.long else TESTS)
             if args.only in test.__name__]
    seconds = 600 + args.patience if args.long else 120
    passed = sum([timed(test, seconds) for test in tests])
    shutil.rmtree(os.path.dirname(PROGRAM))
    print(f"house: {passed} passed, {len(tests) - passed} failed, "
          f"{time.monotonic() - start:.0f} s")
    sys.exit(passed != len(tests))


if __name__ == "__main__":
    main()
