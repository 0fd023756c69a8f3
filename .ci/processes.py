#!/usr/bin/env python3
"""What only processes and real files show of the program: processes.py PROGRAM

Each test runs the program in a folder of its own. The last line says how many passed.
"""
import contextlib
import json
import os
import random
import re
import shutil
import socket
import stat
import subprocess
import sys
import tempfile
import time

# A copy that any user may run.
PROGRAM = os.path.join(tempfile.mkdtemp(), "jdf_cli")
HERE = os.path.dirname(os.path.realpath(__file__))
EXAMPLES = os.path.join(os.path.dirname(HERE), "examples")
AT = "1782806400"
TICKET = {"ID": "n0", "JobID": "J0", "JobPartID": "p0", "Status": "Waiting", "Type": "Product"}
OPENING = json.dumps({"Master": "mis", "Workers": ["press"], "Ticket": TICKET})
KILLS = 1000
AT_ONCE = 100


def attribute(name, value="x"):
    """The order that sets an attribute of the root."""
    edit = {"Edit": "SetAttr", "Node": "n0", "Name": name, "Value": value}
    return json.dumps({"Order": "Edit", "Edit": edit})


def run(*words, given="", out=subprocess.PIPE):
    """The status of a command, its output, and what it told."""
    ran = subprocess.run([PROGRAM, *words], input=given.encode(), stdout=out, stderr=subprocess.PIPE)
    return ran.returncode, (ran.stdout or b"").decode(), ran.stderr.decode()


def wants(got, wanted):
    assert got == wanted, f"got {got!r}, wanted {wanted!r}"


def content(path):
    with open(path, "rb") as file:
        return file.read()


def begin(file="mis"):
    wants(run("new", file, given=OPENING), (0, "", ""))


# ---- one command


def node(name, children=()):
    """A node as it is printed."""
    return {"Attr": {}, "AuditPool": [], "ID": name, "JDF": list(children), "JobPartID": "p",
            "ResourceLinkPool": [], "ResourcePool": [], "Status": "Waiting", "Type": "Folding"}


def a_chain_with_many_children_keeps_its_text():
    """A chain of 32 nodes, of which the last but one has 2,000 other children, comes as it went but
    for what is edited."""
    children = [node("n32"), *(node(f"m{number}") for number in range(2000))]
    ticket = lowest = node("n31", children)
    for level in range(30, 0, -1):
        ticket = node(f"n{level}", [ticket])
    ticket["JobID"] = "J1"
    added = {"Edit": "AddNode", "JobPartID": "p", "Status": "Waiting", "Type": "Folding"}
    edits = [{"Edit": "SetStatus", "Node": "m1999", "Status": "Ready"},
             dict(added, ID="m2000", Node="n31"), dict(added, ID="n33", Node="n32")]
    given = json.dumps({"At": 1, "Edits": edits, "Ticket": ticket})
    children[-1]["Status"] = "Ready"
    lowest["JDF"].append(node("m2000"))
    text = json.dumps(ticket, sort_keys=True, separators=(",", ":"))
    wants(run("edit", given=given), (1, f"Edited\nEdited\nRefused 4 TooDeep\n{text}\n", ""))


def a_step_is_held_where_its_lines_cannot_be_written():
    begin()
    with open("/dev/full", "wb") as full:
        wants(run("order", "mis", "--at", AT, given=attribute("A"), out=full)[::2],
              (4, "Refused 56 WriteFailed\n"))
    assert '"A":"x"' in run("show", "mis")[1]


def a_folder_holds_no_controller():
    os.mkdir("mis")
    wants(run("new", "mis", given=OPENING), (4, "", "Refused 57 SaveFailed\n"))
    for words in (["order", "mis", "--at", AT], ["take", "mis", "--at", AT], ["show", "mis"]):
        wants(run(*words, given=attribute("A")), (4, "", "Refused 59 LoadFailed\n"))
    wants(os.listdir("mis"), [])


def a_link_is_refused():
    begin("there")
    before = content("there")
    os.symlink("there", "mis")
    status, text, told = run("order", "mis", "--at", AT, given=attribute("A"))
    assert (status, text) == (4, "") and told in ("Refused 57 SaveFailed\n", "Refused 59 LoadFailed\n")
    assert os.path.islink("mis")
    wants(content("there"), before)
    os.remove("mis")
    os.symlink("nowhere", "mis")
    wants(run("new", "mis", given=OPENING), (4, "", "Refused 57 SaveFailed\n"))
    assert not os.path.exists("nowhere")


def as_nobody(*words, given=""):
    """A command run by a user who is not root, for whom permissions count."""
    def give_up_root():
        if os.getuid() == 0:
            os.setgid(65534)
            os.setuid(65534)
    ran = subprocess.run([PROGRAM, *words], input=given.encode(), capture_output=True, preexec_fn=give_up_root)
    return ran.returncode, ran.stdout.decode(), ran.stderr.decode()


def is_refused_unchanged(given):
    """An order to `mis` is refused, and what was there is there, alone."""
    before = content("mis")
    status, text, told = as_nobody("order", "mis", "--at", AT, given=given)
    wants((status, text), (4, ""))
    assert told in ("Refused 57 SaveFailed\n", "Refused 59 LoadFailed\n"), told
    wants(content("mis"), before)
    wants(os.listdir("."), ["mis"])


def a_file_that_may_not_be_written_is_refused():
    begin()
    os.chmod("mis", 0o444)
    os.chmod(".", 0o777)
    is_refused_unchanged(attribute("A"))


def a_folder_that_may_not_be_written_is_refused():
    begin()
    os.chmod("mis", 0o666)
    os.chmod(".", 0o755)
    if os.getuid() != 0:
        os.chmod(".", 0o555)
    is_refused_unchanged(attribute("A"))
    os.chmod(".", 0o755)


def input_is_refused_before_the_save_fails():
    begin()
    os.chmod("mis", 0o666)
    os.chmod(".", 0o755)
    status, text, told = as_nobody("order", "mis", "--at", AT, given="{")
    wants((status, text, told), (3, "", "Refused 40 NotJson\n"))


def permissions_stay():
    begin()
    os.chmod("mis", 0o640)
    wants(run("order", "mis", "--at", AT, given=attribute("A"))[0], 0)
    wants(stat.S_IMODE(os.stat("mis").st_mode), 0o640)
    wants(os.listdir("."), ["mis"])


def what_a_killed_command_left_is_replaced():
    begin()
    with open("mis.new", "wb") as left:
        left.write(b'{"Master"')
    wants(run("order", "mis", "--at", AT, given=attribute("A")), (0, "Edited\n", ""))
    wants(os.listdir("."), ["mis"])


# ---- commands beside each other


def commands_at_once_lose_nothing():
    begin()
    started = []
    for number in range(AT_ONCE):
        command = [PROGRAM, "order", "mis", "--at", AT]
        started.append(subprocess.Popen(command, stdin=subprocess.PIPE, stdout=subprocess.PIPE))
        started[-1].stdin.write(attribute(f"A{number}").encode())
        started[-1].stdin.close()
    for command in started:
        wants((command.stdout.read(), command.wait()), (b"Edited\n", 0))
    shown = json.loads(run("show", "mis")[1])
    wants(sorted(shown["Attr"]), sorted(f"A{number}" for number in range(AT_ONCE)))
    wants(os.listdir("."), ["mis"])


def new_at_once_begins_one():
    started = []
    for number in range(20):
        # A file, since nothing is read where FILE is there already.
        with tempfile.TemporaryFile() as opening:
            opening.write(json.dumps({"Master": f"mis{number}", "Worker": "press"}).encode())
            opening.seek(0)
            command = [PROGRAM, "new", "press"]
            started.append(subprocess.Popen(command, stdin=opening, stderr=subprocess.PIPE))
    ends = [(command.stderr.read(), command.wait()) for command in started]
    wants(sorted(ends), [(b"", 0)] + 19 * [(b"Refused 57 SaveFailed\n", 4)])
    first = ends.index((b"", 0))
    wants(json.loads(content("press"))["Worker"]["Master"], f"mis{first}")
    wants(os.listdir("."), ["press"])


def a_command_that_waits_is_not_in_the_way():
    begin()
    waiting = subprocess.Popen([PROGRAM, "order", "mis", "--at", AT], stdin=subprocess.PIPE,
                               stdout=subprocess.PIPE)
    time.sleep(0.2)
    waiting.kill()
    waiting.wait()
    wants(run("order", "mis", "--at", AT, given=attribute("A")), (0, "Edited\n", ""))


# ---- a whole job


def job():
    """The commands of a day on `mis`, each with its input."""
    spawn = json.dumps({"Order": "Spawn", "Node": "n1", "Worker": "press", "RW": []})
    add = {"Edit": "AddNode", "Node": "n0", "ID": "n1", "JobPartID": "p1", "Status": "Waiting",
           "Type": "Cutting"}
    orders = [attribute(f"B{number}", "y" * 900) for number in range(8)]
    orders += [json.dumps({"Order": "Edit", "Edit": add}), spawn]
    orders += [json.dumps({"Order": "Resend", "SpawnID": "S1"})]
    return [(["order", "mis", "--at", str(int(AT) + step)], given) for step, given in enumerate(orders)]


def the_day_of_the_brochure():
    with open(os.path.join(EXAMPLES, "shop.json"), encoding="utf-8") as script:
        status, world, told = run("world", given=script.read())
    wants((status, told), (0, ""))
    *lines, ticket = world.splitlines()
    # Two events are nothing that a shop types: the master is started again, and it is stopped
    # before it has stored a step.
    lines = [line.split(" #")[0] for line in lines if line not in ("Restarted", "Stopped")]
    day = subprocess.run([os.path.join(EXAMPLES, "shop", "day.sh"), PROGRAM, "shop"],
                         capture_output=True, check=True)
    wants(day.stdout.decode().splitlines(), lines + [ticket])


def kill_within(seconds, words, given):
    """Runs a command, and kills it then."""
    command = subprocess.Popen([PROGRAM, *words], stdin=subprocess.PIPE, stdout=subprocess.DEVNULL,
                               stderr=subprocess.DEVNULL)
    command.stdin.write(given.encode())
    command.stdin.close()
    time.sleep(seconds)
    command.kill()
    command.wait()


def a_killed_command_leaves_the_old_or_the_new():
    begin()
    commands = job()
    states = [content("mis")]
    took = 0.0
    for words, given in commands:
        start = time.monotonic()
        status, _, told = run(*words, given=given)
        took = max(took, time.monotonic() - start)
        wants((status, told), (0, ""))
        states.append(content("mis"))
    chance = random.Random(7)
    kills = old = new = 0
    while kills < KILLS:
        with open("mis", "wb") as file:
            file.write(states[0])
        for step, (words, given) in enumerate(commands):
            while content("mis") == states[step] and kills < KILLS:
                # At a moment of the command, or behind its end.
                kill_within(1.5 * took * chance.random(), words, given)
                kills += 1
                held = content("mis")
                assert held in (states[step], states[step + 1]), "neither the old nor the new"
                old, new = old + (held == states[step]), new + (held != states[step])
            if content("mis") == states[step]:
                run(*words, given=given)
            assert content("mis") == states[step + 1]
            wants(run("show", "mis")[::2], (0, ""))
    wants(content("mis"), states[-1])
    assert old and new, (old, new)
    print(f"  {kills} commands killed: {old} left the old state, {new} the new")


# ---- controllers that are served


LINE = re.compile(r"[1-9]\d* [\d.]+:[1-9]\d* (\S.*) \d+ ms")


def told_of(line):
    """What a line of a server tells, without the time, the client, and how long that was there."""
    found = LINE.fullmatch(line)
    assert found, f"a line {line!r}"
    return found[1]


class Served:
    """A controller in a file that is served, on a port that stays where it is started again."""

    def __init__(self, file, *options):
        self.file = file
        self.options = options
        self.port = 0
        self.start()

    def command(self):
        return [PROGRAM, "serve", self.file, "--listen", f"127.0.0.1:{self.port}", *self.options]

    def start(self):
        with open(self.file + ".log", "ab") as log:
            self.process = subprocess.Popen(self.command(), stdout=subprocess.PIPE, stderr=log)
        line = self.process.stdout.readline().decode()
        assert line.startswith("Listening on 127.0.0.1:"), line
        self.port = int(line.rsplit(":", 1)[1])

    def kill(self):
        self.process.kill()
        self.process.wait()
        self.process.stdout.close()

    def url(self, target="/jmf"):
        return f"http://127.0.0.1:{self.port}{target}"

    def connect(self):
        return socket.create_connection(("127.0.0.1", self.port), timeout=30)

    def log(self, count=0):
        """What it told, once that has so many lines: a line comes behind its response."""
        until = time.monotonic() + 30
        while True:
            text = content(self.file + ".log").decode()
            if text.count("\n") >= count or time.monotonic() > until:
                return text
            time.sleep(0.01)

    def told(self, count):
        """What is told of so many requests, without the times and the clients."""
        return [told_of(line) for line in self.log(count).splitlines()]

    def __enter__(self):
        return self

    def __exit__(self, *fault):
        self.kill()


def request(body, head="", target="/jmf"):
    """The bytes of a request that posts a body."""
    return f"POST {target} HTTP/1.1\r\nHost: h\r\n{head}Content-Length: {len(body)}\r\n\r\n{body}".encode()


def response(connection):
    """All that comes until the connection is closed."""
    parts = []
    while part := connection.recv(65536):
        parts.append(part)
    return b"".join(parts).decode()


def status_in(text):
    """The status of a response."""
    found = re.match(r"HTTP/1\.1 (\d{3}) ", text)
    assert found, f"no response: {text[:200]!r}"
    return int(found[1])


def asked(served, given):
    """The status of the response to these bytes."""
    with served.connect() as connection:
        connection.sendall(given)
        return status_in(response(connection))


def order(name, given):
    """The reply to an order, and the message that goes out."""
    _, lines, told = run("order", name, "--at", AT, given=given)
    wants(told, "")
    return (lines.splitlines() + [""])[:2]


def send(served, message, target="/jmf"):
    """The answer to a message."""
    status, answer, told = run("send", served.url(target), given=message)
    wants((status, told), (0, ""))
    return answer


def open_shop():
    for name in ("mis", "press", "bindery"):
        with open(os.path.join(EXAMPLES, "shop", name + ".json"), encoding="utf-8") as opening:
            wants(run("new", name, given=opening.read()), (0, "", ""))


def spawn(node, worker, names):
    return json.dumps({"Order": "Spawn", "Node": node, "Worker": worker, "RW": names})


def at_press(**edit):
    return json.dumps({"Order": "Edit", "SpawnID": "S1", "Edit": edit})


RESEND = json.dumps({"Order": "Resend", "SpawnID": "S2"})
FINISH = json.dumps({"Order": "Finish", "SpawnID": "S1", "Status": "Completed"})


def the_day(hand):
    """The day of the brochure, where `hand` hands a controller a message. Answers the ticket."""
    cover = order("mis", spawn("cover", "press", ["cover.sheets"]))[1]
    order("mis", spawn("text", "press", ["text.sections"]))
    text = order("mis", RESEND)[1]
    for message in (cover, text, cover):
        hand("press", message)
    order("press", at_press(Edit="SetStatus", Node="cover.print", Status="Completed"))
    order("press", at_press(Edit="SetResStatus", Resource="cover.sheets", Status="Available"))
    back = order("press", FINISH)[1]
    hand("mis", back)
    hand("mis", back)
    finish = order("mis", spawn("finish", "bindery", ["brochures"]))[1]
    hand("bindery", finish)
    # The times of messages are those of the clock.
    return re.sub(r"\d{10}", "T", run("show", "mis")[1])


def a_day_over_the_network():
    open_shop()
    by_hand = the_day(lambda name, message: run("take", name, "--at", AT, given=message))
    for name in ("mis", "press", "bindery"):
        os.remove(name)
    open_shop()
    with Served("mis") as mis, Served("press") as press, Served("bindery") as bindery:
        shop = {"mis": mis, "press": press, "bindery": bindery}
        wants(the_day(lambda name, message: send(shop[name], message)), by_hand)
        wants(press.told(3), ["press 200 Taken S1 from mis", "press 200 Taken S2 from mis",
                             "press 200 Again S1 from mis"])


def a_slow_client_is_cut_off():
    open_shop()
    message = order("mis", spawn("cover", "press", ["cover.sheets"]))[1]
    with Served("press", "--limit", "2") as press, press.connect() as slow:
        start = time.monotonic()
        slow.sendall(b"POST /jmf HTTP/1.1\r\nHost: h\r\n")
        # The file is free while a client drips, and the others are answered.
        assert send(press, message)
        wants(run("show", "press")[0], 0)
        wants(press.told(1), ["press 200 Taken S1 from mis"])
        assert time.monotonic() - start < 1.5, "another waits for a slow client"
        while time.monotonic() - start < 10:
            try:
                slow.sendall(b"x")
            except OSError:
                break
            time.sleep(0.1)
        assert 1.5 < time.monotonic() - start < 6, "cut off at another time"
        wants(press.told(2), ["press 200 Taken S1 from mis", "- no request"])


def many_clients_at_once():
    open_shop()
    message = order("mis", spawn("cover", "press", ["cover.sheets"]))[1]
    garbage = [b"", b"\x00" * 9000, b"GET / HTTP/1.1\r\nHost: h\r\n\r\n", request("{}")]
    wanted = {1: 400, 2: 405, 3: 400}
    with Served("press", "--limit", "2") as press:
        clients = []
        for number in range(128):
            kind = number % 8
            clients.append((kind, press.connect()))
            clients[-1][1].sendall(garbage[kind] if kind < 4 else request(message))
            if kind == 0:
                clients[-1][1].close()
        for kind, client in clients:
            if kind:
                status = status_in(response(client))
                client.close()
                wants(status, wanted.get(kind, 200))
    wants(len(run("show", "press")[1].splitlines()), 1)


def an_early_answer_comes_to_the_client():
    begin()
    with Served("mis") as mis:
        wants(asked(mis, b"PUT / HTTP/1.1\r\nHost: h\r\nContent-Length: 300000\r\n\r\n" + 300000 * b"x"), 405)
        wants(asked(mis, b"POST / HTTP/1.1\r\nHost: h\r\n\r\n"), 411)
        wants(asked(mis, b"POST / HTTP/1.1\r\nHost: h\r\nContent-Length: 67108865\r\n\r\n" + 400000 * b"x"), 413)
        wants(asked(mis, request("", "Transfer-Encoding: chunked\r\n")), 501)


def what_cannot_be_served_is_told():
    missing = "Refused 59 LoadFailed: mis: No such file or directory\n"
    wants(run("serve", "mis", "--listen", "127.0.0.1:0"), (4, "", missing))
    with open("mis", "w", encoding="utf-8") as file:
        file.write("{}")
    wants(run("serve", "mis", "--listen", "127.0.0.1:0")[0], 4)
    os.remove("mis")
    begin()
    wants(run("serve", "mis", "--listen", "nowhere")[::2],
          (4, "Refused 61 NoConnection: nowhere: invalid socket address\n"))
    for option, number in (("--clients", "0"), ("--clients", "65537"), ("--body", "0"),
                           ("--body", "1073741825"), ("--memory", "1048575"), ("--limit", "3601")):
        wants(run("serve", "mis", "--listen", "127.0.0.1:0", option, number)[:2], (2, ""))
    with Served("mis", "--requests", "2") as mis:
        os.rename("mis", "away")
        wants(asked(mis, request("{}")), 503)
        os.rename("away", "mis")
        wants(asked(mis, request("{}")), 400)
        wants(mis.process.wait(), 0)


def a_folder_is_served():
    open_shop()
    os.mkdir("shop")
    for name in ("mis", "press", "bindery"):
        os.rename(name, "shop/" + name)
    cover = order("shop/mis", spawn("cover", "press", ["cover.sheets"]))[1]
    finish = order("shop/mis", spawn("finish", "bindery", ["brochures"]))[1]
    with Served("shop") as shop:
        # The message tells for whom it is, and the target isn't looked at.
        answers = [send(shop, cover), send(shop, finish, "/jmf/press")]
        for answer, given in zip(answers, (cover, finish)):
            wants(json.loads(answer)["JMF"]["Response"]["refID"], json.loads(given)["JMF"]["Command"]["ID"])
            send(shop, answer, "/bindery")
        wants(asked(shop, request(cover, target="/mis?bindery#none")), 200)
        wants(asked(shop, request("{}", target="/jmf/press")), 400)
        missing = cover.replace('"ReceiverID":"press"', '"ReceiverID":"none"')
        wants(asked(shop, request(missing, target="/press")), 404)
        told = {"press 200 Taken S1 from mis", "bindery 200 Taken S2 from mis",
                "mis 200 Noted S1 from press", "mis 200 Noted S2 from bindery",
                "press 200 Again S1 from mis", "- 400 41 NotProfile", "- 404"}
        # Of clients at one moment the lines may come in any order.
        wants(set(shop.told(7)), told)
    for name in ("press", "bindery"):
        wants(len(run("show", "shop/" + name)[1].splitlines()), 1)


def one_file_is_served_whatever_the_target():
    open_shop()
    message = order("mis", spawn("cover", "press", ["cover.sheets"]))[1]
    with Served("press") as press:
        for target in ("/", "/..", "/jmf/none", "/mis", "?", "*", "/#"):
            wants(asked(press, request(message, target=target)), 200)
    wants(len(run("show", "press")[1].splitlines()), 1)


def what_cannot_be_sent_is_told():
    no_url = "isn't of the form http://host[:port]/path"
    for url in ("press", "ftp://press/jmf", "http://press/jmf?a=b", "http://a:b@press/jmf"):
        status, text, told = run("send", url, given="{}")
        assert (status, text) == (2, "") and no_url in told, told
    with socket.socket() as free:
        free.bind(("127.0.0.1", 0))
        closed = f"http://127.0.0.1:{free.getsockname()[1]}/jmf"
        refused = f"Refused 61 NoConnection: {closed[7:-4]}: Connection refused\n"
        wants(run("send", closed, given="{}"), (4, "", refused))
    wants(run("send", "http://127.0.0.1:1/jmf", "nofile"),
          (4, "", "Refused 55 ReadFailed: nofile: No such file or directory\n"))
    wants(run("send", "http://127.0.0.1:1/jmf", given=1048577 * " "), (3, "", "Refused 53 TooLarge\n"))
    begin()
    with Served("mis") as mis:
        wants(run("send", mis.url(), given="{"), (1, "", "Refused by the controller: 400\n"))


def a_silent_server_is_given_up():
    """One that takes the message and says nothing, and one that drips its response, for 30 s."""
    with socket.create_server(("127.0.0.1", 0)) as silent, socket.create_server(("127.0.0.1", 0)) as slow:
        start = time.monotonic()
        senders = [subprocess.Popen([PROGRAM, "send", f"http://127.0.0.1:{server.getsockname()[1]}/jmf"],
                                    stdin=subprocess.PIPE, stdout=subprocess.PIPE, stderr=subprocess.PIPE)
                   for server in (silent, slow)]
        for sender in senders:
            sender.stdin.write(b"{}")
            sender.stdin.close()
        drips = slow.accept()[0]
        drips.sendall(b"HTTP/1.1 200 OK\r\nServer: ")
        while senders[1].poll() is None and time.monotonic() - start < 60:
            with contextlib.suppress(OSError):
                drips.sendall(b"s")
            time.sleep(0.5)
        for sender, server in zip(senders, (silent, slow)):
            ended = (sender.wait(60), sender.stdout.read(), sender.stderr.read().decode())
            address = f"127.0.0.1:{server.getsockname()[1]}"
            wants(ended, (4, b"", f"Refused 55 ReadFailed: {address}\n"))
        assert 29 < time.monotonic() - start < 40


def a_killed_server_merges_once():
    """Each server is killed ten times at random while it is sent a message."""
    open_shop()
    chance = random.Random(11)
    answers = kills = 0
    with Served("press") as press, Served("mis") as mis:
        start = time.monotonic()
        run("send", press.url(), given="{}")
        took = time.monotonic() - start
        for number, node in enumerate(("cover", "text")):
            names = {"cover": ["cover.sheets"], "text": ["text.sections"]}[node]
            message = order("mis", spawn(node, "press", names))[1]
            back = None
            for served in (press, mis):
                for _ in range(10):
                    sending = subprocess.Popen([PROGRAM, "send", served.url()], stdin=subprocess.PIPE,
                                               stdout=subprocess.DEVNULL, stderr=subprocess.DEVNULL)
                    sending.stdin.write((back or message).encode())
                    sending.stdin.close()
                    # At a moment of the message, or behind its end: a step takes longer than none.
                    time.sleep(4 * took * chance.random())
                    served.kill()
                    kills += 1
                    answers += sending.wait() == 0
                    served.start()
                send(served, back or message)
                if served is press:
                    finish = {"Order": "Finish", "SpawnID": f"S{number + 1}", "Status": "Completed"}
                    back = order("press", json.dumps(finish))[1]
    ticket = run("show", "mis")[1]
    wants([ticket.count('"Merged"'), "S3" in ticket], [2, False])
    assert 0 < answers < kills, answers
    print(f"  {kills} servers killed, {answers} messages answered before")


def an_order_goes_out_and_its_answer_is_taken():
    open_shop()
    cover = spawn("cover", "press", ["cover.sheets"])
    finish = json.dumps({"Order": "Finish", "SpawnID": "S1", "Status": "Completed"})
    with Served("press") as press, Served("mis") as mis:
        given = ("order", "mis", "--at", AT, "--send", press.url())
        wants(run(*given, given=cover), (0, "Spawned S1\nNoted S1 Running\n", ""))
        wants(run("show", "press")[1].split(" ")[:2], ["S1", "Open"])
    given = ("order", "press", "--at", AT, "--send", mis.url())
    refused = f"Refused 61 NoConnection: 127.0.0.1:{mis.port}: Connection refused\n"
    wants(run(*given, given=finish), (4, "Finished S1\n", refused))
    resend = json.dumps({"Order": "Resend", "SpawnID": "S1"})
    with Served("bindery") as other:
        given = ("order", "press", "--at", AT, "--send", other.url())
        wants(run(*given, given=resend), (1, "Sent S1\nRefused 21 WrongSender\n", ""))
        os.rename("bindery", "away")
        told = "Refused by the controller: 503\n"
        wants(run(*given, given=resend), (1, "Sent S1\n", told))
    with Served("mis") as mis:
        given = ("order", "press", "--at", AT, "--send", mis.url())
        wants(run(*given, given=resend), (0, "Sent S1\nAcked S1 Completed\n", ""))
        wants(run("show", "press"), (0, "S1 Closed Completed\n", ""))
        wants(run(*given, given=resend)[:2], (1, "Refused 37 Acknowledged\n"))
        wants(run(*given, given=finish)[:2], (1, "Refused 31 NotOpen\n"))


def what_a_worker_has_not_begun_is_had_back():
    open_shop()
    late = order("mis", spawn("finish", "bindery", ["brochures"]))[1]
    withdraw = json.dumps({"Order": "Withdraw", "SpawnID": "S1"})
    with Served("bindery") as bindery:
        given = ("order", "mis", "--at", AT, "--send", bindery.url())
        wants(run(*given, given=withdraw), (0, "Asked S1\nFreed S1\n", ""))
        wants(run("show", "bindery"), (0, "S1 Declined\n", ""))
        status, answer, told = run("send", bindery.url(), given=late)
        wants((status, told), (1, "Refused 38 Declined by bindery\n"))
        wants(run("take", "mis", "--at", AT, given=answer), (0, "Noted S1\n", ""))
        wants(run("show", "bindery"), (0, "S1 Declined\n", ""))
        wants(run(*given, given=withdraw)[:2], (1, "Refused 16 NotOut\n"))
    wants(order("mis", spawn("finish", "press", ["brochures"]))[0], "Spawned S2")


def orders_beside_a_server_lose_nothing():
    begin()
    with Served("mis") as mis:
        for number in range(40):
            wants(order("mis", attribute(f"A{number}"))[0], "Edited")
            wants(asked(mis, request("{}")), 400)
    shown = json.loads(run("show", "mis")[1])
    wants(sorted(shown["Attr"]), sorted(f"A{number}" for number in range(40)))


TESTS = [
    a_chain_with_many_children_keeps_its_text,
    a_step_is_held_where_its_lines_cannot_be_written,
    a_folder_holds_no_controller,
    a_link_is_refused,
    a_file_that_may_not_be_written_is_refused,
    a_folder_that_may_not_be_written_is_refused,
    input_is_refused_before_the_save_fails,
    permissions_stay,
    what_a_killed_command_left_is_replaced,
    commands_at_once_lose_nothing,
    new_at_once_begins_one,
    a_command_that_waits_is_not_in_the_way,
    the_day_of_the_brochure,
    a_killed_command_leaves_the_old_or_the_new,
    a_day_over_the_network,
    a_slow_client_is_cut_off,
    many_clients_at_once,
    an_early_answer_comes_to_the_client,
    what_cannot_be_served_is_told,
    a_folder_is_served,
    one_file_is_served_whatever_the_target,
    what_cannot_be_sent_is_told,
    a_silent_server_is_given_up,
    a_killed_server_merges_once,
    an_order_goes_out_and_its_answer_is_taken,
    what_a_worker_has_not_begun_is_had_back,
    orders_beside_a_server_lose_nothing,
]


def passes(test):
    """Whether a test passes, in a folder of its own."""
    folder = tempfile.mkdtemp()
    os.chdir(folder)
    try:
        test()
        print(f"{test.__name__} ... ok")
        return True
    except (AssertionError, subprocess.SubprocessError, OSError) as fault:
        print(f"{test.__name__} ... FAILED: {str(fault)[:600]}")
        return False
    finally:
        os.chdir("/")
        os.chmod(folder, 0o755)
        shutil.rmtree(folder)


def install(program):
    shutil.copyfile(program, PROGRAM)
    os.chmod(PROGRAM, 0o755)
    os.chmod(os.path.dirname(PROGRAM), 0o755)


def main():
    install(sys.argv[1])
    passed = sum([passes(test) for test in TESTS])
    shutil.rmtree(os.path.dirname(PROGRAM))
    print(f"processes: {passed} passed, {len(TESTS) - passed} failed")
    sys.exit(passed != len(TESTS))


if __name__ == "__main__":
    main()
