#!/usr/bin/env python3
"""What `--journal` keeps: journal.py PROGRAM [--only WORD]

A line for each step that was saved, in the order of the steps, from several processes at once and
from a server; commands and servers that are killed; and journals that can't be opened or written.
Each test runs the program in a folder of its own. The last line says how many passed.
"""
import argparse
import concurrent.futures
import contextlib
import json
import os
import random
import shutil
import subprocess
import sys
import tempfile
import time

import processes
from processes import (AT, PROGRAM, Served, asked, attribute, begin, content, open_shop, request, run,
                       spawn, wants)

BY = f"uid:{os.getuid()}"
AT_ONCE = 200
KILLS = 300
WORKERS = 16
COVER = spawn("cover", "press", ["cover.sheets"])


def lines_of(journal="journal"):
    """The lines of a journal, each of which is compact JSON with its names in order."""
    text = content(journal).decode()
    assert text == "" or text.endswith("\n"), text[-200:]
    lines = [json.loads(line) for line in text.splitlines()]
    wants(text, "".join(json.dumps(line, sort_keys=True, separators=(",", ":")) + "\n"
                        for line in lines))
    return lines


def line(by, controller, what, reply, at, spawn_id=None):
    told = {"By": by, "Controller": controller, "Reply": reply, "Time": int(at), "What": what}
    return dict(told, SpawnID=spawn_id) if spawn_id else told


def note(text="n"):
    return json.dumps({"Order": "Edit", "Edit": {"Edit": "Note", "Node": "n0", "Text": text}})


def noted_at(file="mis"):
    """When the notes of the root were made, in the order of the steps."""
    return [audit["TimeStamp"] for audit in json.loads(run("show", file)[1])["AuditPool"]]


# ---- one command


def what_is_no_journal_is_left():
    """A file that begins as no journal does gets no line: a controller's state would be lost."""
    begin()
    with open("peers.json", "w", encoding="utf-8") as peers:
        peers.write('{"mis":"http://127.0.0.1:9/jmf"}')
    for name in ("mis", "peers.json"):
        before = content(name)
        told = f"Refused 57 SaveFailed: {name}: it is no journal\n"
        wants(run("order", "mis", "--at", AT, "--journal", name, given=note()), (4, "", told))
        wants(run("serve", "mis", "--listen", "127.0.0.1:0", "--journal", name), (4, "", told))
        wants(content(name), before)
    with open("journal", "w", encoding="utf-8") as journal:
        journal.write('{"By":"ui')
    wants(run("order", "mis", "--at", AT, "--journal", "journal", given=note()), (0, "Edited\n", ""))
    assert content("journal").startswith(b'{"By":"ui\n{"By":"uid:'), content("journal")


def each_step_has_its_line():
    open_shop()
    words = ("--journal", "journal")
    status, text, told = run("order", "mis", "--at", AT, *words, given=COVER)
    wants((status, text.splitlines()[0], told), (0, "Spawned S1", ""))
    message = text.splitlines()[1]
    status, text, told = run("take", "press", "--at", "1782806401", *words, given=message)
    wants((status, text.splitlines()[0], told), (0, "Taken S1", ""))
    answer = text.splitlines()[1]
    wants(run("take", "mis", "--at", "1782806402", *words, given=answer), (0, "Noted S1\n", ""))
    status, text, told = run("order", "press", "--at", "1782806403", *words, given=processes.FINISH)
    wants((status, text.splitlines()[0], told), (0, "Finished S1", ""))
    edit = {"Edit": "SetStatus", "Node": "text", "Status": "Ready"}
    wants(run("order", "mis", "--at", "1782806404", *words,
              given=json.dumps({"Order": "Edit", "Edit": edit})), (0, "Edited\n", ""))
    wants(lines_of(), [
        line(BY, "mis", "Spawn", "Spawned", AT, "S1"),
        line("mis", "press", "SubmitQueueEntry", "Taken", 1782806401, "S1"),
        line("press", "mis", "ResponseSubmitQueueEntry", "Noted", 1782806402, "S1"),
        line(BY, "press", "Finish", "Finished", 1782806403, "S1"),
        line(BY, "mis", "Edit", "Edited", 1782806404)])


def what_is_refused_has_no_line():
    open_shop()
    words = ("--journal", "journal")
    wants(run("order", "mis", "--at", AT, *words, given=spawn("none", "press", []))[0], 1)
    wants(run("order", "mis", "--at", AT, *words, given="{")[0], 3)
    message = run("order", "mis", "--at", AT, given=COVER)[1].splitlines()[1]
    wants(run("take", "bindery", "--at", AT, *words, given=message)[0], 1)
    wants(run("take", "none", "--at", AT, *words, given=message)[::2], (4, "Refused 59 LoadFailed\n"))
    wants(content("journal"), b"")


def a_journal_that_cannot_be_opened_stops_all():
    begin()
    os.mkdir("folder")
    before = content("mis")
    for journal, words in (("folder", "Is a directory"),
                           ("none/journal", "No such file or directory")):
        with tempfile.TemporaryFile() as given:
            given.write(attribute("A").encode())
            given.seek(0)
            for command in (["order", "mis", "--at", AT], ["take", "mis", "--at", AT],
                            ["serve", "mis", "--listen", "127.0.0.1:0"]):
                ran = subprocess.run([PROGRAM, *command, "--journal", journal], stdin=given,
                                     capture_output=True, timeout=20)
                told = f"Refused 57 SaveFailed: {journal}: {words}\n"
                wants((ran.returncode, ran.stdout, ran.stderr.decode()), (4, b"", told))
            wants(os.lseek(given.fileno(), 0, os.SEEK_CUR), 0)
        wants(content("mis"), before)


def a_line_that_was_cut_stands_alone():
    begin()
    with open("journal", "wb") as journal:
        journal.write(b'{"By":"uid:0","Contr')
    wants(run("order", "mis", "--at", AT, "--journal", "journal", given=note())[:2], (0, "Edited\n"))
    first, second, rest = content("journal").decode().split("\n")
    wants((first, rest), ('{"By":"uid:0","Contr', ""))
    wants(json.loads(second), line(BY, "mis", "Edit", "Edited", AT))


def an_append_that_fails_later():
    """The journal is a folder by the time the step is saved: that stands, and it is noted."""
    begin()
    command = subprocess.Popen([PROGRAM, "order", "mis", "--at", AT, "--journal", "journal"],
                               stdin=subprocess.PIPE, stdout=subprocess.PIPE, stderr=subprocess.PIPE)
    until = time.monotonic() + 20
    while not os.path.exists("journal"):
        assert time.monotonic() < until
        time.sleep(0.01)
    time.sleep(0.2)
    os.remove("journal")
    os.mkdir("journal")
    text, told = command.communicate(note().encode())
    wants((command.returncode, text), (0, b"Edited\n"))
    assert told.decode().startswith("Not in the journal journal: "), told
    wants(told.count(b"\n"), 1)
    wants(noted_at(), [int(AT)])


# ---- a full disk


@contextlib.contextmanager
def small_disk():
    """A folder with room for 64 kilobytes; none where it can't be made."""
    os.mkdir("small")
    made = subprocess.run(["mount", "-t", "tmpfs", "-o", "size=64k", "tmpfs", "small"],
                          capture_output=True, check=False)
    try:
        yield made.returncode == 0
    finally:
        if made.returncode == 0:
            subprocess.run(["umount", "small"], check=True)


def a_full_disk_is_noted():
    begin()
    with small_disk() as is_there:
        if not is_there:
            print("  no small disk can be made here")
            return
        words = ("--journal", "small/journal")
        wants(run("order", "mis", "--at", AT, *words, given=note()), (0, "Edited\n", ""))
        with contextlib.suppress(OSError), open("small/rest", "wb", buffering=0) as rest:
            while True:
                rest.write(b"x" * 512)
        # The journal's own page has room for some lines.
        kept = 1
        for number in range(1, 100):
            status, text, told = run("order", "mis", "--at", str(int(AT) + number), *words,
                                     given=note())
            wants((status, text), (0, "Edited\n"))
            if told:
                break
            kept += 1
        wants(told, "Not in the journal small/journal: No space left on device\n")
        os.remove("small/rest")
        wants(run("order", "mis", "--at", str(int(AT) + 200), *words, given=note()),
              (0, "Edited\n", ""))
        whole = []
        for text in content("small/journal").decode().splitlines():
            with contextlib.suppress(ValueError):
                whole.append(json.loads(text)["Time"])
        wants(whole, noted_at()[:kept] + noted_at()[-1:])


# ---- many at once


def orders_at_once_stand_in_the_order_of_their_steps():
    begin()
    started = []
    for number in range(AT_ONCE):
        command = [PROGRAM, "order", "mis", "--at", str(int(AT) + number), "--journal", "journal"]
        started.append(subprocess.Popen(command, stdin=subprocess.PIPE, stdout=subprocess.PIPE))
    for command in started:
        command.stdin.write(note().encode())
        command.stdin.close()
    for command in started:
        wants((command.stdout.read(), command.wait()), (b"Edited\n", 0))
    times = [told["Time"] for told in lines_of()]
    wants(times, noted_at())
    wants(sorted(times), [int(AT) + number for number in range(AT_ONCE)])


def killed_orders():
    """Orders that are killed at any moment: those that were answered have their lines, and each
    line is of a step that was saved, in their order."""
    begin()
    start = time.monotonic()
    wants(run("order", "mis", "--at", AT, "--journal", "journal", given=note())[0], 0)
    took = time.monotonic() - start
    chance = random.Random(11)

    def one(number):
        command = subprocess.Popen(
            [PROGRAM, "order", "mis", "--at", str(int(AT) + number), "--journal", "journal"],
            stdin=subprocess.PIPE, stdout=subprocess.PIPE, stderr=subprocess.DEVNULL)
        command.stdin.write(note().encode())
        command.stdin.close()
        time.sleep(3 * took * chance.random())
        command.kill()
        text = command.stdout.read()
        command.wait()
        return text == b"Edited\n"

    with concurrent.futures.ThreadPoolExecutor(4) as pool:
        answered = list(pool.map(one, range(1, KILLS)))
    wants(run("order", "mis", "--at", str(int(AT) + KILLS), "--journal", "journal",
              given=note())[0], 0)
    times, saved = [told["Time"] for told in lines_of()], noted_at()
    for number, was in enumerate(answered, 1):
        assert not was or int(AT) + number in times, "an order that was answered has no line"
    left = iter(saved)
    assert all(one in left for one in times), "lines that aren't those of the steps in their order"
    print(f"  {KILLS} orders: {len(saved)} saved, {len(times)} in the journal, "
          f"{sum(answered)} answered before they were killed")


# ---- servers


def numbered(message, number):
    return message.replace('"S1"', f'"S{number}"').replace('"Q.S1"', f'"Q.S{number}"')


def entries_of(file):
    return [entry["ID"] for entry in json.loads(content(file))["Worker"]["Entries"]]


def a_server_has_its_lines():
    open_shop()
    message = run("order", "mis", "--at", AT, given=COVER)[1].splitlines()[1]
    with Served("press", "--journal", "journal") as press:
        for _ in range(2):
            wants(asked(press, request(message)), 200)
        wants(asked(press, request("{")), 400)
        told, = lines_of()
        at = told["Time"]
        assert abs(at - time.time()) < 60
        wants(told, line("mis", "press", "SubmitQueueEntry", "Taken", at, "S1"))
        # A file that is renamed is left, and another is made.
        os.rename("journal", "journal.1")
        for number in (2, 3):
            wants(asked(press, request(numbered(message, number))), 200)
        wants([told["SpawnID"] for told in lines_of()], ["S2", "S3"])
        # Where nothing can be appended the steps go on, and the log tells it.
        os.rename("journal", "journal.2")
        os.mkdir("journal")
        wants(asked(press, request(numbered(message, 4))), 200)
        os.rmdir("journal")
        wants(asked(press, request(numbered(message, 5))), 200)
        wants([told["SpawnID"] for told in lines_of()], ["S5"])
        missed = [text for text in press.log(8).splitlines() if "Not in the journal" in text]
        wants(len(missed), 1)
    wants(entries_of("press"), [f"S{number}" for number in range(1, 6)])


def messages_at_once():
    """Messages from many at once and orders beside them: each step once, in the order of the
    steps."""
    open_shop()
    message = run("order", "mis", "--at", AT, given=COVER)[1].splitlines()[1]
    with Served("press", "--journal", "journal") as press:
        with concurrent.futures.ThreadPoolExecutor(WORKERS) as pool:
            sent = [pool.submit(asked, press, request(numbered(message, number)))
                    for number in range(1, AT_ONCE + 1)]
            wants({one.result() for one in sent}, {200})
    wants([told["SpawnID"] for told in lines_of()], entries_of("press"))
    wants(len(lines_of()), AT_ONCE)


def a_killed_server():
    """Messages beside which the server is killed, each sent until it is answered: each that was
    answered at once has its line, none has two, and the lines are of steps that were saved, in their
    order."""
    open_shop()
    message = run("order", "mis", "--at", AT, given=COVER)[1].splitlines()[1]
    chance = random.Random(5)
    press = Served("press", "--journal", "journal")
    at_once, kills = set(), 0

    def one(number):
        for tries in range(1000):
            with contextlib.suppress(OSError, AssertionError):
                if asked(press, request(numbered(message, number))) == 200:
                    if tries == 0:
                        at_once.add(f"S{number}")
                    return
            time.sleep(0.01)

    with concurrent.futures.ThreadPoolExecutor(WORKERS) as pool:
        sent = [pool.submit(one, number) for number in range(1, AT_ONCE + 1)]
        while not all(one.done() for one in sent):
            time.sleep(0.05 * chance.random())
            press.kill()
            press.start()
            kills += 1
    press.kill()
    told, saved = [told["SpawnID"] for told in lines_of()], entries_of("press")
    wants((len(saved), len(told)), (AT_ONCE, len(set(told))))
    assert at_once <= set(told), at_once - set(told)
    left = iter(saved)
    assert all(one in left for one in told), "lines that aren't those of the steps in their order"
    print(f"  {kills} kills: {len(saved)} steps saved, {len(told)} in the journal, "
          f"{len(at_once)} answered at once")


TESTS = [what_is_no_journal_is_left, each_step_has_its_line, what_is_refused_has_no_line,
         a_journal_that_cannot_be_opened_stops_all, a_line_that_was_cut_stands_alone,
         an_append_that_fails_later, a_full_disk_is_noted,
         orders_at_once_stand_in_the_order_of_their_steps, killed_orders, a_server_has_its_lines,
         messages_at_once, a_killed_server]


def main():
    words = argparse.ArgumentParser()
    words.add_argument("program")
    words.add_argument("--only", default="")
    words = words.parse_args()
    processes.install(words.program)
    chosen = [test for test in TESTS if words.only in test.__name__]
    passed = sum([processes.passes(test) for test in chosen])
    shutil.rmtree(os.path.dirname(PROGRAM))
    print(f"journal: {passed} passed, {len(chosen) - passed} failed")
    sys.exit(passed != len(chosen))


if __name__ == "__main__":
    main()
