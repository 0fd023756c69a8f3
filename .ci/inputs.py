#!/usr/bin/env python3
"""Where commands read their input from, and what they tell where the system refuses: inputs.py
PROGRAM

Each test runs the program in a folder of its own. The last line says how many passed.
"""
import json
import os
import shutil
import socket
import subprocess
import sys

import processes
from processes import (AT, EXAMPLES, OPENING, PROGRAM, Served, as_nobody, attribute, begin, content,
                       open_shop, order, passes, run, spawn, wants)

COVER = spawn("cover", "press", ["cover.sheets"])
NOTE = attribute("A")
GIVEN = "this isn't read"


def keep(name, text):
    with open(name, "w", encoding="utf-8") as file:
        file.write(text)


def run_beside(*words):
    """The same of a command whose standard input is a file, and how much it read of that."""
    keep("given", GIVEN)
    with open("given", "rb") as given:
        ran = subprocess.run([PROGRAM, *words], stdin=given, capture_output=True, timeout=60)
        place = os.lseek(given.fileno(), 0, os.SEEK_CUR)
    return (ran.returncode, ran.stdout.decode(), ran.stderr.decode()), place


def refused(line):
    return 4, "", f"Refused {line}\n"


# ---- where the input comes from


def an_input_comes_from_a_file():
    """Each command does with `--from` what it does with the same bytes on standard input, which it
    leaves alone."""
    brochure = os.path.join(EXAMPLES, "brochure.json")
    wanted = run("edit", given=content(brochure).decode())
    wants(wanted[0], 1)
    wants(run_beside("edit", "--from", brochure), (wanted, 0))
    keep("opening", OPENING)
    wants(run_beside("new", "mis", "--from", "opening"), ((0, "", ""), 0))
    keep("note", NOTE)
    wants(run_beside("order", "mis", "--at", AT, "--from=note"), ((0, "Edited\n", ""), 0))
    assert '"A":"x"' in run("show", "mis")[1]
    keep("broken", "{")
    for words in (("edit",), ("new", "other"), ("order", "mis", "--at", AT), ("take", "mis", "--at", AT)):
        wants(run_beside(*words, "--from", "broken"), ((3, "", "Refused 40 NotJson\n"), 0))
    assert not os.path.exists("other")


def a_message_comes_from_a_file():
    open_shop()
    keep("sent", order("mis", COVER)[1])
    (status, lines, told), place = run_beside("take", "press", "--at", AT, "--from", "sent")
    wants((status, lines.split("\n")[0], told, place), (0, "Taken S1", "", 0))


def an_order_from_a_file_is_sent():
    open_shop()
    keep("cover", COVER)
    with Served("press") as press:
        wants(run_beside("order", "mis", "--at", AT, "--from", "cover", "--send", press.url()),
              ((0, "Spawned S1\nNoted S1 Running\n", ""), 0))


def a_dash_is_standard_input():
    wants(run("new", "mis", "--from", "-", given=OPENING), (0, "", ""))
    wants(run("order", "mis", "--at", AT, "--from=-", given=NOTE), (0, "Edited\n", ""))
    # A file of that name is `./-`.
    keep("-", attribute("B"))
    wants(run_beside("order", "mis", "--at", AT, "--from", "./-"), ((0, "Edited\n", ""), 0))
    wants(sorted(json.loads(run("show", "mis")[1])["Attr"]), ["A", "B"])


def a_message_is_sent_from_a_file_or_standard_input():
    open_shop()
    message = order("mis", COVER)[1]
    with Served("press") as press:
        first = run("send", press.url(), "-", given=message)
        wants((first[0], first[2]), (0, ""))
        keep("-", message)
        keep("sent", message)
        for name in ("./-", "sent"):
            again, place = run_beside("send", press.url(), name)
            wants((again[0], again[2], place), (0, "", 0))


def an_input_that_cannot_be_opened_is_told():
    """Nothing is done then, and nothing of standard input read."""
    begin()
    held = content("mis")
    os.mkdir("folder")
    os.symlink("nothing", "link")
    for name, why in (("nothing", "No such file or directory"), ("folder", "it is a folder"),
                      ("link", "No such file or directory"), ("mis/x", "Not a directory")):
        line = refused(f"55 ReadFailed: {name}: {why}")
        for words in (("edit",), ("new", "other"), ("order", "mis", "--at", AT),
                      ("take", "mis", "--at", AT), ("order", "mis", "--at", AT, "--send=http://127.0.0.1:1/")):
            wants(run_beside(*words, "--from", name), (line, 0))
        wants(run_beside("send", "http://127.0.0.1:1/jmf", name), (line, 0))
    assert not os.path.exists("other")
    wants(content("mis"), held)


def an_input_that_may_not_be_read_is_told():
    begin()
    keep("note", NOTE)
    os.chmod("note", 0o000)
    os.chmod("mis", 0o666)
    os.chmod(".", 0o777)
    line = refused("55 ReadFailed: note: Permission denied")
    wants(as_nobody("order", "mis", "--at", AT, "--from", "note"), line)
    wants(as_nobody("send", "http://127.0.0.1:1/jmf", "note"), line)


# ---- what a refusal of the system comes from


def a_file_that_cannot_be_loaded_is_told():
    os.symlink("there", "link")
    os.mkdir("folder")
    begin("there")
    os.chmod("there", 0o000)
    os.chmod(".", 0o777)
    send = ("--at", AT, "--send", "http://127.0.0.1:1/jmf")
    for name, why in (("nothing", "No such file or directory"), ("link", "it is a link"),
                      ("there", "Permission denied")):
        line = refused(f"59 LoadFailed: {name}: {why}")
        wants(as_nobody("serve", name, "--listen", "127.0.0.1:0"), line)
        wants(as_nobody("list", name), line)
        wants(as_nobody("order", name, *send, given=NOTE), line)
    wants(run("order", "folder", *send, given=NOTE), refused("59 LoadFailed: folder: it is a folder"))
    # Of the lines that the forms fix nothing changes.
    for words in (("order", "nothing", "--at", AT), ("take", "nothing", "--at", AT), ("show", "nothing")):
        wants(run(*words, given=NOTE), refused("59 LoadFailed"))


def a_name_of_two_lines_is_told_on_one():
    wants(run("list", "no\nthing"), refused("59 LoadFailed"))


def a_peers_file_that_cannot_be_loaded_is_told():
    begin()
    keep("note", "a note")
    for name, why in (("nothing", "No such file or directory"), ("note", "it is no peers' file")):
        line = refused(f"59 LoadFailed: {name}: {why}")
        wants(run("serve", "mis", "--listen", "127.0.0.1:0", "--peers", name), line)
        wants(run("send", "@" + name, given="{}"), line)
        wants(run("order", "mis", "--at", AT, "--send", "@" + name, given=NOTE), line)
    os.mkdir("shop")
    keep("shop/peers.json", "a note")
    wants(run("serve", "shop", "--listen", "127.0.0.1:0"),
          refused("59 LoadFailed: shop/peers.json: it is no peers' file"))


def an_address_that_cannot_be_listened_on_is_told():
    begin()
    with socket.create_server(("127.0.0.1", 0)) as other:
        address = f"127.0.0.1:{other.getsockname()[1]}"
        wants(run("serve", "mis", "--listen", address),
              refused(f"61 NoConnection: {address}: Address already in use"))
    wants(run("serve", "mis", "--listen", "192.0.2.1:8010"),
          refused("61 NoConnection: 192.0.2.1:8010: Cannot assign requested address"))


def an_address_that_cannot_be_reached_is_told():
    open_shop()
    with socket.socket() as free:
        free.bind(("127.0.0.1", 0))
        address = f"127.0.0.1:{free.getsockname()[1]}"
        why = f"Refused 61 NoConnection: {address}: Connection refused\n"
        wants(run("send", f"http://{address}/jmf", given="{}"), (4, "", why))
        wants(run("order", "mis", "--at", AT, "--send", f"http://{address}/jmf", given=COVER),
              (4, "Spawned S1\n", why))
    status, lines, told = run("send", "http://press.invalid:8010/jmf", given="{}")
    wants((status, lines), (4, ""))
    assert told.startswith("Refused 61 NoConnection: press.invalid:8010: failed to lookup"), told


def a_document_that_cannot_be_read_is_told():
    folder = os.open("/", os.O_RDONLY)
    ran = subprocess.run([PROGRAM, "check"], stdin=folder, capture_output=True, timeout=60)
    os.close(folder)
    wants((ran.returncode, ran.stdout.decode(), ran.stderr.decode()),
          refused("55 ReadFailed: standard input"))


TESTS = [
    an_input_comes_from_a_file,
    a_message_comes_from_a_file,
    an_order_from_a_file_is_sent,
    a_dash_is_standard_input,
    a_message_is_sent_from_a_file_or_standard_input,
    an_input_that_cannot_be_opened_is_told,
    an_input_that_may_not_be_read_is_told,
    a_file_that_cannot_be_loaded_is_told,
    a_name_of_two_lines_is_told_on_one,
    a_peers_file_that_cannot_be_loaded_is_told,
    an_address_that_cannot_be_listened_on_is_told,
    an_address_that_cannot_be_reached_is_told,
    a_document_that_cannot_be_read_is_told,
]


def main():
    processes.install(sys.argv[1])
    passed = sum([passes(test) for test in TESTS])
    shutil.rmtree(os.path.dirname(PROGRAM))
    print(f"inputs: {passed} passed, {len(TESTS) - passed} failed")
    sys.exit(passed != len(TESTS))


if __name__ == "__main__":
    main()
