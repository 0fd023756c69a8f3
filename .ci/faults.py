#!/usr/bin/env python3
"""The program where the system refuses it something, at each place: faults.py PROGRAM

Commands run with less memory than they need, a page more each time; with a file that may only grow
so far, a few bytes more each time; with so many open files, one more each time; and with streams
that can't be read or written. Each ends with a status and a refusal that is documented, leaves FILE
as it was or as the step leaves it, and nothing beside it. The last line says how many tests passed.
"""
import json
import os
import resource
import shutil
import signal
import subprocess
import sys
import time

import processes
from processes import PROGRAM, content, passes, run, wants

PAGE = resource.getpagesize()
# A save is cut off behind each of so many bytes.
EACH = 16
MEMORY = "Refused 90 Memory\n"
SAVING = (4, "", "Refused 57 SaveFailed\n")
LOADING = (4, "", "Refused 59 LoadFailed\n")

PARTS = 12
NODES = [{"ID": f"n{number}", "JobPartID": f"p{number}", "Status": "Waiting", "Type": "Folding",
          "ResourceLinkPool": [{"Usage": "Input", "rRef": "paper"}]} for number in range(PARTS)]
TICKET = {"ID": "root", "JobID": "J1", "JobPartID": "p", "Status": "Waiting", "Type": "Product",
          "JDF": NODES, "ResourcePool": [{"ID": "paper", "Name": "Media", "Class": "Consumable",
                                          "Status": "Available"}]}
OPENING = json.dumps({"Master": "mis", "Ticket": TICKET, "Workers": ["press"]})
SPAWN = {"Order": "Spawn", "Node": "n1", "Worker": "press", "RW": ["paper"]}
FINISH = {"Order": "Finish", "SpawnID": "S1", "Status": "Completed"}
WITHDRAW = {"Order": "Withdraw", "SpawnID": "S1"}
SCRIPT = json.dumps({"Master": "mis", "Ticket": TICKET, "Workers": ["press"], "Events": [
    {"At": 1, "Event": "Order", "Order": SPAWN, "To": "mis"},
    {"At": 2, "Event": "Deliver", "Deliver": 1},
    {"At": 3, "Event": "Order", "Order": FINISH, "To": "press"},
    {"At": 4, "Event": "Deliver", "Deliver": 3},
    {"At": 5, "Event": "Restart", "To": "mis"}]})
EDIT = json.dumps({"At": 1, "Ticket": TICKET, "Edits": [
    {"Edit": "Note", "Node": "n1", "Text": "x" * 500},
    {"Edit": "AddNode", "ID": "m", "JobPartID": "p", "Node": "n2", "Status": "W", "Type": "T"}]})


class Step:
    """A command, its input, and what it does to the files where nothing fails."""

    def __init__(self, words, given):
        self.words, self.given = words, given
        self.before = files()
        self.fine = run(*words, given=given)
        self.after = files()
        restore(self.before)


def files():
    return {name: content(name) for name in os.listdir(".")}


def restore(before):
    for name in os.listdir("."):
        os.remove(name)
    for name, held in before.items():
        with open(name, "wb") as file:
            file.write(held)


def steps():
    """A command of each kind, on a shop in which a part is out, is asked for before it comes, and
    then is on its way back."""
    for name, begins in (("mis", OPENING), ("press", '{"Master":"mis","Worker":"press"}')):
        wants(run("new", name, given=begins), (0, "", ""))
    out = order("mis", SPAWN)
    yield Step(["order", "mis", "--at", "1"], json.dumps(WITHDRAW))
    declining = Step(["take", "press", "--at", "2"], order("mis", WITHDRAW))
    yield declining
    yield Step(["take", "mis", "--at", "3"], declining.fine[1].split("\n")[1])
    yield Step(["take", "press", "--at", "2"], out)
    wants(run("take", "press", "--at", "2", given=out)[0], 0)
    yield Step(["order", "press", "--at", "3"], json.dumps(FINISH))
    back = order("press", FINISH)
    yield Step(["take", "mis", "--at", "4"], back)
    yield Step(["order", "mis", "--at", "1"], json.dumps(dict(SPAWN, Node="n2", RW=[])))
    yield Step(["order", "mis", "--at", "1"], json.dumps(SPAWN))
    yield Step(["show", "mis"], "")
    yield Step(["show", "press"], "")
    yield Step(["new", "other"], OPENING)
    yield Step(["edit"], EDIT)
    yield Step(["world"], SCRIPT)
    yield Step(["loop"], SCRIPT)


def order(name, order_):
    lines = run("order", name, "--at", "1", given=json.dumps(order_))[1].split("\n")
    return lines[1]


def limited(step, **limits):
    """The step under limits of the system: its status, what it tells, what it prints; and the files
    that it leaves. They are put back."""
    def limit():
        signal.signal(signal.SIGXFSZ, signal.SIG_IGN)
        for name, most in limits.items():
            resource.setrlimit(getattr(resource, "RLIMIT_" + name), (most, most))
    try:
        ran = subprocess.run([PROGRAM, *step.words], input=step.given.encode(), capture_output=True,
                             preexec_fn=limit, timeout=60)
    except (OSError, subprocess.SubprocessError) as fault:
        # With too little memory no program can be begun.
        wants("AS" in limits and not isinstance(fault, subprocess.TimeoutExpired), True)
        return (127, "", ""), files()
    left = files()
    restore(step.before)
    printed, told = (text.decode(errors="replace") for text in (ran.stdout, ran.stderr))
    return (ran.returncode, printed, told), left


def in_turn(step, name, limits, fails_well):
    """The step under each limit up to one under which nothing fails. Answers how many failed."""
    failed = 0
    for limit in limits:
        ran, left = limited(step, **{name: limit})
        if ran == step.fine:
            wants(left, step.after)
            return failed
        if began(ran):
            failed += 1
            assert fails_well(step, ran), f"{step.words} at {limit}: {ran}"
            assert left in (step.before, step.after), f"{step.words} at {limit} left {sorted(left)}"
    raise AssertionError(f"{step.words} fails at each limit")


def is_without_memory(step, ran):
    """Whether a run tells that memory ran out. An edit tells it on its line, and others go on."""
    if ran[1] == "":
        return ran == (1, "", MEMORY)
    return step.words == ["edit"] and ran[0] == 1 and ran[2] == "" and MEMORY in ran[1]


def is_without_file(step, ran):
    return ran in (SAVING, LOADING, (4, "", "Refused 61 NoConnection\n"))


def is_unsaved(step, ran):
    return ran == SAVING


# ---- tests


def began(ran):
    """Whether the program began at all: with too little memory it isn't even loaded."""
    status, _, told = ran
    return status in (0, 1, 2, 3, 4) and "error while loading" not in told


def memory_runs_out_at_each_page():
    counts = []
    for step in steps():
        start = least_memory(step)
        limits = range(start, start + (64 << 20), PAGE)
        counts.append(in_turn(step, "AS", limits, is_without_memory))
    print(f"  {sum(counts)} runs without enough memory: {counts}")


def least_memory(step):
    """About the least memory with which the program begins: a page less is too little."""
    low, high = PAGE, 1 << 40
    while high - low > PAGE:
        middle = (low + high) // 2 // PAGE * PAGE
        ran, _ = limited(step, AS=middle)
        low, high = (low, middle) if began(ran) else (middle, high)
    return low


def a_save_is_cut_off():
    counts = []
    for step in steps():
        if step.words[0] in ("take", "order", "new"):
            size = max(len(held) for held in step.after.values())
            sizes = [*range(0, size, EACH), size]
            counts.append(in_turn(step, "FSIZE", sizes, is_unsaved))
    print(f"  {sum(counts)} saves that were cut off")


def a_full_file_ends_who_does_not_ignore_its_signal():
    """As shells and service managers start it: then what was written stays until the next save."""
    def limit():
        resource.setrlimit(resource.RLIMIT_CORE, (0, 0))
        resource.setrlimit(resource.RLIMIT_FSIZE, (EACH, EACH))
    for step in steps():
        if step.words[0] in ("take", "order", "new"):
            ran = subprocess.run([PROGRAM, *step.words], input=step.given.encode(),
                                 capture_output=True, preexec_fn=limit, timeout=60)
            wants((ran.returncode, ran.stdout, ran.stderr), (-signal.SIGXFSZ, b"", b""))
            left = files()
            wants(len(left.pop(step.words[1] + ".new")), EACH)
            wants(left, step.before)
            wants(run(*step.words, given=step.given), step.fine)
            wants(files(), step.after)
            restore(step.before)


def files_run_out():
    counts = []
    for step in steps():
        counts.append(in_turn(step, "NOFILE", range(3, 64), is_without_file))
    print(f"  {sum(counts)} runs without enough files: {counts}")


def streams_that_cannot_be_read():
    for step in steps():
        if step.words[0] != "show":
            folder = os.open("/", os.O_RDONLY)
            ran = subprocess.run([PROGRAM, *step.words], stdin=folder, capture_output=True)
            os.close(folder)
            wants((ran.returncode, ran.stdout, ran.stderr), (4, b"", b"Refused 55 ReadFailed\n"))
            wants(files(), step.before)


def streams_that_cannot_be_written():
    for step in steps():
        if step.fine[1]:
            with open("/dev/full", "wb") as full:
                ran = subprocess.run([PROGRAM, *step.words], input=step.given.encode(), stdout=full,
                                     stderr=subprocess.PIPE)
            wants((ran.returncode, ran.stderr), (4, b"Refused 56 WriteFailed\n"))
            wants(files(), step.after)
            restore(step.before)


def nobody_reads_what_is_printed():
    for step in steps():
        if step.fine[1]:
            reader, writer = os.pipe()
            os.close(reader)
            ran = subprocess.run([PROGRAM, *step.words], input=step.given.encode(), stdout=writer,
                                 stderr=subprocess.PIPE)
            os.close(writer)
            wants((ran.returncode, ran.stderr), (4, b"Refused 56 WriteFailed\n"))
            wants(files(), step.after)
            restore(step.before)


TESTS = [
    memory_runs_out_at_each_page,
    a_save_is_cut_off,
    a_full_file_ends_who_does_not_ignore_its_signal,
    files_run_out,
    streams_that_cannot_be_read,
    streams_that_cannot_be_written,
    nobody_reads_what_is_printed,
]


def main():
    processes.install(sys.argv[1])
    start = time.monotonic()
    passed = sum([passes(test) for test in TESTS])
    shutil.rmtree(os.path.dirname(PROGRAM))
    took = time.monotonic() - start
    print(f"faults: {passed} passed, {len(TESTS) - passed} failed, {took:.0f} s")
    sys.exit(passed != len(TESTS))


if __name__ == "__main__":
    main()
