#!/usr/bin/env python3
"""Programs whose allocations are refused: allocations.py PROGRAM REFUSED_ORDERS [--cases CASES]
[--each N]

A small library stands between a program and the allocator, and refuses the allocation of one
number, or all from one on. A command of each kind runs so, from its first allocation on until many
runs meet none. Each run ends with `Refused 90 Memory` and status 1, or as if nothing had been
refused, and leaves FILE as it was or as the step leaves it; an edit tells it on its own line.
--each 10 tries every tenth allocation.

A server, too, is refused each of its allocations in turn: it doesn't begin, or answers a message
with a 503, and takes the same as it comes once more.

Or it refuses all from a line that the program writes until it has written the next, or the one of
a number among these. REFUSED_ORDERS is that of crates/refused_orders, which writes such a line
before each call, and then what comes of it. An order to a controller beside its keeper, a message
over HTTP and a script in a world are refused each allocation of the call in turn, and what they
leave is looked at.

CASES is the program of crates/cases. Some of its cases call what no command calls; a few of each
kind are refused each allocation in turn, and come to what they ever come to, or to `Refused 90
Memory`.
"""
import argparse
import collections
import contextlib
import os
import re
import shutil
import subprocess
import sys
import tempfile

import faults
import processes
from processes import PROGRAM, passes, wants

# So many runs in a row that end well show that there are no more allocations. Behind an event a
# world makes some that it does without.
ENOUGH = 100
# What the orders are, and the answers to them.
ORDERS = os.path.join(os.path.dirname(processes.HERE), "crates/refused_orders")
# The cases; the words of those that call what no command calls, and need no file; and how many of
# each word are tried.
CASES = os.path.join(os.path.dirname(processes.HERE), "crates/cases")
WORDS = ("value ticket change part state state_value message id new_text edited_copy shop spawned"
         " part_rows held tree part_tree below subtree home").split()
FEW = 4
# What refuses allocations: those from REFUSED_FROM to REFUSED_TO, the first being 1; and from a
# write of the bytes REFUSED_BEHIND to the end of the next write all, or the one of the number
# REFUSED_CALL.
REFUSES = """
#include <stdlib.h>
#include <string.h>
#include <sys/syscall.h>
#include <unistd.h>

void *__libc_malloc(size_t size);
void *__libc_realloc(void *old, size_t size);

static unsigned long made, from, to, call, behind;
static const char *mark;
static int is_behind;

static unsigned long number(const char *name) {
    const char *text = getenv(name);
    return text ? strtoul(text, NULL, 10) : 0;
}

__attribute__((constructor)) static void begin(void) {
    from = number("REFUSED_FROM");
    to = number("REFUSED_TO");
    call = number("REFUSED_CALL");
    mark = getenv("REFUSED_BEHIND");
    made = 0;
}

static int refused(void) {
    made++;
    behind += is_behind;
    return (is_behind && (!call || behind == call)) || (from && from <= made && made <= to);
}

ssize_t write(int file, const void *bytes, size_t count) {
    ssize_t written = syscall(SYS_write, file, bytes, count);
    is_behind = mark && count == strlen(mark) && !memcmp(bytes, mark, count);
    behind = 0;
    return written;
}

void *malloc(size_t size) {
    return refused() ? NULL : __libc_malloc(size);
}

void *realloc(void *old, size_t size) {
    return refused() ? NULL : __libc_realloc(old, size);
}
"""


def build(folder):
    """The library, built by the C compiler that there is."""
    compiler = shutil.which("cc") or shutil.which("clang")
    if not compiler:
        raise SystemExit("allocations: no C compiler")
    library = os.path.join(folder, "refuses.so")
    subprocess.run([compiler, "-O2", "-shared", "-fPIC", "-x", "c", "-", "-o", library],
                   input=REFUSES.encode(), check=True)
    return library


def one_allocation_is_refused():
    refused(lambda number: number)


def all_allocations_from_one_on_are_refused():
    refused(lambda number: 1 << 62)


def refused(last):
    counts = []
    for step in list(faults.steps()):
        faults.restore(step.before)
        counts.append(refused_in_turn(step, last))
    print(f"  {sum(counts)} commands without memory: {counts}")
    assert min(counts) > 0, "a command that needs no memory"


def refused_in_turn(step, last):
    """How many runs told that memory was refused, up to so many in a row that met nothing."""
    number = told = fine = 0
    while fine < ENOUGH:
        number += 1 if fine else ARGS.each
        ran, left = refusing(step, number, last(number))
        is_told = faults.is_without_memory(step, ran)
        where = f"{step.words}, allocation {number}"
        assert is_told or ran == step.fine, f"{where}: {ran}"
        assert left in (step.before, step.after), f"{where} left {sorted(left)}"
        told, fine = told + is_told, 0 if is_told else fine + 1
    return told


@contextlib.contextmanager
def refused_to_programs(first, last):
    """Programs that begin here are refused these allocations."""
    os.environ.update(LD_PRELOAD=LIBRARY, REFUSED_FROM=str(first), REFUSED_TO=str(last))
    try:
        yield
    finally:
        for name in ("LD_PRELOAD", "REFUSED_FROM", "REFUSED_TO"):
            del os.environ[name]


def refusing(step, first, last):
    """The step while these allocations are refused."""
    with refused_to_programs(first, last):
        return faults.limited(step)


def a_message_is_served_without_memory():
    """A message that comes to a server while an allocation is refused is taken, refused with a 503,
    or its connection is closed at once; the same is answered as ever then, and FILE ends as ever.
    """
    for name, begins in (("mis", faults.OPENING), ("press", '{"Master":"mis","Worker":"press"}')):
        wants(processes.run("new", name, given=begins), (0, "", ""))
    given = processes.request(faults.order("mis", faults.SPAWN))
    before = processes.content("press")
    ends, told, number, fine = set(), collections.Counter(), 0, 0
    while fine < ENOUGH:
        number += 1 if fine else ARGS.each
        statuses, end = served(given, before, number)
        told[statuses] += 1
        if statuses:
            ends.add(end)
        fine = fine + 1 if statuses == (200, 200, 200) else 0
    print(f"  a server without memory: {dict(told)}")
    allowed = {None, (200, 200, 200)}
    for fault in (503, "closed"):
        allowed |= {(fault, 200, 200), (200, fault, 200), (200, 200, fault)}
    wants((len(ends), told[None] > 0, set(told) - allowed), (1, True, set()))


def served(given, before, number):
    """How a server that is refused the allocation of this number answers a message and the same
    twice more, if it begins at all; and the state that it leaves, but for the times."""
    with open("press", "wb") as file:
        file.write(before)
    try:
        with refused_to_programs(number, number):
            press = processes.Served("press", "--clients", "1")
    except AssertionError:
        return None, before
    with press:
        statuses = tuple(asked_or_closed(press, given) for _ in range(3))
        wants(press.process.poll(), None)
    return statuses, re.sub(rb'"At":[0-9]+', b"", processes.content("press"))


def asked_or_closed(press, given):
    """The status of the response, or that the connection is closed with none; soon, each of them."""
    with press.connect() as connection:
        connection.settimeout(3)
        with contextlib.suppress(ConnectionError):
            connection.sendall(given)
            if text := processes.response(connection):
                return processes.status_in(text)
    return "closed"


def given_lines():
    """The orders to controllers alone, as lines with their states; and each other call, with the
    state in front of it."""
    orders, calls, state = [], [], ""
    for line in processes.content(os.path.join(ORDERS, "stdin")).decode().split("\n"):
        word, tab, _ = line.partition("\t")
        state = state if tab else line
        if word and tab:
            calls.append((word, state, line))
        elif line:
            orders.append(line)
    return orders, calls


def called(lines, **refused):
    """What the program of the calls writes for these lines, while allocations are refused so."""
    env = dict(os.environ, LD_PRELOAD=LIBRARY, REFUSED_BEHIND="Prepared\n", **refused)
    ran = subprocess.run([ARGS.refused_orders], input="\n".join(lines).encode(), timeout=60,
                         capture_output=True, env=env)
    wants((ran.returncode, ran.stderr), (0, b""))
    return ran.stdout.decode()


def ends_of(orders, **refused):
    """How each order ends: its refusal, or that it was done."""
    lines = called(orders, **refused).split("\n")
    return [line for line in lines if line not in ("", "Prepared")]


def orders_are_refused_without_memory():
    """Each refusal comes as ever, and what else would be done tells that memory ran out: but a part
    is asked back by short names alone, which want none."""
    orders, _ = given_lines()
    given = [line for line in orders if line.startswith("\t")]
    told = ends_of(orders, REFUSED_CALL=str(1 << 62))
    wants(len(told), len(given))
    assert {"Done", "Refused"} == {end.split(" ")[0] for end in told}, "an order of each kind"
    for line, end, ended in zip(given, told, ends_of(orders)):
        wants_none = end != "Done" or '"Order":"Withdraw"' in line
        wants((line, ended), (line, end if wants_none else faults.MEMORY.strip()))
    print(f"  {len(told) - told.count('Done')} refusals without memory")


def each_allocation(run):
    """What comes of a run while no allocation is refused; and the numbers of those that change it,
    each with what comes then, up to so many in a row that don't."""
    whole, changed, number, fine = run(1 << 62), [], 0, 0
    while fine < ENOUGH:
        number += 1
        came = run(number)
        fine = fine + 1 if came == whole else 0
        if not fine:
            changed.append((number, came))
    return whole, changed


def a_call_is_refused_each_allocation():
    """An order that was refused memory before its step leaves the state, and behind it the old
    state and a stale controller, until that is loaded again; it is done then as ever. A message
    over HTTP is answered with a 503 and taken as it comes again. Of a script in a world a front
    happens, and the rest then, as ever. All of these come."""
    for word, state, line in given_lines()[1]:
        whole, changed = each_allocation(
            lambda number: called([state, line], REFUSED_CALL=str(number)))
        wanted = LEFT[word](state, line, whole)
        for number, told in changed:
            assert told in wanted, f"{word}, allocation {number}: {told!r}"
        counts = collections.Counter(wanted.index(told) for _, told in changed)
        print(f"  {word} without an allocation: {[counts[end] for end in range(len(wanted))]}")
        wants(len(counts), len(wanted))


def left_by_order(state, line, whole):
    """What comes of an order: the controller is stale beside its state; or the state is as it was,
    but where the step itself needs no memory, as a new Status doesn't."""
    ends = whole.removeprefix("Prepared\n")
    words = ["Stale\nRefused 58 Stale\n", "Fresh\n"][:1 if "SetStatus" in line else 2]
    return [f"Prepared\n{faults.MEMORY}{left}{state}\n{ends}" for left in words]


def left_by_message(_state, _line, whole):
    """What comes of a message: a 503, and then the response."""
    response = whole.removeprefix("Prepared\n")
    response = response[:len(response) // 2]
    wants(whole, f"Prepared\n{response}{response}")
    return [f"Prepared\n{UNSAVED}\n{response}"]


def left_by_script(_state, _line, whole):
    """What comes of a script: all its lines, and that the world stands where it begins, or behind
    one of the events that change something."""
    lines = whole.removeprefix("Prepared\nRan\n").splitlines(keepends=True)
    fronts = [0, *(at for at, line in enumerate(lines, 1)
                   if not line.startswith(("Noted", "Refused", "Stopped")))]
    return ["".join([f"Prepared\n{faults.MEMORY}", *lines[:at], "From here\n", *lines[at:]])
            for at in fronts]


LEFT = {"kept": left_by_order, "serve": left_by_message, "world": left_by_script}
UNSAVED = "HTTP/1.1 503 Service Unavailable\r\nContent-Length: 0\r\nConnection: close\r\n\r\n"


def few_cases():
    """The words of cases with a few of each, if there are some those that aren't refused."""
    found = {word: [] for word in WORDS}
    for line in processes.content(os.path.join(CASES, "stdin")).split(b"\n"):
        word = re.split(b"[ \t]", line)[0].decode()
        if word in found:
            found[word].append(line)
    return [(word, line) for word in WORDS for line in sorted(found[word], key=is_refused)[:FEW]]


def is_refused(line):
    return b"Refused" in of_case(line, 1 << 62)[1]


def of_case(line, number):
    """What comes of a case while the allocation of a number is refused."""
    with refused_to_programs(number, number):
        ran = subprocess.run([ARGS.cases], input=line, capture_output=True, timeout=60)
    return ran.returncode, ran.stdout


def a_case_is_refused_each_allocation():
    """A call that no command makes comes to what it ever comes to, or is refused memory; so is the
    reading of the case."""
    told = collections.Counter()
    for word, line in few_cases():
        whole, changed = each_allocation(lambda number: of_case(line, number))
        wants(whole[0], 0)
        for number, came in changed:
            assert came in (REFUSED, UNREAD), f"{line}, allocation {number}: {came}"
            told[word] += came == REFUSED
    print(f"  cases without an allocation: {dict(told)}")
    wants({word for word in told if told[word]}, set(WORDS))


REFUSED = (0, faults.MEMORY.encode())
UNREAD = (1, b"")


def arguments():
    parser = argparse.ArgumentParser()
    parser.add_argument("program")
    parser.add_argument("refused_orders", type=os.path.abspath)
    parser.add_argument("--cases", type=os.path.abspath, default=os.path.join(CASES, "out/cases"))
    parser.add_argument("--each", type=int, default=1)
    return parser.parse_args()


TESTS = [orders_are_refused_without_memory, a_call_is_refused_each_allocation,
         a_case_is_refused_each_allocation, one_allocation_is_refused,
         all_allocations_from_one_on_are_refused, a_message_is_served_without_memory]
ARGS = arguments()
FOLDER = tempfile.mkdtemp()
LIBRARY = build(FOLDER)


def main():
    processes.install(ARGS.program)
    passed = sum([passes(test) for test in TESTS])
    shutil.rmtree(os.path.dirname(PROGRAM))
    shutil.rmtree(FOLDER)
    print(f"allocations: {passed} passed, {len(TESTS) - passed} failed")
    sys.exit(passed != len(TESTS))


if __name__ == "__main__":
    main()
