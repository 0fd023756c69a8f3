#!/usr/bin/env python3
"""Random and damaged input for the program: hostile.py PROGRAM [--cases N] [--first N] [--times N]

Each case has a number, and is the same in each run. It is a text that fits, as a rule damaged:
cut, doubled, swapped. The program must end by itself, with a status that is documented, and tell
what is documented; leave a file as it was where it refuses the form of what it reads; and need at
most as many times the memory of its input as --times says (0: any); a list of one shape may need
more. The last lines say how often each reply came, and how many cases passed. --first and --cases
run one again by its number.
"""
import argparse
import collections
import contextlib
import json
import os
import random
import re
import shutil
import signal
import socket
import subprocess
import sys
import tempfile
import threading
from pathlib import Path

from texts import (FILES, answered, damaged, edit_input, large_inputs, message, opening, order,
                   request, script, state)

REFUSALS = Path(__file__).resolve().parent.parent / "docs/REFUSALS.md"
NAMES = dict(re.findall(r"^\| (\d+) `(\w+)`", REFUSALS.read_text(encoding="utf-8"), re.M))
# A refusal, and of what is sent to where it was to go.
TOLD = re.compile(r"Refused (?P<number>\d+) (?P<name>\w+)(?:: (?P<address>127\.0\.0\.1:\d+))?\n")
NOT_JSON = "Refused 40 NotJson\n"
NOT_TAKEN = re.compile(r"Refused by the controller: [1-9]\d\d\n")
# The lines of an event, an edit, an order and a message: a refusal, or a reply with what was sent.
REFUSED = r"Refused (?P<number>\d+) (?P<name>\w+)(?: (?P<holder>S[1-9]\d{0,8}))?"
OF_A_SPAWN = ("Spawned|Sent|Finished|Merged|Already|Noted|Taken|Again|Acked|Asked|Declined|Ended|"
              "Freed")
REPLIES = f"Edited|(?:{OF_A_SPAWN}) S[1-9][0-9]{{0,8}}"
LINE = re.compile(f"(?:{REFUSED}|{REPLIES}|Stopped|Restarted|NoMessage)(?: #[1-9][0-9]*)?")
# The line of an answer that refuses, and who refused; refusals by their numbers have names but for
# those of HTTP and files, which no answer tells.
REFUSED_BY = re.compile(r"Refused ([1-9]\d*)(?: (\w+))? by [A-Za-z_][A-Za-z0-9_.-]{0,63}")
STATUS = re.compile(r" (?:Running|Completed|Aborted)$")
# The most that a run needs beside its input.
ROOM = 4 << 20
# What large input needs more than it should, a list of many `[1,1]`, and how many times its size.
NEED_MORE = {"pairs": 35}
SECONDS = 120
# How often each reply came.
CAME = collections.Counter()
# A child's memory counts that of the process that starts it, so a small one does: it leaves the
# program's status and memory in a file.
STARTS = """
import os, subprocess, sys
started = subprocess.Popen(sys.argv[2:])
_, status, usage = os.wait4(started.pid, 0)
started.returncode = status
with open(sys.argv[1], "w") as measured:
    print(status, usage.ru_maxrss * 1024, file=measured)
"""


class Ran:
    """What became of a run."""

    def __init__(self, words, given, file=None):
        self.given, self.words = given, words
        with tempfile.TemporaryFile() as stdin, tempfile.TemporaryFile() as out, \
                tempfile.TemporaryFile() as told, tempfile.NamedTemporaryFile("r") as measured:
            stdin.write(given)
            stdin.seek(0)
            self.status, self.memory = ended(started(words, measured, stdin, out, told), measured)
            out.seek(0)
            told.seek(0)
            self.out = out.read().decode("utf-8", "surrogateescape")
            self.told = told.read().decode("utf-8", "surrogateescape")
        self.file = file


def started(words, measured, stdin, out, told):
    """A process that starts the program, and leaves what becomes of it in a file."""
    return subprocess.Popen([sys.executable, "-IS", "-c", STARTS, measured.name, ARGS.program, *words],
                            stdin=stdin, stdout=out, stderr=told, start_new_session=True)


def ended(starter, measured):
    """The program's status, and the most memory that it had in bytes. It is killed if it hangs."""
    def hangs(*_):
        os.killpg(starter.pid, signal.SIGKILL)
        raise AssertionError(f"no end within {SECONDS} s")
    signal_after(SECONDS, hangs)
    try:
        starter.wait()
    finally:
        signal_after(0, hangs)
    status, memory = map(int, measured.read().split())
    return os.waitstatus_to_exitcode(status), memory


def signal_after(seconds, call):
    signal.signal(signal.SIGALRM, call)
    signal.alarm(seconds)


def wants(fact, *told):
    if not fact:
        raise AssertionError(" ".join(str(part) for part in told))


# ---- what holds of every run


def is_json(given):
    """Whether these bytes are JSON as the program reads it; None where this can't be told here."""
    try:
        text = given.decode("utf-8")
        value = json.loads(text, parse_constant=refuse, parse_float=finite, parse_int=finite)
        text.encode("utf-8")
        json.dumps(value, ensure_ascii=False).encode("utf-8")
    except (ValueError, UnicodeError):
        return False
    except RecursionError:
        return None
    return None if depth_of(text) > 120 else True


def refuse(word):
    raise ValueError(word)


def finite(digits):
    """The number, which is refused as too large for a float."""
    number = float(digits)
    if number in (float("inf"), float("-inf")):
        raise ValueError(digits)
    return number


def depth_of(text):
    """At least how deep the brackets of a text stand."""
    depth = most = 0
    for bracket in re.findall(r"[\[\]{}]", text):
        depth += 1 if bracket in "[{" else -1
        most = max(most, depth)
    return most


def ends_well(ran, times=None, is_begun=False, address=None):
    """A status that is documented, what it goes with, and memory by the size of the input. Where a
    step was told before something was refused, that stays printed. Behind a refusal stands at most
    the address to which was sent."""
    wants(ran.status in (0, 1, 2, 3, 4), "status", ran.status, ran.told)
    if ran.status == 0:
        wants(ran.told == "", "status 0 told", ran.told)
    elif ran.status == 1:
        wants(ran.told in ("", "Refused 90 Memory\n"), "status 1 told", ran.told)
    elif ran.status in (3, 4):
        told = TOLD.fullmatch(ran.told)
        wants(told and NAMES.get(told["number"]) == told["name"], "told", ran.told)
        wants(told["address"] in (None, address), "told", ran.told)
        is_told = ran.status == 4 or is_begun
        wants(is_told or ran.out == "", "printed beside status 3:", ran.out[:200])
    needs_little(ran.memory, len(ran.given), times)


def needs_little(memory, size, times=None):
    """Memory by the size of the input: at most so many times that, or what the arguments say."""
    most = (times or ARGS.times) * size + ARGS.base
    wants(not ARGS.times or memory <= most, memory, "bytes of memory for", size)


def reads_json(ran):
    """40 is told of what is no JSON, and of nothing else."""
    if len(ran.given) > 4 << 20 or ran.status in (2, 4):
        return
    known = is_json(ran.given)
    wants(known is None or known == (ran.told != NOT_JSON), "JSON:", known, "but told", ran.told)


def are_lines(lines):
    for line in lines:
        found = LINE.fullmatch(line)
        wants(found, "a line", line)
        CAME[line.partition(" ")[0]] += 1
        if found["number"]:
            wants(NAMES.get(found["number"]) == found["name"], "a line", line)


def are_answers(lines):
    """The lines of answers that were taken: with the Status of the queue entry, or who refused."""
    for line in lines:
        refused = REFUSED_BY.fullmatch(line)
        if not refused:
            are_lines([STATUS.sub("", line)])
            continue
        number, name = refused.groups()
        is_named = int(number) < 50 or int(number) == 90
        wants(name == (NAMES.get(number) if is_named else None), "a line", line)
        CAME["Refused .. by"] += 1


# ---- cases


def run_edit(chance, folder):
    ran = Ran(["edit"], damaged(chance, edit_input(chance)))
    ends_well(ran)
    reads_json(ran)
    if ran.status in (0, 1):
        *lines, ticket = ran.out.split("\n")[:-1]
        are_lines(lines)
        wants((ran.status == 1) == any(line != "Edited" for line in lines), "status", ran.status)
        again = f'{{"At":0,"Edits":[],"Ticket":{ticket}}}'.encode()
        wants(Ran([], again).out == ticket + "\n", "the ticket isn't read as it was written")


def run_world(chance, folder):
    ran = Ran(["world"], damaged(chance, script(chance, stops=True)))
    plays_well(ran)


def run_loop(chance, folder):
    """`loop` prints what `world` does."""
    given = script(chance, stops=False)
    given = damaged(chance, given) if chance.random() < 0.3 else given
    looped, played = Ran(["loop"], given), Ran(["world"], given)
    plays_well(looped)
    if "BeforeS" not in given.decode("latin-1"):
        wants((looped.status, looped.out) == (played.status, played.out),
              "loop", looped.out[:300], "world", played.out[:300])


def plays_well(ran):
    ends_well(ran)
    reads_json(ran)
    wants(ran.status in (0, 3), "status", ran.status, ran.told)
    if ran.status == 0:
        *lines, ticket = ran.out.split("\n")[:-1]
        are_lines(lines)
        wants(len(lines) == len(json.loads(ran.given)["Events"]), len(lines), "lines")
        json.loads(ticket)


def run_new(chance, folder):
    given = damaged(chance, opening(chance))
    ran = Ran(["new", "new.json"], given)
    ends_well(ran)
    reads_json(ran)
    wants(ran.out == "", "printed", ran.out)
    wants(os.path.exists("new.json") == (ran.status == 0), "a file beside status", ran.status)
    if ran.status == 0:
        wants(Ran(["show", "new.json"], b"").status == 0, "what was begun isn't read")


def run_step(chance, folder):
    """An order or a message for a controller in a file, which may be damaged itself."""
    kind = chance.choice(FILES)
    word = chance.choice(("order", "take"))
    held = state(chance, kind)
    given = order(chance, kind) if word == "order" else message(chance, kind)
    given = damaged(chance, given)
    is_whole = chance.random() < 0.8
    held = held if is_whole else damaged(chance, held)
    put(held)
    ran = Ran([word, "state.json", "--at", str(chance.randrange(10**10))], given)
    ends_well(ran)
    if is_whole:
        wants(ran.status in (0, 1, 3), "status", ran.status, ran.told)
        reads_json(ran)
    if ran.status in (3, 4):
        wants(content("state.json") == held, "the file has changed")
    else:
        are_lines(ran.out.split("\n")[:1])
        wants((ran.status == 1) == ran.out.startswith("Refused"), "status", ran.status, ran.out)
        wants(Ran(["show", "state.json"], b"").status == 0, "what was saved isn't read")
    wants(os.listdir(".") == ["state.json"], "files are left", os.listdir("."))


def run_shown(chance, folder):
    """A state, which may be damaged, as it is shown and as a picture."""
    held = damaged(chance, state(chance, chance.choice(FILES)))
    put(held)
    shown, drawn = Ran(["show", "state.json"], b""), Ran(["show", "state.json", "--picture"], b"")
    for ran in (shown, drawn):
        ends_well(ran)
        wants(ran.status in (0, 4), "status", ran.status, ran.told)
        wants(content("state.json") == held, "the file has changed")
    wants(shown.told == drawn.told, "shown", shown.told, "as a picture", drawn.told)
    known = is_json(held)
    wants(known is None or known == (shown.told != NOT_JSON), "JSON:", known, shown.told)
    wants(drawn.status == 4 or drawn.out.startswith("<svg "), "a picture", drawn.out[:200])


def run_served(chance, folder):
    """Some requests for a controller that is served, one after the other."""
    kind = chance.choice(FILES)
    put(state(chance, kind))
    count = chance.randrange(1, 12)
    words = ["serve", "state.json", "--listen", "127.0.0.1:0", "--limit", "60"]
    with open("log", "wb") as log, tempfile.NamedTemporaryFile("r") as measured:
        words += ["--requests", str(count)]
        served = started(words, measured, None, subprocess.PIPE, log)
        port = int(served.stdout.readline().decode().rsplit(":", 1)[1])
        size = 0
        for _ in range(count):
            size = max(size, ask(chance, port, kind))
        status, memory = ended(served, measured)
        served.stdout.close()
    wants(status == 0, "status", status)
    needs_little(memory, size)
    wants(Ran(["show", "state.json"], b"").status == 0, "what was saved isn't read")
    os.remove("log")


def ask(chance, port, kind):
    """Sends a request, which may be damaged. Answers its size."""
    given = damaged(chance, request(chance, kind))
    before = content("state.json")
    with socket.create_connection(("127.0.0.1", port), timeout=SECONDS) as connection:
        try:
            connection.sendall(given)
            connection.shutdown(socket.SHUT_WR)
        except OSError:
            pass
        parts = []
        while part := connection.recv(65536):
            parts.append(part)
    response = b"".join(parts).removeprefix(b"HTTP/1.1 100 Continue\r\n\r\n")
    if given == b"":
        wants(response == b"", "a response to nothing", response[:200])
        return 0
    head, empty, body = response.partition(b"\r\n\r\n")
    status = re.match(rb"HTTP/1\.1 (200|400|405|411|413|501|503) [A-Z][A-Za-z ]+\r\n", head)
    wants(status and empty, "the response", response[:200])
    wants(b"Connection: close" in head, "the response", response[:200])
    wants(int(re.search(rb"Content-Length: (\d+)", head)[1]) == len(body), "a body of", len(body))
    if status[1] != b"200":
        wants(content("state.json") == before, "refused, and the file has changed")
        wants(body == b"" if status[1] != b"400" else is_refusal(body), "a body", body[:200])
    return len(given)


def is_refusal(body):
    """Whether a body tells a refusal."""
    told = re.fullmatch(rb'\{"Name":"(\w+)","Refused":([1-9]\d*)\}', body)
    return told and NAMES.get(told[2].decode()) == told[1].decode()


def run_sent(chance, folder):
    """A message for a server, whose response may be damaged."""
    kind = chance.choice(FILES)
    response = damaged(chance, answered(chance, kind))
    with answering(response) as url:
        ran = Ran(["send", url], message(chance, kind))
    if ran.status == 1 and NOT_TAKEN.fullmatch(ran.told):
        wants(ran.out == "", "printed", ran.out)
        return
    if ran.status == 1:
        wants(REFUSED_BY.fullmatch(ran.told[:-1]), "told", ran.told)
        are_answers(ran.told.splitlines())
        wants(is_of(ran, response), "printed", ran.out[:300])
        return
    # What is printed of a response may be no message, which is told behind it.
    ends_well(ran, is_begun=ran.out != "", address=authority(url))
    wants(ran.status in (0, 3, 4), "status", ran.status)
    wants(ran.status != 3 or ran.out != "", "nothing printed beside status 3")
    if ran.status in (0, 3):
        wants(b" 200" in response[:40], "200 was read of", response[:40])
        wants(is_of(ran, response), "printed", ran.out[:300])


def run_order_sent(chance, folder):
    """An order whose message is sent to a server, and the answer to it is taken."""
    kind = chance.choice(FILES)
    held = state(chance, kind)
    put(held)
    with answering(damaged(chance, answered(chance, kind))) as url:
        ran = Ran(["order", "state.json", "--at", "200", "--send", url], order(chance, kind))
    if ran.told == f"Answered with no message by {url}: 200\n":
        wants(ran.status == 1, "status", ran.status)
    elif not NOT_TAKEN.fullmatch(ran.told):
        ends_well(ran, is_begun=ran.out != "", address=authority(url))
    # A command that comes as the response is answered, as `take` does.
    lines = [line for line in ran.out.split("\n")[:-1] if not line.startswith("{")]
    are_lines(lines[:1])
    are_answers(lines[1:])
    wants(ran.status != 3 or ran.out or content("state.json") == held, "the file has changed")
    wants(Ran(["show", "state.json"], b"").status == 0, "what was saved isn't read")


def authority(url):
    return url.split("/")[2]


@contextlib.contextmanager
def answering(response):
    """The URL of a server that answers a request by these bytes, if one comes."""
    with socket.create_server(("127.0.0.1", 0)) as listener:
        thread = threading.Thread(target=answer, args=(listener, response))
        thread.start()
        try:
            yield f"http://127.0.0.1:{listener.getsockname()[1]}/jmf"
        finally:
            # Wakes the thread where no request came.
            listener.shutdown(socket.SHUT_RDWR)
            thread.join()


def is_of(ran, response):
    """Whether what was printed is a piece of a response on a line, or nothing."""
    line = ran.out.encode("utf-8", "surrogateescape")
    return line == b"" or (line[-1:] == b"\n" and line[:-1] in response)


def answer(listener, response):
    """Reads a request to its end, and answers by these bytes."""
    try:
        connection = listener.accept()[0]
    except OSError:
        return
    with connection:
        given, length = b"", None
        while length is None or len(given.partition(b"\r\n\r\n")[2]) < int(length[1]):
            given += connection.recv(65536)
            length = re.search(rb"Content-Length: (\d+)\r\n[^{]*\r\n\r\n", given)
        connection.sendall(response)


def put(held):
    with open("state.json", "wb") as file:
        file.write(held)


def content(path):
    with open(path, "rb") as file:
        return file.read()


KINDS = [run_edit, run_edit, run_world, run_loop, run_new, run_step, run_step, run_step, run_shown,
         run_served, run_sent, run_order_sent]


def passes(number, call):
    """Whether a call passes, in a folder of its own."""
    folder = tempfile.mkdtemp()
    os.chdir(folder)
    try:
        call(random.Random(number), folder)
        return True
    except (AssertionError, OSError, subprocess.SubprocessError) as fault:
        print(f"case {number}, {call.__name__} ... FAILED: {str(fault)[:1000]}")
        return False
    finally:
        os.chdir("/")
        shutil.rmtree(folder)


def large(name, words, given):
    """A large input: what it leaves, and how much memory it takes."""
    def call(chance, folder):
        put(state(chance, "master"))
        ran = Ran(words, given)
        ends_well(ran, NEED_MORE.get(name.split()[0]))
        reads_json(ran)
        times = (ran.memory - ARGS.base + ROOM) / len(given)
        print(f"  {name}: {len(given)} bytes, status {ran.status}, memory {times:.1f} times that")
    call.__name__ = name
    return call


def arguments():
    parser = argparse.ArgumentParser()
    parser.add_argument("program", type=os.path.realpath)
    parser.add_argument("--cases", type=int, default=1500)
    parser.add_argument("--first", type=int, default=1)
    parser.add_argument("--times", type=int, default=25)
    parser.add_argument("--most", type=int, default=4 << 20)
    return parser.parse_args()


def main():
    ARGS.base = 0
    ARGS.base = ROOM + Ran(["--help"], b"").memory
    numbers = range(ARGS.first, ARGS.first + ARGS.cases)
    passed = [passes(number, KINDS[number % len(KINDS)]) for number in numbers]
    if ARGS.first == 1:
        passed += [passes(0, large(*one)) for one in large_inputs(ARGS.most)]
    print("  " + ", ".join(f"{count} {word}" for word, count in CAME.most_common()))
    print(f"hostile: {sum(passed)} passed, {len(passed) - sum(passed)} failed")
    sys.exit(not all(passed))


ARGS = arguments()
if __name__ == "__main__":
    main()
