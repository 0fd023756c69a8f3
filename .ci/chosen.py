#!/usr/bin/env python3
"""Ids that somebody chose so that they are slow to find: chosen.py PROGRAM [--only NAME]

Whoever writes a ticket or an order chooses its ids, and a master the numbers of its spawns. They
are chosen here so that the kit's hash of them falls into one place of a table, so that they differ
in their last letters alone, and so that they rise or fall. A ticket of such ids is read, edited,
begun and stepped, nodes of such ids are added, a part of them goes out and comes home, and a worker
has many spawns of such numbers.

Each is done in turn with random ids of the same lengths, in an input of the same shape. The
processor time with those that were chosen is at most twice that, and a moment more. The best of
some runs count, and where they say otherwise there are more runs before the test fails. --only take
runs those whose names begin so.
"""
import argparse
import functools
import json
import os
import random
import re
import resource
import shutil
import string
import subprocess
import sys
import tempfile

# The bytes of an input. Nodes that are added have a half of them, since each moves what it moves,
# and a script an eighth, since each copy of a part is looked for in all of it.
SIZE = 4_000_000
ADDED, SCRIPT = 2, 8
# How many times the processor time, how many seconds more, and how many runs count; so often are
# there more of them where the time is too long.
TIMES, MORE, RUNS, ROUNDS = 2, 0.05, 3, 5
# A command ends within so many seconds.
SECONDS = 300
# Ids of one hash share so many of its last bits: a table of so many groups has them all in one.
BITS = 13
# The most letters of an id.
LONGEST = 64
LETTERS = string.ascii_letters + string.digits + "_."
# The lines of steps that come out as they should.
STEPS = re.compile(rb"^(?:Edited|Spawned|Taken|Again|Finished|Merged|Restarted)\b", re.M)
# What finds ids and numbers by their hash, as the kit's `FoldHasher` has it of a text and of a
# number of 32 bits, and its `indexmap` of that.
FINDS = r"""
#include <stdint.h>
#include <stdio.h>
#include <stdlib.h>
#include <string.h>

static const uint64_t START = 0x243f6a8885a308d3, FACTOR = 0x9e3779b97f4a7c15;

static uint64_t folded(uint64_t a, uint64_t b) {
    unsigned __int128 product = (unsigned __int128)a * b;
    return (uint64_t)product ^ (uint64_t)(product >> 64);
}

/* The state behind 4 to 8 bytes. */
static uint64_t written(uint64_t state, const unsigned char *bytes, size_t count) {
    uint32_t first, last;
    memcpy(&first, bytes, 4);
    memcpy(&last, bytes + count - 4, 4);
    return folded(state ^ (first | (uint64_t)last << 32), FACTOR ^ 2 * count);
}

static int is_found(uint64_t hash, int bits) {
    return ((hash ^ hash >> 32) & ((1u << bits) - 1)) == 0;
}

static void find_texts(long count, int bits, const char *letters) {
    char text[7] = "";
    for (uint64_t number = 0; count > 0; number++) {
        text[0] = letters[number % 52];
        uint64_t rest = number / 52;
        for (int place = 1; place < 6; place++, rest /= 64) text[place] = letters[rest % 64];
        uint64_t state = written(START, (unsigned char *)text, 6);
        /* Behind a text comes the byte 255, three times as it is read. */
        if (is_found(folded(state ^ 0xffffff, FACTOR ^ 2), bits)) count--, puts(text);
    }
}

static void find_numbers(long count, int bits) {
    for (uint32_t number = 100000000; count > 0 && number < 1000000000; number++)
        if (is_found(written(START, (unsigned char *)&number, 4), bits))
            count--, printf("%u\n", number);
}

int main(int count, char **words) {
    if (count == 4) find_texts(atol(words[1]), atoi(words[2]), words[3]);
    else find_numbers(atol(words[1]), atoi(words[2]));
}
"""


# ---- ids


def build(folder):
    """What finds ids by their hash, built by the C compiler that there is."""
    compiler = shutil.which("cc") or shutil.which("clang")
    if not compiler:
        raise SystemExit("chosen: no C compiler")
    path = os.path.join(folder, "finds")
    subprocess.run([compiler, "-O2", "-x", "c", "-", "-o", path], input=FINDS.encode(), check=True)
    return path


@functools.lru_cache(None)
def found(count, *words):
    done = subprocess.run([FINDER, str(count), str(BITS), *words], stdout=subprocess.PIPE,
                          check=True, timeout=SECONDS)
    lines = done.stdout.decode().split()
    assert len(lines) == count, f"{len(lines)} of {count} were found"
    return lines


def like(ids):
    """Random ids of the same lengths, no two alike."""
    made = {}
    while len(made) < len(ids):
        size = len(ids[len(made)])
        first = CHANCE.choice(string.ascii_letters)
        made[first + "".join(CHANCE.choices(LETTERS, k=size - 1))] = None
    return list(made)


def of_one_hash(count):
    return found(SIZE // 80, LETTERS)[:count]


def of_one_beginning(count):
    ends = CHANCE.sample(range(len(LETTERS) ** 3), count)
    return ["a" * (LONGEST - 3) + LETTERS[n // 4096] + LETTERS[n // 64 % 64] + LETTERS[n % 64]
            for n in ends]


def rising(count):
    return sorted(like(["a" * 6] * count))


def falling(count):
    return rising(count)[::-1]


IDS = [of_one_hash, of_one_beginning, rising, falling]


def numbers_of_one_hash(count):
    return list(map(int, found(SIZE // 48)[:count]))


def rising_numbers(count):
    return sorted(random_numbers(count))


def falling_numbers(count):
    return rising_numbers(count)[::-1]


def random_numbers(count):
    return CHANCE.sample(range(10**8, 10**9), count)


NUMBERS = [numbers_of_one_hash, rising_numbers, falling_numbers]


# ---- inputs


def dump(value):
    return json.dumps(value, separators=(",", ":")).encode()


def node(nid, **more):
    return dict({"ID": nid, "JobPartID": "p", "Status": "Waiting", "Type": "Folding"}, **more)


def linked(nid, rid):
    return node(nid, ResourceLinkPool=[{"Usage": "Output", "rRef": rid}])


def pool(ids):
    return [{"Class": "Quantity", "ID": rid, "Name": "Component", "Status": "Available"}
            for rid in ids]


def ticket(ids):
    """A part of nodes, each of which links to a resource of the root: the ids of either in turn."""
    nodes = [linked(nid, rid) for nid, rid in zip(ids[::2], ids[1::2])]
    return node("root", JobID="J", ResourcePool=pool(ids[1::2]), JDF=[node("part", JDF=nodes)])


def looking(ids):
    """An edit of each of some nodes and resources."""
    return [{"Edit": "SetStatus", "Node": nid, "Status": "Ready"} for nid in ids[::20]] + [
        {"Edit": "SetResStatus", "Resource": rid, "Status": "Ready"} for rid in ids[1::20]]


def edited(ids):
    return dump({"At": 1, "Edits": looking(ids), "Ticket": ticket(ids)})


def added(ids):
    """A node for each of these ids."""
    edits = [{"Edit": "AddNode", "ID": nid, "JobPartID": "p", "Node": "root", "Status": "Waiting",
              "Type": "Folding"} for nid in ids]
    return dump({"At": 1, "Edits": edits, "Ticket": node("root", JobID="J")})


def opening(ids):
    return dump({"Master": "mis", "Ticket": ticket(ids), "Workers": ["press"]})


def spawning(rw):
    return {"Node": "part", "Order": "Spawn", "RW": rw, "Worker": "press"}


def played(ids):
    """The part goes out with all resources, is finished and merged; the master is begun anew."""
    finish = {"Order": "Finish", "SpawnID": "S1", "Status": "Completed"}
    events = [{"Event": "Order", "Order": spawning(ids[1::2]), "To": "mis"},
              {"Deliver": 1, "Event": "Deliver"},
              {"Event": "Order", "Order": finish, "To": "press"},
              {"Deliver": 3, "Event": "Deliver"},
              {"Event": "Restart", "To": "mis"}]
    return dump({"Events": [dict(event, At=at) for at, event in enumerate(events)],
                 "Master": "mis", "Ticket": ticket(ids), "Workers": ["press"]})


# ---- runs


def ran(*words, given=b""):
    """What a command prints. It has to end well."""
    done = subprocess.run([PROGRAM, *words], input=given, stdout=subprocess.PIPE,
                          stderr=subprocess.PIPE, timeout=SECONDS)
    assert (done.returncode, done.stderr) == (0, b""), f"{words}: {done.returncode} {done.stderr}"
    return done.stdout


def timed(count, *words, given=b""):
    """How many seconds of a processor a command takes, which tells so many lines of a step."""
    before = resource.getrusage(resource.RUSAGE_CHILDREN)
    out = ran(*words, given=given)
    after = resource.getrusage(resource.RUSAGE_CHILDREN)
    told = len(STEPS.findall(out))
    assert told == count, f"{words}: {told} of {count} steps: {out[:200]}"
    return after.ru_utime - before.ru_utime + after.ru_stime - before.ru_stime


def edit(ids):
    return functools.partial(timed, len(looking(ids)), "edit", given=edited(ids))


def add(ids):
    return functools.partial(timed, len(ids), "edit", given=added(ids))


def play(ids):
    return functools.partial(timed, 5, "world", given=played(ids))


def begin(ids):
    """The master is begun anew each time."""
    given = opening(ids)

    def call():
        file = unused()
        seconds = timed(0, "new", file, given=given)
        os.remove(file)
        return seconds
    return call


def step(ids):
    """The first node of the ticket is looked up, and changed each time."""
    file = unused()
    ran("new", file, given=opening(ids))
    change = {"Edit": "SetAttr", "Name": "A", "Node": ids[0], "Value": "x"}
    given = dump({"Edit": change, "Order": "Edit"})
    return functools.partial(timed, 1, "order", file, "--at", "1", given=given)


def take(numbers):
    """A part comes again to a worker that has declined many before."""
    master, worker = unused(), unused()
    ran("new", master, given=opening(["n1", "r1"]))
    ran("new", worker, given=dump({"Master": "mis", "Worker": "press"}))
    sent = ran("order", master, "--at", "1", given=dump(spawning(["r1"]))).split(b"\n")[1]
    sent = re.sub(rb"\bS1\b", f"S{numbers[-1]}".encode(), sent)
    assert ran("take", worker, "--at", "1", given=sent).startswith(b"Taken"), sent
    with open(worker, "r+b") as file:
        state = json.load(file)
        state["Worker"]["Entries"] = [{"At": 1, "ID": f"S{number}", "Phase": "Declined"}
                                      for number in numbers[:-1]] + state["Worker"]["Entries"]
        file.seek(0)
        file.write(dump(state))
    return functools.partial(timed, 1, "take", worker, "--at", "2", given=sent)


def unused():
    """The path of a file that isn't there."""
    return os.path.join(tempfile.mkdtemp(dir=FOLDER), "file")


# ---- what they cost


def costs_no_more(name, chosen, random_ones):
    """Fails where what was chosen takes much longer, in run after run."""
    best = [SECONDS, SECONDS]
    for _ in range(ROUNDS):
        for _ in range(RUNS):
            for which, call in enumerate((chosen, random_ones)):
                best[which] = min(best[which], call())
        if best[0] <= TIMES * best[1] + MORE:
            break
    told = f"{name}: {best[0]:.3f} s, with random ones {best[1]:.3f} s"
    print("  " + told, flush=True)
    assert best[0] <= TIMES * best[1] + MORE, told


def of_ids(made, share, kind):
    """As many ids of a kind as fit into such an input, and random ones."""
    few = 100
    ids = kind(few * (SIZE // share) // len(made(kind(few))))
    return ids, like(ids)


def of_numbers(kind):
    numbers = kind(SIZE // 48)
    return numbers, random_numbers(len(numbers))


def comparisons():
    """What is done with each kind of ids, and what makes these and random ones."""
    for call, made, share in ((edit, edited, 1), (add, added, ADDED), (begin, opening, 1),
                              (step, opening, 1), (play, played, SCRIPT)):
        for kind in IDS:
            yield call, kind, functools.partial(of_ids, made, share)
    for kind in NUMBERS:
        yield take, kind, of_numbers


def passes(name, call, chosen, random_ones):
    try:
        costs_no_more(f"{name}, {len(chosen)}", call(chosen), call(random_ones))
        return True
    except (AssertionError, subprocess.SubprocessError) as fault:
        print(f"{name} ... FAILED: {str(fault)[:1000]}", flush=True)
        return False


def main():
    passed = []
    for call, kind, pair in comparisons():
        name = f"{call.__name__} {kind.__name__}".replace("_", " ")
        if name.startswith(ARGS.only):
            passed.append(passes(name, call, *pair(kind)))
    print(f"chosen: {sum(passed)} passed, {len(passed) - sum(passed)} failed")
    sys.exit(not all(passed))


def arguments():
    parser = argparse.ArgumentParser()
    parser.add_argument("program", type=os.path.realpath)
    parser.add_argument("--only", default="")
    return parser.parse_args()


if __name__ == "__main__":
    ARGS = arguments()
    PROGRAM, CHANCE = ARGS.program, random.Random(1)
    with tempfile.TemporaryDirectory() as FOLDER:
        FINDER = build(FOLDER)
        main()
