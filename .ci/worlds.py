#!/usr/bin/env python3
"""What scripts come to, said once more: worlds.py PROGRAM [--seed N] [--worlds N]

Each world is a random job, its workers and a script of 60 to 300 events, made from its seed. What
`world` prints of it is compared, byte by byte, with what the shop of shop.py comes to, which has
no controllers, no parts and no stored states, and of a message knows its kind and its spawn alone.
The last lines say how often each answer and each refusal came, and how many worlds passed. Where
one differs, its seed stands there, and the first line that does; --seed and --worlds run it again.
"""
import argparse
import collections
import itertools
import os
import random
import re
import subprocess
import sys
import time

import texts
from shop import DEEPEST, MASTER, OUT, STRUCTURAL, Shop, Ticket, whole_node

WORKERS = ("press", "bind", "fold")
WORLDS = 300
SECONDS = 120
# What so many worlds have to come to.
REACHED = ["Spawned", "Sent", "Asked", "Edited", "Finished", "Taken", "Merged", "Again", "Already",
           "Acked", "Noted", "Declined", "Ended", "Freed", "Stopped", "Restarted", "NoMessage"]
REACHED += [f"Refused {number}" for number in (2, 3, 4, 5, 10, 11, 12, 13, 14, 15, 16, 30, 31, 32,
                                               33, 34, 35, 37)]
# How often each answer came.
CAME = collections.Counter()


# ---- scripts, made along with their shop so that they go deep


def pick(chance, likely, other):
    """One of what is likely, or now and then one of something else."""
    likely, other = list(likely), list(other)
    return chance.choice(other if not likely or chance.random() < 0.08 else likely)


def job(chance):
    """A job of 2 to 12 nodes that is read, and perhaps a chain that goes as deep as it may."""
    while True:
        ids = texts.Ids()
        root = dict(texts.node(chance, ids, [], 1), JobID="J1")
        ticket = Ticket(whole_node(root))
        if 2 <= len(ids.nodes) <= 12 and all(row["Status"] != "Spawned"
                                             for row in ticket.nodes.values()):
            break
    row = root
    for number in range(chance.choice((0, 0, 0, DEEPEST - 1))):
        row["JDF"].append({"ID": f"c{number}", "JobPartID": "p", "Status": "Waiting",
                           "Type": "Cutting"})
        row = row["JDF"][-1]
        row["JDF"] = []
    return root


def editing(chance, ticket, names):
    """An edit of something among these names, now and then one that goes deeper than all."""
    ids = texts.Ids()
    ids.nodes = [one for one in names if one in ticket.nodes]
    ids.resources = [one for one in names if one in ticket.resources]
    is_deep = ids.nodes and chance.random() < 0.1
    if is_deep:
        ids.nodes = [max(ids.nodes, key=lambda one: len(ticket.paths[one]))]
    edit = texts.edit(chance, ids)
    while is_deep and edit["Edit"] != "AddNode":
        edit = texts.edit(chance, ids)
    if edit.get("ID", "").startswith("x"):
        edit["ID"] = f"x{chance.randrange(20)}"
    if "Status" in edit and chance.random() < 0.1:
        edit["Status"] = "Spawned"
    return edit


def spawning(chance, shop):
    """An order to spawn, as a rule of a free node, not of the chain: the master edits that."""
    ticket = shop.seen
    nodes = [one for one in ticket.nodes if one != ticket.order[0] and not one.startswith("c")]
    free = [one for one in nodes if not any(shop.holders[held] for held in ticket.below(one))]
    node = pick(chance, free or nodes, [ticket.order[0], "n99", chance.choice(list(ticket.nodes))])
    changed = [one for one in (ticket.outside(node) if node in ticket.nodes else [])
               if chance.random() < (0.1 if shop.holders[one] else 0.5)]
    if chance.random() < 0.08:
        changed.append(chance.choice(["r99", chance.choice([*ticket.resources, "r99"])]))
    chance.shuffle(changed)
    return {"Node": node, "Order": "Spawn", "RW": changed,
            "Worker": pick(chance, shop.workers, ["fold", "nobody"])}


def number_of(chance, shop, phases):
    """The number of a spawn, as a rule of one in these phases."""
    return pick(chance, [one.number for one in shop.spawns if one.phase in phases],
                range(1, len(shop.spawns) + 3))


def for_master(chance, shop):
    """The master, and an order to it."""
    kind = chance.choice(("Spawn", "Spawn", "Spawn", "Edit", "Edit", "Resend", "Withdraw"))
    if kind == "Spawn":
        return MASTER, spawning(chance, shop)
    if kind == "Edit":
        return MASTER, {"Edit": editing(chance, shop.seen, shop.seen.order), "Order": "Edit"}
    return MASTER, {"Order": kind, "SpawnID": f"S{number_of(chance, shop, OUT)}"}


def for_worker(chance, shop):
    """A worker and an order to it, as a rule to one that has the spawn's part."""
    kind = chance.choice(("Edit", "Edit", "Edit", "Finish", "Resend"))
    number = number_of(chance, shop, ("done", "merged") if kind == "Resend" else ("open",))
    order = {"Order": kind, "SpawnID": f"S{number}"}
    worker, names = [], shop.seen.order
    if number <= len(shop.spawns):
        spawn = shop.spawns[number - 1]
        worker = [spawn.worker]
        names = pick(chance, [spawn.read + shop.seen.below(spawn.node) + spawn.changed], [names])
    if kind == "Edit":
        order["Edit"] = editing(chance, shop.seen, names)
        while order["Edit"]["Edit"] in STRUCTURAL and chance.random() < 0.8:
            order["Edit"] = editing(chance, shop.seen, names)
    if kind == "Finish":
        order["Status"] = chance.choice(("Completed", "Aborted"))
    return pick(chance, worker, [*shop.workers, "nobody"]), order


def happening(chance, shop, waiting):
    """An event: an order, a message that comes, first or once more, or a restart."""
    kinds = ("master", "worker", "message", "restart")
    is_open = any(one.phase == "open" for one in shop.spawns)
    kind = chance.choices(kinds, (30, 40 if is_open else 8, 32, 3))[0]
    if kind == "restart":
        return {"Event": "Restart", "To": pick(chance, [MASTER, *shop.workers], ["nobody"])}
    if kind == "message":
        count = len(shop.sent)
        first = min(waiting, default=chance.randrange(count + 1))
        number = chance.choice((first, first, chance.randrange(count + 2),
                                max(0, count - chance.randrange(4))))
        return texts.delivered(number)
    return texts.ordered(*(for_master if kind == "master" else for_worker)(chance, shop))


def world(seed):
    """A script as text, and the lines of its shop."""
    chance = random.Random(seed)
    root = job(chance)
    shop = Shop(root, WORKERS[:chance.choice((2, 3))])
    events, lines, waiting, at, stops = [], [], set(), 0, chance.choice((0, 0.1, 0.3))
    for _ in range(chance.randrange(60, 301)):
        event = happening(chance, shop, waiting)
        waiting.discard(event.get("Deliver"))
        at += chance.randrange(4)
        event["At"] = pick(chance, [at], [0, at, 2**64 - 1])
        if chance.random() < stops:
            event["Stop"] = chance.choice(("Run", "BeforeSave", "BeforeSend"))
        events.append(event)
        sent = len(shop.sent)
        lines.append(shop.answer(event))
        waiting.update(range(sent + 1, len(shop.sent) + 1))
    script = {"Events": events, "Master": MASTER, "Ticket": root, "Workers": list(shop.workers)}
    return texts.dump(chance, script), [*lines, shop.shown(), ""]


# ---- the comparison


def passes(program, seed):
    """Whether the program prints what the shop of this seed comes to."""
    given, wanted = world(seed)
    CAME.update(re.match(r"Refused \d+|\w+", line)[0] for line in wanted[:-2])
    ran = subprocess.run([program, "world"], input=given, capture_output=True, timeout=SECONDS)
    if (ran.returncode, ran.stdout, ran.stderr) == (0, "\n".join(wanted).encode(), b""):
        return True
    print(f"  seed {seed} ... FAILED: status {ran.returncode}, told {ran.stderr}")
    lines = itertools.zip_longest(ran.stdout.decode(errors="replace").split("\n"), wanted,
                                  fillvalue="")
    number, pair = next((one for one in enumerate(lines, 1) if one[1][0] != one[1][1]), (0, ""))
    place = max(0, len(os.path.commonprefix(pair)) - 100)
    for told, line in zip(("is", "and should be"), pair):
        print(f"  line {number} {told}, from character {place} on:\n{line[place:][:400]}")
    return False


def arguments():
    parser = argparse.ArgumentParser()
    parser.add_argument("program")
    parser.add_argument("--seed", type=int, default=1)
    parser.add_argument("--worlds", type=int, default=WORLDS)
    return parser.parse_args()


def main():
    args, start = arguments(), time.monotonic()
    passed = sum([passes(args.program, args.seed + number) for number in range(args.worlds)])
    print("  " + ", ".join(f"{count} {word}" for word, count in CAME.most_common()))
    never = [word for word in REACHED if not CAME[word]] if args.worlds >= WORLDS else []
    if never:
        print("  FAILED: never came " + ", ".join(never))
    took = time.monotonic() - start
    print(f"worlds: {passed} passed, {args.worlds - passed} failed, {took:.0f} s")
    sys.exit(passed != args.worlds or bool(never))


if __name__ == "__main__":
    main()
