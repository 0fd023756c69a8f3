"""What a script comes to in a shop that is one ticket and one table of who holds what."""
import copy
import json
import re
from pathlib import Path

REFUSALS = Path(__file__).resolve().parent.parent / "docs/REFUSALS.md"
NAMES = dict(re.findall(r"^\| (\d+) `(\w+)`", REFUSALS.read_text(encoding="utf-8"), re.M))
MASTER = "mis"
DEEPEST = 32
# What stands in place of a spawn's number where the master holds.
NONE = 0
STRUCTURAL = ("AddNode", "AddResource", "AddLink")
# The members of a row that a merge brings in.
CHANGING = ("Status", "Attr", "AuditPool")
# The phases of a spawn that is out, and those of one whose worker never took the part.
OUT = ("away", "open", "done", "declined")
UNTAKEN = ("away", "declined", "withdrawn")


class Refused(Exception):
    """A refusal by its number; of 12 also the spawn that holds."""

    def __init__(self, number, holder=NONE):
        super().__init__(number)
        told = f" S{holder}" if holder else ""
        self.line = f"Refused {number} {NAMES[str(number)]}{told}"


def need(is_so, number, holder=NONE):
    if not is_so:
        raise Refused(number, holder)


# ---- a ticket


def whole_resource(row):
    """A resource with every member."""
    return {"Attr": {}, "Locked": False, "SpawnIDs": [], "SpawnStatus": "NotSpawned", **row}


def whole_node(row):
    """A node with every member, and so all that stands below it."""
    node = {"Attr": {}, "AuditPool": [], "ResourceLinkPool": [], **row}
    node["ResourcePool"] = [whole_resource(one) for one in row.get("ResourcePool", [])]
    node["JDF"] = [whole_node(one) for one in row.get("JDF", [])]
    return node


class Ticket:
    """A job as its JSON, with its rows found by their ids."""

    def __init__(self, root):
        self.root = root
        self.index()

    def index(self):
        """Each row by its id, in the order of the ticket, and the ids of the nodes from each row's
        own node, or of a resource its home, up to the root."""
        self.nodes, self.resources, self.paths, self.order = {}, {}, {}, []
        self.index_node(self.root, ())

    def index_node(self, node, above):
        path = (node["ID"], *above)
        for row in (node, *node["ResourcePool"]):
            (self.nodes if row is node else self.resources)[row["ID"]] = row
            self.paths[row["ID"]] = path
            self.order.append(row["ID"])
        for child in node["JDF"]:
            self.index_node(child, path)

    def row(self, name):
        return self.nodes.get(name) or self.resources[name]

    def parent(self, name):
        return self.nodes[self.paths[name][1]]

    def below(self, name):
        """The ids of a node, of all nodes below it, and of the resources of these."""
        return [one for one in self.order if name in self.paths[one]]

    def outside(self, name):
        """The resources that a node or one below it links and that are at home above."""
        below = self.below(name)
        linked = {link["rRef"] for one in below if one in self.nodes
                  for link in self.nodes[one]["ResourceLinkPool"]}
        return [one for one in self.order if one in linked and one not in below]


def target(edit):
    return edit["Resource"] if "Resource" in edit else edit["Node"]


def do_edit(ticket, edit, at, is_held):
    """An edit of a ticket. First is looked for what isn't there, then for who holds what changes,
    then for all else."""
    kind, name = edit["Edit"], target(edit)
    if "Resource" in edit:
        need(name in ticket.resources, 11)
    else:
        need(name in ticket.nodes, 10)
    need(kind != "AddLink" or edit["rRef"] in ticket.resources, 11)
    is_held(name)
    row = ticket.row(name)
    if kind in STRUCTURAL:
        add(ticket, row, edit)
    elif kind == "Note":
        row["AuditPool"].append(note(edit["Text"], at))
    elif kind in ("SetAttr", "SetResAttr"):
        row["Attr"][edit["Name"]] = edit["Value"]
    else:
        need(kind != "SetStatus" or edit["Status"] != "Spawned", 5)
        row["Status"] = edit["Status"]


def add(ticket, node, edit):
    """Puts what is new last under a node."""
    row = {key: copy.deepcopy(held) for key, held in edit.items() if key not in ("Edit", "Node")}
    if edit["Edit"] == "AddLink":
        need(ticket.paths[row["rRef"]][0] in ticket.paths[node["ID"]], 3)
        node["ResourceLinkPool"].append(row)
        return
    if edit["Edit"] == "AddNode":
        need(row["Status"] != "Spawned", 5)
    need(row["ID"] not in ticket.paths, 2)
    if edit["Edit"] == "AddNode":
        need(len(ticket.paths[node["ID"]]) < DEEPEST, 4)
        node["JDF"].append(whole_node(row))
    else:
        node["ResourcePool"].append(whole_resource(row))
    ticket.index()


def note(text, at):
    return {"Name": "Notification", "Text": text, "TimeStamp": at}


# ---- a shop


class Spawn:
    """A node that goes out: away, then open, done, merged and closed; or declined where it was
    given up before it came, and then withdrawn."""

    def __init__(self, number, order, changed, read):
        self.number, self.node, self.worker = number, order["Node"], order["Worker"]
        self.changed, self.read = changed, read
        self.phase = "away"


class Shop:
    """One ticket, as the master sees it and as it is now with the workers' work in it; one table
    of holders; the spawns; and of each message that was sent its kind, which is the name of what
    it does as it comes, and its spawn."""

    def __init__(self, root, workers):
        self.workers = workers
        self.seen, self.now = [Ticket(whole_node(copy.deepcopy(root))) for _ in range(2)]
        self.holders = dict.fromkeys(self.seen.order, NONE)
        self.spawns, self.sent = [], []

    def answer(self, event):
        """What an event is answered."""
        try:
            line, message = self.happen(event)
        except Refused as refusal:
            line, message = refusal.line, None
        if message and event.get("Stop", "Run") == "Run":
            self.sent.append(message)
            line += f" #{len(self.sent)}"
        return line

    def happen(self, event):
        """The answer to an event, and the message that it makes. A step that is stopped before it
        is saved doesn't happen; that a controller is there, or a message, comes before."""
        to, at = event.get("To"), event["At"]
        need(to in (None, MASTER, *self.workers), 15)
        if event["Event"] == "Restart":
            return "Restarted", None
        if to is None and not 0 < event["Deliver"] <= len(self.sent):
            return "NoMessage", None
        if event.get("Stop") == "BeforeSave":
            return "Stopped", None
        if to is None:
            return self.deliver(*self.sent[event["Deliver"] - 1], at)
        if to == MASTER:
            return self.master_does(event["Order"], at)
        return self.worker_does(to, event["Order"], at)

    def master_does(self, order, at):
        """What the master edits is seen, and is so now; a part is sent again, or asked back, as
        long as its spawn is out."""
        if order["Order"] == "Edit":
            edit = order["Edit"]
            do_edit(self.seen, edit, at, self.must_have)
            do_edit(self.now, edit, at, lambda _: None)
            if "ID" in edit:
                self.holders[edit["ID"]] = NONE
            return "Edited", None
        if order["Order"] == "Spawn":
            return self.spawn(order, at)
        spawn = self.spawn_of(order["SpawnID"])
        need(spawn is not None and spawn.phase in OUT, 16)
        if order["Order"] == "Resend":
            return f"Sent S{spawn.number}", ("submit", spawn)
        return f"Asked S{spawn.number}", ("abort", spawn)

    def must_have(self, name):
        """Refuses what is held by a spawn."""
        need(self.holders[name] == NONE, 12, self.holders[name])

    def spawn_of(self, spawn_id):
        number = int(spawn_id[1:])
        return self.spawns[number - 1] if number <= len(self.spawns) else None

    def spawn(self, order, at):
        """A node goes out: all below it and the resources to change are claimed, in the order of
        the ticket."""
        name, wanted, ticket = order["Node"], order["RW"], self.seen
        need(order["Worker"] in self.workers, 15)
        need(name in ticket.nodes, 10)
        need(ticket.nodes[name] is not ticket.root, 13)
        need(all(one in ticket.resources for one in wanted), 11)
        outside, below = ticket.outside(name), ticket.below(name)
        need(all(one in outside for one in wanted), 14)
        claim = [one for one in ticket.order if one in below or one in wanted]
        for one in claim:
            self.must_have(one)
        spawn = Spawn(len(self.spawns) + 1, order, [one for one in outside if one in wanted],
                      [one for one in outside if one not in wanted])
        self.spawns.append(spawn)
        self.holders.update(dict.fromkeys(claim, spawn.number))
        self.tell(spawn, {
            "Name": "Spawned", "NewSpawnID": f"S{spawn.number}", "TimeStamp": at, "jRef": name,
            "Status": ticket.nodes[name]["Status"], "rRefsROCopied": spawn.read,
            "rRefsRWCopied": spawn.changed})
        return f"Spawned S{spawn.number}", ("submit", spawn)

    def tell(self, spawn, audit):
        """Puts an audit at the parent of the node of a spawn."""
        for ticket in (self.seen, self.now):
            ticket.parent(spawn.node)["AuditPool"].append(audit)

    def worker_does(self, worker, order, at):
        """What a worker edits is so now, and is seen once it is merged."""
        spawn = self.spawn_of(order["SpawnID"])
        need(spawn is not None and spawn.worker == worker and spawn.phase not in UNTAKEN, 30)
        if order["Order"] == "Resend":
            need(spawn.phase != "open", 35)
            need(spawn.phase != "closed", 37)
            return f"Sent S{spawn.number}", ("merge", spawn)
        need(spawn.phase == "open", 31)
        if order["Order"] == "Finish":
            self.finish(spawn, order["Status"])
            return f"Finished S{spawn.number}", ("merge", spawn)
        edit = order["Edit"]
        need(edit["Edit"] not in STRUCTURAL, 34)
        rows = self.now.resources if "Resource" in edit else self.now.nodes
        name = target(edit)
        is_held = name in rows and self.holders[name] == spawn.number
        need(is_held or (name in rows and name in spawn.read), 33)
        need(is_held, 32)
        do_edit(self.now, edit, at, lambda _: None)
        return "Edited", None

    def finish(self, spawn, end):
        self.now.nodes[spawn.node]["Status"] = end
        spawn.phase = "done"

    def deliver(self, kind, spawn, at):
        """A message comes: what it does has the name of its kind."""
        word, reply = getattr(self, kind)(spawn, at)
        return f"{word} S{spawn.number}", (reply, spawn) if reply else None

    def submit(self, spawn, _):
        """A part is taken once, and never where it was given up before."""
        if spawn.phase == "away":
            spawn.phase = "open"
            return "Taken", "submitted"
        return "Declined" if spawn.phase in UNTAKEN else "Again", "submitted"

    def abort(self, spawn, _):
        """A spawn is given up: it is declined where its part didn't come, and else ended."""
        if spawn.phase == "away":
            spawn.phase = "declined"
        if spawn.phase in UNTAKEN:
            return "Declined", "aborted"
        if spawn.phase != "open":
            return "Again", "aborted"
        self.finish(spawn, "Aborted")
        return "Ended", "aborted"

    def give_back(self, spawn):
        """All that a spawn holds is the master's again. Answers what that was."""
        held = [name for name, holder in self.holders.items() if holder == spawn.number]
        self.holders.update(dict.fromkeys(held, NONE))
        return held

    def merge(self, spawn, at):
        """What is now of the claim is seen."""
        if spawn.phase != "done":
            return "Already", "returned"
        spawn.phase = "merged"
        for name in self.give_back(spawn):
            row = self.now.row(name)
            self.seen.row(name).update(
                {member: copy.copy(row[member]) for member in CHANGING if member in row})
        self.tell(spawn, {"MergeID": f"S{spawn.number}", "Name": "Merged", "TimeStamp": at,
                          "jRef": spawn.node, "rRefsOverwritten": spawn.changed})
        return "Merged", "returned"

    def submitted(self, *_):
        return "Noted", None

    def returned(self, spawn, _):
        spawn.phase = "closed"
        return "Acked", None

    def aborted(self, spawn, at):
        """What was declined is freed as it is seen."""
        if spawn.phase != "declined":
            return "Noted", None
        spawn.phase = "withdrawn"
        self.give_back(spawn)
        self.tell(spawn, note(f"Withdrawn S{spawn.number}", at))
        return "Freed", None

    def shown(self):
        """The ticket as the master sees it, with the marks of the spawns that are out."""
        for spawn in self.spawns:
            if spawn.phase in OUT:
                self.seen.nodes[spawn.node]["Status"] = "Spawned"
                for name in spawn.changed + spawn.read:
                    row = self.seen.resources[name]
                    row["SpawnIDs"].append(f"S{spawn.number}")
                    if row["SpawnStatus"] != "SpawnedRW":
                        row["SpawnStatus"] = "SpawnedRW" if name in spawn.changed else "SpawnedRO"
        return json.dumps(self.seen.root, ensure_ascii=False, separators=(",", ":"),
                          sort_keys=True)
