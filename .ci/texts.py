"""Texts for the program: at random, damaged, and as large as they may be."""
import json
import string

FILES = ("master", "worker")
STATUSES = ["Waiting", "InProgress", "Completed", "Aborted", "Available", "Spawned"]
TYPES = ["Product", "ConventionalPrinting", "Cutting", "Folding", "ProcessGroup"]
LETTERS = string.ascii_letters + string.digits + "_.-"
# Values that stand for another one.
VALUES = [None, True, False, 0, -1, 1, 2**64, 1.5, 1e300, "", "S1", "S0", "S1000000000", "9x",
          "Spawned", "SpawnedRO", "a" * 64, "a" * 65, "ä" * 512, "ä" * 513, "\u0000",
          "\U0010ffff", [], {}, [[]], [{}], "n0", "r1", "Running", "1.6", "A.S1", 38, "Declined",
          "Closed", "Withdrawn", "BeforeSave"]
# Members that stand where another form has them, or none.
MEMBERS = ["Foo", "", "Attr", "ID", "Status", "JDF", "Part", "End", "Locked", "SpawnID", "Stop"]
# Bytes that JSON or HTTP looks at, or that are no text.
BYTES = [b"{", b"}", b"[", b"]", b",", b":", b'"', b"\\", b"\\u", b"\\ud800", b"0", b"-", b"e9",
         b"E+", b".", b"\0", b"\n", b"\r\n", b"\r\n\r\n", b" ", b"\t", b"\xff", b"\xc3",
         b"\xed\xa0\x80",
         b"\xef\xbb\xbf", b"null", b"1e999", b"Content-Length: 5\r\n", b"Transfer-Encoding: x\r\n",
         b"Host: b\r\n", b"HTTP/1.1"]


def dump(chance, value):
    """JSON, compact or with white space, as text or with escapes."""
    style = chance.randrange(4)
    return json.dumps(value, ensure_ascii=style == 1, indent=1 if style == 2 else None,
                      separators=(",", ":") if style == 3 else None).encode()


# ---- what stands in a ticket


def name(chance):
    if chance.random() < 0.7:
        return chance.choice("ABC") + str(chance.randrange(4))
    return chance.choice(string.ascii_letters + "_") + "".join(
        chance.choice(LETTERS) for _ in range(chance.randrange(64)))


def text(chance):
    signs = 'a "\\/\n\u0001\u007fä€\u2028\U0001f5a8'
    return "".join(chance.choice(signs) for _ in range(chance.choice((0, 1, 5, 40))))


def status(chance):
    return chance.choice(STATUSES[:-1]) if chance.random() < 0.98 else "Spawned"


def attributes(chance):
    return {name(chance): text(chance) for _ in range(chance.choice((0, 0, 0, 1, 3)))}


def resource(chance, rid):
    row = {"Class": "Quantity", "ID": rid, "Name": "Component", "Status": status(chance)}
    if chance.random() < 0.3:
        return dict(row, Locked=False, SpawnIDs=[], SpawnStatus="NotSpawned")
    return dict(row, Attr=attributes(chance))


def audit(chance):
    at = chance.randrange(200)
    return chance.choice((
        {"Name": "Notification", "Text": text(chance), "TimeStamp": at},
        {"MergeID": "S7", "Name": "Merged", "TimeStamp": at, "jRef": "n9",
         "rRefsOverwritten": ["r1"]},
        {"Name": "Spawned", "NewSpawnID": "S7", "Status": "Waiting", "TimeStamp": at, "jRef": "n9",
         "rRefsROCopied": [], "rRefsRWCopied": ["r1", "r1"]}))


class Ids:
    """The ids of a ticket as it grows."""

    def __init__(self):
        self.nodes, self.resources = [], []


def node(chance, ids, seen, depth):
    """A node with resources, links to those that are seen from it, and children."""
    own = []
    for _ in range(chance.choice((0, 0, 1, 2))):
        own.append(f"r{len(ids.resources)}")
        ids.resources.append(own[-1])
    ids.nodes.append(f"n{len(ids.nodes)}")
    row = {"ID": ids.nodes[-1], "JobPartID": "p" + ids.nodes[-1], "Status": status(chance),
           "Type": chance.choice(TYPES), "ResourcePool": [resource(chance, rid) for rid in own]}
    seen = seen + own
    row["ResourceLinkPool"] = [
        {"Usage": chance.choice(("Input", "Output")), "rRef": chance.choice(seen)}
        for _ in range(chance.randrange(3)) if seen]
    if chance.random() < 0.3:
        row["AuditPool"] = [audit(chance) for _ in range(chance.randrange(3))]
        row["Attr"] = attributes(chance)
    count = chance.choice((0, 1, 2, 3)) if depth < 4 else 0
    row["JDF"] = [node(chance, ids, seen, depth + 1) for _ in range(count)]
    return row


def ticket(chance):
    """A ticket, and its ids."""
    ids = Ids()
    root = node(chance, ids, [], 1)
    root["JobID"] = "J" + str(chance.randrange(9))
    if chance.random() < 0.05:
        deepen(chance, root)
    return root, ids


def deepen(chance, row):
    """Puts a chain under a node, which may go too deep."""
    for number in range(chance.choice((5, 30, 31, 32, 60, 63, 64))):
        below = {"ID": f"c{number}", "JobPartID": "p", "Status": "Waiting", "Type": "Cutting"}
        row["JDF"] = [below]
        row = below


# ---- what is ordered


def edit(chance, ids):
    nid, rid = chance.choice(ids.nodes + ["n99"]), chance.choice(ids.resources + ["r99"])
    new = chance.choice(("x1", "x2", nid, rid))
    return chance.choice((
        {"Edit": "SetStatus", "Node": nid, "Status": status(chance)},
        {"Edit": "SetAttr", "Name": name(chance), "Node": nid, "Value": text(chance)},
        {"Edit": "SetResStatus", "Resource": rid, "Status": status(chance)},
        {"Edit": "SetResAttr", "Name": name(chance), "Resource": rid, "Value": text(chance)},
        {"Edit": "Note", "Node": nid, "Text": text(chance)},
        {"Edit": "AddNode", "ID": new, "JobPartID": "p", "Node": nid, "Status": status(chance),
         "Type": "Folding"},
        {"Attr": attributes(chance), "Class": "Quantity", "Edit": "AddResource", "ID": new,
         "Name": "Media", "Node": nid, "Status": status(chance)},
        {"Edit": "AddLink", "Node": nid, "Usage": chance.choice(("Input", "Output")),
         "rRef": rid}))


def edit_input(chance):
    root, ids = ticket(chance)
    edits = [edit(chance, ids) for _ in range(chance.randrange(9))]
    return dump(chance, {"At": chance.randrange(2**32), "Edits": edits, "Ticket": root})


def spawn_id(chance):
    return "S" + chance.choice("1123")


def spawning(chance, ids):
    return {"Node": chance.choice(ids.nodes[1:] or ids.nodes), "Order": "Spawn", "RW": [],
            "Worker": "press"}


def master_order(chance, ids):
    rw = [chance.choice(ids.resources) for _ in range(chance.randrange(3)) if ids.resources]
    return chance.choice((
        {"Node": chance.choice(ids.nodes), "Order": "Spawn", "RW": rw,
         "Worker": chance.choice(("press", "press", "bind", "fold"))},
        spawning(chance, ids),
        {"Order": "Resend", "SpawnID": spawn_id(chance)},
        {"Order": "Withdraw", "SpawnID": spawn_id(chance)},
        {"Edit": edit(chance, ids), "Order": "Edit"}))


def worker_order(chance, ids):
    return chance.choice((
        {"Edit": edit(chance, ids), "Order": "Edit", "SpawnID": spawn_id(chance)},
        {"Order": "Finish", "SpawnID": spawn_id(chance),
         "Status": chance.choice(("Completed", "Aborted"))},
        {"Order": "Resend", "SpawnID": spawn_id(chance)}))


def event(chance, ids):
    to = chance.choice(("mis", "mis", "press", "press", "bind", "fold"))
    order_of = master_order if to == "mis" else worker_order
    return chance.choice((
        ordered(to, order_of(chance, ids)),
        ordered(to, order_of(chance, ids)),
        delivered(chance.randrange(1, 9)),
        delivered(chance.randrange(1, 4)),
        {"Event": "Restart", "To": to}))


def ordered(to, order_):
    return {"Event": "Order", "Order": order_, "To": to}


def delivered(number):
    return {"Deliver": number, "Event": "Deliver"}


def course(chance, ids):
    """A part goes out and comes back, or is given up before or after it comes."""
    out = ordered("mis", spawning(chance, ids))
    finish = ordered("press", {"Order": "Finish", "SpawnID": "S1", "Status": "Completed"})
    resend = ordered("press", {"Order": "Resend", "SpawnID": "S1"})
    withdraw = ordered("mis", {"Order": "Withdraw", "SpawnID": "S1"})
    return chance.choice((
        [out, delivered(1), finish, delivered(3), delivered(4), delivered(3)],
        [out, withdraw, delivered(2), delivered(3), delivered(1)],
        [out, delivered(1), withdraw, delivered(3), resend, delivered(5), delivered(6)]))


def script(chance, stops):
    """A script: the course of a part, and anything between."""
    root, ids = ticket(chance)
    events = [event(chance, ids) for _ in range(chance.choice((0, 0, 2, 4, 10, 20)))]
    steps = course(chance, ids)
    places = sorted((chance.randrange(len(events) + 1) for _ in steps), reverse=True)
    for place, step in zip(places, reversed(steps)):
        events.insert(place, step)
    return dump(chance, {"Events": [timed(chance, one, stops) for one in events], "Master": "mis",
                         "Ticket": root, "Workers": ["press", "bind"]})


def timed(chance, event_, stops):
    """An event with its time, and perhaps a stop."""
    one = dict(event_, At=chance.randrange(1000))
    if chance.random() < 0.15:
        one["Stop"] = chance.choice(("Run", "BeforeSave", "BeforeSend") if stops else ("Run",))
    return one


# ---- one job, whose printing is out


def link(usage, rid):
    return {"Usage": usage, "rRef": rid}


PAPER = {"Class": "Consumable", "ID": "r1", "Name": "Media", "Status": "Available"}
SHEETS = {"Class": "Quantity", "ID": "r2", "Name": "Component", "Status": "Unavailable"}
PRINTING = {"ID": "n1", "JobPartID": "p1", "Status": "Waiting", "Type": "ConventionalPrinting",
            "ResourceLinkPool": [link("Input", "r1"), link("Output", "r2")]}
CUTTING = {"ID": "n2", "JobPartID": "p2", "Status": "Waiting", "Type": "Cutting",
           "ResourceLinkPool": [link("Input", "r2")]}
JOB = {"ID": "n0", "JDF": [PRINTING, CUTTING], "JobID": "J1", "JobPartID": "p0",
       "Status": "Waiting", "Type": "Product", "ResourcePool": [PAPER, SHEETS]}
OUT = {"At": 100, "ID": "S1", "Node": "n1", "Phase": "Out", "RO": [PAPER], "RW": ["r2"],
       "Worker": "press"}


class JobIds:
    nodes, resources = ["n0", "n1", "n2"], ["r1", "r2"]


def part(chance, spawn, wording="Waiting"):
    """The printing as it goes out, and perhaps as it was worked on."""
    change = {"SpawnIDs": [spawn], "SpawnStatus": "SpawnedRW"}
    copy = {"Locked": True, "SpawnIDs": [spawn], "SpawnStatus": "SpawnedRO"}
    notes = [audit(chance) for _ in range(chance.randrange(2))]
    return dict(PRINTING, AncestorPool=[{"JobPartID": "p0", "NodeID": "n0"}],
                Attr=attributes(chance), AuditPool=notes, JobID="J1",
                ResourcePool=[dict(SHEETS, **change), dict(PAPER, **copy)], SpawnID=spawn,
                Status=wording)


def state(chance, kind):
    """The state of a controller, in either format."""
    form = chance.choice((1, 2))
    if kind == "master":
        return dump(chance, {"Format": form, "Master": {
            "Name": "mis", "Spawns": records(chance, form), "Ticket": JOB,
            "Workers": ["press", "bind"]}})
    entries = [entry(chance, form, spawn) for spawn in ("S1", "S2", "S3") if chance.random() < 0.6]
    return dump(chance, {"Format": form, "Worker": {
        "Entries": entries, "Master": "mis", "Name": "press"}})


def records(chance, form):
    """A master's spawns of the printing, of which the last may be out."""
    ends = ("Merged",) if form == 1 else ("Merged", "Withdrawn")
    phases = [chance.choice(ends) for _ in range(chance.choice((0, 0, 1, 2)))]
    phases += ["Out"] if chance.random() < 0.7 else []
    return [dict(OUT, ID=f"S{number}", Phase=phase) for number, phase in enumerate(phases, 1)]


def entry(chance, form, spawn):
    """A worker's entry of the printing; in the second format its part may be given up or declined.
    """
    phase = chance.choice(("Open", "Completed", "Aborted"))
    wording = "Waiting" if phase == "Open" else phase
    own = {"At": 110, "Part": part(chance, spawn, wording), "Phase": phase}
    if form == 1:
        return own
    end = chance.choice(("Completed", "Aborted"))
    without_part = chance.choice(({"End": end, "Phase": "Closed"}, {"Phase": "Declined"}))
    return dict(own if chance.random() < 0.6 else dict(without_part, At=110), ID=spawn)


def opening(chance):
    if chance.random() < 0.3:
        return dump(chance, {"Master": name(chance), "Worker": name(chance)})
    return dump(chance, {"Master": "mis", "Ticket": ticket(chance)[0],
                         "Workers": ["press", name(chance)]})


def order(chance, kind):
    order_of = master_order if kind == "master" else worker_order
    return dump(chance, order_of(chance, JobIds))


# The types of commands, by the letter that their IDs begin with.
COMMANDS = {"Q": "SubmitQueueEntry", "R": "ReturnQueueEntry", "A": "AbortQueueEntry"}


def message(chance, kind):
    """A message for a controller of this kind, or one that goes elsewhere."""
    letter, spawn = chance.choice("QRA"), spawn_id(chance)
    ends = ["mis", "press"] if kind == "worker" else ["press", "mis"]
    if chance.random() < 0.1:
        ends[chance.randrange(2)] = "bind"
    jmf = {"ReceiverID": ends[1], "SenderID": ends[0], "TimeStamp": 100, "Version": "1.5"}
    is_answer = (letter == "R") == (kind == "worker")
    if is_answer != (chance.random() < 0.1):
        jmf["Response"] = response(chance, letter, spawn)
        return dump(chance, {"JMF": jmf})
    jmf["Command"] = command(letter, spawn, ends[0])
    if letter == "A":
        return dump(chance, {"JMF": jmf})
    given = part(chance, spawn, chance.choice(("Completed", "Aborted")))
    return dump(chance, {"JDF": given, "JMF": jmf})


def command(letter, spawn, sender):
    params = {
        "Q": {"QueueSubmissionParams": {
            "QueueEntryID": spawn, "ReturnJMF": "jmf:" + sender, "ReturnURL": "cid:jdf",
            "URL": "cid:jdf"}},
        "R": {"ReturnQueueEntryParams": {"QueueEntryID": spawn, "URL": "cid:jdf"}},
        "A": {"AbortQueueEntryParams": {"QueueEntryID": spawn}}}
    return dict(params[letter], ID=f"{letter}.{spawn}", Type=COMMANDS[letter])


def response(chance, letter, spawn):
    answer = {"ID": f"{letter}.{spawn}.a", "refID": f"{letter}.{spawn}", "Reason": 0,
              "ReturnCode": 0, "Type": COMMANDS[letter]}
    if chance.random() < 0.6:
        word = chance.choice(("Running", "Completed", "Aborted"))
        return dict(answer, QueueEntry={"QueueEntryID": spawn, "Status": word})
    return dict(answer, Reason=chance.choice((1, 36, 38, 38, 999)), ReturnCode=1)


def request(chance, kind):
    """A request over HTTP, as a rule with a message for a controller of this kind."""
    body = damaged(chance, message(chance, kind))
    fields = [f"Content-Length: {len(body)}", "Host: press", "Content-Type: application/json",
              "Accept: */*", "Expect: 100-continue", "content-encoding: gzip",
              "Transfer-Encoding: chunked"]
    kept = [field for number, field in enumerate(fields)
            if chance.random() < (0.95 if number < 2 else 0.3 if number < 5 else 0.03)]
    chance.shuffle(kept)
    method = "POST" if chance.random() < 0.95 else chance.choice(("GET", "PUT", "post", "BREW"))
    start = f"{method} /jmf HTTP/1.{chance.choice((1, 1, 1, 0))}"
    return "\r\n".join([start, *kept, "", ""]).encode() + body


def answered(chance, kind):
    """A response over HTTP, as a rule with a message for a controller of this kind."""
    body = b"" if chance.random() < 0.2 else damaged(chance, message(chance, kind))
    fields = [f"Content-Length: {len(body)}", "Content-Type: application/json", "Connection: close",
              "Transfer-Encoding: chunked"]
    kept = [field for number, field in enumerate(fields)
            if chance.random() < (0.95 if number < 3 else 0.05)]
    status = chance.choice(("200 OK", "200 OK", "200 OK", "400 Bad Request", "503 Busy", "1"))
    return "\r\n".join([f"HTTP/1.{chance.choice('1110')} {status}", *kept, "", ""]).encode() + body


# ---- damage


def damaged(chance, given):
    """The text, or the text with a few things wrong."""
    if chance.random() < 0.4:
        return given
    if chance.random() < 0.5:
        given = changed(chance, given)
    for _ in range(chance.choice((0, 1, 1, 2, 4))):
        given = torn(chance, given)
    return given


def torn(chance, given):
    """The bytes with some of them cut, doubled, swapped or put in."""
    start, end = sorted(chance.randrange(len(given) + 1) for _ in range(2))
    end = min(end, start + chance.choice((1, 4, 40, 4000)))
    piece, front, behind = given[start:end], given[:start], given[end:]
    return chance.choice((
        given[:start],
        front + behind,
        front + piece + piece + behind,
        behind + piece + front if chance.random() < 0.1 else front + piece[::-1] + behind,
        front + chance.choice(BYTES) + given[start:],
        front + bytes(chance.randrange(256) for _ in range(len(piece) % 9)) + behind))


def changed(chance, given):
    """JSON with one value taken out, doubled, put elsewhere, or another in its place."""
    try:
        document = json.loads(given)
    except ValueError:
        return given
    places = list(places_in(document))
    if not places:
        return given
    holder, key = chance.choice(places)
    what = chance.randrange(5)
    if what == 0:
        del holder[key]
    elif what == 1:
        holder[key] = chance.choice(VALUES)
    elif what == 2:
        other, place = chance.choice(places)
        holder[key] = json.loads(json.dumps(other[place]))
    elif what == 3 and isinstance(holder, list):
        holder.append(json.loads(json.dumps(holder[key])))
    elif isinstance(holder, dict):
        holder[chance.choice(MEMBERS)] = chance.choice(VALUES)
    return dump(chance, document)


def places_in(value):
    """Each place of a value within another."""
    if not isinstance(value, (dict, list)):
        return
    for key, inner in value.items() if isinstance(value, dict) else enumerate(value):
        yield value, key
        yield from places_in(inner)


# ---- as large as they may be


def filled(most, front, item, behind):
    """As many items, with a comma between two, as there is room for."""
    count = (most - len(front) - len(behind) + 1) // (len(item) + 1)
    return (front + ",".join([item] * count) + behind).encode()


def numbered(most, front, item, behind):
    """As many items, each with its number, as there is room for."""
    count = (most - len(front) - len(behind) + 1) // (len(item % 0) + 1)
    return (front + ",".join(item % number for number in range(count)) + behind).encode()


def large_inputs(most):
    """Each with a name, the words of a command, and its input of as many bytes."""
    step = ["state.json", "--at", "1"]
    shapes = [("numbers", "[", "1", "]"), ("lists", "[", "[]", "]"), ("objects", "[", "{}", "]"),
              ("texts", "[", '""', "]"), ("members", '{"a":[', '{"a":1}', "]}"),
              ("pairs", "[", "[1,1]", "]"), ("floats", "[", "1.5e3", "]"),
              ("escapes", '["', "\\u00e4" * 9, '"]')]
    for shape, *parts in shapes:
        for words in (["edit"], ["world"], ["order", *step], ["take", *step]):
            yield f"{shape} for {words[0]}", words, filled(most, *parts)
    yield "brackets", ["edit"], b"[" * most
    yield "braces", ["edit"], b'{"a":' * (most // 5)
    yield "spaces", ["edit"], b" " * most
    yield "a byte more", ["edit"], b" " * (most + 1)
    yield from large_documents(most)


def large_documents(most):
    """Those that fit."""
    job = json.dumps(JOB, separators=(",", ":"))
    root = '"ID":"n","JobID":"J","JobPartID":"p","Status":"W","Type":"T"'
    paper = '"ResourcePool":[{"ID":"r","Name":"N","Class":"C","Status":"W"}]'
    ticket_in = '{"At":1,"Edits":[],"Ticket":{' + root
    note = '{"Edit":"Note","Node":"n0","Text":""}'
    deliver = '{"At":1,"Deliver":1,"Event":"Deliver"}'
    yield "notes", ["edit"], filled(most, '{"At":1,"Edits":[', note, f'],"Ticket":{job}}}')
    yield "deliveries", ["world"], filled(
        most, '{"Events":[', deliver, f'],"Master":"mis","Ticket":{job},"Workers":["press"]}}')
    yield "links", ["edit"], filled(
        most, f'{ticket_in},{paper},"ResourceLinkPool":[', '{"Usage":"Input","rRef":"r"}', "]}}")
    node_in = '{"ID":"m%07d","JobPartID":"p","Status":"W","Type":"T"}'
    yield "nodes", ["edit"], numbered(most, ticket_in + ',"JDF":[', node_in, "]}}")
    yield "attributes", ["edit"], numbered(most, ticket_in + ',"Attr":{', '"a%07d":""', "}}}")
