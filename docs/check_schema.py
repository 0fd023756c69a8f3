#!/usr/bin/env python3
"""Checks docs/profile.schema.json against every case, the examples and docs/FORMATS.md.

What the program reads and writes is valid, and what it refuses for its form isn't, but for faults
that no schema can say. Needs Python 3.8 alone, and knows the keywords that the schema uses.
"""
import json
import re
import sys
from pathlib import Path

sys.setrecursionlimit(20000)
ROOT = Path(__file__).resolve().parent.parent
SCHEMA = json.loads((ROOT / "docs/profile.schema.json").read_text(encoding="utf-8"))

# The refusals of a form alone: a bad id, members that aren't those of the form, another version.
OF_FORM = {1, 41, 46}

# The members that may be absent, in some object.
MAY_BE_ABSENT = {"Attr", "AuditPool", "JDF", "Locked", "ResourceLinkPool", "ResourcePool",
                 "SpawnIDs", "SpawnStatus", "Stop"}

# The members that may be any text, with line ends.
TEXTS = {"Text", "Value"}

# What may be written beside the documents of the schema.
WRITTEN = SCHEMA["anyOf"] + [{"$ref": "#/$defs/" + kind} for kind in ("part", "edit", "resource")]

# What the input of a case is, by its first word; of `order` and `show` the file tells.
INPUTS = {"": "editInput", "edit": "editInput", "world": "script", "new": "opening",
          "take": "message", "message": "message", "id": "message", "part": "part",
          "ticket": "ticket", "below": "ticket", "home": "ticket", "subtree": "ticket",
          "change": "edit", "kept": "script", "changers": "script"}

# Words of the driver alone, whose answer is one line, or none. The answer to any other is what the
# program prints and tells, and its status on a line.
ONE_LINE = {"text", "holders", "marked", "value", "ticket", "change", "part", "message", "id",
            "state", "kept", "tree", "part_tree", "below", "home", "subtree", "changers",
            "state_value", "new_text", "held", "shop", "part_rows"}

# Those that have none.
NO_LINE = {"file", "folder"}

# Those whose answer is two lines, or a refusal.
TWO_LINES = {"edited_copy", "spawned"}

# What is a table of peers, and what is none. A member of one may be absent, and may be called much.
PEERS = {
    True: [{}, {"*": "http://a"}, {"a": "http://a/"}, {"a*": "http://a:1/b/c"},
           {64 * "a" + "*": "http://a/b"}, {"a": "http://[::1]:8010/jmf", "a*": "http://b/"},
           {"a": "http://127.0.0.1:8010/jmf", "a-*": "http://b/%20"}],
    False: [[], "http://a/b", {"a": 1}, {"a": None}, {"a": ["http://a/b"]}, {"": "http://a/b"},
            {"-*": "http://a/b"}, {"a**": "http://a/b"}, {"*a": "http://a/b"},
            {"a*b": "http://a/b"}, {"1": "http://a/b"}, {65 * "a": "http://a/b"},
            {65 * "a" + "*": "http://a/b"}, {"a b": "http://a/b"}, {"a\n": "http://a/b"},
            {"a": ""}, {"a": "a"}, {"a": "/b"}, {"a": "http:///b"}, {"a": "https://a/b"},
            {"a": "http://u@a/b"}, {"a": "http://u:p@a/b"}, {"a": "http://a/b?c"},
            {"a": "http://a/b#c"}, {"a": "http://a/b\n"}],
}

# How many lines the answer to `send` has behind its first: a head, and a body of one line.
SENT_LINES = 6


def cases():
    """Each case: where it stands, what its input is, the input, and the lines of its answer."""
    folder, held = ROOT / "crates/cases", {}
    answers = iter(read(folder / "stdout").split("\n"))
    for number, line in enumerate(read(folder / "stdin").split("\n"), 1):
        if line == "" or line.startswith("#"):
            assert next(answers, "") == line, f"stdin:{number}: the answers are out of step"
            continue
        words, text = (line.split("\t") + [""])[:2]
        word, *others = words.split(" ")
        text = re.sub("%[0-9A-F]{2}", lambda byte: chr(int(byte.group()[1:], 16)), text)
        if word == "cuts":
            pass_cuts(others[0], len(text), answers)
            continue
        before = held.get(others[0], "") if others else ""
        answer = answer_to(word, before, answers)
        if word == "file" or (word == "new" and answer[-1] == "status 0"):
            held[others[0]] = text
        kind, text = input_of(word, text, before)
        is_unread = word != "show" and answer[-1:] in (["status 2"], ["status 4"])
        is_picture = "--picture" in others
        if kind and not is_unread and not is_picture:
            yield f"stdin:{number}", kind, text, answer


def answer_to(word, held, answers):
    """The lines of the answer to a case of this first word, on a file that was given this text."""
    answer = [] if word in NO_LINE else [next(answers)]
    if word == "text" and answer[0] == held.split("\n")[0]:
        answer += [next(answers) for _ in range(held.count("\n"))]
    if word == "send":
        return answer + [next(answers) for _ in range(SENT_LINES)]
    if word in TWO_LINES and not answer[0].startswith("Refused "):
        return answer + [next(answers)]
    if word in ("receive", *TWO_LINES) and answer[0].startswith("Refused "):
        return answer
    while word not in NO_LINE and word not in ONE_LINE and not answer[-1].startswith("status "):
        answer.append(next(answers))
    return answer


def pass_cuts(word, size, answers):
    """Passes over what comes of the cuts of an input of this size."""
    while not next(answers).endswith(f"..{size - 1}"):
        answer_to(word, "", answers)
    answer_to(word, "", answers)


def input_of(word, text, held):
    """What the input of a case is, and the input: of `show`, the state that the file was given."""
    if word == "state":
        return "masterState" if '"Workers"' in text else "workerState", text
    whose = "master" if '"Workers"' in held else "worker"
    if word == "show" and '"Format"' in held:
        return whose + "State", held
    if word == "order" and held:
        return whose + "Order", text
    return INPUTS.get(word), text


def read(path):
    """What a file holds, a character for each byte."""
    return path.read_bytes().decode("latin-1")


class Schema:
    """The keywords of JSON Schema 2020-12 that ours uses. Another one is an error."""

    KINDS = {"object": dict, "array": list, "string": str}

    def allows(self, value, rule):
        return all(getattr(self, name.strip("$") + "_")(value, rule) for name in rule)

    def comment_(self, value, rule):
        return True

    schema_ = title_ = defs_ = comment_

    def ref_(self, value, rule):
        return self.allows(value, SCHEMA["$defs"][rule["$ref"].rsplit("/", 1)[1]])

    def type_(self, value, rule):
        if rule["type"] == "integer":
            return type(value) is int
        return isinstance(value, self.KINDS[rule["type"]])

    def const_(self, value, rule):
        return type(value) is type(rule["const"]) and value == rule["const"]

    def enum_(self, value, rule):
        return any(type(value) is type(x) and value == x for x in rule["enum"])

    def pattern_(self, value, rule):
        return not isinstance(value, str) or re.search(rule["pattern"], value) is not None

    def maxLength_(self, value, rule):
        return not isinstance(value, str) or len(value) <= rule["maxLength"]

    def minimum_(self, value, rule):
        return type(value) is not int or value >= rule["minimum"]

    def maximum_(self, value, rule):
        return type(value) is not int or value <= rule["maximum"]

    def items_(self, value, rule):
        return not isinstance(value, list) or all(self.allows(x, rule["items"]) for x in value)

    def minItems_(self, value, rule):
        return not isinstance(value, list) or len(value) >= rule["minItems"]

    def maxItems_(self, value, rule):
        return not isinstance(value, list) or len(value) <= rule["maxItems"]

    def required_(self, value, rule):
        return not isinstance(value, dict) or all(name in value for name in rule["required"])

    def properties_(self, value, rule):
        known = rule["properties"]
        return not isinstance(value, dict) or all(
            self.allows(x, known[name]) for name, x in value.items() if name in known)

    def additionalProperties_(self, value, rule):
        known, others = rule.get("properties", {}), rule["additionalProperties"]
        return not isinstance(value, dict) or all(
            others is not False and self.allows(x, others)
            for name, x in value.items() if name not in known)

    def propertyNames_(self, value, rule):
        return not isinstance(value, dict) or all(
            self.allows(name, rule["propertyNames"]) for name in value)

    def allOf_(self, value, rule):
        return all(self.allows(value, part) for part in rule["allOf"])

    def anyOf_(self, value, rule):
        return any(self.allows(value, part) for part in rule["anyOf"])

    def oneOf_(self, value, rule):
        return sum(self.allows(value, part) for part in rule["oneOf"]) == 1

    def not_(self, value, rule):
        return not self.allows(value, rule["not"])


def parsed(text):
    """The value of the bytes of a JSON text, to which `-0` is no whole number."""
    return json.loads(text.encode("latin-1"),
                      parse_int=lambda digits: -0.0 if digits == "-0" else int(digits))


def is_grouped(part):
    """Whether the root's own resources come first, then copies to change, then copies to read, and
    each copy shows the part's own spawn."""
    order = ["NotSpawned", "SpawnedRW", "SpawnedRO"]
    pool = part.get("ResourcePool", [])
    places = [order.index(resource.get("SpawnStatus", "NotSpawned")) for resource in pool]
    shown = [resource.get("SpawnIDs", []) for resource in pool]
    return places == sorted(places) and all(ids in ([], [part["SpawnID"]]) for ids in shown)


def is_addressed(script):
    """Whether each order in a script is one of a master or of a worker, as it goes to either."""
    kinds = {True: {"$ref": "#/$defs/masterOrder"}, False: {"$ref": "#/$defs/workerOrder"}}
    return all(Schema().allows(event["Order"], kinds[event["To"] == script["Master"]])
               for event in script["Events"] if "Order" in event)


def goes_together(value):
    """What no schema can say of a valid value: of its parts, and of a script."""
    if isinstance(value, dict):
        return (("AncestorPool" not in value or is_grouped(value))
                and ("Events" not in value or is_addressed(value))
                and goes_together(list(value.values())))
    return not isinstance(value, list) or all(goes_together(x) for x in value)


def is_valid(value, kind):
    """By the schema, and by what it can't say."""
    rule = {"$ref": "#/$defs/" + kind} if kind else {"anyOf": WRITTEN}
    return Schema().allows(value, rule) and goes_together(value)


def refusal_in(answer):
    """The number of the refusal that an answer tells of its input, or 0."""
    status = re.match(r"status (\d)", answer[-1]) if answer else None
    if status and status.group(1) not in "34":
        return 0
    told = re.match(r"Refused (\d+) ", answer[-2 if status else -1]) if answer else None
    return int(told.group(1)) if told else 0


def fault_of(kind, text, answer):
    """What is wrong with the schema, by one case."""
    number = refusal_in(answer)
    if number and number not in OF_FORM:
        return None
    try:
        valid = is_valid(parsed(text), kind)
    except ValueError:
        return None if number else "accepted, and no JSON"
    if valid == (number in OF_FORM):
        return f"refused as {number}, and valid" if number else "accepted, and not valid"
    written = [line[line.index("{"):] for line in answer if "{" in line and not number]
    if not all(is_valid(parsed(line), None) for line in written):
        return "what is written isn't valid"
    return None


def spoiled(value):
    """A value with one member more, without one that has to be there, or with a line end behind a
    word, at each place in turn."""
    if isinstance(value, list):
        for place, item in enumerate(value):
            yield from (value[:place] + [bad] + value[place + 1:] for bad in spoiled(item))
    if isinstance(value, dict):
        yield {**value, "Foo": 1}
        for name, item in value.items():
            if name not in MAY_BE_ABSENT:
                yield {other: x for other, x in value.items() if other != name}
            if isinstance(item, str) and name not in TEXTS:
                yield {**value, name: item + "\n"}
            if name != "Attr":
                yield from ({**value, name: bad} for bad in spoiled(item))


def fault_of_example(kind, text):
    """What is wrong with the schema, by an example, which is valid until it is spoiled."""
    value = parsed(text)
    if not is_valid(value, kind):
        return "not valid"
    for bad in spoiled(value) if kind != "peers" else ():
        if is_valid(bad, kind):
            return f"valid, and spoiled: {json.dumps(bad)[:200]}"
    return None


def examples():
    """Each example: where it stands, what it is, and its text. In FORMATS.md the kind stands behind
    the fence; the examples of commands tell it by a member, and peers' files by their name."""
    fence = re.compile(r"^```json (\w+)\n(.*?)^```", re.M | re.S)
    for kind, text in fence.findall(read(ROOT / "docs/FORMATS.md")):
        yield "docs/FORMATS.md", kind, text
    for path in sorted((ROOT / "examples").rglob("*.json")):
        text = read(path)
        if path.name == "peers.json":
            yield path.relative_to(ROOT), "peers", text
            continue
        kind = "script" if '"Events"' in text else "editInput" if '"Edits"' in text else None
        yield path.relative_to(ROOT), kind, text


def main():
    faults, counts = [], {True: 0, False: 0}
    for where, kind, text, answer in cases():
        counts[refusal_in(answer) == 0] += 1
        faults.append((where, fault_of(kind, text, answer)))
    for where, kind, text in examples():
        faults.append((where, fault_of_example(kind, text)))
    for valid, tables in PEERS.items():
        for table in tables:
            fault = None if is_valid(table, "peers") == valid else f"valid is not {valid}"
            faults.append((f"peers {json.dumps(table)}", fault))
    told = [f"{where}: {fault}" for where, fault in faults if fault]
    print("\n".join(told + [f"schema: {counts[True]} cases accepted, {counts[False]} refused, "
                            f"{len(told)} faults"]))
    return 1 if told or not all(counts.values()) else 0


if __name__ == "__main__":
    sys.exit(main())
