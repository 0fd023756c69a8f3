#!/usr/bin/env python3
"""Writes the rules of crates/fault_finder by docs/profile.schema.json, from which they are made.

With the word `--check` nothing is written: it ends with 1 where other rules stand there. A schema
that says more than the rules can say is an error.
"""
import json
import re
import sys
from pathlib import Path

ROOT = Path(__file__).resolve().parent.parent
SCHEMA = json.loads((ROOT / "docs/profile.schema.json").read_text(encoding="utf-8"))
RULES = ROOT / "crates/fault_finder/src/profile.rt"

HEAD = '''//! The profile, as `docs/schema_rules.py` makes it of `docs/profile.schema.json`.

use crate::rule::Member::{self, May, Must};
use crate::rule::Rule;
'''

# Of what documents are made: the shown ticket is written alone, and peers are none of a job.
LEAVES = {"id": "Name", "nodeStatus": "NodeStatus", "text": "Text", "whole": "Whole",
          "time": "Whole", "spawnId": "SpawnId", "attributes": "Attributes"}
OTHERS = {"line", "shownTicket", "shownNode", "shownResource", "peers"}

SPAWN = r"S[1-9][0-9]{0,8}"


class Rules:
    """The rules that were made: the members of each object, and the objects of each definition."""

    def __init__(self):
        self.objects, self.definitions, self.root = {}, {}, ""

    def define(self, name, rule):
        """The definition of a name: the objects that a value may be, one of which it has to be."""
        if name not in self.definitions:
            self.definitions[name] = []
            self.definitions[name] = self.choices(name, rule)
        return name

    def defined(self, target):
        """The same, of a name in the schema."""
        name, root = camel(target), self.root
        self.root = name
        self.define(name, SCHEMA["$defs"][target])
        self.root = root
        return name

    def choices(self, name, rule):
        """The names of the objects that a rule allows."""
        rule = {key: value for key, value in rule.items() if key != "$comment"}
        for word in ("oneOf", "anyOf"):
            if set(rule) == {word}:
                found = [self.choices(f"{name}{number}", part)
                         for number, part in enumerate(rule[word], 1)]
                return [one for each in found for one in each]
        if set(rule) == {"$ref"}:
            return self.definitions[self.defined(target_of(rule))]
        return [self.object(name, rule)]

    def object(self, name, rule):
        assert set(rule) == {"type", "properties", "required", "additionalProperties"}, rule
        assert rule["type"] == "object" and rule["additionalProperties"] is False, rule
        members = []
        for member, of in rule["properties"].items():
            made = self.rule(self.root + camel(member), of)
            word = "Must" if member in rule["required"] else "May"
            members.append(f'{word}("{member}", {made})')
        assert set(rule["required"]) <= set(rule["properties"]), rule
        self.objects[snake(name)] = members
        return snake(name)

    def rule(self, name, rule):
        """The rule of a member."""
        rule = {key: value for key, value in rule.items() if key != "$comment"}
        if set(rule) == {"$ref"}:
            target = target_of(rule)
            if target in LEAVES:
                return "Rule::" + LEAVES[target]
            return f"Rule::Object(Definition::{self.defined(target)})"
        if set(rule) == {"const"} or set(rule) == {"enum"}:
            return words(rule.get("enum", [rule.get("const")]))
        if set(rule) == {"type", "minimum", "maximum"} and rule["type"] == "integer":
            return f"Rule::Number({rule['minimum']}, {rule['maximum']})"
        if set(rule) == {"$ref", "pattern"} and rule["$ref"] == "#/$defs/line":
            return pattern(rule["pattern"])
        if rule.get("type") == "array":
            return self.list(name, {key: value for key, value in rule.items() if key != "type"})
        if rule.get("type") == "object" or set(rule) in ({"oneOf"}, {"anyOf"}):
            return f"Rule::Object(Definition::{self.define(name, rule)})"
        raise SystemExit(f"schema_rules: {name}: no rule says {rule}")

    def list(self, name, rule):
        if rule == {"maxItems": 0}:
            return "Rule::NoItems"
        if rule == {"items": {"$ref": "#/$defs/spawnId"}, "minItems": 1, "maxItems": 1}:
            return "Rule::OneSpawnId"
        if rule == {"items": {"$ref": "#/$defs/id"}}:
            return "Rule::Names"
        assert set(rule) == {"items"}, rule
        items = rule["items"]
        if set(items) == {"$ref"}:
            return f"Rule::List(Definition::{self.defined(target_of(items))})"
        return f"Rule::List(Definition::{self.define(name, items)})"


def target_of(rule):
    """The name that a rule refers to."""
    return rule["$ref"].rsplit("/", 1)[1]


def words(values):
    if all(isinstance(value, str) for value in values):
        return "Rule::Word(&[" + ", ".join(json.dumps(value) for value in values) + "])"
    assert len(values) == 1, values
    value, = values
    if isinstance(value, bool):
        return f"Rule::Truth({json.dumps(value)})"
    return f"Rule::Number({value}, {value})"


def pattern(text):
    """The rule of a pattern: letters and a dot, a SpawnID, perhaps an end; or how it begins."""
    if text == "^jmf:":
        return 'Rule::Begins("jmf:")'
    found = re.fullmatch(r"\^(?:\[([A-Z]+)\]|([A-Z]))\\\.(.*?)(?:\\\.([a-z]))?\$", text)
    assert found and found.group(3) == SPAWN, text
    fronts = ", ".join(f'"{letter}."' for letter in found.group(1) or found.group(2))
    return f'Rule::OfSpawn(&[{fronts}], "{"." + found.group(4) if found.group(4) else ""}")'


def camel(name):
    return name[0].upper() + name[1:] if not name.isupper() else name[0] + name[1:].lower()


def snake(name):
    return re.sub(r"(?<=[a-z0-9])(?=[A-Z])", "_", name).upper()


def text_of(rules):
    lines = [HEAD]
    for name, members in rules.objects.items():
        lines.append(f"const {name}: &[Member] = &[{', '.join(members)}];\n")
    for name, objects in rules.definitions.items():
        lines.append(f"const {snake(name)}_OBJECTS: &[&[Member]] = &[{', '.join(objects)}];\n")
    lines.append("/// An object, or one of several, by its name in the schema, or by where it "
                 "stands.")
    lines.append("#[derive(Clone, Copy, PartialEq, Eq)]")
    lines.append("pub enum Definition {" + ", ".join(rules.definitions) + "}\n")
    lines.append("/// The members of each object that a value of a definition may be.")
    lines.append("pub(crate) fn objects_of(definition: Definition) "
                 "-> &'static [&'static [Member]] {")
    lines.append("match definition {")
    for name in rules.definitions:
        lines.append(f"Definition::{name} => {snake(name)}_OBJECTS,")
    lines.append("}}\n")
    return "\n".join(lines)


def bare(text):
    """A text without what a layout may change."""
    return re.sub(r",(?=[\]})])", "", re.sub(r"\s+", "", text))


def main():
    rules = Rules()
    for name in SCHEMA["$defs"]:
        if name not in LEAVES and name not in OTHERS:
            rules.defined(name)
    text = text_of(rules)
    if "--check" not in sys.argv:
        RULES.write_text(text, encoding="utf-8")
        return 0
    stands = bare(RULES.read_text(encoding="utf-8")) == bare(text)
    print("schema_rules: the rules are the schema's" if stands else
          f"schema_rules: {RULES.relative_to(ROOT)} isn't the schema's: run docs/schema_rules.py")
    return 0 if stands else 1


if __name__ == "__main__":
    sys.exit(main())
