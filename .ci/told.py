"""What the program tells beside its documents, by docs/told.schema.json: for the tests that read it."""
import json
import os
import sys

DOCS = os.path.join(os.path.dirname(os.path.dirname(os.path.realpath(__file__))), "docs")
sys.path.insert(0, DOCS)

import check_schema

with open(os.path.join(DOCS, "told.schema.json"), encoding="utf-8") as schema:
    TOLD = json.load(schema)


class Told(check_schema.Schema):
    KINDS = {**check_schema.Schema.KINDS, "null": type(None)}

    def ref_(self, value, rule):
        return self.allows(value, TOLD["$defs"][rule["$ref"].rsplit("/", 1)[1]])


def is_told(value, kind):
    """Fails where a value isn't of this form of the schema."""
    assert Told().allows(value, {"$ref": "#/$defs/" + kind}), (kind, value)
    return value
