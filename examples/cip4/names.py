#!/usr/bin/env python3
"""Names of JDF as names of Toarnbif, and back: names.py [back] < NAMES

A name or an id of JDF may be any text; one of Toarnbif begins with a letter or `_`, has letters,
digits, `_`, `-` and `.`, and at most 64 characters. Each line of standard input is a name. What is
none of these is refused with status 1.
"""
import re
import sys

LONGEST = 64


def ours(theirs):
    """The name that stands for one of JDF, and for no other.

    >>> ours("cover"), ours("2026-4711"), ours("HDM:Foo"), ours("Umschlag außen"), ours("_1")
    ('cover', '_2026-4711', 'HDM.3AFoo', 'Umschlag.20au.C3.9Fen', '__1')
    """
    escape = lambda found: "".join(f".{byte:02X}" for byte in found[0].encode())
    name = re.sub(r"[^A-Za-z0-9_-]", escape, theirs)
    name = name if re.match(r"[A-Za-z]", name) else "_" + name
    if len(name) > LONGEST:
        raise ValueError(f"{name} has more than {LONGEST} characters")
    return name


def theirs(ours):
    """The name of JDF that one stands for.

    >>> [theirs(ours(name)) for name in ("2026-4711", "HDM:Foo", "_1", "p.1", "ü", "")]
    ['2026-4711', 'HDM:Foo', '_1', 'p.1', 'ü', '']
    """
    name = ours.removeprefix("_").encode()
    return re.sub(rb"\.([0-9A-F]{2})", lambda found: bytes([int(found[1], 16)]), name).decode()


def main():
    """Writes what each line stands for."""
    change = theirs if sys.argv[1:] == ["back"] else ours
    try:
        for line in sys.stdin:
            print(change(line.removesuffix("\n")))
    except ValueError as error:
        raise SystemExit(f"names.py: {error}") from error


if __name__ == "__main__":
    main()
