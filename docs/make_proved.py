#!/usr/bin/env python3
"""Writes docs/PROVED.md by the contracts of crates/, from the sentences that stand beside them.

A sentence is a comment above a clause, or above a function without clauses of its own:

    // Proved: A part is merged just if it fits, else refused without memory.
    // By `fits`, `wrong_shape`, `memory`; `shape::fits`.
    ensures fits { .. }

The last line names what carries it: clauses of the function itself, and others of the crate, with
their clauses or, where they have one, alone. Where the line isn't there, the clause below carries
it. `// Not proved: ` begins what no clause says, and `// Wants: ` above a `requires` what a caller
has to see to.

With the word `--check` nothing is written: it ends with 1 where docs/PROVED.md says something else.
A sentence without its clause is an error, and so is a public function whose contract has no
sentence, or whose wants have none.
"""
import re
import sys
from pathlib import Path

ROOT = Path(__file__).resolve().parent.parent
PROVED = ROOT / "docs/PROVED.md"

# The crate with the headline comes first.
FIRST = "world"

HEAD = """# What is proved

Each row says what clauses (`ensures`) of functions say, mostly of public ones, and names both; a function with one clause stands alone. The rows are made by `make_proved.py` of the sentences that stand beside these clauses. The functions of a module `laws` have empty bodies: their contract is the law. The words are those of `GLOSSARY.md`, the definitions behind them those of `MODEL.md`.

Of every function it is proved that it returns, if each call of the system does, and does nothing undefined, for any bytes and any ticket. What a call promises it promises where memory doesn't run out; what it refuses it leaves as it was (`err`), unless its line says otherwise. What is said of bytes that are read or written is said of readers and writers that tell theirs, as those in memory do; what is said of what a keeper holds, of honest keepers; and the reads and writes that are counted are calls of `Counted`. What calls want of their callers, and what isn't proved, stands behind the rows of each crate.
"""

FUNCTION = re.compile(r"(pub(?:\([^)]*\))? )?(?:const |unsafe |final )*fn (\w+)")
OWNER = re.compile(r"(?:pub(?:\([^)]*\))? )?(?:unsafe )?(impl|trait)\b(.*)")
GHOST = re.compile(r"ghost (?!use\b)(\w+)\s*[:=]")
CLAUSE = re.compile(r"\s*(requires|ensures)(?: (\w+))? \{")
COMMENT = re.compile(r"// (Proved|Not proved|Wants): (.*)")
TEXT = re.compile(r'"(?:[^"\\]|\\.)*"|b?\'(?:[^\'\\]|\\.)\'')


class Function:
    """A function, or a ghost member of a type, with the names of its clauses and its sentences."""

    def __init__(self, where, module, owner, name, is_public):
        self.where, self.module, self.owner, self.is_public = where, module, owner, is_public
        self.path = [*module, *([owner] if owner else []), name]
        self.clauses, self.wants, self.told = [], [], []

    def shown(self, functions):
        """Its name in a row: the end of its path that leads to it alone, with its type's, or with
        that of the module where it is a law."""
        least = 2 if self.owner or self.module[-1:] == ["laws"] else 1
        for size in range(least, len(self.path)):
            ends = {tuple(one.path) for one in functions if one.path[-size:] == self.path[-size:]}
            if len(ends) == 1:
                return "::".join(self.path[-size:])
        return "::".join(self.path)


class Sentence:
    """What the lines of a comment say beside a clause of a function, and what they name."""

    def __init__(self, kind, lines, function, clause):
        self.kind, self.function, self.clause = kind, function, clause
        ends = [place for place, line in enumerate(lines) if line.startswith("By `")]
        end = ends[0] if ends else len(lines)
        self.text = " ".join(lines[:end])
        self.names = " ".join(lines[end:])[3:].rstrip(".")


def fail(text):
    sys.exit(f"make_proved: {text}")


def words(text):
    return re.findall(r"`([\w:]+)`", text)


# ---- reading the sources


def code_of(line):
    """A line without its comment, its texts and its characters."""
    return TEXT.sub("_", line).split("//")[0]


def owner_of(text):
    """The type or the trait that a line `impl` or `trait` is of."""
    text, before = text.replace("->", ""), None
    while text != before:
        text, before = re.sub(r"<[^<>]*>", "", text), text
    text = re.split(r"\bwhere\b|\{|:(?!:)", text)[0].split(" for ")[-1]
    return re.findall(r"\w+", text)[-1]


class Reader:
    """Goes over the lines of a file once, and gathers its functions."""

    def __init__(self, crate, path, names):
        source = ROOT / "crates" / crate / "src"
        self.path, self.names = path.relative_to(ROOT), names
        self.lines = path.read_text(encoding="utf-8").split("\n")
        parts = path.relative_to(source).with_suffix("").parts
        self.module = [name for name in parts if name not in ("lib", "main")]
        self.is_handed_on = not names.isdisjoint(self.module)
        self.at, self.owners, self.found, self.told = 0, [], [], []
        self.goes_on = False
        self.file = self.begun("", False)

    def begun(self, name, is_public):
        """A function that begins at this line."""
        owner = self.owners[-1][1] if self.owners else None
        function = Function(f"{self.path}:{self.at + 1}", self.module, owner, name, is_public)
        self.found.append(function)
        return function

    def functions(self):
        while self.at < len(self.lines):
            line = self.lines[self.at]
            text, indent = line.strip(), len(line) - len(line.lstrip())
            while self.owners and text == "}" and indent <= self.owners[-1][0]:
                self.owners.pop()
            if text.startswith("//") or not text:
                self.comment(text)
            elif OWNER.match(text):
                self.owner(text, indent)
            elif FUNCTION.match(text):
                self.function(*FUNCTION.match(text).groups())
            elif GHOST.match(text) and self.owners:
                member = self.begun(GHOST.match(text)[1], False)
                member.clauses = [""]
                self.give(member, "")
            elif not text.startswith("#["):
                self.give(self.file, "")
            self.at += 1
        return self.found

    def comment(self, text):
        """A comment begins a sentence, or goes on with one; a line of nothing ends it."""
        start = COMMENT.match(text)
        if start:
            self.told.append((start[1], [start[2]]))
        elif self.goes_on and text.startswith("// "):
            self.told[-1][1].append(text[3:])
        self.goes_on = bool(start) or (self.goes_on and text.startswith("// "))

    def give(self, function, clause):
        """What was told stands beside this clause."""
        function.told += [Sentence(*told, function, clause) for told in self.told]
        self.told, self.goes_on = [], False

    def owner(self, text, indent):
        """An `impl` or a `trait` begins; its members that have no `pub` are public with it."""
        while "{" not in code_of(self.lines[self.at]):
            self.at += 1
            text += " " + self.lines[self.at].strip()
        kind, rest = OWNER.match(text).groups()
        if not re.search(r"\{\s*\}", code_of(self.lines[self.at])):
            name = owner_of(rest)
            is_open = kind == "trait" or " for " in rest
            self.owners.append((indent, name, is_open and name in self.names))

    def function(self, public, name):
        owner = self.owners[-1] if self.owners else None
        is_known = self.is_handed_on or (owner[1] if owner else name) in self.names
        is_public = (public == "pub " and is_known) or bool(owner and owner[2])
        function = self.begun(name, is_public)
        self.give(function, "")
        self.contract(function)

    def contract(self, function):
        """Goes to the last line of the signature and the clauses."""
        depth, clauses = 0, None
        while True:
            text, code = self.lines[self.at].strip(), code_of(self.lines[self.at])
            if text.startswith("//") or not text:
                self.comment(text)
            start = CLAUSE.match(code) if depth == 0 else None
            if start:
                clauses = function.clauses if start[1] == "ensures" else function.wants
                clauses.append(start[2] or "")
                self.give(function, start[2] or "")
            for char in code:
                if depth == 0 and (char == ";" or (char == "{" and clauses is None)):
                    return
                depth += (char in "([{") - (char in ")]}")
                if depth == 0 and char == "}":
                    clauses = None
            self.at += 1


def crates():
    """The crates, lowest first behind the first."""
    lines = (ROOT / "crates.txt").read_text(encoding="utf-8").splitlines()
    names = [line.split(":")[0] for line in lines if line and not line.startswith("#")]
    return sorted(names, key=lambda name: name != FIRST)


def names_of(source):
    """The names that a crate hands on, and its public modules."""
    if not (source / "lib.rt").exists():
        return set()
    text = (source / "lib.rt").read_text(encoding="utf-8")
    uses = [re.split(r"::(?=\w+$)|\{", use, 1)[-1]
            for use in re.findall(r"^pub use ([^;]+);", text, re.M)]
    return set(re.findall(r"\w+", " ".join(uses)) + re.findall(r"^pub mod (\w+);", text, re.M))


def functions_of(crate):
    """The functions of a crate, file by file, its laws last."""
    source = ROOT / "crates" / crate / "src"
    names = names_of(source)
    paths = sorted(source.rglob("*.rt"), key=lambda path: (path.stem == "laws", path))
    return [one for path in paths for one in Reader(crate, path, names).functions()]


# ---- what carries a sentence


def named(name, labels, functions, where):
    """The function of a name that has these clauses, or one clause, or no contract of its own."""
    parts = name.split("::")
    found = [one for one in functions if one.path[-len(parts):] == parts
             and (set(labels) <= set(one.clauses) if labels else len(one.clauses) < 2)]
    found = [one for one in found if one.clauses] or found
    if len({tuple(one.path) for one in found}) != 1:
        wanted = " and ".join(f"`{label}`" for label in labels) or "one clause alone"
        fail(f"{where}: {'several functions' if found else 'no'} `{name}` with {wanted}")
    return found[0]


def carriers(sentence, functions):
    """The functions that carry a sentence, each with names of its clauses."""
    own = sentence.function
    groups = sentence.names.split("; ") if sentence.names else []
    labels = [sentence.clause] if sentence.clause else []
    if groups and ":" not in groups[0].replace("::", "") and \
            set(words(groups[0])) <= set(own.clauses):
        labels = words(groups.pop(0))
    found = [(own, labels)]
    for group in groups:
        names, _, labels = group.partition(": ")
        found += [(named(name, words(labels), functions, own.where), words(labels))
                  for name in words(names)]
    return found


def row(sentence, functions):
    """The row of a sentence: its text, and what carries it."""
    groups = []
    for one, labels in carriers(sentence, functions):
        if not groups or groups[-1][1] != labels:
            groups.append(([], labels))
        groups[-1][0].append(f"`{one.shown(functions)}`")
    told = [", ".join(names) + ": " * bool(labels) + ", ".join(f"`{label}`" for label in labels)
            for names, labels in groups]
    return f"- {sentence.text} {'; '.join(told)}"


def missing_in(functions, covered):
    """What has no sentence: contracts of public functions, and their wants."""
    for one in functions:
        if one.is_public and one.clauses and one.where not in covered:
            yield f"{one.where}: the contract of `{one.shown(functions)}`"
        if one.is_public and one.wants and "Wants" not in [told.kind for told in one.told]:
            yield f"{one.where}: what `{one.shown(functions)}` wants"


def section(crate):
    """The section of a crate, and what has no sentence there."""
    functions = functions_of(crate)
    told = [sentence for one in functions for sentence in one.told]
    proved = [sentence for sentence in told if sentence.kind == "Proved"]
    covered = {one.where for sentence in proved for one, _ in carriers(sentence, functions)}
    rows = sorted([row(sentence, functions) for sentence in proved],
                  key=lambda text: not text.startswith("- **"))
    for sentence in told:
        name = f" `{sentence.function.shown(functions)}`" if sentence.function.path[-1] else ""
        if sentence.kind == "Not proved":
            rows.append(f"- Not proved: {sentence.text}{name}")
    wants = [f"`{sentence.function.shown(functions)}`, {sentence.text.rstrip('.')}"
             for sentence in told if sentence.kind == "Wants"]
    if wants:
        rows.append("- Wanted of callers: " + "; ".join(wants) + ".")
    text = f"\n## `{crate}`\n\n" + "\n".join(rows) + "\n" if rows else ""
    return text, list(missing_in(functions, covered))


def main():
    sections = [section(crate) for crate in crates()]
    text = HEAD + "".join(told for told, _ in sections)
    missing = [line for _, lines in sections for line in lines]
    if missing:
        fail("no sentence stands beside\n" + "\n".join(missing))
    if sys.argv[1:] == ["--check"]:
        if PROVED.read_text(encoding="utf-8") != text:
            fail("docs/PROVED.md says something else: run docs/make_proved.py")
        print("docs/PROVED.md says what stands beside the contracts")
    else:
        PROVED.write_text(text, encoding="utf-8")


if __name__ == "__main__":
    main()
