#!/usr/bin/env python3
"""Types what the documents tell to type: documents.py PROGRAM

The lines of README.md, docs/FIRST_DAY.md and docs/CIP4.md that are fenced as `sh`, and the examples
that the program's help gives, are run as they stand, from the first to the last, each document in
one shell in a folder of its own, which has the program where `build-unproved` leaves it. Only ports
differ: each is a free one. What isn't run here builds or proves: for `rt` stands a script that runs
the program, and `./build-unproved` and `./check` are left out.

A comment behind a line tells what comes of it. Between its commas, colons and semicolons, what
begins with a capital letter or a brace is a line that is printed, or the front of one where ` ..`
stands behind it, and `status N` is the status, else 0, with no refusal printed. Where the text
says `prints` between the lines and a fenced block, the block is what is printed.

The toolchain that `--version` names has to be one that README trusts. The lines of one document end
within two minutes, or fail.
"""
import contextlib
import os
import re
import shutil
import signal
import socket
import subprocess
import sys
import tempfile

TOP = os.path.dirname(os.path.dirname(os.path.realpath(__file__)))
SECONDS = 120
LEFT_OUT = ("./build-unproved", "./check")
# What stands for the toolchain: it runs the program with the words behind `--`.
RT = """#!/bin/sh
while [ "$1" != -- ]; do shift; done
shift
exec "%s" "$@"
"""
FENCED = re.compile(r"^```(\w*)\n(.*?)^```$", re.M | re.S)
COMMENT = re.compile(r"(?:^|\s{2,})# (.*)$", re.M)


# ---- what a document tells to type


class Line:
    """One command of a document, of one line or more, and what is to come of it."""

    def __init__(self, text):
        self.text = text
        told = ", ".join(COMMENT.findall(text))
        pieces = re.split(r"[,:;] ", told)
        self.wanted = [piece for piece in pieces if re.match(r"[A-Z{]", piece)]
        status = re.search(r"\bstatus (\d+)", told)
        self.status = int(status[1]) if status else 0
        self.printed = None
        # Of an example of the help nothing is told, and it may be one in which some are refused.
        self.is_example = False

    def fault(self, status, printed):
        """What is wrong with what came of it, or None."""
        if status != self.status and not (self.is_example and status == 1):
            return f"status {status}, and not {self.status}"
        if self.printed is not None:
            if len(printed) != len(self.printed) or not all(map(is_line, printed, self.printed)):
                return "it prints something else than the document says"
            return None
        rest = iter(printed)
        for wanted in self.wanted:
            if not any(is_line(line, wanted) for line in rest):
                return f"no line `{wanted}`"
        is_refused = any(line.startswith(("Refused", "error")) for line in printed)
        if is_refused and not status and not self.is_example:
            return "a refusal of which the document says nothing"
        return None


def is_line(line, wanted):
    """Whether a line is as it is wanted, or begins so where dots stand behind that."""
    front = re.sub(r" ?\.{2,3}$", "", wanted)
    return line.startswith(front) if front != wanted else line == wanted


def is_whole(text):
    """Whether these lines are a whole command."""
    if not text.strip() or text.rstrip().endswith("\\"):
        return False
    ran = subprocess.run(["bash", "-n"], input=text, capture_output=True, text=True)
    return (ran.returncode, ran.stderr) == (0, "")


def commands_in(block):
    """The commands of a block of lines, each with the comments below it."""
    text = ""
    for command in re.split(r"\n(?![\n]|\s*#)", block.rstrip("\n")):
        text += command + "\n"
        if is_whole(text):
            if text.strip() not in LEFT_OUT:
                yield Line(text)
            text = ""
    assert not text.strip(), f"no whole command: {text}"


def commands_of(document):
    """The commands of a document, in turn."""
    with open(os.path.join(TOP, document), encoding="utf-8") as file:
        text = file.read()
    lines, end = [], 0
    for block in FENCED.finditer(text):
        if block[1] == "sh":
            lines += commands_in(block[2])
        elif not block[1] and re.search(r"\bprints$", text[end:block.start()].rstrip()):
            lines[-1].printed = block[2].splitlines()
        end = block.end()
    assert len(lines) > 1, "too few lines"
    return lines


def commands_of_help(program):
    """The examples of the program's help."""
    text = subprocess.run([program, "--help"], capture_output=True, text=True).stderr
    lines = re.findall(r"^  (.*)$", text[text.index("\nExamples"):], re.M)
    assert len(lines) > 5, "too few examples"
    examples = [Line(line) for line in ['export PATH="$PWD/out:$PATH"', *lines]]
    for example in examples:
        example.is_example = True
        if example.text.endswith("&"):
            address = re.search(r"127\.0\.0\.1:\d+", example.text)
            example.wanted = [f"Listening on {address[0]}"]
    return examples


# ---- typing it


class Ports:
    """A free port for each that the documents name, the same one each time."""

    def __init__(self):
        self.held = {}

    def free(self, named):
        if named[1] not in self.held:
            self.held[named[1]] = socket.create_server(("127.0.0.1", 0))
        return f"127.0.0.1:{self.held[named[1]].getsockname()[1]}"

    def put(self, text):
        return re.sub(r"127\.0\.0\.1:(\d{4})\b", self.free, text)

    def release(self):
        for server in self.held.values():
            server.close()


def put(text, path, mode=0o644):
    with open(path, "w", encoding="utf-8") as file:
        file.write(text)
    os.chmod(path, mode)


def prepare(folder, program):
    """A repository with the examples and the built program, a home, and what stands for rt."""
    for name in ("top/out", "top/crates/jdf_cli", "home", "bin", "told"):
        os.makedirs(os.path.join(folder, name))
    shutil.copytree(os.path.join(TOP, "examples"), os.path.join(folder, "top/examples"))
    shutil.copy(program, os.path.join(folder, "top/out/jdf_cli"))
    put(RT % os.path.join(folder, "top/out/jdf_cli"), os.path.join(folder, "bin/rt"), 0o755)


def script(lines, ports):
    """A script that types the lines: each in turn with what it prints in a file, and its status in
    another. What a command that goes on is to print is waited for."""
    typed = []
    for number, line in enumerate(lines):
        told = f'"$TOLD"/{number}'
        command = ports.put(line.text).rstrip("\n")
        typed += [f"exec > {told} 2>&1", command, f"echo $? > {told}.status"]
        if line.text.split("  #")[0].rstrip().endswith("&") and line.wanted:
            wanted = ports.put(line.wanted[0])
            typed.append(f"until grep -qF -- '{wanted}' {told}; do sleep 0.05; done")
    return "\n".join(typed) + "\n"


def typed(lines, folder):
    """Types the lines in a shell, and ends all that they leave running. Answers what each printed,
    and its status; None for those that weren't typed within the time."""
    ports = Ports()
    put(script(lines, ports), os.path.join(folder, "script"))
    for line in lines:
        line.wanted = [ports.put(wanted) for wanted in line.wanted]
    ports.release()
    told = os.path.join(folder, "told")
    home = {"HOME": os.path.join(folder, "home"), "TOLD": told, "LC_ALL": "C.UTF-8",
            "PATH": os.path.join(folder, "bin") + ":" + os.environ["PATH"]}
    shell = subprocess.Popen(["bash", "--norc", os.path.join(folder, "script")], env=home,
                             cwd=os.path.join(folder, "top"), stdin=subprocess.DEVNULL,
                             stdout=subprocess.DEVNULL, stderr=subprocess.DEVNULL,
                             start_new_session=True)
    try:
        shell.wait(SECONDS)
    except subprocess.TimeoutExpired:
        pass
    finally:
        with contextlib.suppress(ProcessLookupError):
            os.killpg(shell.pid, signal.SIGKILL)
        shell.wait()
    return [came_of(os.path.join(told, str(number))) for number in range(len(lines))]


def came_of(path):
    try:
        with open(path + ".status", encoding="utf-8") as file:
            status = int(file.read())
        with open(path, encoding="utf-8", errors="replace") as file:
            return status, file.read().splitlines()
    except (OSError, ValueError):
        return None


def passes(name, lines, program):
    """Whether all that a document says of its lines is so."""
    with tempfile.TemporaryDirectory(prefix="documents-") as folder:
        prepare(folder, program)
        came = typed(lines, folder)
    for line, one in zip(lines, came):
        fault = "it doesn't end" if one is None else line.fault(*one)
        if fault:
            shown = "\n    ".join(text[:300] for text in (one[1] if one else []))
            print(f"{name} ... FAILED: {fault}\n  {line.text.strip()}\n    {shown}")
            return False
    print(f"{name} ... ok, {len(lines)} commands")
    return True


def tells_its_version(program):
    """Whether the toolchain that the program says it was proved with is one that README trusts."""
    told = subprocess.run([program, "--version"], capture_output=True, text=True).stdout
    kit, _, logic = told.rstrip("\n").rpartition("Proved with: ")[2].partition(" ")
    with open(os.path.join(TOP, "README.md"), encoding="utf-8") as file:
        (trusted,) = re.findall(r"^\*\*Trusted\*\*: the toolchain \((.*?)\)", file.read(), re.M)
    is_trusted = kit != "" and {f"`{kit}`", f"`{logic}`"} <= set(re.findall("`.*?`", trusted))
    print(f"--version ... {'ok' if is_trusted else 'FAILED: README trusts no such toolchain'}")
    return is_trusted


def main():
    program = os.path.abspath(sys.argv[1])
    documents = [(name, commands_of(name))
                 for name in ("README.md", "docs/FIRST_DAY.md", "docs/CIP4.md")]
    documents.append(("--help", commands_of_help(program)))
    passed = sum([passes(name, lines, program) for name, lines in documents])
    print(f"documents: {passed} passed, {len(documents) - passed} failed")
    sys.exit(not tells_its_version(program) or passed != len(documents))


if __name__ == "__main__":
    main()
