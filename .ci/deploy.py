#!/usr/bin/env python3
"""What examples/deploy has, tried: deploy.py PROGRAM [--only WORD]

The unit against what the program asks the system for; nginx and haproxy with TLS before two houses;
the man page and the completions; the package and the Dockerfile's steps in clean roots; an operator
beside the service; and the lines of docs/DEPLOY.md. It has to be root. The last line says how many
tests passed.
"""
import argparse
import os
import re
import shlex
import shutil
import signal
import subprocess
import sys
import tempfile
import time

import fronts
import installs
import processes
from crowd import connected, free_port, one_response, until_so
from deployed import (COVER, DEPLOY, certify, example, is_closed, made, opening, option_words,
                      unit_values)
from houses import House, begins, gives, lines_of, put_peers
from processes import FINISH, PROGRAM, content, request, status_in, wants

TOOLS = ("nginx", "haproxy", "strace", "systemd-analyze", "dpkg-deb", "groff", "man", "openssl",
         "setpriv", "chroot", "unshare")


# ---- the unit


def the_unit_is_valid():
    text = example("toarnbif.service").replace("/usr/bin/jdf_cli", PROGRAM)
    with open("toarnbif.service", "w", encoding="utf-8") as file:
        file.write(text)
    wants(made("systemd-analyze", "verify", "./toarnbif.service"), "")
    made("systemd-analyze", "security", "--offline=true", "--threshold=15", "./toarnbif.service")


def calls_in(*names):
    """The system calls of sets, also of those that stand in them."""
    calls = set()
    for line in made("systemd-analyze", "syscall-filter", *names).splitlines():
        word = line.strip()
        if line.startswith(" ") and word.startswith("@"):
            calls |= calls_in(word)
        elif line.startswith(" ") and not word.startswith("#"):
            calls.add(word)
    return calls


class Traced(House):
    """A house of which `trace` has what it asks the system for."""

    def command(self):
        return ["strace", "-f", "-o", "trace", *super().command()]

    def kill(self):
        strace = self.process.pid
        for child in content(f"/proc/{strace}/task/{strace}/children").split():
            os.kill(int(child), signal.SIGKILL)
        self.process.wait()
        self.process.stdout.close()


def traced_lines():
    """What the program asks the system for while it serves as the unit tells it: a job that goes to
    its own other controller, orders beside it, a name of a host, and a request that is refused."""
    port = free_port()
    os.mkdir("house")
    os.mkdir("house/press")
    begins("house/job-1", opening("job-1"))
    here = f"http://127.0.0.1:{port}/jmf"
    put_peers("house", {"job-*": here, "press": here, "bindery": f"http://localhost:{port}/jmf"})
    words = [word for word in option_words() if word not in ("--sender-field", "X-Sender")]
    with Traced("house", port, *words):
        gives("house/job-1", COVER, "Spawned S1")
        until_so(lambda: lines_of("house/press/job-1") == [["S1", "Open"]], "the part comes")
        gives("house/press/job-1", FINISH, "Finished S1")
        until_so(lambda: is_closed("house/press/job-1"), "the part is back")
        with connected(port) as client:
            client.sendall(request("{}"))
            wants(status_in(one_response(client)), 400)
    return content("trace").decode().splitlines()


def the_unit_allows_what_the_program_does():
    """Each call of the system is one of those that the filter leaves, each socket of a family that
    is allowed, and what is written lies in the folder; and no memory is to be written and run."""
    lines = traced_lines()
    kept, taken = unit_values("SystemCallFilter")
    allowed = calls_in(*kept.split()) - calls_in(*taken.removeprefix("~").split())
    calls = {found[1] for line in lines if (found := re.match(r"\d+ +(\w+)\(", line))}
    wants(calls - allowed, set())
    assert {"renameat2", "rename", "renameat"} & calls and "accept4" in calls, calls
    text = "\n".join(lines)
    families = set(re.findall(r"\bsocket\((AF_\w+)", text))
    assert families <= set(unit_values("RestrictAddressFamilies")[0].split()), families
    written = re.findall(r'\bopen(?:at)?\((?:AT_FDCWD, )?"([^"]*)", [^)]*O_(?:WRONLY|RDWR)', text)
    assert written and all(path.startswith("house/") for path in written), set(written)
    assert not re.search(r"PROT_WRITE\|PROT_EXEC", text)
    wants(len(re.findall(r"\bexecve\(", text)), 1)
    print(f"  {len(lines)} calls of {len(calls)} kinds, of {len(allowed)} that are allowed")


# ---- the pages


def pages():
    """The man page and the completions, made of the program's help."""
    made(os.path.join(DEPLOY, "pages"), PROGRAM, ".")


def the_man_page_tells_what_the_help_does():
    pages()
    for words in (["groff", "-man", "-Tutf8", "-ww", "jdf_cli.1"],
                  ["man", "--warnings", "--nh", "-E", "UTF-8", "-l", "jdf_cli.1"]):
        ran = subprocess.run(words, capture_output=True, text=True, stdin=subprocess.DEVNULL,
                             env=dict(os.environ, MANWIDTH="80", GROFF_NO_SGR="1"))
        wants((ran.returncode, ran.stderr), (0, ""))
    shown_page = " ".join(re.sub(".\b", "", ran.stdout).split())
    for name in COMMANDS:
        told = subprocess.run([PROGRAM, name, "--help"], capture_output=True, text=True)
        for line in (told.stdout + told.stderr).splitlines():
            line = line.strip().replace("`", "").replace("<", "").replace(">", "")
            # But for the title of a list, and what is told of every command.
            if line and not re.match(r"(Usage|Arguments|Options|Examples?):|-h|Print help", line):
                plain = shown_page.replace("<", "").replace(">", "")
                assert line in plain or line.split(" -")[0] in plain, (name, line)


COMMANDS = ("edit", "world", "loop", "new", "order", "take", "show", "list", "check", "explain",
            "serve", "send")
SERVE = ("--listen", "--limit", "--clients", "--body", "--memory", "--requests", "--peers", "--page",
         "--orders", "--sender-field", "--journal", "--help")
# What is typed, with the word that is completed last, and what it may be: `=` is a word.
COMPLETED = (
    ((""), (*COMMANDS, "help")),
    (("s"), ("show", "serve", "send")),
    (("help", "t"), ("take",)),
    (("serve", "-"), SERVE),
    (("serve", "house", "--l"), ("--listen", "--limit")),
    (("order", "--"), ("--at", "--send", "--from", "--journal", "--help")),
    (("show", "house", "--p"), ("--picture",)),
    (("edit", "--"), ("--from", "--help")),
    (("list", "--"), ("--open", "--json", "--at", "--help")),
    (("show", "jo"), ("job-1", "job-2")),
    (("order", "job-1", "--at", "jo"), ()),
    (("order", "--at", "5", "jo"), ("job-1", "job-2")),
    (("serve", "house", "--peers", "pe"), ("peers.json",)),
    (("serve", "house", "--peers", "=", "pe"), ("peers.json",)),
    (("serve", "house", "--listen", "=", "pe"), ()),
    (("send", "@pe"), ("@peers.json",)),
    (("order", "job-1", "--send", "@pe"), ("@peers.json",)),
    (("edit", "jo"), ()),
    (("edit", "<", "jo"), ("job-1", "job-2")),
)


def the_completions_are_the_programs():
    pages()
    for name in ("job-1", "job-2", "peers.json"):
        with open(name, "w", encoding="utf-8"):
            pass
    given = ". ./jdf_cli.bash; complete -p jdf_cli\n"
    for words, _ in COMPLETED:
        words = ("jdf_cli", *([words] if isinstance(words, str) else words))
        given += (f"COMP_WORDS=({shlex.join(words)}); COMP_CWORD={len(words) - 1}\n"
                  f"_jdf_cli jdf_cli {shlex.join([words[-1], words[-2]])}; "
                  "echo \"${COMPREPLY[*]}\"\n")
    ran = subprocess.run(["bash", "--norc"], input=given, capture_output=True, text=True)
    wants((ran.returncode, ran.stderr), (0, ""))
    first, *lines = ran.stdout.splitlines()
    wants(first, "complete -F _jdf_cli jdf_cli")
    for (words, wanted), line in zip(COMPLETED, lines, strict=True):
        wants((words, sorted(line.split())), (words, sorted(wanted)))


TESTS = [
    the_unit_is_valid,
    the_unit_allows_what_the_program_does,
    fronts.a_job_goes_from_nginx_to_haproxy,
    fronts.a_job_goes_from_haproxy_to_nginx,
    fronts.nobody_sends_in_anothers_name_through_nginx,
    fronts.nobody_sends_in_anothers_name_through_haproxy,
    fronts.slow_clients_stay_before_nginx,
    fronts.slow_clients_stay_before_haproxy,
    fronts.nginx_verifies_the_other_end,
    fronts.haproxy_verifies_the_other_end,
    the_man_page_tells_what_the_help_does,
    the_completions_are_the_programs,
    installs.the_package_is_installed_in_a_clean_root,
    installs.an_operator_works_beside_the_service,
    installs.a_stranger_does_not,
    installs.a_file_of_another_mask_waits_for_its_group,
    installs.what_a_killed_order_left_is_removed_by_its_owner,
    installs.the_dockerfiles_steps_go,
    installs.the_document_is_typed,
]


def timed(test):
    """Whether a test passes within its time."""
    def late(*_):
        raise AssertionError("no end within 60 s")
    start = time.monotonic()
    signal.signal(signal.SIGALRM, late)
    signal.alarm(60)
    try:
        return processes.passes(test)
    finally:
        signal.alarm(0)
        print(f"  {time.monotonic() - start:.1f} s", flush=True)


def prepare(program):
    os.environ["PATH"] += ":/usr/sbin"
    missing = [tool for tool in TOOLS if not shutil.which(tool)]
    if missing:
        sys.exit(f"deploy: not there: {' '.join(missing)}")
    if os.getuid() != 0:
        sys.exit("deploy: only root may make users and roots")
    processes.install(program)
    memory = "/dev/shm"
    if os.path.isdir(memory) and not os.statvfs(memory).f_flag & (os.ST_NOEXEC | os.ST_NODEV):
        tempfile.tempdir = memory
    certify()


def main():
    parser = argparse.ArgumentParser()
    parser.add_argument("program")
    parser.add_argument("--only", default="")
    args = parser.parse_args()
    prepare(args.program)
    tests = [test for test in TESTS if args.only in test.__name__]
    passed = sum([timed(test) for test in tests])
    shutil.rmtree(os.path.dirname(PROGRAM))
    print(f"deploy: {passed} passed, {len(tests) - passed} failed")
    sys.exit(passed != len(tests))


if __name__ == "__main__":
    main()
