"""The package, operators, a container and docs/DEPLOY.md, in clean roots: for deploy.py."""
import contextlib
import json
import os
import shlex
import shutil
import signal
import subprocess
import time

import documents
import processes
from crowd import connected, free_port, one_response, until_so
from deployed import (COVER, DEPLOY, FOLDER, PACKAGE, SOON, example, made, opening, unit_values)
from houses import entries_in
from processes import AT, EXAMPLES, FINISH, PROGRAM, Served, content, request, status_in, wants
from roots import Root


# ---- the package, in a clean root


def installs(root):
    """Installs the package of the program, which is made first where it isn't there."""
    if not os.path.isdir(PACKAGE):
        made(os.path.join(DEPLOY, "make-deb"), PROGRAM, PACKAGE)
    (name,) = os.listdir(PACKAGE)
    dpkg(root, "-i", os.path.join(PACKAGE, name))


def dpkg(root, *words):
    made("dpkg", "--root=" + root.folder, "--force-unsafe-io", *words)


@contextlib.contextmanager
def installed():
    """A clean root with the package."""
    with Root() as root:
        installs(root)
        yield root


def asks(root, command, user="root", given="", status=0):
    """What a line of shell prints, that ends with this status."""
    came = root.run(command, user, given)
    wants((command, came[0], came[1] if came[0] != status else ""), (command, status, ""))
    return came[1]


def is_like(root, path):
    """The owner, the group and the mode of a file."""
    return asks(root, f"stat -c '%U %G %a' {path}").strip()


def example_text(name):
    return content(os.path.join(EXAMPLES, "shop", name)).decode()


def first_job(root, user):
    """A part goes out and is taken, in the house's folder, by hand."""
    at = f"cd {FOLDER}; umask 0007; jdf_cli"
    asks(root, f"{at} new mis", user, example_text("mis.json"))
    asks(root, f"{at} new press", user, example_text("press.json"))
    reply, message = asks(root, f"{at} order mis --at {AT}", user, COVER).splitlines()
    wants(reply, "Spawned S1")
    wants(asks(root, f"{at} take press --at {AT}", user, message).splitlines()[0], "Taken S1")
    assert asks(root, f"{at} show press", user).startswith("S1 Open {")
    wants(json.loads(asks(root, f"{at} show mis", user))["JobID"], "J-2026-118")


def the_package_is_installed_in_a_clean_root():
    """dpkg finds all that it depends on; there are the user and the folder, and the first job goes.
    An upgrade and a removal leave user and folder."""
    with installed() as root:
        wants(is_like(root, FOLDER), "toarnbif toarnbif 2770")
        wants(asks(root, "id -Gn toarnbif").strip(), "toarnbif")
        for name in ("lib/systemd/system/toarnbif.service", "share/man/man1/jdf_cli.1.gz",
                     "share/bash-completion/completions/jdf_cli"):
            wants(is_like(root, "/usr/" + name), "root root 644")
        made("gzip", "-t", root.path("/usr/share/man/man1/jdf_cli.1.gz"))
        first_job(root, "toarnbif")
        installs(root)
        wants(is_like(root, FOLDER + "/press"), "toarnbif toarnbif 660")
        dpkg(root, "-P", "toarnbif")
        asks(root, "command -v jdf_cli", status=127)
        wants(asks(root, f"ls {FOLDER}").split(), ["mis", "press"])


# ---- an operator beside the service


class Installed(Served):
    """The house of the package of a root, as its unit runs it; without a proxy before it."""

    def __init__(self, root, port):
        self.root, self.file, self.port = root, root.path(FOLDER), port
        self.start()

    def command(self):
        words = f"jdf_cli serve {FOLDER} --listen 127.0.0.1:{self.port}"
        (user,), (mask,) = unit_values("User"), unit_values("UMask")
        return self.root.words(f"umask {mask}; exec {words}", user)


@contextlib.contextmanager
def staffed():
    """A house, anna and carl, who are operators, and bob, who isn't."""
    with installed() as root:
        asks(root, "useradd -G toarnbif anna; useradd -G toarnbif carl; useradd bob")
        port = free_port()
        asks(root, f"umask 0007; cat > {FOLDER}/peers.json", "toarnbif",
             json.dumps({"*": f"http://127.0.0.1:{port}/jmf"}))
        with Installed(root, port) as house:
            yield root, house


def shows(root, name):
    return entries_in(asks(root, f"cd {FOLDER}; jdf_cli show {name}"))


def is_back(root, name):
    return shows(root, name) == [["S1", "Closed", "Completed"]]


def an_operator_works_beside_the_service():
    """The service saves over an operator's file and she over its; the group and the mode stay, and
    the owner is who saved last."""
    with staffed() as (root, house):
        at, stamp = f"cd {FOLDER}; umask 0007;", f"--at {AT}"
        asks(root, f"{at} mkdir press; jdf_cli new job-1", "anna", json.dumps(opening("job-1")))
        wants(is_like(root, FOLDER + "/press"), "anna toarnbif 2770")
        wants(is_like(root, FOLDER + "/job-1"), "anna toarnbif 660")
        asks(root, f"{at} jdf_cli order job-1 {stamp}", "anna", COVER)
        until_so(lambda: root.run(f"test -e {FOLDER}/press/job-1")[0] == 0, "it comes", SOON)
        wants(is_like(root, FOLDER + "/press/job-1"), "toarnbif toarnbif 660")
        asks(root, f"{at} jdf_cli order press/job-1 {stamp}", "carl", FINISH)
        until_so(lambda: is_back(root, "press/job-1"), "it is back", SOON)
        wants(is_like(root, FOLDER + "/press/job-1"), "toarnbif toarnbif 660")
        wants(is_like(root, FOLDER + "/job-1"), "toarnbif toarnbif 660")
        # An order under another mask keeps the mode.
        asks(root, f"cd {FOLDER}; umask 0077; jdf_cli order job-1 {stamp}", "anna",
             processes.spawn("text", "press", ["text.sections"]))
        wants(is_like(root, FOLDER + "/job-1")[-3:], "660")
        wants(json.loads(asks(root, f"{at} jdf_cli show job-1", "carl"))["JobID"], "job-1")


def a_stranger_does_not():
    """Who isn't of the group sees and changes nothing."""
    with staffed() as (root, _):
        at = "cd /tmp; jdf_cli"
        asks(root, f"umask 0007; jdf_cli new {FOLDER}/job-1", "anna", json.dumps(opening("job-1")))
        held = content(root.path(FOLDER + "/job-1"))
        for command in ("show", f"order --at {AT}", f"take --at {AT}"):
            came = root.run(f"{at} {command} {FOLDER}/job-1", "bob", COVER)
            wants((command, came), (command, (4, "Refused 59 LoadFailed\n")))
        wants(root.run(f"{at} new {FOLDER}/job-2", "bob", json.dumps(opening("job-2"))),
              (4, "Refused 57 SaveFailed\n"))
        asks(root, f"ls {FOLDER}", "bob", status=2)
        wants(content(root.path(FOLDER + "/job-1")), held)
        wants(asks(root, f"ls {FOLDER}").split(), ["job-1", "peers.json"])


def a_file_of_another_mask_waits_for_its_group():
    """Of a file that the group may not write nothing goes, and what comes is answered with 503,
    until the group may."""
    with staffed() as (root, house):
        at, stamp = f"cd {FOLDER}; umask 0022;", f"--at {AT}"
        asks(root, f"{at} jdf_cli new job-1", "anna", json.dumps(opening("job-1")))
        asks(root, f"{at} jdf_cli new press", "toarnbif", '{"Master":"job-1","Worker":"press"}')
        cover = asks(root, f"{at} jdf_cli order job-1 {stamp}", "anna", COVER).splitlines()[1]
        time.sleep(3)
        wants((house.log(), shows(root, "press")), ("", []))
        asks(root, f"{at} jdf_cli take press {stamp}", "toarnbif", cover)
        asks(root, f"{at} jdf_cli order press {stamp}", "toarnbif", FINISH)
        until_so(lambda: "job-1 503 57 SaveFailed" in house.log(), "it isn't saved", SOON)
        asks(root, f"chmod g+w {FOLDER}/job-1", "anna")
        until_so(lambda: is_back(root, "press"), "it is back", SOON)
        wants(is_like(root, FOLDER + "/job-1"), "toarnbif toarnbif 664")


def what_a_killed_order_left_is_removed_by_its_owner():
    """A draft that the group may write is replaced by anybody's save; one that it may not, as it is
    for the moment in which it is made, by its owner's alone."""
    with installed() as root:
        asks(root, "useradd -G toarnbif anna")
        at, order = f"cd {FOLDER}; umask 0007;", f"jdf_cli order job-1 --at {AT}"
        asks(root, f"{at} jdf_cli new job-1", "anna", json.dumps(opening("job-1")))
        asks(root, f"{at} echo left > job-1.new", "anna")
        asks(root, f"{at} {order}", "toarnbif", COVER)
        wants(asks(root, f"ls {FOLDER}").split(), ["job-1"])
        text = processes.spawn("text", "press", ["text.sections"])
        asks(root, f"{at} echo left > job-1.new; chmod 600 job-1.new", "anna")
        wants(root.run(f"{at} {order}", "toarnbif", text), (4, "Refused 57 SaveFailed\n"))
        wants(asks(root, f"{at} {order} | head -n 1", "anna", text), "Spawned S2\n")
        wants(asks(root, f"ls {FOLDER}").split(), ["job-1"])


# ---- a container


def instructions():
    """The words and the texts of the Dockerfile's instructions."""
    lines = [line for line in example("Dockerfile").splitlines() if not line.startswith("#")]
    for line in "\n".join(lines).replace("\\\n", " ").splitlines():
        word, text = line.split(" ", 1)
        yield word, " ".join(text.split())


def built(root):
    """Takes the Dockerfile's steps in a root. Answers its user, its folder and its command."""
    came = {"CMD": []}
    for word, text in instructions():
        if word == "FROM":
            wants(text, "debian:stable-slim")
        elif word == "COPY":
            wants(text, "jdf_cli /usr/bin/jdf_cli")
            shutil.copy(PROGRAM, root.path("/usr/bin/jdf_cli"))
        elif word == "RUN":
            asks(root, text)
        else:
            came[word] = json.loads(text) if text.startswith("[") else text
    wants(sorted(came), ["CMD", "ENTRYPOINT", "USER", "VOLUME", "WORKDIR"])
    wants((came["VOLUME"], came["WORKDIR"]), (FOLDER, FOLDER))
    return came["USER"].split(":")[0], came["ENTRYPOINT"] + came["CMD"]


@contextlib.contextmanager
def contained(root, user, words):
    """A program as the first process, as of a container. Answers its id outside."""
    inside = root.words(f"cd {FOLDER}; exec {shlex.join(words)}", user)
    outer = subprocess.Popen(["unshare", "--pid", "--fork", *inside],
                             stdout=subprocess.PIPE, stderr=subprocess.DEVNULL)
    process = None
    try:
        assert outer.stdout.readline().startswith(b"Listening on 127.0.0.1:")
        process = int(content(f"/proc/{outer.pid}/task/{outer.pid}/children"))
        yield process
    finally:
        # Who isn't root any more isn't killed with its parent.
        os.kill(process or outer.pid, signal.SIGKILL)
        outer.wait()
        outer.stdout.close()


def the_dockerfiles_steps_go():
    """Its steps in a clean root; the peers and the first job beside it; and that the first process
    of a container doesn't end by SIGTERM."""
    with Root() as root:
        user, words = built(root)
        wants(is_like(root, FOLDER), f"{user} {user} 2770")
        port = free_port()
        words = [word.replace("127.0.0.1:8000", f"127.0.0.1:{port}") for word in words]
        wants(words[3:5], ["--listen", f"127.0.0.1:{port}"])
        wants(root.run(shlex.join(words), user)[0], 4)
        asks(root, f"cd {FOLDER}; tee peers.json", user, example("peers.json"))
        with contained(root, user, words) as process:
            first_job(root, user)
            os.kill(process, signal.SIGTERM)
            time.sleep(0.5)
            with connected(port) as client:
                client.sendall(request("{}"))
                wants(status_in(one_response(client)), 400)


# ---- docs/DEPLOY.md


def sections():
    """The commands of each section of the document."""
    text = content(os.path.join(os.path.dirname(EXAMPLES), "docs", "DEPLOY.md")).decode()
    found = {}
    for part in text.split("\n## ")[1:]:
        title, _, rest = part.partition("\n")
        found[title] = [line for block in documents.FENCED.finditer(rest)
                        for line in documents.commands_in(block[2])]
    return found


def types(lines, folder, words):
    """Types lines in a shell that these words begin. They tell their script and what came of them
    in a folder."""
    told = os.path.join(folder, "told")
    os.makedirs(told)
    os.chmod(told, 0o777)
    documents.put(documents.script(lines, documents.Ports()), os.path.join(folder, "script"))
    subprocess.run(words, stdin=subprocess.DEVNULL, timeout=50)
    for number, line in enumerate(lines):
        came = documents.came_of(os.path.join(told, str(number)))
        fault = line.fault(*came) if came else "it doesn't end"
        assert not fault, f"{line.text.strip()}: {fault}: {came}"


def types_in(root, name, lines, folder, user="root"):
    """The same in a root, where ports are nobody else's: a proxy that is tried opens its own."""
    own = f"/tmp/{name}"
    command = f"cd {folder}; HOME=/home/{user} TOLD={own}/told exec bash --norc {own}/script"
    types(lines, root.path(own), ["unshare", "--net", *root.words(command, user)])


def carried(root):
    """Makes what is carried to the house, as the first section tells it, and carries it."""
    os.makedirs("top/crates/jdf_cli/out")
    shutil.copytree(EXAMPLES, "top/examples")
    shutil.copy2(PROGRAM, "top/crates/jdf_cli/out/jdf_cli")
    types(sections()["The package and the certificates"], os.path.abspath("typed"),
          ["env", f"TOLD={os.path.abspath('typed')}/told", "bash", "-c",
           f"cd top; exec bash --norc {os.path.abspath('typed')}/script"])
    house = root.path("/srv/house")
    shutil.copytree("top/out/houses/office", house + "/office")
    for name in ("peers.json", "nginx.conf", "haproxy.cfg"):
        shutil.copy(os.path.join(DEPLOY, name), house)
    for name in os.listdir("top/out"):
        if name.endswith(".deb"):
            shutil.copy("top/out/" + name, house)


def the_document_is_typed():
    """In a clean root with both proxies, in which `systemctl` only notes what it is told."""
    with Root("nginx-light", "haproxy", "openssl") as root:
        carried(root)
        documents.put("127.0.0.1 office.example printers.example binders.example\n",
                      root.path("/etc/hosts"))
        documents.put('#!/bin/sh\necho "$*" >> /tmp/systemctl\n',
                      root.path("/usr/local/bin/systemctl"), 0o755)
        # As its package does where it is installed, and whoever sets up the network.
        asks(root, "useradd --system haproxy; mkdir -p /var/lib/haproxy")
        documents.put("nameserver 127.0.0.1\n", root.path("/etc/resolv.conf"))
        types_in(root, "house", sections()["A house"], "/srv/house")
        wants(content(root.path("/tmp/systemctl")).decode().splitlines(),
              ["enable --now toarnbif", "reload nginx", "reload haproxy"])
        asks(root, "haproxy -c -q -dW -f /etc/haproxy/haproxy.cfg")
        asks(root, "unshare --net nginx -t 2>&1 | grep -e warn -e emerg", status=1)
        wants(is_like(root, FOLDER + "/peers.json"), "toarnbif toarnbif 660")
        asks(root, "useradd -m anna")
        documents.put(json.dumps(opening("job-17")), root.path("/home/anna/job-17.json"))
        first, *rest = sections()["Operators"]
        types_in(root, "group", [first], "/root")
        with Installed(root, free_port()):
            types_in(root, "operator", rest, "/", "anna")
        wants(is_like(root, FOLDER + "/job-17"), "anna toarnbif 660")
