"""Clean roots: folders with the files of some of this machine's own Debian packages and nothing
else of it, in which programs are run by chroot. For installs.py.
"""
import contextlib
import os
import re
import shutil
import subprocess
import tempfile

DPKG = "/var/lib/dpkg"
# What each Debian has beside what is essential.
FIRST = ("libc6", "passwd")
FIELDS = "${Package}\t${binary:Package}\t${Essential}\t${Pre-Depends}, ${Depends}\t${Provides}\n"


def installed():
    """Of each package of this machine: its name with the machine's, whether it is essential, and
    for each of those that it wants the names of which it wants one. Also under what it provides."""
    ran = subprocess.run(["dpkg-query", "-W", "-f", FIELDS], capture_output=True, text=True,
                         check=True)
    found = {}
    for line in ran.stdout.splitlines():
        name, full, essential, wanted, provided = line.split("\t")
        entry = full, essential == "yes", [names_in(one, "|") for one in wanted.split(",")]
        found[name] = entry
        for other in names_in(provided, ","):
            found.setdefault(other, entry)
    return found


def names_in(text, between):
    plain = re.sub(r"\(.*?\)|:\w+", "", text.replace(between, " "))
    return re.findall(r"[a-z0-9][a-z0-9+.-]+", plain)


def closure(names):
    """The full names of these packages, of the essential ones, and of all that they stand on."""
    found, chosen = installed(), set()
    left = [*names, *(name for name, entry in found.items() if entry[1])]
    while left:
        full, _, wanted = found[left.pop()]
        if full not in chosen:
            chosen.add(full)
            left += [next(name for name in names if name in found) for names in wanted if names]
    return chosen


def copy_files(packages, folder):
    """Copies all files of packages, but for documents, through the links of a merged /usr."""
    for name in ("bin", "sbin", "lib", "lib64"):
        os.makedirs(os.path.join(folder, "usr", name))
        os.symlink("usr/" + name, os.path.join(folder, name))
    listed = subprocess.run(["dpkg-query", "-L", *packages], capture_output=True, text=True,
                            check=True).stdout.splitlines()
    paths = {path[1:] for path in listed if path.startswith("/") and os.path.lexists(path)
             and not path.startswith(("/usr/share/doc/", "/usr/share/man/", "/usr/share/locale/"))}
    packed = subprocess.Popen(["tar", "-c", "-C", "/", "--no-recursion", "-T", "-"],
                              stdin=subprocess.PIPE, stdout=subprocess.PIPE, text=True)
    unpack = subprocess.Popen(["tar", "-x", "-p", "-C", folder, "--keep-directory-symlink"],
                              stdin=packed.stdout)
    packed.stdin.write("\n".join(sorted(paths - {".", ""})))
    packed.stdin.close()
    assert (packed.wait(), unpack.wait()) == (0, 0)
    packed.stdout.close()


def copy_status(packages, folder):
    """What dpkg knows of packages."""
    names = {full.split(":")[0] for full in packages}
    with open(os.path.join(DPKG, "status"), encoding="utf-8") as file:
        stanzas = [stanza for stanza in file.read().split("\n\n")
                   if stanza.split("\n")[0].removeprefix("Package: ") in names]
    for name in ("info", "updates", "triggers"):
        os.makedirs(os.path.join(folder, DPKG[1:], name), exist_ok=True)
    with open(os.path.join(folder, DPKG[1:], "status"), "w", encoding="utf-8") as file:
        file.write("\n\n".join(stanzas) + "\n\n")
    for full in packages:
        for name in (full, full.split(":")[0]):
            path = os.path.join(DPKG, "info", name + ".list")
            if os.path.exists(path):
                shutil.copy(path, os.path.join(folder, path[1:]))


class Root:
    """A clean root with these packages."""

    def __init__(self, *packages):
        self.folder = tempfile.mkdtemp()
        os.chmod(self.folder, 0o755)
        chosen = closure([*FIRST, *packages])
        copy_files(chosen, self.folder)
        copy_status(chosen, self.folder)
        for name in ("passwd", "group"):
            shutil.copy(self.path(f"/usr/share/base-passwd/{name}.master"),
                        self.path("/etc/" + name))
        for name, mode in (("tmp", 0o1777), ("dev", 0o755), ("usr/local/bin", 0o755)):
            os.makedirs(self.path("/" + name), exist_ok=True)
            os.chmod(self.path("/" + name), mode)
        os.mknod(self.path("/dev/null"), 0o20666, os.makedev(1, 3))
        os.chmod(self.path("/dev/null"), 0o666)

    def path(self, inside):
        return self.folder + inside

    def words(self, command, user="root"):
        """The words that run a line of shell in it, as a user of it."""
        return ["env", "-i", "PATH=/usr/local/sbin:/usr/local/bin:/usr/sbin:/usr/bin",
                "HOME=/tmp", "LC_ALL=C.UTF-8", "chroot", self.folder, "setpriv",
                f"--reuid={user}", f"--regid={user}", "--init-groups", "sh", "-c", command]

    def run(self, command, user="root", given=""):
        """The status of a line of shell, and all that it printed."""
        ran = subprocess.run(self.words(command, user), input=given.encode(),
                             stdout=subprocess.PIPE, stderr=subprocess.STDOUT)
        return ran.returncode, ran.stdout.decode()

    def __enter__(self):
        return self

    def __exit__(self, *fault):
        with contextlib.suppress(OSError):
            shutil.rmtree(self.folder)
