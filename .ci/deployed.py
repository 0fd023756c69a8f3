"""What examples/deploy has, as its tests want it: for deploy.py, fronts.py and installs.py."""
import json
import os
import re
import subprocess

import processes
from houses import lines_of
from processes import EXAMPLES, PROGRAM, content, wants

DEPLOY = os.path.join(EXAMPLES, "deploy")
FOLDER = "/var/lib/toarnbif"
COVER = processes.spawn("cover", "press", ["cover.sheets"])
# How long what goes by itself may take, in seconds.
SOON = 20
# The shop's certificates, those of a stranger, and the program's package.
OWN, OTHERS, PACKAGE = (os.path.join(os.path.dirname(PROGRAM), name)
                        for name in ("own", "others", "package"))


def example(name):
    return content(os.path.join(DEPLOY, name)).decode()


def made(*words):
    """What a command that ends well tells."""
    ran = subprocess.run(words, stdout=subprocess.PIPE, stderr=subprocess.STDOUT, text=True)
    assert ran.returncode == 0, f"{words}: {ran.stdout[-400:]}"
    return ran.stdout


def opening(master):
    """The opening of a master of this name, of the brochure."""
    text = content(os.path.join(EXAMPLES, "shop", "mis.json")).decode()
    return json.loads(text.replace('"mis"', f'"{master}"').replace("J-2026-118", master))


def unit_words():
    """The words behind the folder with which the unit serves it."""
    line = re.search(r"^ExecStart=(.*)$", example("toarnbif.service"), re.M)[1]
    words = line.split()
    wants(words[:3], ["/usr/bin/jdf_cli", "serve", FOLDER])
    return words[3:]


def option_words():
    """Those but the address."""
    words = unit_words()
    wants(words[:2], ["--listen", "127.0.0.1:8000"])
    return words[2:]


def unit_values(key):
    """The values of this key of the unit, in turn."""
    return re.findall(rf"^{key}=(.*)$", example("toarnbif.service"), re.M)


def is_closed(path):
    return lines_of(path) == [["S1", "Closed", "Completed"]]


def certify():
    """Makes the certificates of the shop, and those of another authority for the same names."""
    for folder in (OWN, OTHERS):
        made(os.path.join(DEPLOY, "certificates"), folder,
             *(f"{name}={name}.example" for name in ("office", "printers", "binders")))
