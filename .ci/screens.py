#!/usr/bin/env python3
"""What stands on the first screen of the page: screens.py PROGRAM [--keep FOLDER]

Pages are laid out by chromium on a screen of 1,920 by 1,080, and what a person needs has to stand on
it: of a shop of 40 jobs in mid-work, of jobs of 33 and of 300 nodes, and of a worker with 1,500
closed entries and an open one. With --keep their pictures are kept in a folder, to be looked at. The
last line says how many passed.
"""
import argparse
import html
import json
import os
import re
import shutil
import subprocess
import sys
import time

import processes
from houses import begins, begins_master, gives, master_opening
from page import Paged, timed
from processes import PROGRAM, run, spawn, wants

WIDE, HIGH = 1_920, 1_080
KEPT = None
# Tells each text with the place that it has on the screen.
LOOK = """<script>
const found = [];
const walk = document.createTreeWalker(document.body, NodeFilter.SHOW_TEXT);
while (walk.nextNode()) {
    const text = walk.currentNode.textContent.trim();
    const parent = walk.currentNode.parentElement;
    if (!text || ["SCRIPT", "STYLE", "title", "TITLE"].includes(parent.tagName)) continue;
    const r = parent.getBoundingClientRect();
    found.push([text, r.left, r.top, r.right, r.bottom]);
}
const told = document.createElement("pre");
told.id = "told";
told.textContent = JSON.stringify(found);
document.body.append(told);
</script>"""


def browses(*words):
    told = subprocess.run(
        [shutil.which("chromium"), "--headless", "--no-sandbox", "--disable-gpu",
         "--hide-scrollbars", f"--window-size={WIDE},{HIGH}", *words],
        capture_output=True, text=True, timeout=90)
    wants(told.returncode, 0)
    return told.stdout


def texts_on_screen(served, path, name):
    """The texts of a page that stand whole on the first screen, each at its place."""
    body = served.get(path)[2].decode()
    with open("page.html", "w", encoding="utf-8") as file:
        file.write(body.replace("</body>", LOOK + "</body>"))
    place = "file://" + os.path.abspath("page.html")
    dom = browses("--dump-dom", place)
    if KEPT:
        with open("bare.html", "w", encoding="utf-8") as file:
            file.write(body)
        browses(f"--screenshot={KEPT}/{name}.png", "file://" + os.path.abspath("bare.html"))
    found = json.loads(html.unescape(re.search(r'<pre id="told">(.*?)</pre>', dom, re.S)[1]))
    return [one for one in found if one[1] >= -1 and one[2] >= -1 and one[3] <= WIDE + 1
            and one[4] <= HIGH + 1]


def stands(found, *words):
    for word in words:
        assert any(word in one[0] for one in found), (word, [one[0] for one in found][:400])


def a_shop_of_forty_jobs():
    os.mkdir("shop")
    names = [f"job-{number:02}" for number in range(40)]
    for number, name in enumerate(names):
        begins_master(f"shop/{name}", name)
        if number % 4:
            gives(f"shop/{name}", spawn("cover", "press", ["cover.sheets"]), "Spawned S1")
    with Paged("shop") as served:
        served.until("/list.json", lambda _, body: len(json.loads(body)["Open"]) == 30)
        found = texts_on_screen(served, "/", "shop")
        stands(found, "30 out", "0 refused", "press", "cover", "S1")
        shown = [name for name in names if any(one[0] == name for one in found)]
        assert len(shown) >= 25, shown
        wants(all(one[3] <= WIDE for one in found), True)


def opening_of(name, count):
    """A job of so many nodes, of which most are done."""
    opening = master_opening(name)
    done = count // 2
    opening["Ticket"] = {
        "ID": "root", "JobID": name, "JobPartID": "all", "Status": "Waiting", "Type": "Product",
        "ResourcePool": [{"ID": "paper", "Name": "Media", "Class": "Consumable",
                          "Status": "Available"}],
        "JDF": [{"ID": f"n{number}", "JobPartID": f"p{number}", "Type": "ConventionalPrinting",
                 "Status": "Completed" if number < done else "Waiting",
                 "ResourceLinkPool": [{"Usage": "Input", "rRef": "paper"}]}
                for number in range(count - 1)]}
    return opening


def one_job(count):
    os.mkdir("shop")
    begins("shop/job", opening_of("job", count))
    for number in (count - 2, count - 3):
        gives("shop/job", spawn(f"n{number}", "press", []),
              f"Spawned S{count - 1 - number}")
    served = Paged("shop")
    served.until("/job", lambda status, _: status == 200)
    return served


def a_job_of_33_nodes():
    with one_job(33) as served:
        found = texts_on_screen(served, "/job", "job-33")
        stands(found, "All controllers", "Job job", "S1", "S2", "press", "Completed", "Waiting")
        for number in range(32):
            assert any(one[0].split()[0] == f"n{number}" for one in found), (number, found)


def a_job_of_300_nodes():
    with one_job(300) as served:
        found = texts_on_screen(served, "/job", "job-300")
        stands(found, "Job job", "S1", "S2", "press")
        assert any(re.search(r"\d+ .*(not shown|left out|more|folded)", one[0]) for one in found), \
            [one[0] for one in found][:60]


def a_worker_with_1500_closed_entries():
    os.mkdir("shop")
    begins_master("shop/job-17", "job-17")
    _, lines, _ = run("order", "shop/job-17", "--at", processes.AT,
                      given=spawn("cover", "press", ["cover.sheets"]))
    begins("shop/press", {"Master": "job-17", "Worker": "press"})
    run("take", "shop/press", "--at", processes.AT, given=lines.split("\n")[1])
    with open("shop/press", encoding="utf-8") as file:
        state = json.load(file)
    closed = [{"At": 1_700_000_000 + number, "End": "Completed", "ID": f"S{number + 2}",
               "Phase": "Closed"} for number in range(1_500)]
    state["Worker"]["Entries"] = closed + state["Worker"]["Entries"]
    with open("shop/press", "w", encoding="utf-8") as file:
        json.dump(state, file, separators=(",", ":"))
    with Paged("shop") as served:
        served.until("/press", lambda status, _: status == 200)
        found = texts_on_screen(served, "/press", "worker")
        stands(found, "S1", "cover", "job-17", "1500")
        found = texts_on_screen(served, "/", "both")
        stands(found, "job-17", "press", "S1")


TESTS = [a_shop_of_forty_jobs, a_job_of_33_nodes, a_job_of_300_nodes,
         a_worker_with_1500_closed_entries]


def main():
    global KEPT
    parser = argparse.ArgumentParser()
    parser.add_argument("program")
    parser.add_argument("--keep")
    args = parser.parse_args()
    if args.keep:
        KEPT = os.path.abspath(args.keep)
        os.makedirs(KEPT, exist_ok=True)
    processes.install(args.program)
    begun = time.monotonic()
    passed = sum([timed(test, 120) for test in TESTS])
    shutil.rmtree(os.path.dirname(PROGRAM))
    print(f"screens: {passed} passed, {len(TESTS) - passed} failed, "
          f"{time.monotonic() - begun:.0f} s")
    sys.exit(passed != len(TESTS))


if __name__ == "__main__":
    main()
