#!/usr/bin/env python3
"""Compiles the lines of Rattle that the README shows, and runs them on the README's sheet.

They become the body of a function in a crate of its own, beside copies of the repository's crates.
"""
import json
import os
import re
import shutil
import subprocess
import sys
import tempfile

TOP = os.path.dirname(os.path.dirname(os.path.realpath(__file__)))
LIBRARIES = "ticket_tree json_profile controller master_core worker_core"

ROOT = """//! The lines of the README.
#![tactic(auto)]

#[cfg(test)]
mod readme;
"""

AROUND = '''use json_profile::{ticket_of, value_of};
use master_core::{Master, Order as Ask};
use std::alloc::Global;
use std::test::Fail;
use ticket_tree::{Id, Ids, Refusal, SpawnId, Ticket};
use worker_core::{End, Order as Work, Worker};

const SHEET: &str = r#"%s"#;

fn id(alloc: Global, text: &str) -> Result<Id, Refusal> {
    Id::new(alloc, text)
}

fn ids(alloc: Global, text: &str) -> Result<Ids, Refusal> {
    Ok(Ids::new(vec![in alloc; id(alloc, text)?]?))
}

fn prints(alloc: Global, ticket: Ticket) -> Result<Master, Refusal> {
    %s
    Ok(mis)
}

#[test]
fn a_press_prints_a_sheet(rt: HostRuntime) -> Result<(), Fail> {
    let alloc = rt.alloc();
    let mis = prints(alloc, ticket_of(alloc, &value_of(alloc, SHEET.as_bytes())?)?)?;
    let print = mis.ticket().node(&id(alloc, "print")?).unwrap();
    assert_eq!(rt; print.status.as_str(), "Completed");
    Ok(())
}
'''


def content(*names):
    with open(os.path.join(TOP, *names), encoding="utf-8") as file:
        return file.read()


def put(text, *names):
    with open(os.path.join(*names), "w", encoding="utf-8") as file:
        file.write(text)


def sheet():
    """The ticket of the README's example."""
    return json.dumps(json.loads(content("examples", "sheet.json"))["Ticket"])


def main():
    (lines,) = re.findall(r"```rust\n(.*?)```", content("README.md"), re.S)
    with tempfile.TemporaryDirectory() as top:
        shutil.copytree(os.path.join(TOP, "crates"), os.path.join(top, "crates"),
                        ignore=shutil.ignore_patterns("out", "proofs", "must-fail", "std*"))
        put(content("crates.txt") + f"readme: {LIBRARIES}\n", top, "crates.txt")
        put(content("HANDLES"), top, "HANDLES")
        source = os.path.join(top, "crates", "readme", "src")
        os.makedirs(source)
        put(ROOT, source, "lib.rt")
        put(AROUND % (sheet(), lines.strip()), source, "readme.rt")
        ran = subprocess.run(["rt", "try", "--test"], cwd=os.path.dirname(source),
                             capture_output=True, text=True)
    said = ran.stdout + ran.stderr
    if "1 passed; 0 failed" not in said:
        sys.exit("the README's lines of Rattle don't run:\n" + said)
    print("the README's lines of Rattle run")


main()
