#!/usr/bin/env python3
"""Shows that calls out of their place do not compile: threads and events after close, edges and trials before it.

    tools/typestates.py

Each snippet is checked as a crate of its own over copies of the crates that it needs, in a temporary folder; the compiler
must refuse it with an error about a method or a value that is not there. The calls in their place must be accepted. Status 1
where it is otherwise.
"""

import os
import shutil
import subprocess
import sys
import tempfile

ROOT = os.path.dirname(os.path.dirname(os.path.abspath(__file__)))
CRATES = {"closure": "", "relation": "closure", "sheet": "relation closure"}

HEAD = """use sheet::closed::ClosedSheet;
use sheet::open::OpenSheet;
use sheet::trial::Trial;

pub fn misuse() {
    let mut sheet = OpenSheet::new();
"""

IN_PLACE = "    let mut closed = sheet.close();\n    let trial = Trial::new(&mut closed, 0, 1);\n    drop(trial);\n"

# The errors that count: no such method, a value of another type, a value that is gone, a value that is lent.
WANTED = ["unknown-method", "mismatched-types", "borrow-e0382", "borrow-e0499"]

SNIPPETS = {
    "a thread after close": "    let mut closed = sheet.close();\n    let _ = closed.thread(0, 0);\n",
    "the open sheet after close": "    let _closed = sheet.close();\n    let _ = sheet.thread(0, 0);\n",
    "a second close": "    let closed = sheet.close();\n    let _ = closed.close();\n",
    "an edge before close": "    let _ = sheet.order(0, 1);\n",
    "a trial before close": "    let _trial = Trial::new(&mut sheet, 0, 1);\n",
    "an edge in a trial": "    let mut closed = sheet.close();\n    let trial = Trial::new(&mut closed, 0, 1);\n    let _ = trial.order(1, 0);\n",
    "the sheet while a trial stands": "    let mut closed = sheet.close();\n    let trial = Trial::new(&mut closed, 0, 1);\n    let _ = closed.order(1, 0);\n    drop(trial);\n",
}


def put_crates(folder):
    """Copies the crates into the folder, and begins the one that the snippets come into."""
    for name in CRATES:
        crate = os.path.join(ROOT, "crates", name)
        there = os.path.join(folder, "crates", name)
        shutil.copytree(crate, there, ignore=lambda at, _: ["must-fail", "out"] if at == crate else [])
    with open(os.path.join(folder, "crates.txt"), "w", encoding="utf-8") as out:
        for name, deps in CRATES.items():
            out.write(f"{name}: {deps}\n")
        out.write("misuse: sheet relation closure\n")
    crate = os.path.join(folder, "crates", "misuse")
    os.makedirs(os.path.join(crate, "src"))
    # rt names a file by its path in its own crate, so the snippet's has a name that no other crate has.
    with open(os.path.join(crate, "src", "lib.rt"), "w", encoding="utf-8") as out:
        out.write("#![tactic(auto)]\n\npub mod misuse;\n")
    return crate


def check(crate, body):
    """Checks the crate with this snippet: the status, the errors that count, and all that was printed."""
    with open(os.path.join(crate, "src", "misuse.rt"), "w", encoding="utf-8") as out:
        out.write(HEAD + body + "}\n")
    done = subprocess.run(["rt", "check"], cwd=crate, stdout=subprocess.PIPE, stderr=subprocess.STDOUT, text=True)
    lines = [line for line in done.stdout.splitlines() if line.startswith("src/misuse.rt:")]
    errors = [line for line in lines if any(f": error[{word}]: " in line for word in WANTED)]
    return done.returncode, errors, done.stdout


def main():
    failed = False
    with tempfile.TemporaryDirectory() as folder:
        crate = put_crates(folder)
        status, _, printed = check(crate, IN_PLACE)
        if status == 0:
            print("accepted: the calls in their place")
        else:
            failed = True
            print("NOT ACCEPTED: the calls in their place")
            print(printed[-600:])
        for what, body in SNIPPETS.items():
            status, errors, printed = check(crate, body)
            if status == 1 and errors:
                print(f"refused: {what}: {errors[0].removeprefix('src/')[:110]}")
            else:
                failed = True
                print(f"NOT REFUSED: {what}")
                print(printed[-600:])
    return 1 if failed else 0


sys.exit(main())
