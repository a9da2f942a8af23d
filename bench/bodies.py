#!/usr/bin/env python3
"""Tries the wrong bodies of bench/bodies, which the gate leaves out, once a stage. Each must be refused.

    bench/bodies.py [CRATE..]   the bodies of bench/bodies/CRATE; else of all crates there

Copies crates/, crates.txt and HANDLES into a temporary folder, puts the bodies into must-fail/ there, in the
place of those that the gate tries, proves each crate with `rt check` and tries its bodies with
`rt must-fail`. Prints what becomes of each, and ends with status 1 where one isn't refused.
"""

import glob
import os
import re
import shutil
import subprocess
import sys
import tempfile

TOP = os.path.join(os.path.dirname(os.path.abspath(__file__)), "..")
BODIES = os.path.join(TOP, "bench", "bodies")
RESULT = re.compile(r"^(?:rt: )?must-fail (\S+?)\.edit: (.*)$", re.M)


def names_of(crate):
    return sorted(os.path.basename(path)[: -len(".edit")] for path in glob.glob(os.path.join(BODIES, crate, "*.edit")))


def copy_repository(folder):
    """A copy without the work that checks keep, so that they begin as in a clone."""
    shutil.copytree(os.path.join(TOP, "crates"), os.path.join(folder, "crates"),
                    ignore=shutil.ignore_patterns("out", "must-fail"))
    for name in ("crates.txt", "HANDLES"):
        shutil.copy(os.path.join(TOP, name), folder)


def put_bodies(folder, crate):
    edits = os.path.join(folder, "crates", crate, "must-fail")
    os.mkdir(edits)
    for name in names_of(crate):
        shutil.copy(os.path.join(BODIES, crate, name + ".edit"), edits)


def is_proved(folder, crate):
    """Whether the crate itself is proved: a body of one that isn't is refused whatever it does."""
    check = subprocess.run(["rt", "check"], cwd=os.path.join(folder, "crates", crate), capture_output=True, text=True)
    return check.returncode == 0


def outcome(told):
    if told.startswith("refused"):
        return "refused"
    if told.startswith("NOT REFUSED"):
        return "NOT REFUSED"
    return "can't be made" if told.startswith("BAD EDIT") else "not tried"


def outcomes(folder, crate):
    """What becomes of each body, by its name."""
    tried = subprocess.run(["rt", "must-fail", crate], cwd=folder, capture_output=True, text=True)
    found = {name: outcome(told) for name, told in RESULT.findall(tried.stdout + tried.stderr)}
    return {name: found.get(f"{crate}/{name}", "not tried") for name in names_of(crate)}


def are_refused(folder, crate):
    put_bodies(folder, crate)
    if not is_proved(folder, crate):
        print(f"{crate}: not proved, so its bodies weren't tried", flush=True)
        return False
    found = outcomes(folder, crate)
    for name, became in found.items():
        print(f"{crate}/{name}: {became}", flush=True)
    return all(became == "refused" for became in found.values())


def main():
    known = sorted(os.listdir(BODIES))
    crates = sys.argv[1:] or known
    if not set(crates) <= set(known):
        sys.exit(__doc__)
    with tempfile.TemporaryDirectory() as folder:
        copy_repository(folder)
        refused = [are_refused(folder, crate) for crate in crates]
    sys.exit(not all(refused))


if __name__ == "__main__":
    main()
