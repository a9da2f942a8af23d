#!/usr/bin/env python3
"""Times the built program on scripts that bench/make.py makes, at doubling sizes, and prints a table:
size, seconds of the processor, peak memory. It stops doubling once a run takes a minute, or more memory than
half of the machine's, past which the program is refused more and ends with status 8.

    bench/time.py [FORM..]      FORM is a form of bench/make.py; else all of them
"""

import os
import resource
import subprocess
import sys
import tempfile

HERE = os.path.dirname(os.path.abspath(__file__))
PROGRAM = os.path.join(HERE, "..", "crates", "txn_cli", "out", "txn_cli")
COUNTS = [1_000, 2_000, 4_000, 8_000, 16_000, 32_000, 64_000]
BYTES = [2**20, 2**21, 2**22, 2**23, 2**24]
CELLS = [1_000, 10_000, 50_000, 100_000, 200_000]
RECORDS = [250, 500, 1_000, 2_000, 4_000]
SIZES = {
    "apart": COUNTS, "one": COUNTS, "applied": COUNTS, "mixed": COUNTS, "aborted": COUNTS,
    "list": BYTES, "text": BYTES, "objects": BYTES, "names": BYTES, "query": BYTES, "update": BYTES,
    "cells": [25_000, 50_000, 100_000, 200_000],
    "documents": CELLS, "settled": CELLS,
    "chain": RECORDS, "ring": RECORDS,
    "operations": [125, 250, 500, 1_000], "waiting": [1_250, 2_500, 5_000, 10_000],
}
# The status that a form's script ends with, where it isn't 0.
STATUSES = {"mixed": 1, "aborted": 1, "operations": 3, "waiting": 3}
NO_MEMORY = 8
# Half of the machine's memory, in bytes.
MOST_MEMORY = os.sysconf("SC_PAGE_SIZE") * os.sysconf("SC_PHYS_PAGES") // 2


def measured(script, expected):
    """The status of one run, its seconds of the processor, and its peak memory in megabytes."""
    pid = os.fork()
    if pid == 0:
        with open(script) as source, open(os.devnull, "w") as sink:
            os.dup2(source.fileno(), 0)
            os.dup2(sink.fileno(), 1)
            resource.setrlimit(resource.RLIMIT_AS, (MOST_MEMORY, MOST_MEMORY))
            os.execv(PROGRAM, [PROGRAM, "run"])
    _, ended, usage = os.wait4(pid, 0)
    seconds = usage.ru_utime + usage.ru_stime
    status = os.waitstatus_to_exitcode(ended)
    if status not in (expected, NO_MEMORY):
        sys.exit("the program ended with status %d in place of %d" % (status, expected))
    return status, seconds, usage.ru_maxrss / 1024


def main():
    for form in sys.argv[1:] or SIZES:
        print("| %s | seconds | MB |\n|---|---|---|" % form)
        for size in SIZES[form]:
            with tempfile.NamedTemporaryFile("w", suffix=".jsonl") as script:
                subprocess.run([sys.executable, os.path.join(HERE, "make.py"), form, str(size)],
                               stdout=script, check=True)
                script.flush()
                status, seconds, megabytes = measured(script.name, STATUSES.get(form, 0))
            if status == NO_MEMORY:
                break
            print("| %d | %.2f | %.0f |" % (size, seconds, megabytes), flush=True)
            if seconds > 60:
                break


if __name__ == "__main__":
    main()
