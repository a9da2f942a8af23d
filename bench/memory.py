#!/usr/bin/env python3
"""Refuses each allocation of a run in turn: the built program must end with status 8 or as it always does.

    bench/memory.py SCRIPT [PROGRAM]

Compiles a shim that counts the allocations of a run and makes the Nth fail (needs `cc`), and runs the program
for each N.
"""

import os
import subprocess
import sys
import tempfile

SHIM = r"""
#define _GNU_SOURCE
#include <dlfcn.h>
#include <errno.h>
#include <fcntl.h>
#include <stdio.h>
#include <stdlib.h>

static long made, refused = -1;

__attribute__((destructor)) static void tell(void)
{
    const char *name = getenv("ALLOCATIONS_TOLD");
    if (name) dprintf(open(name, O_WRONLY), "%ld", made);
}

static int is_refused(void)
{
    if (refused == -1) {
        const char *text = getenv("REFUSED_ALLOCATION");
        refused = text ? atol(text) : 0;
    }
    return ++made == refused;
}

void *malloc(size_t size)
{
    static void *(*real)(size_t);
    if (!real) real = dlsym(RTLD_NEXT, "malloc");
    if (is_refused()) { errno = ENOMEM; return NULL; }
    return real(size);
}

void *realloc(void *old, size_t size)
{
    static void *(*real)(void *, size_t);
    if (!real) real = dlsym(RTLD_NEXT, "realloc");
    if (is_refused()) { errno = ENOMEM; return NULL; }
    return real(old, size);
}
"""

HERE = os.path.dirname(os.path.abspath(__file__))
PROGRAM = os.path.join(HERE, "..", "crates", "txn_cli", "out", "txn_cli")


def run(program, script, shim, number, told=""):
    environment = dict(os.environ, LD_PRELOAD=shim, REFUSED_ALLOCATION=str(number))
    if told:
        environment["ALLOCATIONS_TOLD"] = told
    with open(script, "rb") as text:
        ended = subprocess.run([program, "run"], stdin=text, capture_output=True, env=environment)
    return ended.returncode, ended.stdout


def main():
    script = sys.argv[1]
    program = sys.argv[2] if len(sys.argv) > 2 else PROGRAM
    refused = 0
    with tempfile.TemporaryDirectory() as folder:
        source, shim = os.path.join(folder, "shim.c"), os.path.join(folder, "shim.so")
        told = os.path.join(folder, "told")
        with open(source, "w") as text:
            text.write(SHIM)
        open(told, "w").close()
        subprocess.run(["cc", "-O1", "-shared", "-fPIC", "-o", shim, source, "-ldl"], check=True)
        ordinary = run(program, script, shim, 0, told)
        with open(told) as text:
            allocations = int(text.read())
        for number in range(1, allocations + 1):
            status, written = run(program, script, shim, number)
            if (status, written) == ordinary:
                continue
            first = written.removesuffix(b"out of memory\n")
            if status != 8 or not ordinary[1].startswith(first):
                sys.exit(f"allocation {number} refused: status {status}, output {written!r}")
            refused += 1
    print(f"{script}: {allocations} allocations refused in turn, {refused} times status 8, else nothing changed")


if __name__ == "__main__":
    main()
