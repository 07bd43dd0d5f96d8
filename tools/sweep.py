#!/usr/bin/env python3
"""Runs the built program again and again. In each run, another allocation, start of a thread, read or write is made to fail,
until a run passes.

    tools/sweep.py [PROGRAM]

If an allocation or the start of a thread fails, the program must end with status 3, `out of memory` and nothing on standard output. If a read
fails, it must end with status 4, `read fault` and nothing on standard output; if a write fails, with status 4, `write fault` and a prefix of the
answer. With reads and writes of one byte, and with each of them interrupted once, the answer must be complete. If the program has little address
space beyond what it starts with, it must report that memory is lacking, or give the complete answer. The expected answers come from
definitions.py. The program must use lines of the named kind. The test checks this by the amount of memory that the program requests, because
this amount differs between the kinds. The test needs Linux with glibc and cc.
"""

import itertools
import os
import re
import subprocess
import sys
import tempfile
import time

from crates import ROOT
from definitions import LOCKS, answer_to, is_right, run, the_program

HERE = os.path.dirname(os.path.abspath(__file__))

SCHEDULE = b"""nodes 200 lines 8 lease 9
enq 1 0
write 1 0 0 a1b2
enq 2 0
enq 3 0
out 3 0
deq 1 0
poll 2 0
show 2 0
shut 2 0
enq 200 7
"""
STEPS = b"nodes 200\nreset 1\nprepend 1\nwrite 1 0 ab\nreset 2\nprepend 2\nhome 1\ndone 1\nload 1\nlink 2\n"
BOARD = b"board workers 5\n1 put 5\n2 put 6\n3 take\n4 put 7\n1 take\n5 put 8\n5 take\n"
BANK = b"bank workers 5 lines 8\n1 in 0 10\n2 in 63 5\n3 move 0 63 2\n4 out 63 1\n5 in 1 1\n1 out 0 3\n"

TASKS = [
    *((["replay", "--kind", kind], SCHEDULE) for kind in ("plain", *LOCKS)),
    (["steps"], STEPS),
    *((["board", "--kind", kind], BOARD) for kind in LOCKS),
    *((["bank", "--kind", kind], BANK) for kind in LOCKS),
]


def grown(script):
    """The script with its last command 20,000 times more."""
    return script + script.splitlines(keepends=True)[-1] * 20_000


def built(folder):
    """The library that makes a call fail."""
    library = os.path.join(folder, "refuse.so")
    subprocess.run(["cc", "-O2", "-shared", "-fPIC", os.path.join(HERE, "refuse.c"), "-o", library, "-ldl"], check=True)
    return library


def refused(program, library, words, script, **settings):
    """The outcome of a run under these settings, and whether a call was made to fail."""
    told, tells = os.pipe()
    settings.update(LD_PRELOAD=library, REFUSE_TELL=str(tells))
    try:
        found = run(program, words, script, env=settings, pass_fds=[tells])
    finally:
        os.close(tells)
    with os.fdopen(told, "rb") as pipe:
        return found, pipe.read() != b""


def is_refusal(what, wanted, found):
    """Returns True if a run in which such a call failed ended as it must."""
    status, out, err = found
    if what in ("memory", "thread"):
        return found == (3, "", "out of memory\n")
    if what == "read":
        return found == (4, "", "read fault\n")
    begins = True if callable(wanted[1]) else wanted[1].startswith(out)
    return status == 4 and err == "write fault\n" and begins


def sweep(program, library, words, script, what, **settings):
    """Makes the first such call fail, then the second, and so on; returns their number."""
    wanted = answer_to(words[0], script)
    at = 0
    while True:
        found, was_refused = refused(program, library, words, script, REFUSE=f"{what}:{at + 1}", **settings)
        right = is_refusal(what, wanted, found) if was_refused else is_right(wanted, found)
        if not right:
            sys.exit(f"wrong: {' '.join(words)}, {what} {at + 1} {settings}: {found}")
        if not was_refused and at == 0 and what != "thread":
            sys.exit(f"wrong: {' '.join(words)}: no {what} was made to fail")
        if not was_refused:
            return at
        at += 1


def whole(program, library, words, script, **settings):
    """Checks that the answer is whole in a run under these settings."""
    found, _ = refused(program, library, words, script, **settings)
    if not is_right(answer_to(words[0], script), found):
        sys.exit(f"wrong: {' '.join(words)}, {settings}: {found}")


def in_little_memory(program, library, words, script):
    """Gives the program more and more address space beside what it starts with, until its answer is whole ten times. Returns how many runs reported
    that memory is lacking, and how many kilobytes the first whole answer took."""
    wanted, short, served = answer_to(words[0], script), 0, []
    for kilobytes in itertools.count(0, 64):
        found, _ = refused(program, library, words, script, ROOM=str(kilobytes))
        if is_refusal("memory", wanted, found):
            short += 1
        elif is_right(wanted, found):
            served.append(kilobytes)
        else:
            sys.exit(f"wrong: {' '.join(words)}, {kilobytes} kilobytes: {found}")
        if len(served) == 10:
            return short, served[0]


def taken(program, library, words, script):
    """The bytes of memory that a run asks for."""
    told, tells = os.pipe()
    run(program, words, script, env={"LD_PRELOAD": library, "TAKEN_TELL": str(tells)}, pass_fds=[tells])
    os.close(tells)
    with os.fdopen(told, "rb") as pipe:
        return int(pipe.read())


APART = 10_000
IDLE = {"board": b"board workers 200\n", "bank": b"bank workers 200 lines 1\n"}


def kinds_by_memory(program, library):
    """Checks that work over each kind of line asks for a different amount of memory, in the order in which qolb.h has lines of 200 nodes."""
    header = (ROOT / "c/include/qolb.h").read_text()
    by_size = sorted(LOCKS, key=lambda kind: int(re.search(rf"^ \* +{kind}(?: +[\d,]+)+ +([\d,]+)$", header, re.M)[1].replace(",", "")))
    for task, script in IDLE.items():
        took = {kind: taken(program, library, [task, "--kind", kind], script) for kind in by_size}
        sizes = list(took.values())
        if not all(more - less > APART for less, more in zip(sizes, sizes[1:])):
            sys.exit(f"wrong: {task} over {by_size}: {sizes} bytes")
        if abs(taken(program, library, [task], script) - took["link"]) > APART:
            sys.exit(f"wrong: {task} is not over link lines where no kind is named")
        print(f"{task}: " + ", ".join(f"{kind} {bytes:,} bytes" for kind, bytes in took.items()), flush=True)


def main():
    program = the_program()
    began = time.monotonic()
    print("task                  allocations  threads  reads  writes  reads and writes of one byte  too little memory")
    with tempfile.TemporaryDirectory() as folder:
        library = built(folder)
        for words, script in TASKS:
            long = script + b"\n" * 20_000
            counts = [
                sweep(program, library, words, long, "memory"),
                sweep(program, library, words, script, "thread"),
                sweep(program, library, words, long, "read"),
                sweep(program, library, words, script, "write"),
                sweep(program, library, words, script, "read", SHORT="1"),
                sweep(program, library, words, script, "write", SHORT="1"),
            ]
            whole(program, library, words, script, SHORT="1")
            whole(program, library, words, script, INTERRUPT="1")
            whole(program, library, words, script, INTERRUPT="1", SHORT="1")
            row = "{:11}  {:7}  {:5}  {:6}  {:11} and {:12}".format(*counts)
            short, enough = in_little_memory(program, library, words, grown(script))
            print(f"{' '.join(words):20}  {row}  {short} runs, up to {enough} KB", flush=True)
        kinds_by_memory(program, library)
    print(f"all as they must be, in {time.monotonic() - began:.0f} seconds")


if __name__ == "__main__":
    main()
