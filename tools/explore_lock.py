#!/usr/bin/env python3
"""Model-checks the C code of the lock (c/src/lock) with two and three threads. A C stand-in (tools/explorer/core.c) replaces the proved calls, and the memory of
the processor is the model that tools/explore_nodes.py describes.

    tools/explore_lock.py [MOST] [--scene BEGINNING ..] [--fault WORDS | --no-faults] [--seconds S] [--jobs 2] | --anchors

The program makes all runs with at most MOST (2) turns of the schedule. First it explores the library as it is, with four tickets and with one ticket in a
round. Then it explores each library with a planted fault, beginning with the runs that have few turns, and with at most as many turns as the fault names. With
--seconds, each scene is stopped after S seconds of processor time, and the program names the scenes that were stopped. The program needs GCC.

In no run may a thread sleep without being woken, two threads hold the lock at once, freed memory be accessed, two accesses race, a call return a wrong result,
a thread enter a shut lock, or an entry stay in its list. In a strict lock, no thread with a ticket may be overtaken by a call that began later. In a barging
lock, no more such calls may overtake the thread than the limit allows, and none once a task sleeps as the first waiter. Each library with a planted fault must
fail in some run, and no library with a harmless change may fail. The program ends with status 1 if one of these conditions is violated, or if a scene did not
end. Each invariant of the library (INVARIANT in c/src/lock) must hold in each run, and a planted fault of its own must break it. The other faults are found by
the checks of the scenes, without the invariants. The harmless changes are also tried without the invariants.

A planted fault replaces text in one function, or elsewhere in a file; tools/mutants.py finds the text. With --anchors nothing is explored: the program names
each change whose text it does not find, and the place where the text is now.
"""

import argparse
import concurrent.futures
import hashlib
import os
import pathlib
import re
import shutil
import subprocess
import sys
import tempfile
import time

import mutants

sys.path.insert(0, str(pathlib.Path(__file__).resolve().parent / "explorer"))
from lock_faults import FAULTS, HARMLESS, HOOKED, INVARIANTS  # noqa: E402

ROOT = pathlib.Path(__file__).resolve().parent.parent
SOURCE = ROOT / "c/src"
MODEL = ROOT / "tools/explorer"
# What is built, in a copy of c/src; those of tools/explorer beside it.
LIBRARY = ("futex.c", "callbacks.c", *(f"lock/{name}.c" for name in ("abandoned", "conditions", "enter", "leave", "opens", "tasks", "turns")))
SCENES = ("core.c", "lock_scenes.c", "limit_scenes.c", "task_scenes.c", "explorer.c")
# Objects by what they were made of: most faults change one file.
OBJECTS = tempfile.TemporaryDirectory()
# What the library calls of the C library; the scenes have their own memory.
RENAMED = [f"-D{name}=model_{short}" for name, short in (("malloc", "entry"), ("free", "entry_freed"), ("syscall", "syscall"), ("sched_yield", "yield"), ("clock_gettime", "clock"))]
BY_MODEL = ["-w", "-O1", "-DOF_LOCKS", "-DEXPLORED", "-include", "explored.h", "-fsanitize=thread", "-U__SANITIZE_THREAD__", "-DQOLB_NO_PROBES", *RENAMED]


def edit(folder, changes):
    """Makes these changes of files of the folder; ends with what has moved if one can't be made."""
    bodies, why = mutants.changed(folder, [mutants.Change(*it, None) for it in changes])
    if why:
        sys.exit(why)
    for path, body in bodies.items():
        path.write_text(body)


def compiled(folder, name, told):
    """The object of a file of the folder: one that was made of the same text and headers, or a new one."""
    read = [path.read_bytes() for path in (folder / name, *sorted(folder.rglob("*.h")))]
    made = pathlib.Path(OBJECTS.name) / hashlib.sha256(b"\0".join((*read, " ".join(told).encode()))).hexdigest()
    if not made.exists():
        here = folder / f"{name.replace('/', '_')}.o"
        subprocess.run(["cc", "-std=c11", "-I", folder, "-I", ROOT / "c/include", *told, "-c", folder / name, "-o", here], check=True)
        os.replace(here, made)
    return made


def laid_out(folder):
    """Copies what is built to the folder."""
    shutil.copytree(SOURCE, folder, dirs_exist_ok=True)
    for name in (*SCENES, "lock_scenes.h", "explorer.h", "explored.h"):
        shutil.copy(MODEL / name, folder)


def built(folder, edits, width, told):
    """The explorer, built over the library with these edits, with `width` tickets in a round and these options."""
    laid_out(folder)
    edit(folder, [*edits, *HOOKED])
    objects = [compiled(folder, name, ["-O2", "-DOF_LOCKS"] if name == "explorer.c" else [*BY_MODEL, f"-DWIDTH={width}", *told]) for name in (*LIBRARY, *SCENES)]
    subprocess.run(["cc", *objects, "-pthread", "-o", folder / "explorer"], check=True)
    return folder / "explorer"


def run(edits, width, most, scene, seconds, *told):
    """The output of the runs, whether one failed, and the scenes that did not end."""
    with tempfile.TemporaryDirectory() as name:
        done = subprocess.run([built(pathlib.Path(name), edits, width, told), str(most), scene, str(seconds)], capture_output=True, text=True, check=False)
    lines = done.stdout.splitlines()
    return lines, done.returncode not in (0, 2), [line.rsplit(": ", 1)[0] for line in lines if line.endswith(" runs, not all")]


def last_of(told):
    return told[-1] if told and not told[-1].endswith((" runs", " runs, not all")) else "it ended by a signal"


def goes_well(most, scene, width, seconds):
    """Prints how many runs there are of the library as it is; False if one fails, if a scene does not end, or if there is none."""
    told, failed, left = run((), width, most, scene, seconds)
    if failed:
        print(f"as it is, {width} in a round: {last_of(told)}", flush=True)
        return False
    if not told:
        print(f"no scene's name begins with {scene!r}", flush=True)
        return False
    runs = sum(int(re.search(r": (\d+) runs", line).group(1)) for line in told)
    ended = f"{len(told)} scenes" if not left else f"{len(told)} scenes, not all of: {'; '.join(left)};"
    print(f"as it is, {width} in a round: {runs:,} runs of at most {most} turns of {ended} go well", flush=True)
    return not left


def is_found(name, seconds):
    """Prints where a library with this fault fails; False if it does not."""
    most, scene, *edits = FAULTS[name]
    left = []
    for turns in range(most + 1):
        for width in (1, 4):
            told, failed, left = run(edits, width, turns, scene, seconds, "-DUNCHECKED")
            if failed:
                print(f"{name}: at {turns}, {last_of(told)}", flush=True)
                return True
    print(f"{name}: {'runs' if left else 'all runs'} go well", flush=True)
    return False


def trips(name, seconds):
    """Prints where a library with this fault fails by the invariant that it names; False if it does not."""
    most, scene, text, *edits = INVARIANTS[name]
    for turns in range(most + 1):
        for width in (1, 4):
            told, failed, _ = run(edits, width, turns, scene, seconds)
            if failed:
                print(f"{name}: at {turns}, {last_of(told)}", flush=True)
                return "invariant: " + text in last_of(told)
    print(f"{name}: no invariant is broken", flush=True)
    return False


def is_harmless(name, seconds):
    """Prints whether all runs of at most one turn go well after this change."""
    for width in (1, 4):
        told, failed, left = run(HARMLESS[name], width, 1, "", seconds, "-DUNCHECKED")
        if failed or left:
            print(f"harmless: {name}: {last_of(told) if failed else 'not all runs'}", flush=True)
            return False
    print(f"harmless: {name}: all runs go well", flush=True)
    return True


def compare_anchors():
    """Prints each fault that can't be planted as the library is now, and why; returns the status."""
    with tempfile.TemporaryDirectory() as name:
        folder = pathlib.Path(name)
        laid_out(folder)

        def why_not(changes):
            return mutants.changed(folder, [mutants.Change(*it, None) for it in changes])[1]

        hooks = HOOKED if not why_not(HOOKED) else []
        faults = {**{it: FAULTS[it][2:] for it in FAULTS}, **{it: INVARIANTS[it][3:] for it in INVARIANTS}, **HARMLESS}
        rows = {"the changes for the scenes": HOOKED, **{it: (*faults[it], *hooks) for it in faults}}
        lost = [f"{fault}: {why_not(row)}" for fault, row in rows.items() if why_not(row)]
    print(*lost, f"{len(rows) - 1} changes of the lock, {len(lost)} out of place", sep="\n")
    return 1 if lost else 0


def main():
    words = argparse.ArgumentParser()
    words.add_argument("most", type=int, nargs="?", default=2)
    words.add_argument("--scene", action="append", default=[])
    words.add_argument("--fault", default="")
    words.add_argument("--no-faults", action="store_true")
    words.add_argument("--seconds", type=int, default=0)
    words.add_argument("--jobs", type=int, default=2)
    words.add_argument("--anchors", action="store_true")
    asked = words.parse_args()
    if asked.anchors:
        sys.exit(compare_anchors())
    since = time.monotonic()
    faults = [name for name in FAULTS if asked.fault in name and not asked.no_faults]
    changes = [name for name in HARMLESS if asked.fault in name and not asked.no_faults]
    broken = [name for name in INVARIANTS if asked.fault in name and not asked.no_faults]
    if asked.fault and not faults and not changes and not broken:
        sys.exit(f"no fault's name has {asked.fault!r}")
    whole = [(asked.most, scene, width, asked.seconds) for scene in asked.scene or [""] for width in (4, 1)] if not asked.fault else []
    with concurrent.futures.ThreadPoolExecutor(asked.jobs) as pool:
        well = list(pool.map(lambda it: goes_well(*it), whole))
        tripped = list(pool.map(lambda name: trips(name, asked.seconds), broken))
        found = list(pool.map(lambda name: is_found(name, asked.seconds), faults))
        harmless = list(pool.map(lambda name: is_harmless(name, asked.seconds), changes))
    if faults or changes or broken:
        print(f"{sum(found)} of {len(faults)} faults are found, {sum(tripped)} of {len(broken)} invariants are tripped, and {sum(harmless)} of {len(changes)} other changes are harmless")
    print(f"{time.monotonic() - since:.0f} seconds")
    sys.exit(0 if all(well) and all(found) and all(tripped) and all(harmless) else 1)


if __name__ == "__main__":
    main()
