#!/usr/bin/env python3
"""Model-checks the C library's files for nodes (c/src/calls.c, line.c, callbacks.c and futex.c) with two and three threads, each with a node of its own, on a
model of the processor's memory (tools/explorer).

    tools/explore_nodes.py [MOST] [--scene BEGINNING ..] [--fault WORDS | --no-faults] [--jobs 2] | --anchors

The program makes all runs of the library as it is that have at most MOST (2) turns of the schedule. For a library with a planted fault, it makes runs with at
most as many turns as this fault needs: one, two or three. With --anchors nothing is run: the program names each change whose text it does not find, and the
place where the text is now. The program needs GCC.

A turn of the schedule is one of these: another thread runs although the current thread could continue; a timeout expires; a plain store stays in its thread's
store buffer, where the other threads do not see it, or leaves the buffer before it must. Stores become visible as on x86-64: in their order, and at the latest
before the thread's next read-modify-write step or system call. Other behaviours that C11 allows for sequentially consistent, releasing and acquiring steps are
not explored. Races, however, are defined as in C11: two accesses race if neither happens before the other and one of them is plain. A model replaces the line.
Each call on this model takes one or two steps. It is proved elsewhere that the real calls behave in this way. No scene contains the halves of a request
(qolb_prepend and qolb_link), reads or writes of the line, or leases. Prefetches are left out, because no run can observe them.

In no run may a thread sleep without being woken, two threads hold the line at once, two threads call one node at the same time or make its calls in a wrong
order, freed memory be accessed, the memory of a line remain allocated when all its nodes are closed, or a call return a wrong result. Each library with a
planted fault must fail in some run, because otherwise this program does not find the errors that it exists for, and no library with a harmless change may
fail. The program ends with status 1 if one of these conditions is violated. tools/explore_lock.py does the same for locks.
"""

import argparse
import concurrent.futures
import pathlib
import subprocess
import sys
import tempfile
import time

import mutants

ROOT = pathlib.Path(__file__).resolve().parent.parent
BUILT = ("calls.c", "line.c", "callbacks.c", "futex.c")
HEADERS = ("guard.h", "line.h", "spin.h")
SOURCES = {name: (ROOT / "c/src" / name).read_text() for name in (*BUILT, *HEADERS)}
# What a thread keeps while it makes calls of notifications: the model has several threads in one.
OF_THREAD = "static BY_THREAD struct caller *in_call;\n"
assert OF_THREAD in SOURCES["callbacks.c"]
SOURCES["callbacks.c"] = SOURCES["callbacks.c"].replace(OF_THREAD, "void **model_in_call(void);\n#define in_call (*(struct caller **)model_in_call())\n")
SOURCES["hints.h"] = """#include "line.h"
static const char *slot_at(const struct node *my, uint64_t word) { return 0; }
static void hint_turn(const struct node *my, const char *slot) {}
static void hint_release(const struct node *my) {}
"""
# What a thread has learned of its spins decides nothing here, as the model has several threads in one: each spin is one poll, without a pause.
SPUN = {
    "SPIN_NEAR = 50000": "SPIN_NEAR = 90",
    "SPIN_UNKNOWN = 20000": "SPIN_UNKNOWN = 90",
    "    if (spin->spun + POLL_PAUSE <= spin->most && may_spin) return": "    if (spin->spun + POLL_PAUSE <= spin->most) return",
    "may_spin = pauses_in_1024()": "may_spin = 1",
    "atomic_load_explicit(&qolb_processors_, memory_order_relaxed)": "4",
    "    qolb_pause_(pause < left ? pause : left);\n": "",
    "unsigned *learned = &qolb_learned_[spin->slept ? WOKEN_SPIN : FIRST_SPIN];": "unsigned none = 0, *learned = &none;",
    "unsigned patience = spin->spun ? *learned : begin_spin(learned)": "unsigned patience = SPIN_NEAR",
}
for old, new in SPUN.items():
    assert old in SOURCES["spin.h"]
    SOURCES["spin.h"] = SOURCES["spin.h"].replace(old, new)
RENAMED = [f"-D{name}=model_{short}" for name, short in (("malloc", "malloc"), ("free", "free"), ("syscall", "syscall"), ("sched_yield", "yield"), ("clock_gettime", "clock"))]
# The files of tools/explorer, with flags of their own: scenes are built as the library is.
BY_MODEL = ["-w", "-O1", "-fsanitize=thread", "-U__SANITIZE_THREAD__", "-DQOLB_NO_PROBES", *RENAMED]
OF_MODEL = {"node_scenes.c": BY_MODEL, "explorer.c": ["-O2"], "proved_line.c": ["-O2"]}
# In the sources: fewer looks before the same decisions.
HOOKED = [("GUARD_LOOKS = 64", "GUARD_LOOKS = 1")]

COUNT = "    atomic_fetch_add(&place->sleepers, 1);\n"
IN_LINE = "    atomic_fetch_add(&my->line->callbacks.waiting, 1);\n"
OFF_LINE = "    atomic_fetch_sub(&my->line->callbacks.waiting, 1);\n"
OFF_PLACE = "    atomic_fetch_sub(&place->sleepers, 1);\n"
NODE_LOOK = "    unsigned word = atomic_load(&place->word);\n    uint32_t got = qolb_poll_proved_(&my->proved);\n"
WAKES = "    atomic_fetch_add(&place->word, 1);\n    qolb_wake_at_(&place->word, INT32_MAX);\n"
RELEASES = "    return let_go(my, qolb_deqolb_proved_(&my->proved));\n"
COUNTED_EARLY = "    unsigned early = atomic_load(&my->line->callbacks.waiting);\n    uint32_t got = qolb_deqolb_proved_(&my->proved);\n    return early && got != QOLB_MISUSE ? woken(my, got) : got;\n"
NEXT = "    wake_at(place_at(line, look.went_to));\n    wake_at(place_at(line, look.went_ahead));\n"
FAULTS = {
    "nodes: the sleeper does not count itself at its place": (COUNT + IN_LINE, IN_LINE, OFF_PLACE, ""),
    "nodes: the sleeper does not count itself in its line": (COUNT + IN_LINE, COUNT, OFF_LINE, ""),
    "nodes: the word is read after the second look": (NODE_LOOK, "".join(reversed(NODE_LOOK.splitlines(True)))),
    "nodes: there is no second look": (NODE_LOOK, NODE_LOOK.replace("qolb_poll_proved_(&my->proved)", "QOLB_WAITING")),
    "nodes: the second look comes before the count": (COUNT + IN_LINE + NODE_LOOK, NODE_LOOK.split("\n", 1)[1] + COUNT + IN_LINE + NODE_LOOK.split("\n", 1)[0] + "\n"),
    "nodes: who releases wakes nobody": (RELEASES, RELEASES.replace("let_go", "told")),
    "nodes: who is told that the line is closed wakes nobody": ("got == QOLB_CLOSED ? let_go(my, got) : got", "(void)my, got"),
    "nodes: who is told so while it waits wakes nobody": ("    return told(my, got);\n}\n\nstatic inline uint32_t acquire(", "    return got;\n}\n\nstatic inline uint32_t acquire("),
    "nodes: who shuts the line wakes nobody": ("let_go(my, qolb_shut_proved_(&my->proved))", "told(my, qolb_shut_proved_(&my->proved))"),
    "nodes: who is late does not withdraw": ("uint32_t got = qolb_withdraw_proved_(&my->proved);", "uint32_t got = QOLB_WITHDRAWN;"),
    "nodes: a wake wakes nobody": (WAKES, WAKES.splitlines(True)[0]),
    "nodes: a wake adds nothing": (WAKES, WAKES.splitlines(True)[1]),
    "nodes: the wake comes before the addition": (WAKES, "".join(reversed(WAKES.splitlines(True)))),
    "nodes: who releases reads the count before the release": (RELEASES, COUNTED_EARLY),
    "nodes: a sleeper sleeps at another's place": ("sleep_at_place(my, place_at(my->line, word), limit)", "sleep_at_place(my, place_at(my->line, word + LAYOUT_PLACE_WORDS), limit)"),
    "nodes: a sleeper does not take itself off its place": (OFF_PLACE, ""),
    "nodes: a sleeper does not take itself off its line": (OFF_LINE, ""),
    "nodes: who releases wakes at its own place": ("wake_at(place_at(line, look.went_to))", "wake_at(place_at(line, look.wait_word))"),
    "nodes: the one behind the next holder is woken alone": (NEXT, NEXT.splitlines(True)[1]),
    "nodes: the first that closes frees the line": (".callbacks.others = nodes - 1", ".callbacks.others = 0"),
    "nodes: who closes does not let go of the line": ("    qolb_let_go_(&my->line->callbacks);\n", ""),
    "nodes: who closes lets go of the line before its node is closed": ("    uint32_t got = qolb_close_proved_(&my->proved);\n    handle->own = NULL;\n    qolb_let_go_(&my->line->callbacks);\n", "    qolb_let_go_(&my->line->callbacks);\n    uint32_t got = qolb_close_proved_(&my->proved);\n    handle->own = NULL;\n"),
}

# Callbacks of nodes.
LISTENS = "    qolb_put_in_list_(of, &my->callback);\n    uint32_t got = qolb_poll_proved_(&my->proved);\n"
AFTER_LOOK = "    if (got != QOLB_WAITING) qolb_take_out_of_list_(of, &my->callback);\n"
LISTED = "    atomic_store(&of->first, it);\n    atomic_fetch_add(&of->waiting, 1);\n"
UNCOUNTED = "    atomic_fetch_sub(&of->waiting, 1);\n    return 1;\n"
NOTED = "    me.callback = it;\n    me.next = of->running;\n    of->running = &me;\n    return_guard(&of->guard);\n    in_call->running = &me;\n"
OFF = "    uint32_t got = qolb_take_out_of_list_(of, it) ? QOLB_WITHDRAWN : QOLB_DONE;\n    while ((call = running_elsewhere(of, it))) await_end(of, call);\n"
ENDS = "    if (me->awaited) atomic_fetch_add(&noted->ended, 1);\n    return_guard(&noted->guard);\n    if (me->awaited) qolb_wake_at_(&noted->ended, INT32_MAX);\n"
TAKES = "    struct running me = {NULL, NULL, &in_call, 0};\n    take_guard(&of->guard);\n"
CALLS = "    qolb_tell_acquire_(it);\n    call(arg);\n"
FAULTS |= {
    "callbacks: there is no second look": (LISTENS, LISTENS.replace("qolb_poll_proved_(&my->proved)", "QOLB_WAITING")),
    "callbacks: the look comes before the callback": (LISTENS, "".join(reversed(LISTENS.splitlines(True)))),
    "callbacks: a callback is not counted": (LISTED, LISTED.splitlines(True)[0], UNCOUNTED, "    return 1;\n"),
    "callbacks: a callback is counted after the look": (LISTED, LISTED.splitlines(True)[0], LISTENS, LISTENS + "    atomic_fetch_add(&of->waiting, 1);\n"),
    "callbacks: a callback that is taken out is still counted": (UNCOUNTED, "    return 1;\n"),
    "callbacks: who releases makes no call": ("    if (atomic_load(&line->callbacks.first)) qolb_make_call_(&line->callbacks, look.went_to);\n", ""),
    "callbacks: who releases makes any call of the line": ("    while (it && it->key != key) it = it->next;\n", ""),
    "callbacks: who releases takes no guard": (TAKES, TAKES.splitlines(True)[0]),
    "callbacks: who releases makes the call under the guard": (NOTED, NOTED.replace("    return_guard(&of->guard);\n", ""), CALLS, CALLS + "    return_guard(&of->guard);\n"),
    "callbacks: the call is noted after the guard": (NOTED, "    return_guard(&of->guard);\n    take_guard(&of->guard);\n" + NOTED),
    "callbacks: a callback stays in the list while its call is made": ("    qolb_take_out_of_list_(of, it);\n    void (*call)", "    void (*call)"),
    "callbacks: one behind another is taken out with it": ("    if (before) before->next = it->next;\n    else", "   "),
    "callbacks: an off leaves the callback": (OFF, OFF.replace("qolb_take_out_of_list_(of, it)", "of->first")),
    "callbacks: an off takes the callback out without the guard": ("    struct running *call;\n    take_guard(&of->guard);\n    uint32_t got = qolb_take", "    struct running *call;\n    if (qolb_take_out_of_list_(of, it)) return QOLB_WITHDRAWN;\n    take_guard(&of->guard);\n    uint32_t got = qolb_take"),
    "callbacks: an off does not wait for a call": (OFF, OFF.replace("    while ((call = running_elsewhere(of, it))) await_end(of, call);\n", "    (void)call;\n")),
    "callbacks: an off waits for no call that had begun before it": ("    if (!my->callback.call) return QOLB_DONE;\n", "    if (!my->callback.call || !atomic_load(&my->line->callbacks.first)) return QOLB_DONE;\n"),
    "callbacks: who ends a call wakes nobody": (ENDS, ENDS.replace("    if (me->awaited) qolb_wake_at_(&noted->ended, INT32_MAX);\n", "")),
    "callbacks: who ends a call adds nothing": (ENDS, ENDS.replace("    if (me->awaited) atomic_fetch_add(&noted->ended, 1);\n", "")),
    "callbacks: a waiter for a call's end says so after the guard": ("    call->awaited = 1;\n    unsigned ended = atomic_load(&of->ended);\n    return_guard(&of->guard);\n", "    unsigned ended = atomic_load(&of->ended);\n    return_guard(&of->guard);\n    call->awaited = 1;\n"),
    "callbacks: a call that is done is still waited for": ("void qolb_notify_done(void) {\n    struct running *me = in_call ? in_call->running : NULL;\n    if (!me) return;\n", "void qolb_notify_done(void) {}\nstatic void ends(void) {\n    struct running *me = in_call->running;\n", "    call(arg);\n    qolb_notify_done();\n", "    call(arg);\n    ends();\n"),
    "callbacks: closing leaves the callback": ("    qolb_notify_off(handle);\n", ""),
    "callbacks: a second wish leaves the first": ("    qolb_notify_off(node);\n    my->callback.key", "    if (!my->line->callbacks.first) qolb_notify_off(node);\n    my->callback.key"),
    "callbacks: a call is made inside another": ("    if (is_put_off(of, key)) return;\n", ""),
    "callbacks: calls that were put off are not made": ("    make_put_off(&me);\n    in_call = outer;\n    pthread", "    in_call = outer;\n    pthread"),
    "callbacks: a call that was put off does not keep its line": ("    atomic_fetch_add(&of->others, 1);\n", "", "        qolb_let_go_(of);\n", ""),
    "callbacks: a call that was made keeps its line": ("        qolb_let_go_(of);\n", ""),
    "callbacks: who is told that it is closed makes no call": ("    return told(my, got);\n}\n\nenum qolb_result qolb_notify_off", "    return got;\n}\n\nenum qolb_result qolb_notify_off"),
    "callbacks: who releases reads the count before the release": (RELEASES, COUNTED_EARLY),
    "callbacks: who releases calls for its own place": ("qolb_make_call_(&line->callbacks, look.went_to)", "qolb_make_call_(&line->callbacks, look.wait_word)"),
    "callbacks: a callback is counted before the look, and listed after it": (LISTED, LISTED.splitlines(True)[0], LISTENS + AFTER_LOOK, "    atomic_fetch_add(&of->waiting, 1);\n    uint32_t got = qolb_poll_proved_(&my->proved);\n    if (got == QOLB_WAITING) qolb_put_in_list_(of, &my->callback);\n    else atomic_fetch_add(&of->waiting, -1u);\n"),
    "callbacks: the look comes after the guard": (LISTENS + AFTER_LOOK, "    qolb_put_in_list_(of, &my->callback);\n    return_guard(&of->guard);\n    uint32_t got = qolb_poll_proved_(&my->proved);\n    take_guard(&of->guard);\n" + AFTER_LOOK),
    "callbacks: who is granted the line by its look stays in the list": (LISTENS + AFTER_LOOK, LISTENS),
    "callbacks: a call is noted no longer when it begins": ("    call(arg);\n    qolb_notify_done();\n", "    qolb_notify_done();\n    call(arg);\n"),
}

# How the names of the scenes begin in which a fault is looked for that takes two turns of the schedule. The others take one, and are looked for in all.
IN_TWO_TURNS = {
    "nodes: the word is read after the second look": "nodes: three acquire",
    "nodes: there is no second look": "nodes: three acquire",
    "nodes: the second look comes before the count": "nodes: three acquire",
    "nodes: who shuts the line wakes nobody": "nodes: one shuts",
    "nodes: who is late does not withdraw": "nodes: one is late and comes again",
    "nodes: a wake adds nothing": "nodes: three acquire",
    "callbacks: the look comes before the callback": "callbacks",
    "callbacks: a callback is counted before the look, and listed after it": "callbacks",
    "callbacks: a callback is counted after the look": "callbacks",
    "callbacks: who releases takes no guard": "callbacks",
    "callbacks: the call is noted after the guard": "callbacks",
    "callbacks: a callback stays in the list while its call is made": "callbacks",
    "callbacks: an off takes the callback out without the guard": "callbacks",
    "callbacks: an off does not wait for a call": "callbacks",
    "callbacks: an off waits for no call that had begun before it": "callbacks",
    "callbacks: who ends a call wakes nobody": "callbacks",
    "callbacks: who ends a call adds nothing": "callbacks",
    "callbacks: a waiter for a call's end says so after the guard": "callbacks",
    "callbacks: a call that is done is still waited for": "callbacks",
    "callbacks: who is told that it is closed makes no call": "callbacks",
}

# The same of a fault that takes three turns.
IN_THREE_TURNS = {
    "nodes: the wake comes before the addition": "nodes: three acquire",
    "callbacks: closing leaves the callback": "callbacks: one closes with a wish",
}

# Changes after which no run may fail.
HARMLESS = {
    # A wake at a place where nobody sleeps wakes nobody.
    "nodes: who releases wakes whether any sleeps or not": (RELEASES, "    uint32_t got = qolb_deqolb_proved_(&my->proved);\n    return got == QOLB_DONE ? woken(my, got) : got;\n"),
    # Being woken a turn ahead saves time alone.
    "nodes: nobody is woken a turn ahead": (NEXT, NEXT.splitlines(True)[0]),
    # No two waiting nodes of a line have one place.
    "nodes: a wake wakes one sleeper": (WAKES, WAKES.replace("INT32_MAX", "1")),
    "callbacks: the count comes before the list": (LISTED, "".join(reversed(LISTED.splitlines(True)))),
    # Its node is not closed, and wants no other call, before the call is done.
    "the callback is read after the guard": ("    void *arg = it->arg;\n", "", CALLS, CALLS.replace("call(arg)", "call(it->arg)")),
}


LIBRARY = ROOT / "c/src"


def change_of(sources, old, new):
    """The change of these texts, in the one file that has the old one."""
    files = [name for name, text in sources.items() if mutants.spots(text, mutants.Change(name, "", old, new, None))]
    return (files[0] if len(files) == 1 else BUILT[0], "", old, new)


def made(row, hooks=HOOKED):
    """The sources with the changes of a row and those for the scenes; or why one can't be made. A change is a file, a function, the old text and the new
    one; or a row has in turn an old text and the new one, of whichever file has it."""
    pairs = row and isinstance(row[0], str)
    sources = SOURCES
    for it in (*(zip(row[::2], row[1::2], strict=True) if pairs else row), *hooks):
        change = mutants.Change(*(it if len(it) == 4 else change_of(sources, *it)), None)
        bodies, why = mutants.changed(LIBRARY, [change], {LIBRARY / name: text for name, text in sources.items()})
        if why:
            return {}, why
        sources = {name: bodies[LIBRARY / name] for name in sources}
    return sources, None


def built(folder, row, base):
    """The explorer, built over the library with the changes of a row. Objects of sources that are as in the folder `base` are those there."""
    sources, why = made(row)
    if why:
        sys.exit(why)
    changed = {name for name, text in sources.items() if not (base / name).exists() or (base / name).read_text() != text}
    if not changed.isdisjoint((*HEADERS, "hints.h")):
        changed = {*sources, *OF_MODEL}
    for name in changed & set(sources):
        (folder / name).write_text(sources[name])
    objects = []
    for name in (*BUILT, *OF_MODEL):
        objects.append((folder if name in changed else base) / f"{name}.o")
        if name in changed:
            source = (folder if name in sources else ROOT / "tools/explorer") / name
            told = OF_MODEL.get(name, BY_MODEL)
            seen = ["-I", folder, "-I", base, "-I", LIBRARY, "-I", ROOT / "c/include", "-I", ROOT / "tools/explorer"]
            subprocess.run(["cc", "-std=c11", *seen, *told, "-c", source, "-o", objects[-1]], check=True)
    subprocess.run(["cc", *objects, "-o", folder / "explorer"], check=True)
    return folder / "explorer"


def compare_anchors():
    """Prints each fault that can't be planted as the library is now, and why; returns the status."""
    hooks = HOOKED if not made(())[1] else ()
    told = {"the changes for the scenes": made(())[1], **{name: made(row, hooks)[1] for name, row in (FAULTS | HARMLESS).items()}}
    lost = [f"{name}: {why}" for name, why in told.items() if why]
    print(*lost, f"{len(told) - 1} changes of the nodes, {len(lost)} out of place", sep="\n")
    return 1 if lost else 0


def run(explorer, most, scene):
    """The output of the runs, and whether all of them passed."""
    done = subprocess.run([explorer, str(most), scene], capture_output=True, text=True, check=False)
    return done.stdout.splitlines(), done.returncode == 0


def last_of(told):
    return told[-1] if told else "it ended by a signal"


def goes_well(most, scenes, base):
    """Prints how many runs there are of the library as it is; False if one fails, or if there is none."""
    runs = []
    for scene in scenes or [""]:
        told, well = run(base / "explorer", most, scene)
        if not well:
            print(f"as it is: {last_of(told)}", flush=True)
            return False
        if not told:
            print(f"no scene's name begins with {scene!r}", flush=True)
            return False
        runs += told
    print(f"as it is: {sum(int(line.rsplit(' ', 2)[1]) for line in runs):,} runs of {len(runs)} scenes go well", flush=True)
    return True


def is_found(fault, base):
    """Prints where a library with this fault fails; False if it does not."""
    turns = 3 if fault in IN_THREE_TURNS else 2 if fault in IN_TWO_TURNS else 1
    scene = (IN_TWO_TURNS | IN_THREE_TURNS).get(fault, fault.split(":")[0])
    with tempfile.TemporaryDirectory() as name:
        told, well = run(built(pathlib.Path(name), FAULTS[fault], base), turns, scene)
    print(f"{fault}: all runs go well" if well else f"{fault}: at {turns}, {last_of(told)}", flush=True)
    return not well


def is_harmless(change, base):
    """Prints whether all runs of at most one turn of the schedule go well after this change."""
    with tempfile.TemporaryDirectory() as name:
        told, well = run(built(pathlib.Path(name), HARMLESS[change], base), 1, "")
    print(f"harmless: {change}: all runs go well" if well else f"harmless: {change}: {last_of(told)}", flush=True)
    return well


def main():
    words = argparse.ArgumentParser()
    words.add_argument("most", type=int, nargs="?", default=2)
    words.add_argument("--scene", action="append", default=[])
    words.add_argument("--fault", default="")
    words.add_argument("--no-faults", action="store_true")
    words.add_argument("--jobs", type=int, default=2)
    words.add_argument("--anchors", action="store_true")
    asked = words.parse_args()
    if asked.anchors:
        sys.exit(compare_anchors())
    with tempfile.TemporaryDirectory() as name:
        base = pathlib.Path(name)
        built(base, (), base)
        explores(asked, base)


def explores(asked, base):
    since = time.monotonic()
    if not asked.fault and not goes_well(asked.most, asked.scene, base):
        sys.exit(1)
    faults = [fault for fault in FAULTS if asked.fault in fault and not asked.no_faults]
    changes = [change for change in HARMLESS if asked.fault in change and not asked.no_faults]
    if asked.fault and not faults and not changes:
        sys.exit(f"no fault's name has {asked.fault!r}")
    with concurrent.futures.ThreadPoolExecutor(asked.jobs) as pool:
        found = list(pool.map(lambda fault: is_found(fault, base), faults))
        harmless = list(pool.map(lambda change: is_harmless(change, base), changes))
    if faults or changes:
        print(f"{sum(found)} of {len(faults)} faults are found, and {sum(harmless)} of {len(changes)} other changes are harmless")
    print(f"{time.monotonic() - since:.0f} seconds")
    sys.exit(0 if all(found) and all(harmless) else 1)


if __name__ == "__main__":
    main()
