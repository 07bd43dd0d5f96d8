#!/usr/bin/env python3
"""Runs tests of locks that other projects wrote: Concurrency Kit's tests with the library's nodes and locks, and the Open POSIX test suite with the preload
library.

    tools/of_others.py [--seconds N] [--part ck|posix] [--write] [FOLDER]

The program fetches Debian's sources of ck and posixtestsuite with apt into FOLDER (by default a temporary folder). FOLDER must lie outside the repository,
because the sources contain symbolic links. From ck it builds the tests of validation, throughput and latency, with a header for each kind of node and lock
in addition to ck's own locks. From the suite it runs each test of pthread_mutex_* and pthread_cond_*, with and without c/preload/preload.c, and compares
how the two runs end. If they end differently, the test is run again, so that a test with varying results does not count against the library. A test is
stopped after N seconds (120 by default).

The program prints a table, and ends with status 1 if a test of ck failed with our locks, or a test of the suite ended differently. --part runs only one of
the two. --write puts the table into c/bench/figures/of_others.tsv, where the rows of a part that was not run stay as they were. Before it runs, `make -C c
check` must have been run and dpkg-dev must be installed. It takes a quarter of an hour.
"""

import argparse
import contextlib
import datetime
import os
import pathlib
import re
import signal
import subprocess
import sys
import tempfile

from crates import ROOT, run_main

BUILD = ROOT / "c/build"
RECORD = ROOT / "c/bench/figures/of_others.tsv"
SOURCES = """Types: deb-src
URIs: http://deb.debian.org/debian
Suites: {suite}
Components: main
Signed-By: /usr/share/keyrings/debian-archive-keyring.gpg
"""
KINDS = {"ring": "QOLB_RING", "link": "QOLB_LINK", "ticket": "QOLB_TICKET"}
THREADS = (2, 4, 8)
# Locks of ck's own, for comparison, by at most a thread for each processor: they only spin, so with more threads ck_mcs and ck_clh do not end.
THEIRS = ("ck_mcs", "ck_clh", "ck_ticket", "ck_fas")

# A node for each thread, in the form of ck_mcs.h. A withdrawn request is busy until it is passed, so a try may fail for others than the holder.
OF_NODES = """#include <qolb.h>
#define LOCK_NAME "qolb_node_{name}"
#define LOCK_DEFINE static qolb_node nodes[200]; static unsigned int drawn
#define LOCK_INIT do {{ qolb_bytes zeros = {{{{0}}}}; if (qolb_open({kind}, 1, 200, QOLB_NO_LEASE, &zeros, nodes, 200) != QOLB_DONE) exit(EXIT_FAILURE); }} while (0)
#define LOCK_STATE qolb_node node = qolb_move(&nodes[__sync_fetch_and_add(&drawn, 1)])
#define LOCK do {{ if (qolb_acquire(&node) != QOLB_GRANTED) exit(EXIT_FAILURE); }} while (0)
#define UNLOCK qolb_deqolb(&node)
#define TRYLOCK (qolb_try(&node) == QOLB_GRANTED)
#define LOCKED (qolb_state(&node) == QOLB_STATE_HOLDING)
"""

# One object for all, in the form of ck_ticket.h.
OF_LOCKS = """#include <qolb.h>
#define LOCK_NAME "qolb_lock_{name}"
#define LOCK_DEFINE static qolb_lock lock = {start}
#define LOCK do {{ if (qolb_lock_enter(&lock) != QOLB_GRANTED) exit(EXIT_FAILURE); }} while (0)
#define UNLOCK qolb_lock_leave(&lock)
#define TRYLOCK (qolb_lock_try(&lock) == QOLB_GRANTED)
#define LOCKED qolb_lock_is_mine(&lock)
"""


def headers():
    """The text of a header for ck's tests, by the name of the lock."""
    made = {f"qolb_node_{name}": OF_NODES.format(name=name, kind=kind) for name, kind in KINDS.items()}
    starts = {"strict": "QOLB_LOCK_INIT", "barging": "QOLB_LOCK_INIT_BARGING(1024)"}
    return made | {f"qolb_lock_{name}": OF_LOCKS.format(name=name, start=start) for name, start in starts.items()}


PACKAGES = {"ck": "ck", "posix": "posixtestsuite"}


def fetch(folder, package):
    """Fetches and unpacks a source, and returns its folder; ends with a message where apt has no source packages."""
    targets = subprocess.run(["apt-get", "indextargets", "--format", "$(CREATED_BY)"], capture_output=True, text=True, check=False).stdout
    if "Sources" not in targets.split():
        suite = re.search(r"VERSION_CODENAME=(\w+)", pathlib.Path("/etc/os-release").read_text())
        sys.exit(
            "of_others: apt has no source packages here. Write this to /etc/apt/sources.list.d/sources.sources, and run apt-get update:\n"
            + SOURCES.format(suite=suite[1] if suite else "stable")
        )
    if not list(folder.glob(f"{package}-*/")):
        subprocess.run(["apt-get", "-qq", "source", package], cwd=folder, check=True)
    return next(folder.glob(f"{package}-*/"))


def ended(words, seconds, folder=None, **more):
    """How a program ended, as a word or a number, and its standard output."""
    pipes = {"stdin": subprocess.DEVNULL, "stdout": subprocess.PIPE, "stderr": subprocess.DEVNULL, "text": True, "errors": "replace"}
    with subprocess.Popen(words, cwd=folder, start_new_session=True, **pipes, **more) as process:
        try:
            told, _ = process.communicate(timeout=seconds)
            return str(process.returncode), told
        except subprocess.TimeoutExpired:
            return f"no end in {seconds} s", ""
        finally:
            # With what it started: some tests leave a child behind.
            with contextlib.suppress(ProcessLookupError):
                os.killpg(process.pid, signal.SIGKILL)


# ---- Concurrency Kit ----


def build_ck(ck, where, name, flags, built):
    words = ["cc", "-std=gnu99", "-O2", "-pthread", "-D_GNU_SOURCE", *flags, f"-I{ck}/include", f"-I{BUILD}/prefix/include", f"{name}.c"]
    subprocess.run([*words, f"{BUILD}/prefix/lib/libqolb.a", "-lm", "-o", str(built)], cwd=where, check=True)
    return built


def add_ours(spinlocks):
    """Writes our locks beside ck's own: a header, and a file in each of the two folders of tests that includes it as theirs do."""
    for name, text in headers().items():
        (spinlocks / f"{name}.h").write_text(text)
        for part in ("validate", "benchmark"):
            like = (spinlocks / part / "ck_mcs.c").read_text()
            (spinlocks / part / f"{name}.c").write_text(like.replace("ck_mcs", name))


def run_ck(ck, seconds):
    """The rows of the table: test, lock, threads, outcome."""
    subprocess.run(["./configure"], cwd=ck, check=True, capture_output=True)
    spinlocks = ck / "regressions/ck_spinlock"
    add_ours(spinlocks)
    built = ck / "built"
    built.mkdir(exist_ok=True)
    for name in (*headers(), *THEIRS):
        validate = build_ck(ck, spinlocks / "validate", name, ["-DITERATE=100000"], built / f"{name}.validate")
        through = build_ck(ck, spinlocks / "benchmark", name, ["-DTHROUGHPUT"], built / f"{name}.throughput")
        latency = build_ck(ck, spinlocks / "benchmark", name, ["-DLATENCY", "-DSTEPS=3000000"], built / f"{name}.latency")
        counts = [it for it in THREADS if name not in THEIRS or it <= os.cpu_count()]
        for threads in counts:
            status, _ = ended([validate, str(threads), "1"], seconds)
            yield "ck validate", name, threads, "passed" if status == "0" else status
        for threads in counts:
            status, told = ended([through, str(threads), "1", "0"], seconds)
            total = re.search(r"total\s*:\s*(\d+)", told)
            yield "ck throughput, turns in 10 s", name, threads, total[1] if status == "0" and total else status
        status, told = ended([latency], seconds)
        yield "ck latency, cycles", name, 1, told.strip() if status == "0" else status


# ---- The Open POSIX suite ----

MEANS = {"0": "passed", "1": "failed", "2": "unresolved", "4": "unsupported", "5": "untested"}


def tests_of(suite):
    for folder in sorted((suite / "conformance/interfaces").glob("pthread_*")):
        if re.match(r"pthread_(mutex|cond)_", folder.name):
            yield from sorted(folder.glob("[0-9]*-[0-9]*.c"))


def build_test(suite, source, built):
    words = ["cc", "-std=gnu99", "-g", "-O2", "-w", "-D_POSIX_C_SOURCE=200112L", "-D_GNU_SOURCE", f"-I{suite}/include", source.name]
    done = subprocess.run([*words, "-pthread", "-lrt", "-o", str(built)], cwd=source.parent, capture_output=True, check=False)
    return done.returncode == 0


def outcome(built, seconds, preload, **more):
    env = dict(os.environ) | ({"LD_PRELOAD": str(BUILD / "preload.so")} if preload else {}) | more
    status, _ = ended([built], seconds, pathlib.Path(built).parent, env=env)
    return MEANS.get(status, status)


def run_suite(suite, seconds):
    """The rows of the table, of tests that end differently, and a last one with how many do not."""
    built = suite / "built"
    built.mkdir(exist_ok=True)
    same, unbuilt = {"passed": 0}, 0
    if outcome("/bin/true", seconds, True, QOLB_BARGING="none") != "unresolved":
        sys.exit("of_others: c/build/preload.so is not loaded: it does not refuse a barging limit")
    for source in tests_of(suite):
        name = f"{source.parent.name}/{source.stem}"
        program = built / name.replace("/", "_")
        if not build_test(suite, source, program):
            unbuilt += 1
            continue
        alone, ours = [outcome(program, seconds, preload) for preload in (False, True)]
        if alone != ours:
            alone, ours = ({outcome(program, seconds, preload) for _ in range(3)} | {was} for preload, was in ((False, alone), (True, ours)))
            alone, ours = " or ".join(sorted(alone)), " or ".join(sorted(ours))
        if set(ours.split(" or ")) <= set(alone.split(" or ")):
            same[alone] = same.get(alone, 0) + 1
        else:
            yield "posix, differs", name, "", f"alone {alone}; preloaded {ours}"
    for how, many in sorted(same.items()):
        yield "posix, the same", how, "", str(many)
    yield "posix, not built", "", "", str(unbuilt)


def is_bad(row):
    test, name, _, told = row
    if test == "posix, the same" and name == "passed" and int(told) == 0:
        return True
    return test == "posix, differs" or (test == "ck validate" and name.startswith("qolb") and told != "passed")


def machine():
    model = re.search(r"model name\s*: (.*)", pathlib.Path("/proc/cpuinfo").read_text())
    return f"{os.cpu_count()} processors of {model[1] if model else 'an unknown model'}, load {os.getloadavg()[0]:.0f}"


def table(part, folder, seconds):
    """The lines of a part's table, and after each whether it tells of a fault."""
    source = fetch(folder, PACKAGES[part])
    commit = subprocess.run(["git", "rev-parse", "--short", "HEAD"], cwd=ROOT, capture_output=True, text=True, check=True).stdout.strip()
    yield f"# {part}: {datetime.date.today()}, at {commit}; {machine()}; {source.name}; at most {seconds} s a test", False
    for row in {"ck": run_ck, "posix": run_suite}[part](source, seconds):
        yield "\t".join(map(str, row)), is_bad(row)


HEAD = "test\twhat\tthreads\toutcome"


def recorded():
    """The lines of the record by their part: each begins with a line of its own."""
    lines = RECORD.read_text().splitlines()[1:] if RECORD.exists() else []
    starts = [k for k, line in enumerate(lines) if line.startswith("# ")]
    return {lines[k].split(":")[0][2:]: lines[k:end] for k, end in zip(starts, [*starts[1:], len(lines)])}


def main():
    parser = argparse.ArgumentParser(description=__doc__, formatter_class=argparse.RawDescriptionHelpFormatter)
    parser.add_argument("--seconds", type=int, default=120)
    parser.add_argument("--part", choices=list(PACKAGES))
    parser.add_argument("--write", action="store_true")
    parser.add_argument("folder", nargs="?", metavar="FOLDER")
    args = parser.parse_args()
    if not (BUILD / "preload.so").exists():
        sys.exit("of_others: make -C c check first")
    told, bad = recorded(), 0
    with contextlib.ExitStack() as stack:
        folder = pathlib.Path(args.folder or stack.enter_context(tempfile.TemporaryDirectory())).resolve()
        if folder.is_relative_to(ROOT):
            sys.exit(f"of_others: {folder} is in the repository, and the gate takes no links there")
        folder.mkdir(parents=True, exist_ok=True)
        for part in [args.part] if args.part else PACKAGES:
            told[part] = []
            for line, is_fault in table(part, folder, args.seconds):
                print(line, flush=True)
                told[part].append(line)
                bad += is_fault
    if args.write:
        RECORD.write_text("\n".join([HEAD, *(line for part in PACKAGES for line in told.get(part, []))]) + "\n")
    return 1 if bad else 0


if __name__ == "__main__":
    run_main(main)
