"""Reads the list of the repository's crates and their dependencies, and runs a job for each of several crates in
parallel. Most tools import this module.
"""

import os
import pathlib
import shutil
import signal
import subprocess
import sys
import time

ROOT = pathlib.Path(__file__).resolve().parent.parent
# What the proof of a crate reads, in its folder.
PARTS = ("src", "specs", "proofs")


class Crate:
    """A line of crates.txt: the crate's name, the names of the repository's crates that it uses, and the line itself."""

    def __init__(self, line, names):
        head, _, used = line.partition(":")
        self.line = line
        self.name = head.split()[0]
        self.uses = [it for it in used.split() if it in names]
        self.folder = ROOT / "crates" / self.name
        self.is_program = (self.folder / "src" / "main.rt").is_file()

    def files(self):
        """The files that the proof of the crate reads."""
        return [it for part in PARTS for it in sorted((self.folder / part).rglob("*")) if it.is_file()]


def locks():
    """The crates of locks: those of crates.txt below a line that begins with `# lock:`."""
    lines = (ROOT / "crates.txt").read_text().splitlines()
    return [line.split(":")[0].split()[0] for about, line in zip(lines, lines[1:]) if about.startswith("# lock:")]


def read_crates():
    """The crates by name, lowest first."""
    lines = [it.partition("#")[0].strip() for it in (ROOT / "crates.txt").read_text().splitlines()]
    lines = [it for it in lines if it]
    names = {it.partition(":")[0].split()[0] for it in lines}
    left, sorted_crates = [Crate(it, names) for it in lines], {}
    while left:
        lowest = next(it for it in left if all(used in sorted_crates for used in it.uses))
        sorted_crates[lowest.name] = lowest
        left.remove(lowest)
    return sorted_crates


def below(crates, name):
    """The names of the crates below this one, lowest first."""
    wanted = set()
    for used in crates[name].uses:
        wanted |= {used, *below(crates, used)}
    return [it for it in crates if it in wanted]


def named(crates, names):
    """These names, or all; ends with a message if one of them is no crate."""
    unknown = sorted(set(names) - set(crates))
    if unknown:
        sys.exit(f"no such crate: {', '.join(unknown)}")
    return names or list(crates)


def copy_sources(crates, to):
    """Copies what proofs and tests of these crates read to another folder, as its own repository."""
    for crate in crates:
        for part in PARTS:
            if (crate.folder / part).is_dir():
                shutil.copytree(crate.folder / part, to / "crates" / crate.name / part)
    (to / "crates.txt").write_text("".join(f"{it.line}\n" for it in crates))


def link(one, other):
    """Gives a proved file a second name, and copies any other: rt removes such a file before it makes it anew."""
    try:
        os.link(one, other)
    except OSError:
        shutil.copy2(one, other)


def lay_out(crates, name, to):
    """Makes a repository in which only this crate is to be proved: its sources, and the built libraries of the crates below."""
    under = [crates[it] for it in below(crates, name)]
    copy_sources([*under, crates[name]], to)
    for crate in under:
        shutil.copytree(crate.folder / "out" / "rlib", to / "crates" / crate.name / "out" / "rlib", copy_function=link)
    (to / "crates" / name / "out").mkdir()
    return to / "crates" / name


def take_kept(crate, folder):
    """Gives a copy of a crate the work that its checks kept, proved files by links."""

    def take(one, other):
        (link if one.endswith(".oantt") else shutil.copy2)(one, other)

    if (crate.folder / "out" / "incremental").is_dir():
        shutil.copytree(crate.folder / "out" / "incremental", folder / "out" / "incremental", copy_function=take)


def lanes():
    """The number of checks that may run at a time: one for each processor, and at most a fifth of the memory in GB, which a check can take."""
    memory = os.sysconf("SC_PAGE_SIZE") * os.sysconf("SC_PHYS_PAGES") / 5e9
    return max(1, min(len(os.sched_getaffinity(0)), int(memory)))


def spawn(words, folder, log=None):
    """Starts a process in its own session, so that all its children can be ended with it; its output goes to `log`."""
    out = {"stdout": log, "stderr": subprocess.STDOUT} if log else {}
    return subprocess.Popen(words, cwd=folder, stdin=subprocess.DEVNULL, start_new_session=True, **out)


def end_all(running):
    """Ends processes, with all their children, and waits for them."""
    running = [it for it in running if it.poll() is None]
    for how in (signal.SIGTERM, signal.SIGKILL):
        for it in running:
            if it.poll() is None:
                os.killpg(it.pid, how)
        until = time.monotonic() + 10
        while time.monotonic() < until and any(it.poll() is None for it in running):
            time.sleep(0.1)
    if running:
        # The checks that rt started end right after rt.
        time.sleep(0.5)


def say(text, file=sys.stderr):
    """Prints a line in place of the text that `show` left at the foot of the terminal."""
    show("")
    print(text, file=file, flush=True)


SHOWN = [""]


def show(text):
    """Shows a text at the foot of a terminal, until the next one."""
    if sys.stderr.isatty() and text != SHOWN[0]:
        SHOWN[0] = text
        print(f"\r\033[K{text[: shutil.get_terminal_size().columns - 1]}", end="", file=sys.stderr, flush=True)


def run_main(main):
    """Ends with the status that `main` returns. After a signal it also cleans up what was begun."""
    signal.signal(signal.SIGTERM, lambda *_: sys.exit(143))
    try:
        sys.exit(main())
    except KeyboardInterrupt:
        sys.exit(130)


def side_by_side(waits, lanes, start, ended, say_each=None):
    """Runs a process for each name of `waits`, in their order, each after those that it waits for have ended; returns True if all ended well.

    After each `say_each` seconds it prints what is at work. `start` is given a name and the number of processors that it may take, and returns the process, or None if it can't begin yet. `ended` is given the
    name, the status and the seconds, and returns whether to go on. However this function ends, no process is left."""
    left, running, done = list(waits), {}, set()
    said = time.monotonic()
    try:
        while left or running:
            ready = [it for it in left if done.issuperset(waits[it])]
            for place, name in enumerate(ready):
                idle = lanes - sum(jobs for _, jobs, _ in running.values())
                if idle < 1:
                    break
                jobs = max(1, min(4, idle // (len(ready) - place)))
                process = start(name, jobs)
                if process:
                    left.remove(name)
                    running[name] = process, jobs, time.monotonic()
            show(f"{len(done)} of {len(waits)} done; at work: {', '.join(running)}")
            time.sleep(0.1)
            if say_each and time.monotonic() - said >= say_each:
                said = time.monotonic()
                at_work = ", ".join(f"{name} since {said - since:.0f} s" for name, (_, _, since) in running.items())
                say(f"{len(done)} of {len(waits)} done; at work: {at_work}")
            for name, (process, _, since) in list(running.items()):
                if process.poll() is not None:
                    del running[name]
                    done.add(name)
                    if not ended(name, process.returncode, time.monotonic() - since):
                        return False
        return True
    finally:
        show("")
        end_all([process for process, _, _ in running.values()])
