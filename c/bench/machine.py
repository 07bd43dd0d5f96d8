"""Describes the machine on which benchmarks run. If the machine was busy with other work during a run, this module
repeats the run."""

import contextlib
import os
import pathlib
import re
import subprocess
import sys
import time

HERTZ = os.sysconf("SC_CLK_TCK")


def names_of_processors():
    return re.findall(r"^model name\s*: (.*)", pathlib.Path("/proc/cpuinfo").read_text(), re.M)


def machine():
    """Returns the number of processors and their name."""
    names = names_of_processors()
    return f"{len(names)} processors of an {names[0]}"


def named(word):
    """Returns a word of a command line. A path that only this machine has is replaced by the commit that is checked out there, or by its name."""
    path = pathlib.Path(word)
    if not path.is_absolute():
        return word
    found = subprocess.run(["git", "-C", word, "rev-parse", "--short", "HEAD"], capture_output=True, text=True, check=False)
    return path.name if found.returncode else found.stdout.strip()


def command():
    """Returns the command line as a file of figures has it, without the words that say where the figures are written."""
    words = (word for word in sys.argv[1:] if word != "--keep" and not word.endswith(".tsv"))
    return " ".join([f"c/bench/{pathlib.Path(sys.argv[0]).name}", *map(named, words)])


# A hand-over of a cache line between two hyperthreads of one core takes less than this, and between two cores more, in nanoseconds.
QUICK = 60


def least_of(*times):
    """Returns the least time of a hand-over between each two processors, of several measurements."""
    return {pair: min(of[pair] for of in times if pair in of) for pair in {pair for of in times for pair in of}}


def quick_pairs(times, used):
    """Returns the pairs among these processors whose hand-over takes as long as within one core."""
    return [pair for pair, time in times.items() if time < QUICK and set(pair) <= set(used)]


def apart(times):
    """Returns the processors in an order in which, as far as possible, none forms a quick pair with one before it."""
    left, order = sorted({it for pair in times for it in pair}), []
    while left:
        order.append(min(left, key=lambda it: (len(quick_pairs(times, [*order, it])), it)))
        left.remove(order[-1])
    return order


def used_by_others():
    """Returns the processor seconds of each other process, and of its children that have ended, by its number."""
    found = {}
    for file in pathlib.Path("/proc").glob("[0-9]*/stat"):
        with contextlib.suppress(OSError):  # the process has just ended
            ticks = file.read_text().rpartition(")")[2].split()[11:15]
            found[int(file.parent.name)] = sum(map(int, ticks)) / HERTZ
    found.pop(os.getpid())
    return found


class Load:
    """Measures what else the machine does while this program runs other programs, one after the other."""

    def __init__(self):
        self.since = self.read()

    @staticmethod
    def read():
        """Returns the processor seconds that other machines took from this one, those that its other processes took, and the time."""
        ticks = pathlib.Path("/proc/stat").read_text().split("\n", 1)[0].split()
        return int(ticks[8]) / HERTZ, used_by_others(), time.monotonic()

    def parts(self):
        """Returns the seconds since the start, and the processor seconds in them that other programs and other machines took."""
        (stolen_then, others_then, then), (stolen, others, now) = self.since, self.read()
        used = sum(seconds - others_then.get(number, 0) for number, seconds in others.items())
        return now - then, used, stolen - stolen_then

    def __str__(self):
        return shares(*self.parts())


def shares(seconds, others, stolen):
    whole = seconds * len(names_of_processors()) / 100
    return f"others {others / whole:.1f} %, other machines {stolen / whole:.1f} %"


class Quiet:
    """Runs the parts of a measurement. If it is strict, a part during which other programs or other machines took more than 2 % of the processors is
    thrown away and run again, up to `MOST` times in all."""

    LIMIT, MOST = 2, 40

    def __init__(self, is_strict):
        self.is_strict, self.sums, self.thrown_away, self.kept = is_strict, (0, 0, 0), 0, 0

    def __call__(self, part, *words):
        while True:
            load = Load()
            result = part(*words)
            took = load.parts()
            is_quiet = max(took[1:]) <= self.LIMIT / 100 * took[0] * len(names_of_processors())
            if not self.is_strict or is_quiet or self.thrown_away == self.MOST:
                self.sums = tuple(map(sum, zip(self.sums, took)))
                self.kept += not is_quiet
                return result
            self.thrown_away += 1

    def __str__(self):
        again = f"; {self.thrown_away} parts with more than {self.LIMIT} % were run again, {self.kept} were kept" if self.is_strict else ""
        return shares(*self.sums) + again
