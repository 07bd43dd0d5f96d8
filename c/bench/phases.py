"""Runs programs that measure several ways of acquiring a lock in alternating phases (phases.h), and reports which goals they reach. c/bench/nodes uses this
module.

Before and after each program, the time of a hand-over between each two processors is measured. On a virtual machine two processors may be hyperthreads of one
core, so a pair whose hand-over takes less than 60 ns is called quick. Threads are pinned to processors that form no quick pair. A program that used a quick
pair nevertheless is run again, at most AGAIN times. A program of a quiet part is also run again if other programs or other virtual machines used more than 3 %
of the processor time during its run. The output contains the number of repeated runs. If a run is kept although it does not meet these conditions, the column
`kept` of this run says so.
"""

import datetime
import pathlib
import re
import statistics
import subprocess
import sys
from collections import namedtuple

from machine import Load, apart, command, least_of, machine, names_of_processors, quick_pairs

HERE = pathlib.Path(__file__).resolve().parent
ROOT = HERE.parent.parent
LIBRARY = "c/build/libqolb.a"
MOST_OTHERS = 3  # percent of the processors that others may take in a quiet part
LEAST_WAITS = 5000  # the least waits of one program for which the 99.9th percentile is given

# A part: its name, the number of threads, the microseconds of a critical section, words for the program, and goals (a lock, the lock to compare it with, and the largest ratio);
# then the length of a phase in ms, whether other programs must be idle meanwhile, and whether threads stay at processors.
Part = namedtuple("Part", "name threads turn words goals ms is_quiet stays", defaults=(2, True, True))
# The processors that are used: the first four, or all if there are fewer.
ALL = "at=" + ",".join(map(str, range(min(4, len(names_of_processors())))))
FIGURES = ("phases", "median", "low", "high", "mean", "wait_999_us", "longest_us")
HEADS = ("part", "threads", "turn_us", "lock", "runs", "again", "kept", *FIGURES, "beside", "ratio", "goal", "met")


def build(folder, source, checkout, library=None):
    """Builds a program of this folder with the library of a checkout, in which make -C c has been run, or with that of this checkout."""
    program = folder / f"{source}_{checkout.name}"
    flags = ["-O3", "-march=x86-64-v2", "-pthread", f"-I{checkout / 'c/include'}"]
    subprocess.run(["clang", *flags, HERE / f"{source}.c", library or checkout / LIBRARY, "-o", program], check=True)
    return program


def told(*words):
    done = subprocess.run([str(word) for word in words], capture_output=True, text=True, check=False)
    if done.returncode:
        sys.exit(f"{' '.join(map(str, words))} ended with {done.returncode}: {done.stdout}{done.stderr}")
    return done.stdout


def pairs_of(output):
    """Returns the least hand-over that was measured between each two processors, in nanoseconds."""
    found = {}
    for a, b, time in re.findall(r"(\d+)-(\d+) (\d+)", " ".join(re.findall(r"(?m)^# a hand-over.*", output))):
        pair = int(a), int(b)
        found[pair] = min(float(time), found.get(pair, float(time)))
    return found


def rows_of(output):
    """Returns the figures of each lock, by its name."""
    return {name: dict(zip(FIGURES, map(float, rest))) for name, *rest in (line.split("\t") for line in output.splitlines() if "\t" in line)}


class Runner:
    """Runs each program at processors that are no quick pairs, and repeats it until it met the conditions above."""

    def __init__(self, asked, program):
        self.asked, self.program = asked, program

    def pairs(self):
        return pairs_of(told(self.program, "machine", ALL))

    def once(self, part, program):
        """Returns the figures of one program, and why it does not meet the conditions, or an empty text."""
        order = apart(self.pairs())
        load = Load()
        output = told(program, part.threads, part.turn, part.ms, self.asked.seconds, "at=" + ",".join(map(str, order)), *part.words)
        seconds, others, stolen = load.parts()
        used = order[: part.threads] if part.threads > 1 and part.stays else []
        why = ["quick pair"] if quick_pairs(least_of(pairs_of(output), self.pairs()), used) else []
        share = max(others, stolen) / (seconds * len(order)) * 100
        why += [f"others {share:.0f} %"] if part.is_quiet and share > MOST_OTHERS else []
        return rows_of(output), ", ".join(why)

    def run(self, part, program):
        for again in range(self.asked.again + 1):
            rows, why = self.once(part, program)
            if not why:
                break
        return rows, why, again


def medians(runs):
    """Returns the median of each figure over the runs, by the name of the lock."""
    return {name: {key: statistics.median(run[name][key] for run in runs) for key in FIGURES} for name in runs[0]}


Measured = namedtuple("Measured", "rows runs again kept")


def measure(asked, runner, part, programs):
    """Returns what each of the programs measured in a part. The programs run alternately."""
    runs = [[runner.run(part, program) for program in programs] for _ in range(asked.runs)]
    return [
        Measured(medians([rows for rows, _, _ in of]), asked.runs, sum(again for _, _, again in of), "; ".join(sorted({why for _, why, _ in of} - {""})))
        for of in zip(*runs)
    ]


def line(part, name, measured, row, tail=("", "", "", "")):
    return (part.name, part.threads, part.turn, name, measured.runs, measured.again, measured.kept, *(f"{row[key]:g}" for key in FIGURES), *tail)


def judged(beside, ratio, goal):
    return beside, f"{ratio:.2f}", f"{goal:.2f}", "yes" if ratio <= goal else "no"


def lines_of(part, measured):
    """Returns the rows of a part, with the ratios for which there is a goal."""
    rows, goals = measured.rows, {}
    for lock, beside, goal in part.goals:
        than = "MCS that yields" if beside == "MCS" and "MCS" not in rows else beside
        goals[lock] = judged(than, rows[lock]["median"] / rows[than]["median"], goal)
    return [line(part, name, measured, row, *([goals[name]] if name in goals else [])) for name, row in rows.items()]


def waits_of(part, row):
    """Returns the number of waits of one program that were timed, if critical sections have a length."""
    return row["phases"] * part.ms * 1e6 / row["mean"]


def lines_of_older(part, measured, older, names, keys):
    """Returns the rows of these locks of an older library, whose figures the current library must not exceed. The 99.9th percentile counts only if there were enough waits."""
    lines = []
    for name in names:
        for key in keys:
            now, was = measured.rows[name][key], older.rows[name][key]
            tail = judged(f"{name}: {key}", now / was if was else 1, 1)
            if key == "wait_999_us" and min(waits_of(part, it.rows[name]) for it in (measured, older)) < LEAST_WAITS:
                tail = (*tail[:-1], "few waits")
            lines.append(line(part, f"{name} of the older library", older, older.rows[name], tail))
    return lines


def head(title, asked, runner, load):
    """Returns the lines at the top of a file of figures."""
    at = told(runner.program, "machine", ALL)
    return [
        f"# {title}: nanoseconds a turn over all threads, in phases that take turns. ratio: of this lock's median to that of the lock beside it; goal: the most of it; again: "
        "programs that were run again; kept: what a run is not that was kept.",
        f"# date {datetime.date.today()}",
        f"# machine {machine()}, a pause of {re.search(r'a pause, ns: ([0-9.]+)', at)[1]} ns",
        f"# hand-overs in ns at the end: {' '.join(f'{a}-{b} {time:.0f}' for (a, b), time in pairs_of(at).items())}",
        f"# meanwhile {load}",
        f"# command {command()}",
        "\t".join(HEADS),
    ]


def run_parts(asked, runner, parts, lines_for):
    """Measures the parts whose names begin with one of the words of --parts, and prints and returns their lines."""
    lines = []
    wanted = tuple(asked.parts.split(",")) if asked.parts else ("",)
    for part in parts:
        if part.name.startswith(wanted):
            of_part = lines_for(part)
            print(*("\t".join(map(str, it)) for it in of_part), sep="\n", flush=True)
            lines += of_part
    return lines


def keep(asked, file, top, lines):
    """Prints the figures, and with --keep writes them to the file."""
    text = top + ["\t".join(map(str, it)) for it in lines]
    print("\n".join(text))
    if asked.keep:
        (asked.keep if isinstance(asked.keep, pathlib.Path) else file).write_text("".join(it + "\n" for it in text))


def add_arguments(parser, runs, seconds):
    parser.add_argument("--runs", type=int, default=runs)
    parser.add_argument("--seconds", type=float, default=seconds)
    parser.add_argument("--older", type=pathlib.Path)
    parser.add_argument("--parts")
    parser.add_argument("--again", type=int, default=5)
    parser.add_argument("--library", type=pathlib.Path)
    parser.add_argument("--short", action="store_true")
    parser.add_argument("--keep", type=pathlib.Path, nargs="?", const=True)


def arguments(parser):
    asked = parser.parse_args()
    if asked.short:
        asked.runs, asked.seconds, asked.again = 1, 0.5, 0
    return asked
