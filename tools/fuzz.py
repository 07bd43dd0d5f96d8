#!/usr/bin/env python3
"""Tests the built program with random bytes, with random scripts, and with random scripts in which a few bytes have been changed.

    nice -n 19 tools/fuzz.py [--count 100000] [--seed 1] [--first 0] [--jobs 2] [--program PATH] [TASK..]

TASK is replay, steps, board or bank. If none is given, all four are tested, each with COUNT scripts. Replay runs each script with the plain line, with
rings, with link lines and with ticket lines; board and bank use the last three in turn. Every run must end by itself within ten minutes, with exactly
the status and the bytes that definitions.py computes for the script. A run of workers, whose order is not fixed, must end with a report that
definitions.py accepts. Script number n of a seed is the same in every run. The program prints the first script that gets a wrong answer, and ends.
"""

import argparse
import collections
import multiprocessing
import os
import random
import sys
import time

from definitions import EVENTS, LOCKS, PROGRAM, Core, Line, answer_to, is_right, run

TASKS = ["replay", "steps", "board", "bank"]
KINDS = {"replay": ["plain", *LOCKS], "board": LOCKS, "bank": LOCKS}
EDGES = [0, 1, 2, 7, 8, 9, 63, 64, 65, 199, 200, 201, 2**48, 2**48 + 1, 2**63, 2**64 - 1, 2**64, 10**19, 10**20, 10**40]
STRAYS = [b"\0", b"\t", b"\r", b"\x0b", b"\x0c", b"\x1b", b"\x7f", b"\x80", b"\xc3\xa9", b"\xff", b"\n", b" ", b"-", b"+", b"0"]
SIZES = [1, 2, 2, 3, 3, 4, 5, 9]


# Scripts made at random


def size(chance):
    return 200 if chance.random() < 0.02 else chance.choice(SIZES)


def lease_of(chance):
    return chance.randint(1, 5) if chance.random() < 0.3 else None


def head(words, lease):
    return words if lease is None else f"{words} lease {lease}"


def written(chance):
    """A place and bytes for a write: as words, and as values."""
    place = chance.randrange(64)
    data = chance.randbytes(chance.randint(1, 64 - place))
    return f" {place} {data.hex()}", (place, data)


def schedule(chance):
    """Commands of a few nodes, few of them misused."""
    nodes, lines, lease = size(chance), chance.choice([1, 1, 1, 2, 8]), lease_of(chance)
    acting = min(nodes, chance.choice([2, 3, 5, 200]))
    script, queues = [head(f"nodes {nodes} lines {lines}", lease)], [Line(lease) for _ in range(lines)]
    for _ in range(chance.randint(0, 150)):
        verb = chance.choice(["enq"] * 5 + ["poll"] * 4 + ["deq"] * 3 + ["out", "out", "write", "show"] + ["shut"] * (chance.random() < 0.2))
        node, line = chance.randint(1, acting), chance.randrange(lines)
        more, write = written(chance) if verb == "write" else ("", None)
        said = queues[line].answer(verb.encode(), node, write)
        if said != "misuse" or chance.random() < 0.1:
            script.append(f"{verb} {node} {line}{more}")
    return script


def steps(chance):
    """Events of a few nodes, few of them refused."""
    nodes, lease = size(chance), lease_of(chance)
    acting = min(nodes, chance.choice([2, 3, 5]))
    script, core = [head(f"nodes {nodes}", lease)], Core(nodes, lease)
    names = [name.decode() for name in EVENTS if name != b"close"]
    for _ in range(chance.randint(0, 300)):
        node, name = chance.randint(1, acting), chance.choice(names * 4 + ["write", "close"])
        more = written(chance)[0] if name == "write" else ""
        told = core.step(name, node)
        if told or chance.random() < 0.02:
            script.append(f"{name} {node}{more}")
    return script


def board(chance):
    workers = size(chance)
    script = [f"board workers {workers}"]
    for _ in range(chance.randint(0, 40)):
        worker = chance.randint(1, workers)
        task = chance.choice([chance.randrange(100), 2**64 - 1])
        script.append(f"{worker} take" if chance.random() < 0.5 else f"{worker} put {task}")
    return script


def bank(chance):
    workers, lines = size(chance), chance.choice([1, 2, 8])
    script = [f"bank workers {workers} lines {lines}"]
    for _ in range(chance.randint(0, 40)):
        worker = chance.randint(1, workers)
        one, other = chance.randrange(8 * lines), chance.randrange(8 * lines)
        amount = chance.choice([0, 1, chance.randrange(100), 2**48, 2**48 - 1, 2**64 - 1])
        script.append(chance.choice([f"{worker} in {one} {amount}", f"{worker} out {one} {amount}", f"{worker} move {one} {other} {amount}"]))
    return script


MAKERS = {"replay": schedule, "steps": steps, "board": board, "bank": bank}


# Changes


def without_a_byte(chance, text):
    at = chance.randrange(len(text))
    return text[:at] + text[at + 1 :]


def with_a_stray(chance, text):
    at = chance.randint(0, len(text))
    return text[:at] + chance.choice(STRAYS) + text[at:]


def with_another_byte(chance, text):
    at = chance.randrange(len(text))
    return text[:at] + bytes([chance.randrange(256)]) + text[at + 1 :]


def cut(chance, text):
    return text[: chance.randint(0, len(text))]


def with_another_word(chance, text, word):
    lines = text.split(b"\n")
    at = chance.randrange(len(lines))
    words = lines[at].split(b" ")
    words[chance.randrange(len(words))] = word
    lines[at] = b" ".join(words)
    return b"\n".join(lines)


def with_a_huge_number(chance, text):
    return with_another_word(chance, text, str(chance.choice(EDGES)).rjust(chance.choice([0, 0, 20, 21]), "0").encode())


def with_a_word_from_elsewhere(chance, text):
    return with_another_word(chance, text, chance.choice(text.split() or [b"x"]))


def with_a_line_moved(chance, text):
    """Deletes, doubles or moves a line."""
    lines = text.split(b"\n")
    line = lines.pop(chance.randrange(len(lines)))
    for _ in range(chance.randint(0, 2)):
        lines.insert(chance.randint(0, len(lines)), line)
    return b"\n".join(lines)


CHANGES = [
    without_a_byte,
    with_a_stray,
    with_another_byte,
    cut,
    with_a_huge_number,
    with_a_word_from_elsewhere,
    with_a_line_moved,
]


def script_number(seed, task, number):
    """The script of this number: random bytes, a random script, or a random script with one to three changes."""
    chance = random.Random(f"{seed} {task} {number}")
    which = chance.random()
    if which < 0.05:
        return chance.randbytes(chance.randint(0, 300))
    text = "\n".join(MAKERS[task](chance)).encode()
    if which < 0.1:
        letters = text + b"\n \n 0123456789"
        return bytes(chance.choice(letters) for _ in range(chance.randint(0, 300)))
    for _ in range(chance.choice([0, 0, 1, 1, 2, 3])):
        if text:
            text = chance.choice(CHANGES)(chance, text)
    return text


# Runs


def judged(case):
    """The outcome that the script must have, as a word for the count, and the run that differs, if one does."""
    program, seed, task, number = case
    script = script_number(seed, task, number)
    wanted = answer_to(task, script)
    kinds = KINDS.get(task, [None])
    for kind in kinds if task == "replay" else [kinds[number % len(kinds)]]:
        words = [task, *(["--kind", kind] if kind else [])]
        found = run(program, words, script)
        if not is_right(wanted, found):
            return "wrong", (words, number, script, wanted, found)
    return ("answered", "refused")[wanted[0]], None


def main():
    words = argparse.ArgumentParser(description="Runs the built program on random and on changed scripts.")
    words.add_argument("tasks", nargs="*", default=[], metavar="TASK")
    words.add_argument("--count", type=int, default=100_000)
    words.add_argument("--seed", type=int, default=1)
    words.add_argument("--first", type=int, default=0)
    words.add_argument("--jobs", type=int, default=2)
    words.add_argument("--program", default=PROGRAM)
    asked = words.parse_args()
    program = os.path.abspath(asked.program)
    if not os.access(program, os.X_OK):
        sys.exit(f"there is no program {program}: see README.md for how to build it")
    with multiprocessing.Pool(asked.jobs) as pool:
        for task in asked.tasks or TASKS:
            began, counts = time.monotonic(), collections.Counter()
            cases = ((program, asked.seed, task, asked.first + at) for at in range(asked.count))
            for what, wrong in pool.imap_unordered(judged, cases, chunksize=50):
                if wrong:
                    sys.exit("wrong: {}, number {}, script {!r}: must be {}, and is {}".format(*wrong))
                counts[what] += 1
            seconds = time.monotonic() - began
            kinds = len(KINDS[task]) if task == "replay" else 1
            print(
                f"{task}: {asked.count} scripts of seed {asked.seed}, {kinds * asked.count} runs, "
                f"{counts['answered']} answered and {counts['refused']} refused as they must be, {seconds:.0f} seconds",
                flush=True,
            )


if __name__ == "__main__":
    main()
