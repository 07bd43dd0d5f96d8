"""Computes the answer that the program must give to a script. This module implements the definitions a second time, in Python. It was written from
docs/SCRIPTS.md and not from the program.

A script is given as bytes. `answer_to` returns the expected outcome of a run: a reply, `bad line N`, or a function that checks the report of the workers.
`run` runs the built program.
"""

import os
import subprocess
import sys

from crates import ROOT, locks

MAX_BYTES = 16_777_216
MAX_ITEMS = 100_000
MAX_NODES = 200
MAX_LINES = 8
MAX_NUMBER = 2**64 - 1
MAX_BALANCE = 2**48
MAX_TASKS = 7
HEX_DIGITS = b"0123456789abcdefABCDEF"


class BadLine(Exception):
    """The first faulty line of a script, by its number from 1."""


class Fault(Exception):
    """What is wrong with a line."""


# Text


def number(word, low, high):
    """The number that a word writes, if it is from low to high."""
    if not 1 <= len(word) <= 20 or not all(48 <= byte <= 57 for byte in word):
        raise Fault
    if not low <= int(word) <= high:
        raise Fault
    return int(word)


def placed(offset, digits):
    """The place and the bytes of a write."""
    place = number(offset, 0, 63)
    if len(digits) % 2 or any(byte not in HEX_DIGITS for byte in digits):
        raise Fault
    if place + len(digits) // 2 > 64:
        raise Fault
    return place, bytes.fromhex(digits.decode())


def read_script(text, read_header, read_item):
    """The header and the items of a script; raises `BadLine` at the first faulty line."""
    header, items = None, []
    for at, line in enumerate(text.split(b"\n"), 1):
        words = [word for word in line.split(b" ") if word]
        if not words:
            continue
        try:
            if len(items) >= MAX_ITEMS or any(not 32 <= byte <= 126 for byte in line):
                raise Fault
            if header is None:
                header = read_header(words)
            else:
                items.append(read_item(header, words))
        except Fault:
            raise BadLine(at) from None
    if header is None:
        raise BadLine(1)
    return header, items


def read_lease(words):
    """The lease that the last words of a header write, if there are any."""
    if not words:
        return None
    if len(words) != 2 or words[0] != b"lease":
        raise Fault
    return number(words[1], 1, MAX_NUMBER)


# Schedules


def schedule_header(words):
    if len(words) not in (4, 6) or words[0] != b"nodes" or words[2] != b"lines":
        raise Fault
    return (
        number(words[1], 1, MAX_NODES),
        number(words[3], 1, MAX_LINES),
        read_lease(words[4:]),
    )


def command(header, words):
    nodes, lines, _ = header
    if len(words) == 3 and words[0] in (b"enq", b"poll", b"show", b"deq", b"out", b"shut"):
        write = None
    elif len(words) == 5 and words[0] == b"write":
        write = placed(words[3], words[4])
    else:
        raise Fault
    return words[0], number(words[1], 1, nodes), number(words[2], 0, lines - 1), write


class Line:
    """One queue: its open requests, oldest first, as [node, withdrawn, granted]."""

    def __init__(self, lease):
        self.requests, self.bytes = [], bytearray(64)
        self.closed, self.turns_left = False, lease
        self.served = self.withdrawn = self.told = 0

    def request_of(self, node):
        return next((it for it in self.requests if it[0] == node), None)

    def end(self):
        """Ends the oldest request, and the withdrawn requests right behind it."""
        self.requests.pop(0)
        while self.requests and self.requests[0][1]:
            self.requests.pop(0)

    def look(self, request, waiting):
        """The answer to a node that polls."""
        if self.requests[0] is not request:
            return waiting
        if not self.closed:
            request[2] = True
            return "granted"
        self.told += 1
        self.end()
        return "closed"

    def release(self, closes, answer):
        if self.turns_left is not None:
            self.turns_left -= 1
            closes = closes or self.turns_left == 0
        self.closed = self.closed or closes
        self.served += 1
        self.end()
        return answer

    def answer(self, verb, node, write):
        request = self.request_of(node)
        holds = request is not None and request[2]
        waits = request is not None and not request[1] and not request[2]
        if verb == b"enq" and not holds and not waits:
            if request:
                return "busy"
            request = [node, False, False]
            self.requests.append(request)
            return self.look(request, "queued")
        if verb == b"poll" and waits:
            return self.look(request, "waiting")
        if verb == b"out" and waits:
            if self.requests[0] is request:
                return self.look(request, None)
            request[1] = True
            self.withdrawn += 1
            return "withdrawn"
        if verb == b"write" and holds:
            place, data = write
            self.bytes[place : place + len(data)] = data
            return "ok"
        if verb == b"show" and holds:
            return self.bytes.hex()
        if verb == b"deq" and holds:
            return self.release(False, "released")
        if verb == b"shut" and holds:
            return self.release(True, "shut")
        return "misuse"

    def summary(self, at):
        left = sum(not withdrawn for _, withdrawn, _ in self.requests)
        return summary(at, self.served, self.withdrawn, self.told, left)


def summary(at, served, withdrawn, told, left):
    return f"line {at} served {served} withdrawn {withdrawn} told {told} left {left}"


def replay(text):
    (_, count, lease), commands = read_script(text, schedule_header, command)
    lines = [Line(lease) for _ in range(count)]
    said = [lines[line].answer(verb, node, write) for verb, node, line, write in commands]
    return said + [line.summary(at) for at, line in enumerate(lines)]


# Step scripts

EVENTS = b"reset prepend link load home done grant roll freed close".split()


def step_header(words):
    if len(words) not in (2, 4) or words[0] != b"nodes":
        raise Fault
    return number(words[1], 1, MAX_NODES), read_lease(words[2:])


def event(header, words):
    if len(words) == 2 and words[0] in EVENTS:
        pass
    elif len(words) == 4 and words[0] == b"write":
        placed(words[2], words[3])
    else:
        raise Fault
    return words[0].decode(), number(words[1], 1, header[0])


class Node:
    """A node of the link line: the fields of its entry, its point in its call, the entry or node that the point names, and its release."""

    def __init__(self):
        self.point, self.at, self.reason, self.passed = "Idle", None, None, []
        self.reset()

    def reset(self):
        self.granted = self.rolled = self.done = self.freed = False
        self.link = 0


class Core:
    """The link line's reversed links, one word step at a time."""

    def __init__(self, nodes, lease):
        self.nodes = {n: Node() for n in range(1, nodes + 1)}
        self.newest, self.closed, self.turns_left = 0, False, lease

    def step(self, name, n):
        """The answer of the event, or None if the node's point does not allow the event."""
        node = self.nodes[n]
        allowed = {
            "reset": ("Idle", "Shut"),
            "prepend": ("Ready",),
            "link": ("Linking",),
            "load": ("Queued", "Left", "Rolled"),
            "home": ("Holding", "Leaving"),
            "done": ("Marking",),
            "grant": ("Granting",),
            "roll": ("Queued",),
            "freed": ("Freeing",),
            "write": ("Holding",),
            "close": ("Holding",),
        }
        if node.point not in allowed[name]:
            return None
        return getattr(self, name)(n, node)

    def move(self, node, point, at=None, told="went"):
        node.point, node.at = point, at
        return told

    def arrive(self, n, node):
        if not self.closed:
            return self.move(node, "Holding", told="granted")
        return self.leave(n, node, "told")

    def leave(self, n, node, reason):
        """Begins the release of the node."""
        if reason != "told" and self.turns_left is not None:
            self.turns_left -= 1
        node.reason, node.passed = reason, []
        return self.move(node, "Leaving", n)

    def gone(self, n, node, at=None):
        """Moves the line out of the node's hand: into the mailbox of `at`, if that is an entry from which no node takes it yet."""
        node.keeps = at == n
        if node.passed:
            return self.move(node, "Freeing")
        return self.over(node)

    def over(self, node):
        point, told = {"own": ("Idle", "released"), "shut": ("Shut", "shut"), "told": ("Shut", "closed")}[node.reason]
        return self.move(node, "Left" if node.keeps else point, told=told)

    def reset(self, n, node):
        node.reset()
        return self.move(node, "Ready")

    def prepend(self, n, node):
        before, self.newest = self.newest, n
        return self.move(node, "Linking", before) if before else self.arrive(n, node)

    def link(self, n, node):
        before = self.nodes[node.at]
        before.link = n
        return self.arrive(n, node) if before.done else self.move(node, "Queued", told="queued")

    def load(self, n, node):
        if node.point == "Queued":
            return self.arrive(n, node) if node.granted else "waiting"
        if node.point == "Left":
            clear = node.link != 0
        else:
            clear = node.freed and not (node.done and node.link == 0)
        return self.move(node, "Idle", told="free") if clear else "busy"

    def home(self, n, node):
        if node.point == "Holding":
            closes = self.turns_left == 1
            self.closed = self.closed or closes
            self.leave(n, node, "shut" if closes else "own")
        if self.newest != node.at:
            return self.move(node, "Marking", node.at)
        self.newest = 0
        return self.gone(n, node)

    def done(self, n, node):
        entry = self.nodes[node.at]
        entry.done = True
        return self.move(node, "Granting", entry.link) if entry.link else self.gone(n, node, node.at)

    def grant(self, n, node):
        entry = self.nodes[node.at]
        entry.granted = True
        if not entry.rolled:
            return self.gone(n, node)
        node.passed.append(node.at)
        return self.move(node, "Leaving", node.at)

    def roll(self, n, node):
        node.rolled = True
        return self.arrive(n, node) if node.granted else self.move(node, "Rolled", told="withdrawn")

    def freed(self, n, node):
        self.nodes[node.passed.pop(0)].freed = True
        return "went" if node.passed else self.over(node)

    def write(self, n, node):
        return "went"

    def close(self, n, node):
        self.closed = True
        return self.leave(n, node, "shut")


def steps(text):
    (nodes, lease), events = read_script(text, step_header, event)
    core = Core(nodes, lease)
    said = [core.step(name, n) or "refused" for name, n in events]
    at_rest = ("Idle", "Ready", "Left", "Rolled", "Shut")
    left = sum(node.point not in at_rest for node in core.nodes.values())
    counts = (sum(said.count(word) for word in words) for words in (("released", "shut"), ("withdrawn",), ("closed",)))
    return said + [summary(0, *counts, left)]


# Work scripts


def board_header(words):
    if len(words) != 3 or words[:2] != [b"board", b"workers"]:
        raise Fault
    return number(words[2], 1, MAX_NODES), 1


def board_job(header, words):
    if len(words) == 2 and words[1] == b"take":
        return "take", number(words[0], 1, header[0]), None
    if len(words) == 3 and words[1] == b"put":
        return "put", number(words[0], 1, header[0]), number(words[2], 0, MAX_NUMBER)
    raise Fault


def bank_header(words):
    if len(words) != 5 or words[:2] != [b"bank", b"workers"] or words[3] != b"lines":
        raise Fault
    return number(words[2], 1, MAX_NODES), number(words[4], 1, MAX_LINES)


def bank_job(header, words):
    workers, lines = header
    verb = words[1] if len(words) > 1 else None
    accounts = {(b"in", 4): 1, (b"out", 4): 1, (b"move", 5): 2}.get((verb, len(words)))
    if accounts is None:
        raise Fault
    worker = number(words[0], 1, workers)
    of = [number(word, 0, 8 * lines - 1) for word in words[2 : 2 + accounts]]
    return verb.decode(), worker, (*of, number(words[-1], 0, MAX_NUMBER))


def numbers_of(report, names):
    """The numbers of a report, which has a line for each of these names; None if the text is no such report."""
    lines = report.split("\n")
    if lines.pop() != "" or len(lines) != len(names):
        return None
    found = []
    for line, name in zip(lines, names):
        word, _, digits = line.partition(" ")
        if word != name or not digits.isdecimal() or str(int(digits)) != digits:
            return None
        found.append(int(digits))
    return found


def board_alone(jobs):
    """The report of a board on which one worker does all jobs."""
    stored = full = taken = empty = 0
    for verb, _, _ in jobs:
        held = stored - taken
        if verb == "put":
            stored, full = stored + (held < MAX_TASKS), full + (held == MAX_TASKS)
        else:
            taken, empty = taken + (held > 0), empty + (held == 0)
    return [stored, full, taken, empty, stored - taken]


def board(text):
    """A check of the report of a board's work: does it agree with the definitions?"""
    _, jobs = read_script(text, board_header, board_job)
    puts = sum(verb == "put" for verb, _, _ in jobs)
    takes = len(jobs) - puts
    alone = board_alone(jobs) if len({worker for _, worker, _ in jobs}) <= 1 else None

    def may_be(report):
        found = numbers_of(report, ["stored", "full", "taken", "empty", "left"])
        if found is None or alone is not None:
            return found is not None and found == alone
        stored, full, taken, empty, left = found
        return (
            stored + full == puts
            and taken + empty == takes
            and stored == taken + left
            and left <= MAX_TASKS
            and (full == 0 or stored >= MAX_TASKS)
        )

    return may_be


def bank_alone(jobs):
    """The report of a bank at which one worker does all jobs."""
    balances, paid_in, paid_out = {}, 0, 0
    for verb, _, (*of, amount) in jobs:
        first, last = of[0], of[-1]
        if verb == "in" and balances.get(first, 0) + amount <= MAX_BALANCE:
            balances[first] = balances.get(first, 0) + amount
            paid_in += amount
        elif verb == "out" and balances.get(first, 0) >= amount:
            balances[first] = balances.get(first, 0) - amount
            paid_out += amount
        elif verb == "move" and first != last and balances.get(first, 0) >= amount:
            if balances.get(last, 0) + amount <= MAX_BALANCE:
                balances[first] = balances.get(first, 0) - amount
                balances[last] = balances.get(last, 0) + amount
    return [paid_in, paid_out, paid_in - paid_out]


def bank(text):
    """A check of the report of a bank's work: does it agree with the definitions?"""
    _, jobs = read_script(text, bank_header, bank_job)
    offered = sum(of[-1] for verb, _, of in jobs if verb == "in" and of[-1] <= MAX_BALANCE)
    wanted = sum(of[-1] for verb, _, of in jobs if verb == "out")
    all_fit = offered <= MAX_BALANCE
    alone = bank_alone(jobs) if len({worker for _, worker, _ in jobs}) <= 1 else None

    def may_be(report):
        found = numbers_of(report, ["in", "out", "total"])
        if found is None or alone is not None:
            return found is not None and found == alone
        paid_in, paid_out, total = found
        return (
            total == paid_in - paid_out
            and paid_in <= offered
            and (paid_in == offered or not all_fit)
            and paid_out <= wanted
        )

    return may_be


DEFINITIONS = {"replay": replay, "steps": steps, "board": board, "bank": bank}


def answer_to(task, text):
    """The status, standard output and standard error that a run must end with. If workers share a board or a bank, the output is a check of the report."""
    if len(text) > MAX_BYTES:
        return 1, "", "script too long\n"
    try:
        answer = DEFINITIONS[task](text)
    except BadLine as fault:
        return 1, "", f"bad line {fault}\n"
    if callable(answer):
        return 0, answer, ""
    return 0, "".join(f"{line}\n" for line in answer), ""


def is_right(wanted, found):
    """Returns True if a run ended as it must."""
    status, out, err = wanted
    if found[0] != status or found[2] != err:
        return False
    return out(found[1]) if callable(out) else found[1] == out


# Runs of the program

PROGRAM = ROOT / "crates/qolb/out/qolb"
# The kinds of lines that nodes share, as `--kind` names them.
LOCKS = [crate.removesuffix("_line") for crate in locks()]
# A run at the least priority may get no processor for minutes on a busy machine.
SECONDS = 600


def the_program():
    """The path in the first argument, or else that of the proved program."""
    path = sys.argv[1] if len(sys.argv) > 1 else PROGRAM
    if not os.access(path, os.X_OK):
        sys.exit(f"there is no program {path}: see README.md for how to build it")
    return os.path.abspath(path)


def run(program, words, script, **how):
    """The status (minus the signal's number, if a signal ended the run; None if it did not end in time), standard output and error."""
    try:
        ended = subprocess.run([program, *words], input=script, capture_output=True, timeout=SECONDS, **how)
    except subprocess.TimeoutExpired:
        return None, "", ""
    return ended.returncode, ended.stdout.decode("latin-1"), ended.stderr.decode("latin-1")
