"""Plots figures from c/bench/figures: the speed of the library's locks compared with that of other locks, the memory of a line, and a
simulation of larger machines.
"""

import math
import pathlib
import sys

from svg import Picture

sys.path.append(str(pathlib.Path(__file__).resolve().parents[1]))
import figures
from figures import LINES, rows_of

WIDTH, LEFT, RIGHT, TOP = 760, 60, 540, 36
COLOURS = {"ticket line": "#2da44e", "ring": "#d9730d", "link line": "#3b82f6", "MCS": "#768390", "strict": "#cf222e", "barging": "#8250df",
           "ticket node": "#2da44e", "pthread_mutex": "#bf8700", "absl::Mutex": "#0969da", "parking_lot": "#e85aad"}
# The curves of the plot of locks beside each other.
PEERS = ("strict", "barging", "ticket node", "pthread_mutex", "absl::Mutex", "parking_lot", "MCS")


class Plot:
    """Axes with one column for each of some counts, and a key at the right."""

    def __init__(self, title, below, columns, bottom):
        self.picture = Picture(WIDTH, bottom + 62, title)
        self.columns, self.bottom, self.keys = columns, bottom, 0
        self.picture.text(LEFT, 20, title, anchor="start")
        self.picture.text((LEFT + RIGHT) / 2, bottom + 40, below)
        for k, column in enumerate(columns):
            self.picture.text(self.x(k), bottom + 20, str(column))

    def x(self, k):
        """The place of a column, from the left."""
        return LEFT + (k + 0.5) * (RIGHT - LEFT) / len(self.columns)

    def scale(self, low, high, marks, log=False):
        """Sets the scale from the bottom to the top, with a line and its number at each mark."""
        of = math.log if log else float
        self.y = lambda value: self.bottom - (of(value) - of(low)) / (of(high) - of(low)) * (self.bottom - TOP)
        for mark in marks:
            self.picture.line(LEFT, self.y(mark), RIGHT, self.y(mark), "faint")
            self.picture.text(LEFT - 8, self.y(mark) + 4, f"{mark:g}", anchor="end")
        self.picture.line(LEFT, self.bottom, RIGHT, self.bottom)

    def key(self, name, shape):
        """Writes a name beside its sign."""
        y = TOP + 10 + 24 * self.keys
        self.keys += 1
        self.picture.shapes.append(shape(RIGHT + 20, y))
        self.picture.text(RIGHT + 54, y + 4, name, anchor="start")

    def curve(self, name, values, colour, dashes="", has_key=True):
        """Draws a value for each column, with a line between them."""
        style = f'style="fill: none; stroke: {colour}; stroke-width: 2; stroke-dasharray: {dashes or "none"}"'
        points = [(self.x(k), self.y(value)) for k, value in enumerate(values)]
        self.picture.shapes.append(f'<polyline points="{" ".join(f"{x:.1f},{y:.1f}" for x, y in points)}" {style}/>')
        for x, y in points:
            self.picture.shapes.append(f'<circle cx="{x:.1f}" cy="{y:.1f}" r="3.5" style="fill: {colour}"/>')
        if has_key:
            self.key(name, lambda x, y: f'<path d="M{x},{y} h26" {style}/>')

    def bars(self, name, values, colour, place, opacity):
        """Draws a bar for each column, at one of four places."""
        style = f'style="fill: {colour}; fill-opacity: {opacity}"'
        for k, value in enumerate(values):
            x, y = self.x(k) + (place - 2) * 19, self.y(value)
            self.picture.shapes.append(f'<rect x="{x:.1f}" y="{y:.1f}" width="17" height="{self.bottom - y:.1f}" {style}/>')
        self.key(name, lambda x, y: f'<rect x="{x}" y="{y - 7}" width="26" height="14" {style}/>')

    def source(self, name):
        """Writes the command that gave a file of figures, its date and its machine."""
        command, date, machine = (figures.fact(name, key) for key in ("command", "date", "machine"))
        words = f"{' '.join(command.split()[:2])}, {date.split(',')[0]}, {machine}".replace("(R)", "")
        self.picture.text(8, self.bottom + 58, words, "small", "start")


def peers():
    """The time of a critical section of 1 us by threads that work for 3 us outside, by their number."""
    found = {key: of for key, of in figures.peers_of(figures.PEERS, "ns").items() if key[0] == "T"}
    threads = sorted(count for _, count in found)
    plot = Plot("ns a critical section of 1 us, with 3 us outside: lower is better", "threads that use one lock", threads, 260)
    most = max(found["T", count][name] for count in threads for name in PEERS if name in found["T", count])
    plot.scale(900, max(most * 1.1, 5000), [mark for mark in (1000, 2000, 5000, 10000, 100000, 1000000) if mark < most * 1.1 or mark <= 5000], log=True)
    for name in PEERS:
        if all(name in found["T", count] for count in threads):
            plot.curve(name, [found["T", count][name] for count in threads], COLOURS[name], "" if name in figures.OURS else "7 5")
    plot.source(figures.PEERS)
    return plot.picture


def memory():
    """The bytes of a line with its ports in Rattle, and of all that an open line keeps from C, by the number of nodes."""
    counts = list(figures.c_memory()["ring"])
    found = {(row["name"], row["nodes"]): int(row["table"]) + int(row["ports"]) for row in rows_of("memory.tsv")}
    plot = Plot("kilobytes of a line with its nodes: lower is better", "nodes that the line is opened for", counts, 270)
    plot.scale(0.4, 160, (0.5, 1, 2, 5, 10, 20, 50, 100), log=True)
    for name in LINES:
        plot.curve(f"{name}, Rattle", [found[name, count] / 1000 for count in counts], COLOURS[name])
        in_c = figures.c_memory()[name.split()[0]]
        plot.curve(f"{name} from C", [int(in_c[count].replace(",", "")) / 1000 for count in counts], COLOURS[name], "2 4")
    return plot.picture


def scale():
    """The time of a critical section in a simulation, by the number of processors that wait."""
    found = {(row["lock"], row["sockets"], int(row["waiters"])): float(row["ns"]) for row in rows_of("scale.tsv")}
    waiters = sorted({count for _, _, count in found})
    plot = Plot("SIMULATED nanoseconds of a critical section: lower is better", "processors that wait for one lock; dotted: on two sockets", waiters, 270)
    plot.scale(40, 10000, (50, 100, 200, 500, 1000, 2000, 5000), log=True)
    for name in dict.fromkeys(lock for lock, _, _ in found):
        for sockets, dashes in (("1", ""), ("2", "2 4")):
            plot.curve(name, [found[name, sockets, count] for count in waiters], COLOURS[name], dashes, has_key=sockets == "1")
    plot.source("scale.tsv")
    return plot.picture


def pictures():
    """The pictures by their names."""
    return {"peers": peers(), "scale": scale(), "memory": memory()}
