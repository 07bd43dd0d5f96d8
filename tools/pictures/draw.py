#!/usr/bin/env python3
"""Writes docs/figures/*.svg, which are the pictures in the pages that the program qolb does not draw. This program draws two diagrams itself, and plots.py
draws the plots.

    tools/pictures/draw.py            writes the pictures
    tools/pictures/draw.py --check    writes nothing, and ends with status 1 if a picture differs from the one that would be written

To convert a picture to PNG: rsvg-convert --background-color white docs/figures/layers.svg > layers.png (Debian's package librsvg2-bin).
"""

import pathlib
import sys

import plots
from svg import Picture

FOLDER = pathlib.Path(__file__).resolve().parents[2] / "docs/figures"

# ---- The five layers, with the crates of each ----

WIDTH, TALL, GAP, SIDE, NAMES = 860, 62, 12, 16, 118
MODEL = 130
RIGHT = WIDTH - SIDE - MODEL - GAP

# Of each layer its name, and its parts: a title, its crates or files, and a colour.
LAYERS = (
    ("program and C", (("program", "qolb, qolb_serve, qolb_run", "a"), ("your program in Rattle", "line_board, line_accounts", "a"), ("calls for C", "qolb_nodes, qolb_locks", "a"), ("C, C++, Rust", "c/src, c/rust", "c"))),
    ("waits", (("Rattle", "line_blocking", "a"), ("C", "calls.c, callbacks.c, lock/", "c"))),
    ("line body", (("Line<K, Q>: every call, once for all locks", "line_generic", "b"),)),
    ("discipline", (("ring", "ring_line, line_cells", "b"), ("ticket line", "ticket_line, line_cells", "b"), ("link line", "link_line, link_core", "b"))),
    ("words", (("one atomic operation on 64 bits each", "atomic_table, of the kit", "box"),)),
)


def five_layers():
    height = 34 + (TALL + GAP) * len(LAYERS) + 30
    picture = Picture(WIDTH, height, "The five layers: each uses those below it, by their contracts alone")
    picture.text(WIDTH / 2, 20, picture.title, "strong")
    for k, (name, parts) in enumerate(LAYERS):
        y = 34 + (TALL + GAP) * k
        picture.text(SIDE, y + TALL / 2 + 4, name, "strong", "start")
        # A box is as wide as what it has to say.
        letters = [max(len(title), len(crates)) + 4 for title, crates, _ in parts]
        letter = (RIGHT - NAMES - SIDE - GAP * (len(parts) - 1)) / sum(letters)
        x = SIDE + NAMES
        for (title, crates, kind), count in zip(parts, letters):
            wide = count * letter
            picture.box(x, y, wide, TALL, kind)
            picture.text(x + wide / 2, y + 26, title, "strong small")
            picture.text(x + wide / 2, y + 46, crates, "small")
            x += wide + GAP
    tall = (TALL + GAP) * 4 - GAP
    picture.box(WIDTH - SIDE - MODEL, 34, MODEL, tall, "d")
    for line, words in enumerate(("qolb_model", "the specification", "that all of these cite")):
        picture.text(WIDTH - SIDE - MODEL / 2, 34 + tall / 2 - 12 + 20 * line, words, "strong small" if line == 0 else "small")
    legend = (("a", "proved, in Rattle"), ("b", "proved, the locks"), ("c", "C: explored and tested"), ("box", "trusted"))
    for k, (kind, says) in enumerate(legend):
        x = SIDE + NAMES + (0, 140, 280, 500)[k]
        picture.box(x, height - 24, 14, 12, kind, 3)
        picture.text(x + 20, height - 13, says, "small", "start")
    return picture


# ---- The states of a node, and the calls that lead from one to another ----

STATES_WIDTH, STATES_HEIGHT = 900, 440
STATE_WIDTH, STATE_HEIGHT = 112, 36


def state(picture, x, y, name, says, kind="box"):
    """Draws a state as a box, with its meaning below its name."""
    picture.box(x - STATE_WIDTH / 2, y - STATE_HEIGHT / 2, STATE_WIDTH, STATE_HEIGHT, kind)
    inside = "" if kind == "box" else " inside"
    picture.text(x, y - 1, name, f"strong{inside}")
    picture.text(x, y + 13, says, f"small{inside}")


def label(picture, x, y, call, answer, anchor="middle"):
    """Draws a call, and the answer with which it leads on."""
    picture.text(x, y, call, "code", anchor)
    if answer:
        picture.text(x, y + 15, answer, "small", anchor)


def draw_states(picture):
    """The seven states."""
    picture.box(24, 70, 150, 250, "box", 8)
    picture.text(99, 60, "may ask", "strong")
    for y, name, says in ((102, "Idle", "nothing is open"), (164, "Rolled", "withdrawn"), (226, "Left", "link line: left here"), (288, "Shut", "knows: closed")):
        picture.box(34, y - STATE_HEIGHT / 2, 130, STATE_HEIGHT)
        picture.text(99, y - 1, name, "strong")
        picture.text(99, y + 13, says, "small")
    state(picture, 460, 164, "Queued", "its request waits", "waits")
    state(picture, 800, 164, "Holding", "has the line", "holds")
    state(picture, 460, 344, "Linking", "not linked yet")


def draw_calls(picture):
    """The calls, each from a state to a state."""
    picture.line(174, 150, 402, 150, "line", "tip")
    label(picture, 288, 142, "enqolb: Queued", "")
    picture.line(402, 178, 168, 178, "line", "tip")
    label(picture, 280, 195, "withdraw: Withdrawn", "to Rolled")
    picture.path("M406,182 C400,262 340,276 176,276", "line", "tip")
    label(picture, 276, 240, "poll, withdraw: Closed", "to Shut or Left")
    picture.line(516, 164, 742, 164, "arrow", "hottip")
    label(picture, 629, 156, "poll, withdraw: Granted", "")
    picture.path("M440,146 C430,104 490,104 480,145", "line", "tip")
    label(picture, 460, 106, "poll: Waiting", "")
    picture.path("M174,88 C360,44 700,44 790,144", "arrow", "hottip")
    label(picture, 470, 48, "enqolb: Granted", "")
    picture.path("M800,182 C800,330 640,302 520,302 C400,302 300,302 176,302", "line", "tip")
    label(picture, 640, 262, "deqolb: Idle or Left", "")
    label(picture, 640, 280, "shut: Shut or Left", "")
    picture.path("M99,320 C99,350 240,350 402,350", "line", "tip")
    label(picture, 250, 366, "prepend: Linking", "")
    picture.line(460, 326, 460, 184, "line", "tip")
    label(picture, 468, 222, "link: Queued", "", "start")


NOTES = (
    "enqolb, answered Busy, changes nothing; answered Closed, it leads where poll does.",
    "At the last turn of a lease, deqolb leads where shut does.",
    "prepend and link are the two halves of a link line's enqolb, and may be answered Granted or Closed too.",
)


def states_of_a_node():
    picture = Picture(STATES_WIDTH, STATES_HEIGHT, "The states of a node, and the calls that lead from one to another")
    picture.text(STATES_WIDTH / 2, 20, picture.title, "strong")
    draw_states(picture)
    draw_calls(picture)
    for k, words in enumerate(NOTES):
        picture.text(24, 394 + 17 * k, words, "small", "start")
    return picture


def main():
    drawn = {"layers": five_layers(), "node_states": states_of_a_node(), **plots.pictures()}
    stale = []
    for name, picture in drawn.items():
        path = FOLDER / f"{name}.svg"
        if "--check" in sys.argv[1:]:
            if not path.is_file() or path.read_text() != picture.svg():
                stale.append(path.name)
        else:
            path.write_text(picture.svg())
    if stale:
        sys.exit(f"stale: {', '.join(stale)}")
    print(f"{len(drawn)} pictures")


if __name__ == "__main__":
    main()
