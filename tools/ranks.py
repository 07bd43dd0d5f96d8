#!/usr/bin/env python3
"""Explores all states of a link line's core that events can reach, for several numbers of nodes, and checks them against the theorems about progress.

    tools/ranks.py [NODES ..]     (1, 2 and 3 nodes if none is given; 3 nodes take about 10 seconds)

In each state the following must hold. A productive event lowers the rank (a ranking function) by at least one. No event raises the rank except a
request, which raises it by at most 5. For each open request, no event raises the request's rank while the request is open, and a productive event
lowers this rank by one unless its node is making a later request. If a request is open, the node that the line names has a productive event. With k
pending nodes the rank is at most 5k - 3. The longest sequence of productive events is exactly as long as the rank. Only this last statement is
proved nowhere else. The program ends with status 1 at the first state that violates a statement.

The events are implemented here a second time, from the table in docs/SCRIPTS.md. Leases and bytes are left out, because they do not affect the
ranks.
"""
import sys
from functools import lru_cache

EMPTY = (False, False, False, False, 0)
GRANTED, ROLLED, DONE, FREED, LINK = range(5)
AT_END = {"own": "Idle", "shut": "Shut", "told": "Shut"}
WORD = {"own": "released", "shut": "shut", "told": "closed"}


def put(values, at, value):
    return values[:at] + (value,) + values[at + 1 :]


def flagged(entries, node, flag):
    return put(entries, node, put(entries[node], flag, True))


def opened(nodes):
    """The home word, the place of the line, whether it is closed, the entries, the seats (point, passed nodes, cause), the open requests' nodes."""
    return (0, ("home",), False, (EMPTY,) * (nodes + 1), ((("Idle",), (), "own"),) * (nodes + 1), ())


def arrived(node, core):
    home, _, closed, entries, seats, queue = core
    seat = (("Leaving", node), (), "told") if closed else (("Holding",), (), "own")
    return ("went" if closed else "granted"), (home, ("hand", node), closed, entries, put(seats, node, seat), queue)


def ended(seats, node, point):
    _, passed, reason = seats[node]
    if passed:
        return "went", put(seats, node, (("Freeing",), passed, reason))
    return WORD[reason], put(seats, node, ((point,), (), reason))


def is_clear(point, entry):
    return entry[LINK] != 0 if point == "Left" else entry[FREED] and not (entry[DONE] and entry[LINK] == 0)


def asking(core, node, point):
    home, place, closed, entries, seats, queue = core
    _, passed, reason = seats[node]
    if point[0] in ("Idle", "Shut"):
        yield "reset", "went", (home, place, closed, put(entries, node, EMPTY), put(seats, node, (("Ready",), passed, reason)), queue)
    elif point[0] == "Ready" and home == 0:
        yield ("prepend",) + arrived(node, (node, place, closed, entries, seats, queue + (node,)))
    elif point[0] == "Ready":
        yield "prepend", "went", (node, place, closed, entries, put(seats, node, (("Linking", home), passed, reason)), queue + (node,))
    elif point[0] == "Linking":
        linked = put(entries, point[1], put(entries[point[1]], LINK, node))
        if entries[point[1]][DONE]:
            yield ("link",) + arrived(node, (home, place, closed, linked, seats, queue))
        else:
            yield "link", "queued", (home, place, closed, linked, put(seats, node, (("Queued",), passed, reason)), queue)


def waiting(core, node, point):
    home, place, closed, entries, seats, queue = core
    _, passed, reason = seats[node]
    entry = entries[node]
    if point[0] == "Queued":
        rolled = flagged(entries, node, ROLLED)
        if entry[GRANTED]:
            yield ("load",) + arrived(node, core)
            yield ("roll",) + arrived(node, (home, place, closed, rolled, seats, queue))
        else:
            yield "load", "waiting", core
            yield "roll", "withdrawn", (home, place, closed, rolled, put(seats, node, (("Rolled",), passed, reason)), queue)
    elif point[0] in ("Left", "Rolled"):
        if is_clear(point[0], entry):
            yield "load", "free", (home, place, closed, entries, put(seats, node, (("Idle",), passed, reason)), queue)
        else:
            yield "load", "busy", core


def releasing(core, node, point):
    home, place, closed, entries, seats, queue = core
    _, passed, reason = seats[node]
    if point[0] == "Holding":
        yield "close", "went", (home, place, True, entries, put(seats, node, (("Leaving", node), passed, "shut")), queue)
    if point[0] in ("Holding", "Leaving"):
        at = node if point[0] == "Holding" else point[1]
        if home == at:
            told, after = ended(seats, node, AT_END[reason])
            yield "home", told, (0, ("home",), closed, entries, after, queue[1:])
        else:
            yield "home", "went", (home, place, closed, entries, put(seats, node, (("Marking", at), passed, reason)), queue)
    elif point[0] == "Marking":
        at = point[1]
        done, link = flagged(entries, at, DONE), entries[at][LINK]
        if link == 0:
            told, after = ended(seats, node, "Left" if at == node else AT_END[reason])
            yield "done", told, (home, ("mailbox", at), closed, done, after, queue[1:])
        else:
            yield "done", "went", (home, place, closed, done, put(seats, node, (("Granting", link), passed, reason)), queue)
    elif point[0] == "Granting":
        to = point[1]
        granted = flagged(entries, to, GRANTED)
        if entries[to][ROLLED]:
            yield "grant", "went", (home, place, closed, granted, put(seats, node, (("Leaving", to), passed + (to,), reason)), queue[1:])
        else:
            told, after = ended(seats, node, AT_END[reason])
            yield "grant", told, (home, ("mailbox", to), closed, granted, after, queue[1:])
    elif point[0] == "Freeing":
        freed = flagged(entries, passed[0], FREED)
        told, after = ended(put(seats, node, (point, passed[1:], reason)), node, AT_END[reason])
        yield "freed", told, (home, place, closed, freed, after, queue)


def events(core):
    """The enabled events, each as its node, its kind, its answer, and the core after it."""
    for node in range(1, len(core[4])):
        point = core[4][node][0]
        for group in (asking, waiting, releasing):
            for kind, told, after in group(core, node, point):
                yield node, kind, told, after


def is_productive(kind, told):
    return kind in ("link", "home", "done", "grant", "freed") or (kind == "load" and told in ("went", "granted"))


def to_go(core, node):
    entries, point = core[3], core[4][node][0]
    if point[0] == "Linking":
        return 4 if entries[point[1]][DONE] else 5
    if point[0] == "Rolled":
        return 0 if entries[node][FREED] else 1 if entries[node][GRANTED] else 4
    return {"Queued": 4, "Holding": 3, "Leaving": 3, "Marking": 2, "Granting": 1}.get(point[0], 0)


def rank(core):
    return sum(to_go(core, node) for node in range(1, len(core[4]))) - (2 if core[0] else 0)


def rank_for(core, behind):
    return sum(to_go(core, node) for node in range(1, len(core[4])) if node not in behind)


def is_pending(core, node):
    point = core[4][node][0][0]
    return point not in ("Idle", "Ready", "Left", "Shut") and not (point == "Rolled" and core[3][node][FREED])


def acts_next(core):
    """The node that the line names: its holder, or the granted node, or the node that is to link to the entry with the line."""
    where, *node = core[1]
    if where == "hand" or core[4][node[0]][0][0] == "Queued":
        return node[0]
    return core[5][0]


def hold(fact, core, what):
    if not fact:
        print(f"{what}, at {core}")
        sys.exit(1)


def judge(core):
    """Checks the core's events against the laws; returns the cores after its productive events."""
    ways = []
    queue = core[5]
    for node, kind, told, after in events(core):
        productive = is_productive(kind, told)
        most = rank(core) + (5 if kind == "prepend" else 0)
        hold(rank(after) < rank(core) if productive else rank(after) <= most, core, f"{kind} {node} raises the rank")
        still = len(queue) - len(after[5]) if kind != "prepend" else 0
        for place in range(still, len(queue)):
            behind = set(queue[place + 1 :])
            now = rank_for(after, behind | ({node} if kind == "prepend" else set()))
            takes = 1 if productive and node not in behind else 0
            hold(now + takes <= rank_for(core, behind), core, f"{kind} {node} raises the rank for the request of {queue[place]}")
        if productive:
            ways.append((node, after))
    if queue:
        hold(acts_next(core) in [node for node, _ in ways], core, "there is no way on")
    pending = sum(is_pending(core, node) for node in range(1, len(core[4])))
    hold(rank(core) <= 5 * pending - 3 if pending else rank(core) == 0, core, "the rank is too high")
    return [after for _, after in ways], pending


def explore(nodes):
    start = opened(nodes)
    seen, todo, ways, highest = {start}, [start], {}, {}
    while todo:
        core = todo.pop()
        ways[core], pending = judge(core)
        highest[pending] = max(highest.get(pending, 0), rank(core))
        for _, _, _, after in events(core):
            if after not in seen:
                seen.add(after)
                todo.append(after)

    @lru_cache(maxsize=None)
    def longest(core):
        return max((1 + longest(after) for after in ways[core]), default=0)

    for core in seen:
        hold(longest(core) == rank(core), core, f"the longest row is {longest(core)}")
    ranks = ", ".join(f"{highest[k]} of {k}" for k in sorted(highest))
    print(f"{nodes} nodes: {len(seen)} cores, each with its rank; highest rank by pending nodes: {ranks}")


for argument in sys.argv[1:] or ["1", "2", "3"]:
    explore(int(argument))
