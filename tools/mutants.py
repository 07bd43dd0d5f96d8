"""Reads the mutants of crates. A mutant is a deliberately wrong edit of a crate, which the prover or a test must refuse. This module reads their
notation, finds the text that a mutant replaces, and computes how the mutant changes the files of the crate.

A mutant in a crate's mutants.edits names a function, a text in it, and the text that replaces it:

  == NAME                   above each mutant
  in: PATH FUNCTION         a file in the folder of the crate, and a function of that file; `Type::name` is one in an `impl` whose line has that type.
                            Without FUNCTION the whole file is meant: for constants, types, proofs
  old: TEXT                 the function has this once; lines in a row are one text of several lines
  new: TEXT                 further changes follow, and further functions
  harmless: TEXT            if it is there: a text in the place of `new` with which the crate must be proved
  shows: WHAT               for a test to refuse: what it shows, and the test that must not pass
  test: CRATE::PATH::NAME

Only the words and signs of `old` are compared. The file may have other spaces and line breaks, comments between the words, and a comma before a closing
bracket. `$name` in `old` stands for a local variable, whatever its name is now, and `$name` in `new` and `harmless` stands for the variable that was
found. A `$name` that `old` does not contain stands for the variable with exactly this name, and the function must have such a variable. The new text
gets the indentation of the text that it replaces.

A mutant of must-fail/ is a file in the format of the gate: it has `file: PATH` instead of `in:`, and the file at PATH contains `old` exactly once,
character by character.

The faults that the model checkers plant in the C library (tools/explore_lock.py, tools/explore_nodes.py) are changes of the same kind, each in a
function of C. If the function contains the old text exactly once, character by character, that text is replaced. Otherwise words and signs are compared,
with `$name` for a local variable.
"""

import collections
import difflib
import functools
import itertools
import re

from crates import PARTS
from tests import left_out, tests_of

# A change of a mutant: the file, the function ("" for the whole file, None for a mutant of must-fail/), the old text, the new one, a harmless one or None.
Change = collections.namedtuple("Change", "file function old new harmless")
# A function of a file: its name, the line of the impl, trait or module that it is in, where it begins and ends.
Function = collections.namedtuple("Function", "name owner begin end")

HEAD = re.compile(r'^( *)(?:pub(?:\(\w+\))? )?(?:extern "C" )?fn (\w+)', re.M)
# The head of a function of C that begins a line, up to its brace.
HEAD_IN_C = re.compile(r"^[a-zA-Z_][^\n;={}]*?\b([a-z_]\w*)\([^;{}]*\) \{", re.M)
HOLE = re.compile(r"\$([a-z_]\w*)")
# What a file may have between two words or signs of a pattern.
GAP = r"(?:\s|//[^\n]*\n|/\*(?:[^*]|\*(?!/))*\*/)*"
CLOSING = set(")]}")
MACRO = re.compile(r"^macro_rules!.*?^\}", re.M | re.S)
KEYS = {".edits": "in|old|new|harmless|shows|test", ".edit": "file|old|new|harmless|shows|test"}


class Mutant:
    def __init__(self, crates, crate, name, text):
        self.crate, self.name, self.text = crate, f"{crate.name}/{name}", text
        said, self.changes = read(text)
        self.test = said.get("test")
        self.tested = crates[self.test.partition("::")[0]] if self.test else None
        # Those of one batch are tried one after another.
        self.batch = self.name if self.test else crate.name

    def takes_all_memory(self):
        return bool(self.test) and self.test.rpartition("::")[2] in left_out(self.tested)

    def concerns(self, names):
        return not names or self.crate.name in names or (self.test and self.tested.name in names)


def read(text):
    """What a mutant says of itself, and its changes. Lines of one kind in a row are one text."""
    rows = [it.groups() for it in map(re.compile(r"(\w+):(?: (.*))?$").match, text.splitlines()) if it]
    said, changes = {}, []
    for key, group in itertools.groupby(rows, key=lambda it: it[0]):
        value = "\n".join(it or "" for _, it in group)
        if key == "in":
            said["file"], _, said["function"] = value.partition(" ")
        elif key == "new":
            changes.append(Change(said["file"], said.get("function"), said["old"], value, None))
        elif key == "harmless" and changes:
            changes[-1] = changes[-1]._replace(harmless=value)
        else:
            said[key] = value
    return said, changes


def packed(file):
    """The mutants of a file, each with its name, which the line `== NAME` above it has."""
    _, *parts = re.split(r"^== (\S+)\n", file.read_text() if file.is_file() else "", flags=re.M)
    return zip(parts[::2], parts[1::2])


def mutants_of(crates, names=(), only=""):
    found = []
    for it in crates.values():
        gate = [(file.stem, file.read_text()) for file in sorted((it.folder / "must-fail").glob("*.edit"))]
        found += [Mutant(crates, it, *mutant) for mutant in [*gate, *packed(it.folder / "mutants.edits")]]
    return [it for it in found if only in it.name and it.concerns(names)]


# ---- Where a text stands ----


@functools.lru_cache(maxsize=None)
def functions(text):
    """The functions of a file, as rt fmt formats them: each ends at a brace below its first letter, or before the next item there."""
    found = []
    for head in HEAD.finditer(text):
        indent, name = head.groups()
        end = re.compile(rf"^{indent}(?:\}}$|(?=///|#\[|(?:pub[^\n]* )?fn ))", re.M).search(text, head.end())
        outer = rf"^ {{0,{len(indent) - 1}}}(?:pub(?:\(\w+\))? )?(?:impl|trait|mod)\b[^\n]*"
        owners = re.findall(outer, text[: head.start()], re.M) if indent else []
        found.append(Function(name, owners[-1] if owners else "", head.start(), end.end() if end else len(text)))
    return found


@functools.lru_cache(maxsize=None)
def functions_in_c(text):
    """The functions of a file of C, as clang-format formats them: each ends at a brace that begins a line, or in its first line."""
    found = []
    for head in HEAD_IN_C.finditer(text):
        line = text.find("\n", head.start())
        end = line if text[line - 1] == "}" else text.find("\n}\n", head.start()) + 2
        found.append(Function(head[1], "", head.start(), end))
    return found


def is_in_c(file):
    return str(file).endswith((".c", ".h"))


def functions_of(file, text):
    return functions_in_c(text) if is_in_c(file) else functions(text)


def named(text, change):
    """The functions of a file that a change means by its line `in:`."""
    owner, _, name = change.function.rpartition("::")
    return [it for it in functions_of(change.file, text) if it.name == name and owner in it.owner]


@functools.lru_cache(maxsize=None)
def pattern(old):
    """An expression that finds a text by its words and signs; its groups are the holes."""
    tokens = re.findall(r"\$?\w+|\S", old)
    parts = []
    for it, behind in zip(tokens, [*tokens[1:], ""]):
        hole = HOLE.fullmatch(it)
        if hole:
            # No field or method: no single dot and no arrow before it.
            again = f"(?P<{hole[1]}>" in "".join(parts)
            parts.append(r"\b(?<![^.]\.)(?<!->)" + (f"(?P={hole[1]})" if again else rf"(?P<{hole[1]}>[a-z_]\w*)") + r"\b")
        elif re.match(r"\w", it):
            parts.append(rf"\b{it}\b")
        elif it in CLOSING and parts:
            parts.append(f"(?:,{GAP})?{re.escape(it)}")
        elif not (it == "," and behind in CLOSING):
            parts.append(re.escape(it))
    return re.compile(GAP.join(parts))


def within(text, change):
    """Where the functions that a change means begin and end, or the whole file."""
    return [(it.begin, it.end) for it in named(text, change)] if change.function else [(0, len(text))]


def spots(text, change):
    """Where a file has the old text of a change."""
    exact = re.compile(re.escape(change.old))
    if change.function is None:
        return list(exact.finditer(text))
    if is_in_c(change.file):
        to_the_letter = [spot for begin, end in within(text, change) for spot in exact.finditer(text, begin, end)]
        if len(to_the_letter) == 1:
            return to_the_letter
    return [spot for begin, end in within(text, change) for spot in pattern(change.old).finditer(text, begin, end)]


def edited_function(folder, changes):
    """The file and the function whose body these changes edit; None if they edit more than one body, a macro, or anything that callers read of a function."""
    found = set()
    for it in changes:
        text = (folder / it.file).read_text()
        for spot in spots(text, it):
            around = [fn for fn in functions(text) if fn.begin <= spot.start() and spot.end() <= fn.end]
            macros = [macro for macro in MACRO.finditer(text) if macro.start() < spot.start() < macro.end()]
            if macros or len(around) != 1:
                return None
            # A body begins at the first brace that ends a line as far to the left as the function's head.
            head = re.match(" *", text[around[0].begin :])[0]
            body = re.compile(rf"^{head}(?! ).*\{{$", re.M).search(text, around[0].begin, around[0].end)
            found.add((it.file, around[0]) if body and body.end() <= spot.start() else None)
    return found.pop() if len(found) == 1 else None


def lacking(text, change):
    """The variables of the function that only the new text of a change names, and that the function does not have."""
    if change.function is None:
        return []
    names = set(HOLE.findall(f"{change.new} {change.harmless}")) - set(HOLE.findall(change.old))
    # No field: no single dot and no arrow before it, and, but in C, no colon behind it.
    variables = re.compile(r"\b(?<![^.]\.)(?<!->)[a-z_]\w*\b" + ("" if is_in_c(change.file) else "(?! *:[^:])"))
    return sorted(names.difference(*(variables.findall(text, begin, end) for begin, end in within(text, change))))


def elsewhere(folder, change):
    """Where the files of a crate have the old text of a change, each with the function round it."""
    in_c = folder.rglob("*.[ch]") if is_in_c(change.file) else []
    for file in [*(it for part in PARTS for it in sorted((folder / part).rglob("*")) if it.is_file()), *sorted(in_c)]:
        text = file.read_text()
        for spot in spots(text, change if change.function is None else change._replace(function="")):
            around = [it.name for it in functions_of(file, text) if it.begin <= spot.start() and spot.end() <= it.end]
            yield f"{file.relative_to(folder)}:{text.count(chr(10), 0, spot.start()) + 1}" + "".join(f" {it}" for it in around[-1:])


def misplaced(folder, change, body, count):
    """Why a change can't be made whose old text is not there exactly once: with the places where the text is now, and the line that is most like it."""
    old = [it.strip() for it in change.old.splitlines()]
    there = [it.strip() for begin, end in within(body, change) for it in body[begin:end].splitlines()]
    why = f"{old[0]!r} stands {count} times in {' of '.join(filter(None, (change.function, change.file)))}"
    if change.function and not there:
        why = f"{change.file} has no function {change.function}"
    if count:
        return why
    name = (change.function or "").rpartition("::")[2]
    # The function itself comes first, if it was moved.
    now = sorted(elsewhere(folder, change), key=lambda it: it.rpartition(" ")[2] != name)
    near = difflib.get_close_matches(next((it for it in old if it not in there), old[0]), there, 1)
    return why + f"; {old[0]!r} is at {', '.join(now[:3])}" * bool(now) + "".join(f"; the nearest line is {it!r}" for it in near)


# ---- What a mutant makes of its crate ----


def filled(change, spot):
    """The new text of a change, with the variables and the indentation of the place where the old one was found."""
    if change.function is None:
        return change.new
    new = HOLE.sub(lambda it: spot.groupdict().get(it[1], it[1]), change.new)
    if is_in_c(change.file) and spot[0] == change.old:
        return new
    text, lead = spot.string, re.match(" *", change.old)[0]
    indent = re.match(" *", text[text.rfind("\n", 0, spot.start()) + 1 :])[0].removeprefix(lead)
    return re.sub(r"\n(?=.)", "\n" + indent, new.removeprefix(lead))


def changed(folder, changes, texts=()):
    """The files in the folder of a crate as the changes make them, of these texts by their paths; or why they can't be made."""
    bodies = dict(texts)
    for it in changes:
        path = folder / it.file
        body = bodies.get(path) or (path.read_text() if path.is_file() else "")
        found = spots(body, it)
        if len(found) != 1:
            return {}, misplaced(folder, it, body, len(found))
        if lacking(body, it):
            return {}, f"{it.function} of {it.file} has no variable {lacking(body, it)[0]}"
        bodies[path] = body[: found[0].start()] + filled(it, found[0]) + body[found[0].end() :]
    return bodies, None


def with_condition(change):
    """A change that adds a condition to a line, with a condition that never or always holds in its place; None if it adds none."""
    found = re.fullmatch(r"(.*?) (\|\||&&) (.+?)( \{|;|)", change.new)
    if not found or change.old.split() != (found[1] + found[4]).split():
        return None
    head, joint, added, tail = found.groups()
    if any(added.count(a) != added.count(b) for a, b in ("()", "{}", "[]")) or added.endswith("=>"):
        return None
    never = f"({added}) && !({added})" if joint == "||" else f"({added}) || !({added})"
    return change._replace(new=f"{head} {joint} ({never}){tail}")


def harmless(changes):
    """The same changes made harmless: by what they say themselves, or, if one adds a condition, with one that never or always holds. Or None."""
    if any(it.harmless is not None for it in changes):
        return [it if it.harmless is None else it._replace(new=it.harmless) for it in changes]
    for place, it in enumerate(changes):
        other = with_condition(it)
        if other:
            return [*changes[:place], other, *changes[place + 1 :]]
    return None


# ---- Those that are out of place ----


def changes_nothing(mutant):
    """Why it can't be refused for what it shows, if so: a change of it, or all of them, is none."""
    if not mutant.changes or any(it.old == it.new for it in mutant.changes):
        return "it changes nothing"
    olds = re.findall(r"(?m)^old:.*\n(?!old:)", mutant.text + "\n")
    return f"{len(olds)} texts to change, and {len(mutant.changes)} in their place" if len(olds) != len(mutant.changes) else None


def unread(folder):
    """The lines of a crate's mutants that say nothing, and its files of mutants that are not read."""
    for file in sorted([*(folder / "must-fail").glob("*"), *folder.glob("*.edits")]):
        if file.suffix != ".edit" and file.name != "mutants.edits":
            yield f"{file.relative_to(folder)} is no file of mutants"
            continue
        may = rf"$|(?:{KEYS[file.suffix]}):(?: .*)?$" + (r"|== \S+$" if file.suffix == ".edits" else "")
        yield from (f"{file.relative_to(folder)}:{number}: {line}" for number, line in enumerate(file.read_text().splitlines(), 1) if not re.match(may, line))


def out_of_place(crates):
    """The number of mutants, and what is to be corrected of each that can't be made as the crates are now."""
    mutants = mutants_of(crates)
    lost = [f"{it.name}: {why}" for it in mutants for why in [changes_nothing(it) or changed(it.crate.folder, it.changes)[1]] if why]
    lost += [f"{name}: {times} mutants of this name" for name, times in collections.Counter(it.name for it in mutants).items() if times > 1]
    lost += [f"{it.name}/{line}" for it in crates.values() for line in unread(it.folder)]
    lost += [f"{it.name}: {it.tested.name} has no such test: {it.test}" for it in mutants if it.test and it.test.rpartition("::")[2] not in tests_of(it.tested)]
    return len(mutants), lost
