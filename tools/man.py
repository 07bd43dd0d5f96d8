#!/usr/bin/env python3
"""Writes the manual pages: docs/man/qolb*.3 from the text of c/include/qolb.h, and docs/man/qolb.1 from the help of the program.

    tools/man.py [PROGRAM]              writes all pages; if no program is given and crates/qolb/out/qolb does not exist, only those of the header
    tools/man.py --check [PROGRAM]      compares the pages with the header and the program: writes nothing, and ends with status 1 if one differs

Each part of the header's comment between two lines of `====` is a page, and a title in capitals begins a section. The pages have the sections of the GNU C
library's pages: NAME, SYNOPSIS, DESCRIPTION, RETURN VALUE and ERRORS with the results of each call, EXAMPLE, and NOTES. No line of a page may have more than 80
columns, no list may interrupt a sentence, and man may print no warning.

The comment of a call consists of paragraphs, the first of which is one sentence about what the call does. Then it lists what the call returns: below a line
`Returns:` each result with its meaning, or, in a paragraph that begins with `Returns`, the meaning of another kind of value. The results must be those of the
header's table.

If the program c/build/tests/memory has been built (make -C c/tests manual), the header's table of memory must be the one that it prints. This table is written
and compared as well.
"""

import os
import pathlib
import re
import shutil
import subprocess
import sys
import tempfile
import textwrap

ROOT = pathlib.Path(__file__).resolve().parent.parent
HEADER = ROOT / "c/include/qolb.h"
PAGES = ROOT / "docs/man"
# The pages of the header, and what belongs to each but qolb_node: calls, types and constants.
PARTS = ["qolb", "qolb_lock", "qolb_node", "qolb_task"]
OF_PAGE = {"qolb": "qolb_version|qolb_result|qolb_ok", "qolb_lock": "qolb_lock|qolb_cond", "qolb_task": "qolb_task|qolb_notify"}
# Sections of the header that are parts of DESCRIPTION, before and behind the calls; those that stand alone; all others are parts of NOTES.
BEFORE_CALLS, BEHIND_CALLS = ["INITIALISERS", "WORDS", "KINDS"], ["ORDER AND BARGING", "TIMEOUTS", "BUSY", "NOTIFICATIONS", "TASKS"]
ALONE = ["RETURN VALUE", "ERRORS", "EXAMPLE", "RULES FOR CALLERS"]
# The results that a page has in ERRORS, and what is above them there.
ERRORS = {f"QOLB_{it}" for it in "MISUSE OCCUPIED NO_MEMORY BAD_KIND BAD_NODES BAD_LEASE TOO_FEW".split()}
OF_RESULTS, OF_ERRORS = "qolb(3) has a table of the results of all calls.", "A call that returns one of these results has changed nothing."
# The blanks before a sample; the columns of a declaration, which is indented by seven.
SAMPLE, WIDTH = "    ", 72
MEMORY = ROOT / "c/build/tests/memory"
SUBCOMMANDS = ["replay", "draw", "steps", "board", "bank"]


def escaped(text):
    """Escapes text for troff: a dash becomes a minus, and no line begins as a request does."""
    text = text.replace("\\", "\\e").replace("-", "\\-")
    return "\n".join("\\&" + line if line.startswith((".", "'")) else line for line in text.split("\n"))


def filled(text):
    """Running text for troff, in lines of a page's source."""
    return escaped("\n".join(textwrap.wrap(text, 72, break_long_words=False, break_on_hyphens=False)))


def uncommented(comment):
    """The lines of a comment without its stars."""
    body = comment.strip()[2:-2].strip()
    return [re.sub(r"^ ?\* ?", "", line).rstrip() for line in body.split("\n")]


def blocks(lines):
    """Groups of lines without an empty line in between; a sample goes on behind one, but for that of a command."""
    run = []
    for line in [*lines, ""]:
        is_sample = bool(run) and run[0].startswith(SAMPLE)
        if line and (not is_sample or line.startswith(SAMPLE)):
            run += [line]
        elif is_sample and not line and run[-1]:
            run += [""]
        elif run:
            yield run[:-1] if not run[-1] else run
            run = [line] if line else []
    if run:
        yield run[:-1] if not run[-1] else run


def items(lines, begins):
    """The items of a list: each begins with a line of this form, and goes on in those below."""
    found = []
    for line in lines:
        if re.match(begins, line):
            found.append(line)
        else:
            found[-1] += " " + line.strip()
    return found


def running(title, lines):
    """A block as troff: a sample, a list of dashes or, in WORDS, of words with a colon, or a paragraph."""
    if lines[0].startswith(SAMPLE):
        return ".PP\n.EX\n" + "\n".join(map(escaped, lines)) + "\n.EE"
    if lines[0].startswith("- "):
        return "\n".join(f".IP \\(bu 2\n{filled(item[2:])}" for item in items(lines, "- "))
    if title == "WORDS":
        return "\n".join(tagged(*item.split(": ", 1)) for item in items(lines, r"[a-z]+: "))
    return ".PP\n" + filled(" ".join(lines))


def section(title, runs, request=".SH"):
    """A section of a page, or by `.SS` a part of one."""
    return f"{request} {title}\n" + "\n".join(running(title, run) for run in runs).removeprefix(".PP\n")


def parts(lines):
    """The parts of the header's comment: a page, its title, and its sections, each a title in capitals and its blocks."""
    of = {"qolb": (lines[0].partition(": ")[2].rstrip("."), {"DESCRIPTION": []})}
    page = "qolb"
    for run in blocks(lines[1:]):
        head = re.fullmatch(r"=+ (\w+)\(3\): (.*?) =+", run[0])
        if head:
            page = head[1]
            of[page] = (head[2], {"DESCRIPTION": []})
        elif len(run) == 1 and re.fullmatch(r"[A-Z ]+", run[0]):
            of[page][1][run[0]] = []
        else:
            list(of[page][1].values())[-1].append(run)
    return of


def page_of(name):
    """The page of a call, a type or a constant."""
    for page, begins in OF_PAGE.items():
        if re.match(begins, name, re.I):
            return page
    return "qolb_node"


def prototype(line):
    """A declaration as a caller reads it, or nothing if the line is none."""
    line = re.sub(r"^QOLB_LOOK static inline |^static inline ", "", line.strip())
    match = re.match(r"([\w ]+\*?[\w ]*\*?)(qolb_\w+[a-z])\((.*)\)( QOLB_LOOK)?( ?[;{].*)?$", line)
    return (match[2], f"{match[1]}{match[2]}({match[3]});") if match else None


def calls(text):
    """Each group of declarations with the comment above it."""
    for match in re.finditer(r"(/\*(?:(?!\*/).)*\*/)\n((?:(?!/\*)[^\n]+\n)+)", text, re.S):
        lines = re.sub(r",\n +", ", ", match[2]).split("\n")
        told = [made for made in map(prototype, lines) if made]
        if told:
            yield told, uncommented(match[1])


def types(text):
    """Each group of types and constants as a caller reads them, with the comment above it. Of a type that only calls read there is the name."""
    comment, struct, constant = r"/\*(?:(?!\*/).)*\*/", r"typedef struct (?:__attribute__\(\([^\n]*?\)\) )?\w+ \{[^}]*\} \w+;", r"#define QOLB_[A-Z_]+[A-Z][ (][^\n]*"
    for match in re.finditer(rf"({comment})\n((?:(?:{struct}|{constant})\n)+)", text, re.S):
        told = [re.sub(r"^#define (\w+(?:\([\w, ]*\))?).*|^typedef struct (?:__attribute__\S+ )?(\w+) \{\n    void \*own.*", r"\1\2", made, flags=re.S) for made in re.findall(f"{struct}|{constant}", match[2])]
        yield re.search(r"(?:struct )?(\w+)(?: \{|\(|$)", told[0])[1], told, uncommented(match[1])


def narrow(made):
    """A declaration in lines of a page of 80 columns, broken behind commas between its parameters."""
    lines = made.split("\n")
    if len(lines) > 1 or len(made) <= WIDTH:
        return lines
    for part in re.findall(r"(?:[^,()]|\([^()]*\))+[,)]?[;]?", made[made.index("(") + 1 :]):
        joined = f"{lines[-1]} {part.strip()}"
        if lines[0] == made:
            lines = [made[: made.index("(") + 1] + part]
        elif len(joined) > WIDTH:
            lines.append("    " + part.strip())
        else:
            lines[-1] = joined
    return lines


def declared(made):
    """A declaration in bold, with the blanks that a request would drop."""
    return "\n".join(".B " + escaped(line).replace("    ", "\\ " * 4) for line in narrow(made))


def explained(made, said):
    """Types and constants, and what the header says of them."""
    return ".PP\n.nf\n" + "\n".join(map(declared, made)) + "\n.fi\n.RS 4\n" + filled(" ".join(said)) + "\n.RE"


def told_of(said):
    """A call's comment: its paragraphs, what it returns of another type than a result, and each result with its meaning."""
    runs = list(blocks(said))
    results = {}
    if runs[-1][0] == "Returns:":
        results = dict(item[2:].split(": ", 1) for item in items(runs.pop()[1:], "- "))
    value = " ".join(runs.pop()) if runs and runs[-1][0].startswith("Returns ") else ""
    if not runs:
        sys.exit(f"man.py: a comment of a call does not say what the call does: {' '.join(said)}")
    return runs, value, results


def part_of_call(of, lines):
    """A part of a section, headed by the names of the calls that it is about."""
    return "\n".join([".SS " + escaped(", ".join(f"{call}()" for call, _ in of)), *lines])


def described(of, said):
    """What the calls of one comment do."""
    return section(", ".join(f"{call}()" for call, _ in of), told_of(said)[0], ".SS")


def returned(of, said, is_error):
    """What the calls of one comment return: the errors, or all else; nothing if there is none."""
    _, value, results = told_of(said)
    lines = [f".TP 16\n.B {name}\n{filled(meaning)}" for name, meaning in results.items() if (name in ERRORS) == is_error]
    if value and not is_error:
        lines.append(filled(value))
    return part_of_call(of, lines) if lines else ""


def values(text, name):
    """The names of an enum, each with its number and its comment."""
    body = re.search(rf"enum {name} {{(.*?)}};", text, re.S)[1]
    return [(value, number, " ".join(said.split())) for value, number, said in re.findall(r"(?s)(QOLB_\w+) = (\d+),?(?: +/\* (.*?) \*/)?", body)]


def commented(text, name):
    """The comment above an enum."""
    return re.search(rf"/\* ([^*]*?) \*/\nenum {name} {{", text)[1]


def tagged(tag, text):
    return f".TP\n.B {escaped(tag)}\n{filled(text) if text else ''}"


def with_memory(text):
    """The header with the table of memory as the program counts it."""
    counted = subprocess.run([MEMORY, "table"], capture_output=True, text=True, check=True).stdout
    rows = "".join(f" *     {line}\n" for line in counted.splitlines())
    text, found = re.subn(r" \*     nodes .*\n(?: \*     .*\n)+", lambda _: rows, text)
    if found != 1:
        sys.exit(f"man.py: c/include/qolb.h has {found} tables of memory")
    return text


def check_memory(is_check):
    """Writes the header's table of memory, or ends if it is another."""
    if not MEMORY.exists():
        print(f"man.py: {MEMORY} is not built: the table of memory stays as it is", file=sys.stderr)
        return
    before = HEADER.read_text()
    text = with_memory(before)
    if not is_check:
        HEADER.write_text(text)
    elif text != before:
        sys.exit("man.py: the table of memory in c/include/qolb.h is not what c/build/tests/memory counts: run tools/man.py")


def check_results(rest, table):
    """Ends unless the table of results has each call that returns one, once, with those results that the call's comment lists."""
    rows = {}
    for line in "\n".join(table).replace("\n" + " " * 34, " ").split("\n")[1:]:
        named, may = re.match(r" {4}(\S.*?)  +(.*)", line).groups()
        rows |= {call: set(may.split()) for call in named.split(", ")}
    known = {value.removeprefix("QOLB_") for value, _, _ in values(rest, "qolb_result")}
    returning = {call: said for told, said in calls(rest) for call, made in told if made.startswith("enum qolb_result ")}
    for call in sorted(set(rows) ^ set(returning)):
        sys.exit(f"man.py: {call} is {'in the table of results, and returns none' if call in rows else 'not in the table of results'}")
    for call, said in returning.items():
        listed = {name.removeprefix("QOLB_") for name in told_of(said)[2]}
        if listed != rows[call] or not listed <= known:
            sys.exit(f"man.py: {call}: its comment lists {', '.join(sorted(listed))}, and the table of results has {', '.join(sorted(rows[call]))}")


def released(version):
    """The date of a version, by the CHANGELOG."""
    return re.search(rf"(?m)^## {re.escape(version.rsplit('.', 1)[0])} \((.*)\)$", (ROOT / "CHANGELOG.md").read_text())[1]


def description(name, rest, sections, of_page):
    """The section DESCRIPTION: what the header says first, types and constants, each call, and what all of them have in common."""
    out = [section("DESCRIPTION", sections.pop("DESCRIPTION"))]
    out += [section(head, sections.pop(head), ".SS") for head in BEFORE_CALLS if head in sections]
    told = [explained(made, said) for key, made, said in types(rest) if page_of(key) == name]
    out.append(".SS TYPES AND CONSTANTS\n" + "\n".join(told).removeprefix(".PP\n"))
    if name == "qolb_node":
        out.append(".SS STATES\n" + "\n".join([filled(commented(rest, "qolb_node_state")), *(tagged(f"{value} ({number})", said) for value, number, said in values(rest, "qolb_node_state"))]))
    out += [described(of, said) for of, said in of_page]
    return out + [section(head, sections.pop(head), ".SS") for head in BEHIND_CALLS if head in sections]


def answers(name, rest, sections, of_page):
    """The sections RETURN VALUE and ERRORS: what the header says of all calls, and what each call of the page returns."""
    out = []
    for head, is_error, above in (("RETURN VALUE", False, OF_RESULTS), ("ERRORS", True, OF_ERRORS)):
        out.append(section(head, sections.pop(head, [[above]])))
        out += filter(None, [returned(of, said, is_error) for of, said in of_page])
        if name == "qolb" and not is_error:
            out.append(".SS NUMBERS\n" + "\n".join(tagged(f"{value} ({number})", said) for value, number, said in values(rest, "qolb_result")))
    return out


def page_of_header(name, rest, version, part):
    """A page of the header: what its part says, with the calls, types and constants that belong there."""
    title, sections = part
    of_page = [(told, said) for told, said in calls(rest) if page_of(told[0][0]) == name]
    prototypes = [made for told, _ in of_page for made in told]
    names = ", ".join([name, *(call for call, _ in prototypes)])
    out = [f'.TH {name.upper()} 3 "{released(version)}" "qolb {version}"', ".nr HY 0", ".nh", ".ss 12 0", ".ad l", f".SH NAME\n{names} \\- {escaped(title)}"]
    out.append(".SH SYNOPSIS\n.nf\n.B #include <qolb.h>\n.PP\n" + "\n".join(declared(made) for _, made in prototypes) + "\n.fi")
    out += description(name, rest, sections, of_page) + answers(name, rest, sections, of_page)
    out += [section(head, sections.pop(head)) for head in ALONE if head in sections]
    if sections:
        out += [".SH NOTES", *(section(head, runs, ".SS") for head, runs in sections.items())]
    others = [".BR qolb (1)"] if name == "qolb" else []
    others += [f".BR {page} (3)" for page in PARTS if page != name] + ([".BR pthread_mutex_lock (3)"] if name == "qolb_lock" else [])
    out.append(".SH SEE ALSO\n" + ",\n".join(others))
    return "\n".join(out) + "\n"


def pages_of_header():
    """The pages of the third section, by their files' names."""
    head, rest = HEADER.read_text().split("#ifndef QOLB_H", 1)
    version = ".".join(re.search(rf"QOLB_VERSION_{part} (\d+)", rest)[1] for part in ("MAJOR", "MINOR", "PATCH"))
    found = parts(uncommented(head))
    if list(found) != PARTS:
        sys.exit(f"man.py: c/include/qolb.h has the parts {', '.join(found)}, and not {', '.join(PARTS)}")
    check_results(rest, found["qolb"][1]["RETURN VALUE"][1])
    return {f"{name}.3": page_of_header(name, rest, version, found[name]) for name in PARTS}


def faults_of(name, page):
    """What a reader of 80 columns would stumble at: a sentence that breaks into a list, a wide line, a warning of man."""
    for before in re.findall(r"(?m)^([^.\n].*)\n\.IP", page):
        if not before.endswith((".", ":", ";", "?")):
            yield f"a list breaks a sentence: {before}"
    if shutil.which("man") and shutil.which("groff"):
        with tempfile.TemporaryDirectory() as folder:
            file = pathlib.Path(folder) / name
            file.write_text(page)
            told = subprocess.run(["man", "--warnings", "-l", file], env={**os.environ, "MANWIDTH": "80", "MAN_KEEP_FORMATTING": "", "LC_ALL": "C.UTF-8"}, capture_output=True, text=True, check=False)
        yield from told.stderr.splitlines()
        yield from (f"a line is wider than 80: {line}" for line in told.stdout.expandtabs().splitlines() if len(line) > 80)


def told_by(program, mark, *words):
    """What the program prints about itself, on standard error, with status 2. `mark` is part of it."""
    run = subprocess.run([program, *words], capture_output=True, text=True, check=False)
    if run.returncode != 2 or mark not in run.stderr:
        sys.exit(f"man.py: {program} {' '.join(words)} ended with {run.returncode} and said: {run.stderr[:200]}")
    return run.stderr.rstrip("\n")


def help_of(program, *words):
    return told_by(program, "Usage:", *words, "--help")


def as_told(text):
    """Text as the program prints it, which fills 80 columns: it is not indented."""
    return ".in 0\n.nf\n" + escaped(text) + "\n.fi\n.in"


def page_of_program(program):
    head = help_of(program)
    about = " ".join(head.split("\n\n", 1)[0].split()).rstrip(".")
    version = told_by(program, "kinds of lines", "--version")
    out = [f'.TH QOLB 1 "{released(version.splitlines()[0].split()[-1])}" "{version.splitlines()[0]}"', f".SH NAME\nqolb \\- {escaped(about[:1].lower() + about[1:])}", f".SH DESCRIPTION\n{as_told(head)}"]
    out += [f".SH QOLB {name.upper()}\n{as_told(help_of(program, name))}" for name in SUBCOMMANDS]
    out.append(f".SH QOLB \\-\\-VERSION\n{as_told(version)}")
    out.append(".SH SEE ALSO\n.BR qolb (3)")
    return "\n".join(out) + "\n"


def main():
    words = sys.argv[1:]
    is_check = words[:1] == ["--check"]
    named = words[1:] if is_check else words
    program = pathlib.Path(named[0]) if named else ROOT / "crates/qolb/out/qolb"
    check_memory(is_check)
    pages = pages_of_header()
    if program.exists():
        pages["qolb.1"] = page_of_program(program)
    else:
        print(f"man.py: no program at {program}: only the pages of qolb.h were {'compared' if is_check else 'written'}", file=sys.stderr)
    others = sorted({it.name for it in PAGES.glob("*")} - {*pages, "qolb.1"})
    if others:
        sys.exit(f"man.py: docs/man has pages of no source: {', '.join(others)}")
    for name, page in pages.items():
        for fault in faults_of(name, page):
            sys.exit(f"man.py: {name}: {fault}")
        if not is_check:
            (PAGES / name).write_text(page)
        elif (PAGES / name).read_text() != page:
            sys.exit(f"man.py: docs/man/{name} is not what its source says: run tools/man.py")


main()
