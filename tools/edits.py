#!/usr/bin/env python3
"""Tries each mutant of the named crates (or of all crates, if none is named), and prints what refused it. A mutant is a deliberately wrong edit of a crate,
which the prover or a test must refuse.

The mutants in a crate's must-fail/, which the gate tries too, and those in its mutants.edits consist of the text that they replace and the new text;
`tools/mutants.py` describes both forms.

A mutant without a test is evidence only if the prover refuses it because of a goal: a promise of the changed function, a requirement of a call in it, or
something on which one of its callers relies. A mutant that only renames goals is no evidence: it is refused because answers name goals that no longer
exist, and a harmless change in the same place would be refused, too. In most cases, a mutant has a test because no contract can state what the mutant
breaks (for example, that threads run at the same time). Only that test is run, without a proof, by `rt try --test`. A test that takes all memory fails
under `rt try` whatever the code does. The mutants of such a test are judged by `rt test`, and only with --proved, which proves the changed crate and all
crates that depend on it.

For mutants without a test, this program first calls `tools/prove` and then reuses the work that it keeps. Mutants that edit the bodies of different
functions of a crate are tried in one check, and each is refused by the goals of its own function. A mutant gets a check of its own if it edits anything
else (a type, a constant, a contract, a proof, a macro, two functions), or if no goal of its function refuses it in the common check; with --alone all
mutants do. The program prints a line for each mutant:

  answer  CRATE/NAME  FUNCTION: GOAL    an answer that is written in proofs/ no longer proves the goal of that name
  search  CRATE/NAME  FUNCTION: GOAL    the tactics no longer prove a goal of that name, which they proved before
  false   CRATE/NAME  FUNCTION: GOAL    the goal is false: the prover found values
  meant   CRATE/NAME  FUNCTION: GOAL    the same change made harmless is proved: a condition that it adds is what is refused
  test    CRATE/NAME  TEST              the test failed, or it did not end, and ended without the mutant
  new     CRATE/NAME  FUNCTION: GOAL    only goals are open, or answers refused, that have a new name: find out whether a harmless rewrite is refused alike
  shape   CRATE/NAME  FUNCTION: GOAL    the same change made harmless is refused alike: it shows nothing, rewrite it
  names   CRATE/NAME  FUNCTION          only names of the proof are missing: it shows nothing, rewrite it
  ALIVE   ..                            the contracts accept it, or the test passed
  BROKEN  ..          WHY               its text is not there, the compiler refuses it, or the check gave no verdict
  NOT JUDGED ..       TEST              it needs --proved

These output lines are stored in out/mutants.tsv, each with the date and a checksum of the sources that it depends on. A mutant that already has a line
with the same checksum is not tried again, unless it was BROKEN or --anew is given; the program then prints its stored line, followed by `kept from` and
the date. The program ends with status 1 if a mutant is `new`, `shape`, `names`, ALIVE or BROKEN.

With --anchors the program tries nothing. It names each mutant whose old text does not occur exactly once in its function, together with the place where
the text is now, and it names the files and lines of mutants that are not read. `.ci/run` calls it with this option.

  tools/edits.py [--jobs N] [--only WORD] [--by goals|tests] [--anew] [--alone] [--proved] [--keep FOLDER] [CRATE ..]
  tools/edits.py --anchors
"""

import argparse
import collections
import datetime
import fcntl
import hashlib
import os
import pathlib
import re
import subprocess
import sys
import tempfile

from crates import ROOT, below, copy_sources, lanes, lay_out, named, read_crates, run_main, say, side_by_side, spawn, take_kept
from mutants import changed, edited_function, harmless, mutants_of, out_of_place
from tests import leave_out, path_of_builds, tests_of

KEPT = ROOT / "out" / "mutants.tsv"
HEAD = "# What refused each mutant: its name, how, by what; a sum of what it was tried on, the day (tools/edits.py).\n"
BY_A_GOAL = ("answer", "search", "false")
NOTHING_SHOWN = ("new", "shape", "names", "ALIVE", "BROKEN")
MINUTES = 120

# An answer that is refused for this reason names what the edit removed: it shows nothing of the goal.
NAMES_ALONE = re.compile(r"is not in scope|has no field|has no `|was not admitted")
# The compiler refused the text, before any goal.
NO_CODE = re.compile(r"^.*\berror\[[\w-]+\].*$", re.M)
# A function whose callee is not proved, which is not tried to its end; and one that is not proved for this or another reason.
WAITS = re.compile(r"^fn \S+: .*\bwhich is not proved", re.M)
REFUSED = re.compile(r": error: |^fn \S+: (?!proved$)", re.M)
# Declarations that rest on other refused ones: these, and those.
UNCHECKED = re.compile(r"^\./proofs/(\S+)/Answers\.antt:\d+:\d+: error: \d+ declarations? that depends? on (.*?), which \w+ rejected, \w+ not checked: (.*)$", re.M)
VERDICT = re.compile(r"^logic=", re.M)


class Kept:
    """What is known of each mutant, by its name: how it was refused, by what, the sum of what it was tried on, the day."""

    def __init__(self, crates):
        self.crates, self.sums = crates, {}
        # The kit's own name is left out: kits of one logic prove alike.
        self.logic = subprocess.run(["rt", "version"], capture_output=True, text=True).stdout.partition("logic ")[2]

    def of_crate(self, name):
        """A sum of what a check of the crate reads, without the crates below."""
        if name not in self.sums:
            crate = self.crates[name]
            files = "".join(f"{it.relative_to(crate.folder)} {hashlib.sha256(it.read_bytes()).hexdigest()}\n" for it in crate.files())
            self.sums[name] = crate.line + files
        return self.sums[name]

    def sum(self, mutant):
        top = (mutant.tested or mutant.crate).name
        parts = [self.logic, mutant.text, *(self.of_crate(it) for it in [*below(self.crates, top), top])]
        return hashlib.sha256("\n".join(parts).encode()).hexdigest()[:12]

    def read(self):
        lines = KEPT.read_text().splitlines() if KEPT.is_file() else []
        return {it.split("\t")[0]: it.split("\t")[1:] for it in lines if not it.startswith("#")}

    def known(self, mutant):
        """How the mutant was refused, by what, and the day, if it was tried as it is now."""
        kind, where, made_of, day = self.read().get(mutant.name, ["", "", "", ""])
        return (kind, where, day) if made_of == self.sum(mutant) else None

    def write(self, mutant, kind, where):
        here = os.open(KEPT.parent, os.O_RDONLY)
        fcntl.flock(here, fcntl.LOCK_EX)
        try:
            rows = self.read()
            rows[mutant.name] = [kind, " ".join(where.split()), self.sum(mutant), f"{datetime.date.today()}"]
            fresh = KEPT.with_suffix(".new")
            fresh.write_text(HEAD + "".join("\t".join([name, *row]) + "\n" for name, row in sorted(rows.items())))
            fresh.replace(KEPT)
        finally:
            os.close(here)


# ---- What refused a mutant, from the output of a check or of a run of tests ----


def is_proved(log):
    return bool(re.search(r"^logic=proved", log, re.M))


def goals_of(generated):
    """The goals of each function of a check, answered or found by the tactics, by the path of its folder of proofs."""
    goals = {}
    for path in pathlib.Path(generated).glob("*-proofs/**/*.antt"):
        folder = str(path.parent.relative_to(next(p for p in path.parents if p.name.endswith("-proofs"))))
        if path.name in ("Goals.antt", "Proof.antt"):
            names = re.findall(r"^\s*(?:abbrev )?(?:pub )?(?:the-asks-)?(\S+) :", path.read_text(), re.M)
            goals.setdefault(folder, set()).update(names)
    return goals


def last_line(log):
    return (log.strip().splitlines() or ["nothing was said"])[-1][:160]


def two(goals):
    return "; ".join(f"{folder}: {goal}" for folder, goal in goals[:2])


def said_of(log):
    """What a check says of each function, by its folder of proofs: what is refused there, the notes above the function's line, and this line. What it
    refuses elsewhere is under the name of the file, or under no name."""
    said, notes = collections.defaultdict(list), []
    for line in re.sub(r"^so far: ", "", log, flags=re.M).splitlines():
        found = re.match(r"\./(?:proofs|specs)/(\S+?)(?:/(?:Answers|Invariants|Proof))?\.antt:|fn \w+::(\S+): ", line)
        if found:
            said[found[1] or found[2].replace("::", "/")] += [*notes, line]
        elif ": error: " in line:
            said[""].append(line)
        if line.startswith("note: "):
            notes.append(line)
        elif not line.startswith("help: "):
            notes = []
    return said


def by_check(log, goals):
    """What refused an edit: the kind, and the function with its goal."""
    if is_proved(log):
        return "ALIVE", ""
    if not VERDICT.search(log):
        why = NO_CODE.search(log)
        return "BROKEN", why[0][:160] if why else last_line(log)
    # A function that calls one which is not proved is refused for that, whatever its own goals are.
    said = ["\n".join(it) for it in said_of(log).values()]
    log = "\n".join(it for it in said if not WAITS.search(it))
    refused = re.findall(r"^\./proofs/(\S+)/(?:Answers|Invariants)\.antt:\d+:\d+: error: `([^`]+)`(.*)$", log, re.M)
    answers = {(folder, goal) for folder, goal, why in refused if not NAMES_ALONE.search(why)}
    # An answer rests on a lemma beside it that no longer holds.
    for folder, lemmas, rest in UNCHECKED.findall(log):
        if any((folder, lemma) in answers for lemma in re.findall(r"`([^`]+)`", lemmas)):
            answers |= {(folder, goal) for goal in re.split(r",\s*", rest.strip())}
    gone = "no longer" in log or re.search(r"Answers\.antt:\d+:\d+: error: .*(is not in scope|has no `)", log)
    held = sorted((folder, goal) for folder, goal in answers if goal in goals.get(folder, set()))
    if held:
        return "answer", two(held)
    missing = re.findall(r"^fn (\S+): no proof: expected answers in \./proofs/(\S+)/Answers\.antt; `search` did not prove (.*)$", log, re.M)
    open_goals = [(folder, goal) for _, folder, names in missing for goal in re.findall(r"`([^`]+)`", names)]
    if "may be false:" in log or "the facts known there allow values" in log:
        return "false", two(open_goals)
    same = [(folder, goal) for folder, goal in open_goals if goal in goals.get(folder, set())]
    if same:
        return "search", two(same)
    if open_goals or answers:
        return "new", two(open_goals or sorted(answers))
    first = next((line for line in log.splitlines() if ": error" in line or ": no proof" in line or ": not proved" in line), "")
    return "names", ("gone: " if gone else "") + first[:160]


def has_ended(log, status):
    """Returns False if a run of tests was ended because it was out of time."""
    return status != 124 and not re.search(r"had not ended|did not end within|run=(?!ended|none)", log)


def by_tests(log, test, status):
    """The outcome of a mutant with this test, from the output of `rt try --test` or `rt test`."""
    if re.search(rf"^test {re.escape(test)} \.\.\. ok$", log, re.M):
        return "ALIVE", test
    if f"test {test} ... FAILED" in log or not has_ended(log, status):
        return "test", test
    if re.search(r"^logic=not-proved", log, re.M):
        return "goal", next((it for it in log.splitlines() if ": no proof" in it or "error: `" in it), "")[:160]
    return "BROKEN", last_line(log)


# ---- Trying ----


def ran(words, folder):
    """The output of a command, and its status; the command is ended after this many minutes."""
    run = subprocess.run(["timeout", "--foreground", f"{MINUTES}m", *words], cwd=folder, capture_output=True, text=True, errors="replace", stdin=subprocess.DEVNULL)
    return run.stdout + run.stderr, run.returncode


def is_of_tests(crate, mutant):
    """Returns True if a mutant changes only what the root of its crate reads for its tests."""
    root = next(it for it in crate.files() if it.name in ("lib.rt", "main.rt") and it.parent.name == "src")
    read_for_tests = re.findall(r"^#\[cfg\(test\)\]\nmod (\w+);", root.read_text(), re.M)
    return any(it.file.startswith(f"src/{module}") for it in mutant.changes for module in read_for_tests)


class Checks:
    """The mutants of one crate that a goal must refuse, each tried in a copy of the crate over the work that was kept; with its tests if one is of
    what is read only for these. A check of several mutants has up to `jobs` processes."""

    def __init__(self, crates, crate, mutants, room, jobs):
        self.jobs = jobs
        self.with_tests = ["--test"] * any(is_of_tests(crate, it) for it in mutants)
        self.folder = lay_out(crates, crate.name, room / "repository")
        take_kept(crate, self.folder)
        if not is_proved(self.check()):
            raise SystemExit(f"{crate.name} is not proved as it is")
        generated = room / "generated"
        generated.mkdir()
        self.check("--generated", str(generated), jobs=jobs)
        self.goals = goals_of(generated)

    def check(self, *more, jobs=1):
        return ran(["rt", "check", "--jobs", str(jobs), *self.with_tests, *more], self.folder)[0]

    def check_with(self, changes, jobs=1):
        """The output of a check of the crate with the changes, or why they can't be made; afterwards the crate is as it was."""
        bodies, why = changed(self.folder, changes)
        was = {path: path.read_bytes() for path in bodies}
        for path, body in bodies.items():
            path.write_text(body)
        log = "" if why else self.check(jobs=jobs)
        for path, body in was.items():
            path.write_bytes(body)
        return log, why

    def tried(self, mutant):
        log, why = self.check_with(mutant.changes)
        if why:
            return "BROKEN", why, ""
        kind, where = by_check(log, self.goals)
        control = harmless(mutant.changes) if kind in ("search", "new") else None
        if control:
            said, _ = self.check_with(control)
            if re.search(r"^logic=", said, re.M):
                kind = "meant" if is_proved(said) else "shape"
        return kind, where, log

    def folder_of(self, mutant):
        """The folder of proofs of the one function whose body a mutant edits; None if it edits anything else, or if the folder is not certain."""
        file, function = edited_function(self.folder, mutant.changes) or ("", None)
        if not function:
            return None
        owners = [it for it in re.findall(r"\w+", function.owner) if len(it) > 1] or [pathlib.PurePath(file).stem]
        found = [it for it in self.goals if re.search(rf"\b(?:{'|'.join(owners)})\w*/{function.name}$", it)]
        return found[0] if len(found) == 1 else None

    def tried_at_once(self, mutants):
        """What one check says of mutants that each edit the body of another function, by the folders of these: how each was refused, by what, the output.

        The proof of a function reads its own body and the contracts of the others: only functions that call one another in a cycle can open each other's
        bodies, and these have one folder, which `folder_of` does not find. So an edit of a body opens goals of this function alone, and what the check
        refuses of a function is refused because of its own mutant. If the check refuses anything of another function, or gives no verdict, then one
        of the mutants reaches further than its function: nothing is concluded, and each half is tried by itself. A function that calls one that is not
        proved is not tried to its end. The check says so, and shows nothing of its mutant, which `waits`.
        """
        log, why = self.check_with([change for it in mutants.values() for change in it.changes], min(self.jobs, len(mutants)))
        said = {folder: "\n".join(lines) for folder, lines in said_of(log).items()}
        strangers = [it for it, text in said.items() if it not in mutants and REFUSED.search(text) and not WAITS.search(text)]
        if why or strangers or not VERDICT.search(log):
            half, parts = len(mutants) // 2, list(mutants.items())
            return self.tried_at_once(dict(parts[:half])) | self.tried_at_once(dict(parts[half:])) if half else {}
        outcomes = {}
        for folder in mutants:
            log = said.get(folder, "") + "\nlogic=not-proved"
            outcomes[folder] = *(("waits", "") if WAITS.search(log) else by_check(log, self.goals)), log
        return outcomes

    def each_tried(self, mutants, is_alone):
        """Yields each mutant, how it was refused, by what, and the output. Those that edit the body of a function are tried at once with such mutants of other
        functions, and alone if no goal of the function was open then. All others are tried alone, and all if `is_alone`."""
        left, alone, waiting = collections.defaultdict(list), [], []
        for it in mutants:
            folder = None if is_alone else self.folder_of(it)
            (left[folder] if folder else alone).append(it)
        while left:
            # Those that waited come next, without those that they waited for.
            tried = {folder: left[folder][0] for folder in waiting or left}
            outcomes = self.tried_at_once(tried)
            controls = {folder: harmless(tried[folder].changes) for folder, (kind, *_) in outcomes.items() if kind == "search"}
            controls = {folder: changes for folder, changes in controls.items() if changes}
            is_meant = controls and is_proved(self.check_with(sum(controls.values(), []), min(self.jobs, len(controls)))[0])
            waiting = [folder for folder, (kind, *_) in outcomes.items() if kind == "waits"]
            if len(waiting) == len(tried):
                waiting = []
            for folder in (it for it in tried if it not in waiting):
                mutant = left[folder].pop(0)
                kind, where, log = outcomes.get(folder, ("", "", ""))
                if kind in BY_A_GOAL and (is_meant or folder not in controls):
                    yield mutant, "meant" if folder in controls else kind, where, log
                else:
                    alone.append(mutant)
            left = {folder: some for folder, some in left.items() if some}
        for it in alone:
            yield it, *self.tried(it)


def tried_by_test(crates, mutant, room):
    """The outcome of a mutant with its test: how it was refused, by what, and the output."""
    words, tested, test = ["env", f"PATH={path_of_builds(room)}", "rt", "try", "--test"], mutant.tested, mutant.test.partition("::")[2]
    if mutant.takes_all_memory():
        words = ["rt", "test"]
        lay_out(crates, tested.name, room)
        for name in [*below(crates, tested.name), tested.name]:
            take_kept(crates[name], room / "crates" / name)
    else:
        copy_sources(crates.values(), room)
        # The other tests show nothing of this mutant, and take most of the time.
        leave_out(room / "crates" / tested.name, [it for it in tests_of(tested) if it != test.rpartition("::")[2]])
    bodies, why = changed(room / "crates" / mutant.crate.name, mutant.changes)
    if why:
        return "BROKEN", why, ""
    was = {path: path.read_text() for path in bodies}
    for path, body in bodies.items():
        path.write_text(body)
    log, status = ran(words, room / "crates" / tested.name)
    kind, where = by_tests(log, test, status)
    if kind == "test" and not has_ended(log, status):
        # On a busy machine the test may be out of time without the mutant, too.
        for path, body in was.items():
            path.write_text(body)
        said, status = ran(words, room / "crates" / tested.name)
        if not has_ended(said, status):
            return "BROKEN", f"{test} was out of time without the mutant, too", log
    return kind, where, log


def try_batch(crates, mutants, kept, args):
    """Tries the mutants of one batch, prints each, and keeps the outcomes."""
    with tempfile.TemporaryDirectory(prefix="mutants-") as room:
        room = pathlib.Path(room)
        if mutants[0].test:
            outcomes = ((it, *tried_by_test(crates, it, room)) for it in mutants)
        else:
            outcomes = Checks(crates, mutants[0].crate, mutants, room, max(1, lanes() // args.jobs)).each_tried(mutants, args.alone)
        for it, kind, where, log in outcomes:
            kept.write(it, kind, where)
            print(f"{kind:7} {it.name}  {where}", flush=True)
            if args.keep:
                file = pathlib.Path(args.keep) / f"{it.name}.log"
                file.parent.mkdir(parents=True, exist_ok=True)
                file.write_text(log)
    return 0


def try_all(mutants, args):
    """Tries these mutants, each batch in its own process, this many side by side; returns True if all processes ended well."""
    batches = collections.Counter(it.batch for it in mutants)
    proofs = sorted({(it.tested or it.crate).name for it in mutants if not it.test or it.takes_all_memory()})
    if proofs and subprocess.run([ROOT / "tools" / "prove", *proofs]).returncode:
        return False
    lost = []

    def start(name, _jobs):
        more = ["--jobs", str(args.jobs)] + ["--anew"] * args.anew + ["--alone"] * args.alone + ["--proved"] * args.proved + (["--keep", args.keep] if args.keep else [])
        return spawn([sys.executable, __file__, "--batch", name, "--only", args.only, *more], ROOT)

    def ended(name, status, _seconds):
        if status:
            lost.append(name)
        return True

    side_by_side({it: [] for it, _ in batches.most_common()}, args.jobs, start, ended)
    if lost:
        say(f"not tried to the end: {', '.join(lost)}")
    return not lost


def compare_anchors(crates):
    """Prints each mutant that can't be made as the crates are now, and why; returns the status."""
    count, lost = out_of_place(crates)
    print(*lost, f"{count} mutants, {len(lost)} out of place", sep="\n")
    return 1 if lost else 0


def main():
    parser = argparse.ArgumentParser(description=__doc__, formatter_class=argparse.RawDescriptionHelpFormatter)
    parser.add_argument("--jobs", type=int, default=1, help="how many are tried side by side")
    parser.add_argument("--only", default="", help="only mutants whose names contain this")
    parser.add_argument("--by", choices=("goals", "tests"), help="only those that a goal must refuse, or only those that a test must refuse")
    parser.add_argument("--anew", action="store_true", help="also those that were tried as they are")
    parser.add_argument("--proved", action="store_true", help="also those whose tests must be proved to be run")
    parser.add_argument("--alone", action="store_true", help="each in a check of its own")
    parser.add_argument("--keep", type=os.path.abspath, help="where to keep what was said, a file a mutant")
    parser.add_argument("--anchors", action="store_true", help="only say which are out of place")
    parser.add_argument("--batch", help=argparse.SUPPRESS)
    parser.add_argument("names", nargs="*", metavar="CRATE")
    args = parser.parse_args()
    crates = read_crates()
    if args.anchors:
        return compare_anchors(crates)
    named(crates, args.names)
    KEPT.parent.mkdir(exist_ok=True)
    kept = Kept(crates)
    mutants = [it for it in mutants_of(crates, args.names, args.only) if not args.batch or it.batch == args.batch]
    if args.by:
        mutants = [it for it in mutants if bool(it.test) == (args.by == "tests")]
    if args.only and not mutants:
        sys.exit(f"no mutant's name has {args.only!r}")
    is_known = lambda it: not args.anew and (kept.known(it) or ["BROKEN"])[0] != "BROKEN"
    left = [it for it in mutants if (args.proved or not it.takes_all_memory()) and not is_known(it)]
    if args.batch:
        return try_batch(crates, left, kept, args)
    done = not left or try_all(left, args)
    counts = collections.Counter()
    for it in mutants:
        kind, where, day = kept.known(it) or ("NOT JUDGED", it.test or "", "")
        counts["not judged" if kind == "NOT JUDGED" else "to be looked at" if kind in NOTHING_SHOWN else "refused"] += 1
        if it not in left:
            print(f"{kind:7} {it.name}  {where}" + (f"  (kept from {day})" if day else ""), flush=True)
    print(", ".join(f"{counts[it]} {it}" for it in ("refused", "to be looked at", "not judged")))
    return 1 if counts["to be looked at"] or not done else 0


if __name__ == "__main__":
    run_main(main)
