#!/usr/bin/env -S python3 -B
"""edits.py [--strict] [CRATE..]    Tries the edits of crates/CRATE/edits, of all crates if none is named.

The prover must refuse each. An edit is a file like those of must-fail/: lines `file:`, `old:` and `new:`. Edits of
different functions are applied together, to a copy of the crate, and one check gives a verdict for each function: a
function is proved by its own text and the contracts of those that it calls, so another one's edit changes nothing at
it. Of an edit it prints:

- refused, and the goal, if the prover shows values at which a goal of the changed function is false, or if its search
  for a goal has tried every way. The latter counts only of a search that reaches what it seeks in the crate as it is;
- refused by form, if the function isn't proved, but nothing of that kind is said: a written answer doesn't fit its
  goal any more, a search ended at a limit of its own, or the borrow checker doesn't cover the function. A right body
  of this form might fare no better. These are counted by themselves; with --strict they are tried again without the
  answers of what they change, so that the search has the word, and fail if it says no more;
- NOT REFUSED, if the function is proved with it.

An edit of a definition that nothing but laws use is refused by a written proof, or not at all. Such a one has a line
`by: proof` with the reason; then any failing proof counts, and these are counted by themselves.

If a function that this one calls isn't proved, this one wasn't tried: it is tried again without that one's edit. An
edit of a definition, or of a constant that a clause names, is tried by itself: over the whole crate, or at the
functions that lines `at:` before its changes name. In each crate an edit without meaning goes along with the first
check, and must not be refused: so the check can say so. The libraries that a crate stands on are taken as `rt ci` or
`rt lib` left them; one that is missing or older than its sources is built first. At the end stand the processor seconds
of each crate's checks, and the edits are counted; the status is 1 if one was not refused.
"""
import os
import re
import signal
import subprocess
import sys
import tempfile
from collections import namedtuple
from concurrent.futures import ThreadPoolExecutor
from pathlib import Path

from frame import TOP
import build
import crates

CRATES = TOP / "crates"
HARMLESS = "an edit without meaning"
REFUSED, BY_PROOF, BY_FORM, PROVED = "refused", "refused by its proof alone", "refused by form", "NOT REFUSED"
# What a proof says that names what an edit took away, or a function that isn't proved: nothing of the contract.
NAMES = re.compile(r"has no field|is not in scope|has no `|was not admitted")
PUBLIC = r"(?:pub(?:\([a-z ]+\))? )?"
FUNCTION = re.compile(
    rf'(?m)^(?: *(?:#\[|//).*\n)*( *){PUBLIC}(?:const )?(?:unsafe )?(?:extern "C" )?fn (\w+)'
    r'(?:.*\}|(?s:.*?)^\1\{?\}.*)\n')
CONSTANT = re.compile(rf"^{PUBLIC}(?:const|static) (\w+):.*?;$", re.MULTILINE | re.DOTALL)
TYPE = re.compile(rf"^{PUBLIC}(?:struct|enum|union) (\w+)", re.MULTILINE)
IMPL = re.compile(r"impl(?:<[^{]*?>)? (?:(\w+)(?:<[^{]*?>)? for )?(\w+)")
# A goal that wasn't reached, or an error, with the lines that go on with it.
FAULT = re.compile(
    r"^(?:note: )?(?:\./)?((?:src|proofs|specs)/\S+?:\d+:\d+: (?:error|it is not proved).*(?:\n  .*)*)", re.MULTILINE)
# What is said of a goal if values were found at which it is false, if a search ended at a limit, and if it tried all.
FALSE = re.compile(r"allow values at which this goal is false|`grind`: the goal does not follow")
ENDED = re.compile(r"gave up at one of its limits|so the goal may hold|was given up")
TRIED = re.compile(r"it is not proved that|Every way was tried|the goal fails at|the goal does not follow")
# An answer up to its term, and the term of one that is a search and nothing else.
ANSWER, SEARCH = re.compile(r"^(?!pub )(\S+)(?: [^\s=]+)* =\s+", re.MULTILINE), re.compile(r"(search|grind|omega)\b")
ITSELF = re.compile(r"(search rules|grind \(arith, common_steps\))\n")
# A function of a file: its path as the prover prints it, and where its text begins and ends.
Function = namedtuple("Function", "path start end")


class BadEdit(Exception):
    pass


def module_of(file):
    return [it for it in file.removeprefix("src/").removesuffix(".rt").split("/") if it not in ("lib", "main", "mod")]


def is_plain(answers):
    """Whether a file of answers only has what the prover tries by itself."""
    return "unfolding" not in answers and all(ITSELF.match(answers, it.end()) for it in ANSWER.finditer(answers))


class Sources:
    """The texts of a crate by their files; of the crate as it is, the module of each type, and the files of
    answers, with whether each has only what the prover tries by itself."""

    def __init__(self, texts, before=None):
        self.texts = texts
        code = [file for file in texts if file.startswith("src/")]
        if before:
            self.modules, self.answers = before.modules, before.answers
            return
        self.modules = {name: module_of(file) for file in code for name in TYPE.findall(texts[file])}
        self.answers = {file: is_plain(text) for file, text in texts.items() if file.endswith("/Answers.antt")}

    def put(self, file, old, new):
        """The sources with another text in place of one that stands there once."""
        count = self.texts.get(file, "").count(old) if old else 0
        if count != 1:
            raise BadEdit(f"an old text stands in {file} {count} times, and not once")
        return Sources({**self.texts, file: self.texts[file].replace(old, new)}, self)

    def owner(self, file, place):
        """The path below which the function at a place stands: in an impl the module of its type, and the names of type
        and trait, else the module of the file."""
        above = self.texts[file][:place]
        impl = IMPL.match(above, max(above.rfind("\nimpl"), above.rfind("\n}")) + 1)
        return [*self.modules.get(impl[2], module_of(file)), impl[2] + (impl[1] or "")] if impl else module_of(file)

    def without_answers(self, functions):
        """The sources without the answers of these functions and their closures."""
        gone = {file for it in functions for file in self.answers_of(it)}
        return Sources({file: text for file, text in self.texts.items() if file not in gone}, self)

    def answers_of(self, function):
        """The files of answers of a function and its closures, in the crate as it is."""
        return [file for file in self.answers if file.startswith(f"proofs/{function.replace('::', '/')}/")]

    def is_searched(self, function):
        """Whether the prover reaches all goals of a function by itself, in the crate as it is."""
        return all(self.answers[file] for file in self.answers_of(function))

    def functions(self, file):
        """The functions of a file of src/ in its layout: each begins with the attributes and comments above its head,
        and ends with the brace below its first column."""
        for it in FUNCTION.finditer(self.texts[file]):
            path = [*(self.owner(file, it.start()) if it[1] else module_of(file)), it[2]]
            yield Function("::".join(path), it.start(), it.end())

    def at(self, file, place):
        """The paths of the functions at a place of a file."""
        return {it.path for it in self.functions(file) if it.start <= place < it.end}

    def users(self, constant):
        """The functions whose code names a constant; None if a clause, a definition or another constant names it."""
        found, word = set(), re.compile(rf"\b{constant}\b")
        declared = re.compile(rf"(pub(\(\w+\))? )?((const|static) {constant}\b|use |mod )| *//")
        for file, text in self.texts.items():
            for met in word.finditer(text) if not file.startswith("proofs/") else ():
                if file.startswith("specs/"):
                    return None
                line = text[text.rfind("\n", 0, met.start()) + 1 : text.find("\n", met.start())]
                paths = self.at(file, met.start())
                if paths and not re.match(r" *(requires|ensures|ghost)\b", line):
                    found |= paths
                elif not declared.match(line):
                    return None
        return found

    def changed(self, file, old):
        """The functions that a change of this text changes; None if it stands in none, nor in a constant that only
        code names."""
        text = self.texts.get(file, "")
        place = text.find(old)
        if old.startswith("use "):
            return set()
        if not file.startswith("src/") or not text:
            return None
        constants = [it[1] for it in CONSTANT.finditer(text) if it.start() <= place < it.end()]
        return self.at(file, place) or (self.users(constants[0]) if constants else None)


class Edit:
    """An edit: the texts that it puts in place of others, and the functions that it changes; None if it changes
    something else. Then `at` has those that are to be checked, or nothing if all are. `by` says why a failing proof is
    enough, or nothing."""

    def __init__(self, name, changes, functions, at=(), by=""):
        self.name, self.changes, self.functions, self.at, self.by = name, changes, functions, at, by

    def applied(self, sources):
        for change in self.changes:
            sources = sources.put(*change)
        return sources


def read_edit(path, sources):
    changes, at, functions, by = [], set(), set(), ""
    file = old = None
    for line in path.read_text(encoding="utf-8").split("\n"):
        word, _, rest = line.partition(":")
        rest = rest.removeprefix(" ")
        if word == "at":
            at.add(rest.strip())
        elif word == "by":
            by = rest.strip()
        elif word == "file":
            file = rest.strip()
        elif word == "old":
            old = rest
        elif word == "new":
            met = sources.changed(file, old)
            functions = None if at or met is None or functions is None else functions | met
            sources = sources.put(file, old, rest)
            changes.append((file, old, rest))
    if not changes:
        raise BadEdit("it has no old and new text")
    return Edit(path.name, changes, functions, at, by)


def harmless(sources, edits):
    """An edit without meaning: of the first function with a contract that no edit changes, or else of the first one."""
    found, taken = [], set().union(*(it.functions or () for it in edits))
    for file in sorted(it for it in sources.texts if it.startswith("src/")):
        text = sources.texts[file]
        for one in sources.functions(file):
            # The brace that opens a body stands alone below clauses, or before that of an empty body.
            brace = re.search(r"^ *\{(?=\n|\})", text[one.start : one.end], re.MULTILINE)
            old = text[one.start : one.start + brace.end()] if brace else ""
            if old and text.count(old) == 1:
                found.append(Edit(HARMLESS, [(file, old, f"{old}\nlet _without_meaning = 0u8;\n")], {one.path}))
    return next((it for it in found if not it.functions & taken), found[0])


class Verdicts:
    """What a check says of each function, and the goals that it couldn't reach."""

    def __init__(self, said, name, sources):
        self.sources, self.said = sources, said
        self.of = dict(re.findall(rf"^fn {name}::(\S+): (.*)$", said, re.MULTILINE))
        self.faults = FAULT.findall(said)

    def with_closures(self, function):
        """The function and its closures, as far as they were judged."""
        return [it for it in self.of if it == function or it.replace("fn::", "", 1).startswith(f"{function}::")]

    def is_at(self, fault, name, function):
        file, line = fault.split(":")[:2]
        if not file.startswith("src/"):
            return file.startswith("proofs/" + name.replace("::", "/") + "/")
        lines = self.sources.texts[file].splitlines(keepends=True)
        return function in self.sources.at(file, sum(map(len, lines[: int(line) - 1])))

    def faults_of(self, functions):
        """The goals of these functions, or of all for None, that it couldn't reach, and the errors of their proofs."""
        if functions is None:
            return self.faults
        names = [(it, name) for it in functions for name in self.with_closures(it) if self.of[name] != "proved"]
        return [it for it in self.faults if any(self.is_at(it, name, function) for function, name in names)]

    def answered(self, edit):
        """The functions that an edit changes, or of one that changes something else those of which a goal fails."""
        return {it for it in self.of if self.faults_of([it])} if edit.functions is None else edit.functions

    def is_search(self, fault):
        """Whether a fault is that of a search which is the whole answer of a goal."""
        file, line, column = fault.split(":")[:3]
        if not file.endswith("/Answers.antt"):
            return False
        text = self.sources.texts[file]
        place = sum(map(len, text.splitlines(keepends=True)[: int(line) - 1])) + int(column) - 1
        return bool(SEARCH.match(text, place)) and place in {it.end() for it in ANSWER.finditer(text)}

    def refusal(self, functions):
        """One of the faults that says that a goal is false at some values, or that a search tried every way to a goal:
        a search that stands in an answer, or the prover's own where that reaches all goals of the crate as it is."""
        tried = []
        for function in functions if functions is not None else self.of:
            is_searched = self.sources.is_searched(function)
            for it in self.faults_of([function]):
                is_own, is_search = it.startswith("src/"), self.is_search(it)
                if (is_own or is_search) and FALSE.search(it):
                    return it
                if (is_own and is_searched or is_search) and TRIED.search(it) and not ENDED.search(it):
                    tried.append(it)
        return tried[0] if tried else None

    def lines(self, functions):
        """What the check says of each of these functions, or of all for None."""
        names = [name for it in functions for name in self.with_closures(it)] if functions is not None else self.of
        return [self.of[it] for it in names]

    def is_proved(self, functions):
        are_judged = all(self.with_closures(it) for it in functions or ())
        return are_judged and all(it == "proved" for it in self.lines(functions))

    def judge(self, edit):
        """REFUSED, BY_FORM or PROVED, or None if the edit is to be tried again; and what to print."""
        faults = self.faults_of(edit.functions)
        # If the text can't be read, no function has a verdict.
        if not self.of:
            return None, faults[0] if faults else self.said[-600:]
        if self.is_proved(edit.functions):
            return PROVED, "what it changes is still proved"
        found = self.refusal(edit.functions)
        if found:
            return REFUSED, found
        # Faults, or a function without any proof, such as the borrow checker doesn't cover.
        forms = [it for it in faults if not NAMES.search(it)]
        forms += [it for it in self.lines(edit.functions) if it.startswith("no proof: expected")]
        return (BY_FORM, forms[0]) if forms else (None, faults[0] if faults else self.said[-600:])


class Crate:
    """A crate, its edits, and the checks that try them."""

    def __init__(self, name, kit, is_strict=False):
        self.name, self.words, self.is_strict = name, crates.words("check", name, kit), is_strict
        self.sources = Sources({**crates.texts(CRATES / name), **answers(name)})
        self.told, self.edits, self.seconds = [], [], 0
        # Those that were refused by form, with the functions and the fault.
        self.formal = []
        for path in edits_in(name):
            try:
                self.edits.append(read_edit(path, self.sources))
            except BadEdit as fault:
                self.tell(path.name, "BAD EDIT", str(fault))

    def tell(self, name, verdict, text):
        self.told.append(verdict)
        shown = " ".join(text.split())[:200]
        print(f"edit {self.name}/{name}: {verdict}: {shown}", flush=True)

    def checked(self, sources, kept, only):
        """What a check of these sources says, of these functions or of all."""
        with tempfile.TemporaryDirectory(prefix="edits-") as room:
            for file, text in sources.texts.items():
                made = Path(room, file)
                made.parent.mkdir(parents=True, exist_ok=True)
                made.write_text(text, encoding="utf-8")
            words = [*self.words, "--incremental", kept, "--jobs", "1", *(f"--only={it}" for it in sorted(only))]
            # The check ends with this program.
            words = ["setpriv", "--pdeathsig", "KILL", *words]
            with subprocess.Popen(words, cwd=room, encoding="utf-8", errors="replace", **build.HOW) as check:
                said = check.stdout.read()
                _, check.returncode, used = os.wait4(check.pid, 0)
            self.seconds += used.ru_utime + used.ru_stime
            return said

    def batch(self, left):
        """Edits that change functions of their own, as many as there are; one that changes something else alone."""
        taken, sources, chosen = set(), self.sources, []
        for it in left:
            if it.functions is None or taken & it.functions:
                continue
            try:
                sources = it.applied(sources)
            except BadEdit:
                continue
            taken |= it.functions
            chosen.append(it)
        return (chosen, sources) if chosen else (left[:1], left[0].applied(self.sources))

    def try_batch(self, chosen, sources, kept):
        """Tries these edits together; returns those that are to be tried again."""
        only = set().union(*(it.functions or it.at for it in chosen))
        verdicts = Verdicts(self.checked(sources, kept, only), self.name, sources)
        again = []
        for it in chosen:
            verdict, text = verdicts.judge(it)
            if verdict is None and len(chosen) > 1:
                again.append(it)
            elif it.name == HARMLESS:
                self.tell(it.name, HARMLESS if verdict == PROVED else "FAILED", text)
            elif self.is_strict and verdict in (None, BY_FORM) and verdicts.of and not it.by:
                self.formal.append((it, verdicts.answered(it), text))
            else:
                verdict = BY_PROOF if it.by and verdict == BY_FORM else verdict
                self.tell(it.name, verdict or "NOT REFUSED by a goal", text)
        return again

    def try_formal(self, kept):
        """Tries those again that were refused by form, without the answers of the functions: those of different
        functions together."""
        while self.formal:
            chosen, taken, sources = [], set(), self.sources
            for it in self.formal:
                edit, functions, _ = it
                if chosen and (taken & functions or None in (edit.functions, chosen[0][0].functions)):
                    continue
                chosen.append(it)
                taken |= functions
                sources = edit.applied(sources)
            self.formal = [it for it in self.formal if it not in chosen]
            sources = sources.without_answers(taken)
            verdicts = Verdicts(self.checked(sources, kept, taken) if taken else "", self.name, sources)
            for edit, functions, text in chosen:
                found = verdicts.refusal(functions)
                if not found and edit.functions is not None and verdicts.is_proved(functions):
                    self.tell(edit.name, PROVED, "what it changes is still proved, by other answers")
                else:
                    self.tell(edit.name, REFUSED if found else BY_FORM, found or text)

    def try_all(self):
        """The verdict of each edit, in their order of trying."""
        left = [*self.edits, harmless(self.sources, self.edits)] if self.edits else []
        with tempfile.TemporaryDirectory(prefix="edits-kept-") as kept:
            while left:
                chosen, sources = self.batch(left)
                again = self.try_batch(chosen, sources, kept)
                # If nothing of several was judged, as when one can't be read, each is tried by itself.
                if len(again) == len(chosen):
                    again = [it for one in chosen for it in self.try_batch([one], one.applied(self.sources), kept)]
                left = [*again, *(it for it in left if it not in chosen)]
            self.try_formal(kept)
        return self.told


def answers(crate):
    """The files of proofs/ that the lines `FUNCTION: GOAL ..` of edits/answers.txt stand for. Each goal is answered by
    the tactic that the prover tries first: no proof needs that, but with an answer a wrong body is refused sooner."""
    path, found = CRATES / crate / "edits/answers.txt", {}
    lines = path.read_text(encoding="utf-8") if path.exists() else ""
    for function, goals in re.findall(r"(?m)^(\S+): (.*)$", lines):
        text = "use Rattle.std.proofs.Common.{rules}\n"
        text += f"use Rattle.{crate}.proofs.{function.replace('::', '.')}.Goals as goal\n"
        text += "".join(f"\npub {it} : goal.{it}\n{it} c = search rules\n" for it in goals.split())
        found[f"proofs/{function.replace('::', '/')}/Answers.antt"] = text
    return found


def edits_in(name):
    return sorted((CRATES / name / "edits").glob("*.edit"))


def build_below(names):
    """Builds the libraries that the crates stand on, if they aren't current."""
    stands_on = crates.stands_on()
    needed = {low for it in names for low in crates.below(stands_on, it) if low != it}
    for name in stands_on:
        if name in needed and not crates.is_current(name):
            subprocess.run(["rt", "lib"], cwd=CRATES / name, stdout=subprocess.DEVNULL, check=True)


def main():
    is_strict = "--strict" in sys.argv[1:]
    named = [it for it in sys.argv[1:] if it != "--strict"] or [it for it in crates.listed() if edits_in(it)]
    if not set(named) <= set(crates.listed()):
        sys.exit(__doc__)
    for it in (signal.SIGINT, signal.SIGTERM):
        signal.signal(it, lambda *_: os._exit(1))
    build_below(named)
    kit = crates.kit()
    tried = [Crate(it, kit, is_strict) for it in named]
    tried.sort(key=lambda it: -len(it.edits) * build.size(it.name))
    with ThreadPoolExecutor(build.at_once()) as pool:
        told = [it for one in pool.map(Crate.try_all, tried) for it in one]
    print("seconds:", ", ".join(f"{it.name} {it.seconds:.0f}" for it in tried))
    refused, by_form, by_proof = (told.count(it) for it in (REFUSED, BY_FORM, BY_PROOF))
    failed = len(told) - refused - by_form - by_proof - told.count(HARMLESS)
    print(f"edits: {refused} refused, {by_form} by form, {by_proof} by their proof alone, {failed} failed")
    sys.exit(1 if failed or is_strict and by_form else 0)


if __name__ == "__main__":
    main()
