"""`judge` on the traces of IOMMUs with caches of their own: of right ones none is refused; of those with a planted fault
exactly those lines, and with exactly those answers, that a search of all choices doesn't allow. And on this program's own
answers to scripts, of which it refuses none, but one that is changed.

JUDGED_TRACES in the environment is the number of traces of right IOMMUs, 300 without it.
"""
import os
import random
import re
from collections import Counter

import fuzz
from frame import BUILT_IN, TESTS, Case, run, scripts
from judged import FAULTY, FAULTY_WITH_FILES, Own, Run, image

TRACES = int(os.environ.get("JUDGED_TRACES", 300))
# Steps of a run, and of a small one.
STEPS, SMALL_STEPS = 60, 40
# Of each planted fault: traces at once, how many of them are to show it, and how often such traces are made at most.
PLANTED, SHOWN, ROUNDS = 20, 2, 40
# Of a hundred traces at most so many may be undecided: about one is, more where commands aren't seen, and the traces are few.
MOST_UNDECIDED, MOST_HIDDEN_UNDECIDED = 3, 12
UNDECIDED = ": undecided, too many states are possible"
# How many allowed answers a report has at most.
MOST_TOLD = 8


def told_of(answers):
    """Answers with their places, as a report tells them."""
    return {f"{answer} at {goes:#x}" if isinstance(goes, int) else answer for answer, goes in answers}


class Judged(Case):
    @classmethod
    def setUpClass(cls):
        cls.seed = random.randrange(2**32)

    def judged(self, runs, hidden=False):
        """For each run the lines that were refused, by their indexes, each with what was allowed; and the index of the line
        that wasn't decided, behind which none is judged, or None."""
        files, begins = [], []
        for number, one in enumerate(runs):
            begun, lines = one.script()
            files.append(f"{number}.trace")
            begins.append(len(begun) + 1)
            self.put(files[-1], "\n".join([*begun, *lines, ""]))
        words = ["judge", "--image", self.image(image(runs[0].has_files)), *(["--hidden"] if hidden else []), *files]
        status, out, errors = run(words, cwd=self.folder)
        self.assertEqual(errors, b"")
        refused, undecided = [{} for _ in runs], {}
        for file, line, said in re.findall(r"(?m)^(\d+)\.trace:(\d+): (.*)$", out.decode()):
            number, at = int(file), int(line) - begins[int(file)]
            if said.endswith(UNDECIDED):
                undecided[number] = at
            elif not said.startswith("note: "):
                self.assertRegex(said, ": seen .*, allowed: ")
                refused[number][at] = said.rpartition(", allowed: ")[2].split(", ")
        self.assertEqual(status, 1 if any(refused) or undecided else 0)
        return [(lines, undecided.get(number)) for number, lines in enumerate(refused)]

    def want_allowed(self, count, hidden, has_files=False):
        undecided = elsewhere = 0
        for first in range(0, count, 100):
            seeds = [f"{self.seed}/{hidden}/{has_files}/{number}" for number in range(first, min(first + 100, count))]
            runs = [Run(random.Random(seed), hidden=hidden, has_files=has_files).play(STEPS) for seed in seeds]
            for seed, one, (refused, end) in zip(seeds, runs, self.judged(runs, hidden), strict=True):
                undecided += end is not None
                elsewhere += one.elsewhere
                if refused:
                    self.fail(f"seed {seed}: {refused}\n" + "\n".join([it for part in one.script() for it in part]))
        self.assertLessEqual(undecided, count * (MOST_HIDDEN_UNDECIDED if hidden else MOST_UNDECIDED) // 100)
        self.assertGreater(elsewhere, count // 2)

    def test_right_iommus(self):
        """no trace of an IOMMU that keeps and forgets as it likes is refused"""
        self.want_allowed(TRACES, hidden=False)

    def test_hidden_commands(self):
        """nor one whose commands aren't seen"""
        self.want_allowed(TRACES // 4, hidden=True)

    def test_files(self):
        """nor one whose contexts have MSI page tables"""
        self.want_allowed(TRACES // 4, hidden=False, has_files=True)

    def compare(self, made, hidden, seed, has_files=False):
        """Traces of IOMMUs of this kind beside the search of all choices. Returns how many have a line that it doesn't allow."""
        chances = [random.Random(f"{seed}/{number}") for number in range(PLANTED)]
        runs = [Run(chance, made, small=True, hidden=hidden, has_files=has_files).play(SMALL_STEPS) for chance in chances]
        searched = [one.judged() for one in runs]
        shown = 0
        for one, answers, (refused, end) in zip(runs, searched, self.judged(runs, hidden), strict=True):
            begun, lines = one.script()
            with self.subTest(made=made.__name__, hidden=hidden, seed=seed, lines=[*begun, *lines]):
                wanted = {at: told_of(all_answers) for at, (all_answers, does_fit) in enumerate(answers[:end]) if not does_fit}
                self.assertEqual(set(refused), set(wanted))
                for at, told in wanted.items():
                    if len(told) <= MOST_TOLD:
                        self.assertEqual((lines[at], set(refused[at])), (lines[at], told))
            shown += bool(wanted)
        return shown

    def test_right_lines(self):
        """a small trace of a right IOMMU has no line that is refused, or that the search refuses"""
        for hidden, has_files in ((False, False), (True, False), (False, True)):
            self.assertEqual(self.compare(Own, hidden, f"{self.seed}/{hidden}", has_files), 0)

    def test_planted_faults(self):
        """a line is refused exactly if no choice allows it, and the allowed answers are those of all choices"""
        for made, has_files in [*((it, False) for it in FAULTY), *((it, True) for it in FAULTY_WITH_FILES)]:
            shown = 0
            for number in range(ROUNDS):
                shown += self.compare(made, number % 4 == 3, f"{self.seed}/{number}", has_files)
                if shown >= SHOWN:
                    break
            self.assertGreaterEqual(shown, SHOWN, f"seed {self.seed}: {made.__doc__}")


# An answer of a step.
OF_A_STEP = re.compile(rb"done|idle|misuse|bus error|bad access|no device|denied \d+|0x[0-9a-f]+|([0-9a-f]{2})+")
SEEN = b" # => "
STRAY, NOTHING_SEEN = "note: what was seen is on a line that isn't one step", "note: no line has a wish"
# Scripts made at random, and how many answers of each are changed.
RANDOM_SCRIPTS, CHANGES = 50, 2


def all_scripts():
    """The scripts of examples, rows and tests/debugged, each with its name and the text of its image."""
    for path, script, text in scripts():
        yield path.stem, script, text or BUILT_IN
    for path in sorted((TESTS / "debugged").glob("*.script")):
        yield path.stem, path.read_bytes(), path.with_suffix(".asm").read_bytes()


def random_scripts(seed):
    """Scripts made by changes of these, but for one whose memory has 64 MiB."""
    found, mutator = fuzz.cases(), fuzz.Mutator(seed)
    found.pop("linux_probe")
    dice = mutator.random
    for number in range(RANDOM_SCRIPTS):
        (text, script), (_, donor) = (found[dice.choice(list(found))] for _ in range(2))
        lines = mutator.garbled(mutator.watched(mutator.lines(script, donor, dice.choice((0, 1, 2, 4, 8)))))
        yield f"{number} of seed {seed}", "\n".join(lines).encode(), "\n".join(text)


def other_than(answer):
    """Another answer than this one of a step."""
    if re.fullmatch(b"([0-9a-f]{2})+", answer):
        return b"%02x" % (int(answer[:2], 16) ^ 1) + answer[2:]
    return b"denied 13" if answer != b"denied 13" else b"denied 5"


def with_answer(lines, at, answer):
    """These lines, with this as what was seen of one of them."""
    return [*lines[:at], lines[at].partition(SEEN)[0] + SEEN + answer, *lines[at + 1 :]]


class Answered(Case):
    """Scripts with the answers of this program as what was seen of their steps."""

    def answered(self, script):
        """The lines of a script on the test's image, each step's with its answer, and the indexes of bad lines; without
        texts that it includes."""
        script = re.sub(rb"(?m)^[ \t]*include.*$", b"#", script)
        lines, bad = fuzz.wanting(script, run(["debug", "image"], script, cwd=self.folder)[1]), set()
        for at, line in enumerate(lines):
            words, seen, answer = line.partition(SEEN)
            if seen and b"#" not in words and not OF_A_STEP.fullmatch(answer):
                lines[at] = words
                bad.update([at] if answer == b"bad" else [])
        return lines, bad

    def settled(self, lines):
        """The indexes of the lines that are one access of a device, up to the first access that isn't settled."""
        out = run(["explain", "--settled", "image"], b"\n".join(lines), cwd=self.folder)[1]
        found, times = [], Counter()
        for line, reasons in re.findall(rb"(?m)^(\d+): .*\n((?:    .*\n)*)", out):
            times[line] += 1
            if b"    unsettled: " in reasons:
                break
            found += [line] if b"    warrant: " in reasons else []
        return [int(line) - 1 for line in found if times[line] == 1 and SEEN in lines[int(line) - 1]]

    def judged(self, traces):
        """What is told of the lines of each trace on the test's image, by their indexes, and how many passed."""
        files = [self.put(f"{number}.trace", b"\n".join(lines)) for number, lines in enumerate(traces)]
        out = run(["judge", "--image", "image", *map(os.path.basename, files)], cwd=self.folder)[1].decode()
        told, passed = [{} for _ in traces], re.findall(r"(?m)^\d+\.trace: (\d+) passed", out)
        for file, line, said in re.findall(r"(?m)^(\d+)\.trace:(\d+): (.*)$", out):
            if said != NOTHING_SEEN:
                told[int(file)][int(line) - 1] = said
        return list(zip(told, map(int, passed), strict=True))

    def want_allowed(self, lines, bad, told, passed):
        """Wants no answer of a step to be refused. Returns the index of the line that isn't decided, or None."""
        end = next((at for at, said in told.items() if said.endswith(UNDECIDED)), None)
        strays = {at for at, said in told.items() if said == STRAY}
        others = {at: said for at, said in told.items() if at not in strays and at != end}
        self.assertEqual(set(others), {at for at in bad if end is None or at < end}, others)
        self.assertEqual([said for said in others.values() if " -> bad" not in said], [])
        self.assertEqual(passed, sum(SEEN in line for line in lines[:end]) - len(strays))
        return end

    def compare(self, cases, seed):
        """Judges traces of these scripts, and traces with one answer changed. Returns the names of those that aren't
        decided, and how many changed answers are judged."""
        chance, undecided, count = random.Random(seed), [], 0
        for name, script, text in cases:
            self.image(text)
            lines, bad = self.answered(script)
            accesses = self.settled(lines)
            answers = {at: lines[at].partition(SEEN)[2] for at in chance.sample(accesses, min(CHANGES, len(accesses)))}
            others = {at: other_than(answer) for at, answer in answers.items()}
            (told, passed), *changed = self.judged([lines, *(with_answer(lines, *it) for it in others.items())])
            with self.subTest(name, seed=seed):
                end = self.want_allowed(lines, bad, told, passed)
                undecided += [] if end is None else [name]
                for at, (also, _) in zip(answers, changed):
                    if end is None or at < end:
                        report = f": seen {others[at].decode()}, allowed: {answers[at].decode()}"
                        self.assertRegex(also.pop(at), report + "( at 0x[0-9a-f]+)?$")
                        self.assertEqual(also, told)
                        count += 1
        return undecided, count

    def test_scripts(self):
        """of this program's own answers to the examples, the rows and the scripts of tests/debugged none is refused; one that
        is changed is, at its line, if its access is settled"""
        undecided, count = self.compare(all_scripts(), random.randrange(2**32))
        self.assertEqual(undecided, [])
        self.assertGreater(count, 100)

    def test_random_scripts(self):
        """nor of those to scripts made at random"""
        seed = random.randrange(2**32)
        undecided, count = self.compare(random_scripts(seed), seed)
        self.assertLessEqual(len(undecided), RANDOM_SCRIPTS * MOST_UNDECIDED // 100, undecided)
        self.assertGreater(count, 30)
