#!/usr/bin/env -S python3 -B
"""bench.py [--instructions | --words] PROGRAM [OTHER]    Times PROGRAM, and OTHER beside it, on scripts, images and texts.

- Six scripts: mode Bare, one stage and both, with 24 pages (all found in the translation cache once it is warm) and
  with 176 (most of them not), of 1,000,000 lines each; and one of 32 lines, on which each program is started a
  thousand times.
- `explain` of PROGRAM beside its run, on 300,000 device reads, `check --settled` beside it, on 300,000 lines, and
  `judge` beside it, on 100,000 lines with 176 pages of which its own answers were seen, in seconds of the processor.
- An image of 64 MiB that is loaded, texts of 10,000 to 200,000 data lines that are assembled, and items that are
  listed.

The programs take turns. The best time counts; a ratio is the median over the turns of their speeds, the first to the
second, since a host's speed changes from one second to the next. What they write must be the same, byte for byte, and
have a line for each line of a script. The status is 1 if it differs or a run fails.

With --words it times `explain`, `check --settled` and `judge` alone.

With --instructions no clock is read: callgrind, of valgrind, counts them. The instructions of a line are the difference
of two lengths of a script, divided by the lines between them, so that the start falls out; with them those of the C
library's copies and fills. The start is that of 32 lines under mode Bare without the fills, since callgrind counts a
byte that `rep stosb` writes as an instruction; below it the pages that the system has to give, which callgrind doesn't
see. The kernel's instructions aren't counted.
"""
import filecmp
import itertools
import os
import random
import re
import resource
import statistics
import struct
import subprocess
import sys
import tempfile
import time

import generate

# Name, stages and pages of a script.
BARE = ("mode Bare", 0, 256)
STAGED = [
    (f"{name}, {pages} pages", stages, pages)
    for stages, name in ((1, "one stage"), (2, "both stages"))
    for pages in (24, 176)
]
LINES, SHORT, STARTS, READS = 1_000_000, 32, 1000, 300_000
CHECKED, JUDGED = 300_000, 100_000
# Of the scripts whose instructions are counted.
FEWER, MORE = 2_000, 22_000
BASE, SIZE, LISTED = 0x80000000, 1 << 26, 1 << 23
TEXTS = (10_000, 100_000, 200_000)
ITEM_BYTES = {"u64": 8, "context": 32}


def timed(words, given, output, starts):
    """Runs a program so many times; returns the seconds that passed, and those of the processor."""
    at_input = (os.POSIX_SPAWN_OPEN, 0, given, os.O_RDONLY, 0)
    at_output = (os.POSIX_SPAWN_OPEN, 1, output, os.O_WRONLY | os.O_CREAT | os.O_TRUNC, 0o644)
    start, used = time.perf_counter(), 0.0
    for _ in range(starts):
        child = os.posix_spawn(words[0], words, os.environ, file_actions=[at_input, at_output])
        _, status, usage = os.wait4(child, 0)
        used += usage.ru_utime + usage.ru_stime
        if status:
            sys.exit(f"bench: {' '.join(words)} ended with status {os.waitstatus_to_exitcode(status)}")
    return time.perf_counter() - start, used


def line_count(path):
    with open(path, "rb") as file:
        return sum(block.count(b"\n") for block in iter(lambda: file.read(1 << 20), b""))


class Bench:
    """The programs, and a folder for what they read and write."""

    def __init__(self, programs, room):
        self.programs, self.room = programs, room

    def path(self, name):
        return os.path.join(self.room, name)

    def measured(self, name, runs, count, unit, times, starts=1, by_processor=False, given=os.devnull):
        """Carries out the runs in turn, prints their speeds, and returns the files of their outputs."""
        outputs = [self.path(f"output{at}") for at in range(len(runs))]
        taken = [[] for _ in runs]
        for turn in range(times):
            # Each is the first in every second turn.
            for at in range(len(runs)) if turn % 2 else reversed(range(len(runs))):
                taken[at].append(timed(runs[at], given, outputs[at], starts)[by_processor])
        best = [min(it) for it in taken]
        speeds = ", ".join(f"{count * starts / it:,.0f} {unit} per second ({it:.4f} s)" for it in best)
        ratio = f"; ratio {statistics.median(other / own for own, other in zip(*taken)):.3g}" if len(taken) == 2 else ""
        print(f"{name}: {speeds}{ratio}", flush=True)
        return outputs

    def want_same(self, name, written):
        if not all(filecmp.cmp(written[0], it, shallow=False) for it in written[1:]):
            sys.exit(f"{name}: what was written DIFFERS")

    def written(self, stages, pages, lines):
        """The file of a script."""
        with open(self.path("script"), "w", encoding="ascii") as out:
            generate.write(out, stages, pages, lines)
        return out.name

    def script(self, name, stages, pages, lines, starts, times):
        script = self.written(stages, pages, lines)
        outputs = self.measured(name, [[it] for it in self.programs], lines, "lines", times, starts, given=script)
        self.want_same(name, outputs)
        if (answers := line_count(outputs[0])) != lines:
            sys.exit(f"{name}: {answers:,} answers for {lines:,} lines")

    def explained(self, name, stages, pages):
        """The lines of a script that set the IOMMU up, and then device reads alone."""
        everything, script, program = self.path("everything"), self.path("script"), self.programs[0]
        with open(everything, "w", encoding="ascii") as out:
            generate.write(out, stages, pages, 4 * READS)
        with open(everything, encoding="ascii") as read, open(script, "w", encoding="ascii") as out:
            out.writelines(f"{line}\n" for line in generate.SET_UP[stages])
            out.writelines(itertools.islice((line for line in read if line.startswith("dma read")), READS))
        lines = line_count(script)
        runs = [[program, "explain"], [program]]
        outputs = self.measured(f"explain and run, {name}", runs, lines, "lines", 9, by_processor=True, given=script)
        with open(outputs[0], "rb") as file:
            told = sum(line[:1].isdigit() for line in file)
        if told != lines:
            sys.exit(f"{name}: {told:,} lines are told of {lines:,}")

    def settled(self, name, stages, pages):
        """All lines of a script."""
        script, program = self.written(stages, pages, CHECKED), self.programs[0]
        runs = [[program, "check", "--settled"], [program]]
        self.measured(f"check --settled and run, {name}", runs, CHECKED, "lines", 9, by_processor=True, given=script)

    def judged(self, name, stages, pages):
        """All lines of a script, each with the program's answer as what was seen: so the IOMMU has one state."""
        program, answers, trace = self.programs[0], self.path("answers"), self.path("trace")
        script = self.written(stages, pages, JUDGED)
        timed([program], script, answers, 1)
        with open(script, encoding="ascii") as lines, open(answers, encoding="ascii") as seen:
            with open(trace, "w", encoding="ascii") as out:
                out.writelines(f"{line.rstrip()} # => {answer}" for line, answer in zip(lines, seen, strict=True))
        runs = [[program, "judge"], [program]]
        outputs = self.measured(f"judge and run, {name}", runs, JUDGED, "lines", 3, by_processor=True, given=trace)
        with open(outputs[0], encoding="ascii") as told:
            if (said := told.read()) != f"{JUDGED} passed, 0 failed\n":
                sys.exit(f"{name}: judge says {said[:500]}")

    def words(self):
        for script in STAGED:
            self.explained(*script)
            self.settled(*script)
        for script in STAGED[1::2]:
            self.judged(*script)

    def used(self, name, words, count, unit, made=()):
        """A use of an image or a text; `made` names what each program writes, where that is a file."""
        runs = [[program, *words, *made[at : at + 1]] for at, program in enumerate(self.programs)]
        outputs = self.measured(name, runs, count, unit, 7)
        self.want_same(name, made[: len(runs)] or outputs)

    def counted(self, *script):
        """For each program the instructions of a run, those of the C library's copies and fills, and of its fills."""
        found, outputs, profile = [], set(), self.path("profile")
        for program in self.programs:
            with open(self.written(*script), "rb") as read:
                words = ["valgrind", "-q", "--tool=callgrind", f"--callgrind-out-file={profile}", program]
                outputs.add(subprocess.run(words, stdin=read, stdout=subprocess.PIPE, check=True).stdout)
            words = ["callgrind_annotate", "--threshold=100", "--show-percs=no", profile]
            told = subprocess.run(words, capture_output=True, text=True, check=True).stdout.replace(",", "")
            costs = [(int(cost), name) for cost, name in re.findall(r"(?m)^ *(\d+)  \S*?:?(.*)$", told)]
            of = lambda pattern: sum(cost for cost, name in costs if re.search(pattern, name))
            found.append((int(re.search(r"(\d+) +PROGRAM TOTALS", told)[1]), of("mem(cpy|move|set)"), of("memset")))
        if len(outputs) > 1:
            sys.exit("instructions: the outputs DIFFER")
        return found

    def instructions(self):
        def row(name, numbers):
            ratio = f"{numbers[-1] / numbers[0]:8.2f}" if len(numbers) == 2 else ""
            print(f"{name:30}" + "".join(f"{number:12,.0f}" for number in numbers) + ratio, flush=True)

        for name, *how in (BARE, *STAGED):
            fewer, more = self.counted(*how, FEWER), self.counted(*how, MORE)
            for part, title in enumerate((f"a line, {name}", "  copies and fills of libc")):
                row(title, [(after[part] - before[part]) / (MORE - FEWER) for before, after in zip(fewer, more)])
        row("a start and 32 lines", [total - fills for total, _, fills in self.counted(*BARE[1:], SHORT)])
        touched = []
        for program in self.programs:
            before = resource.getrusage(resource.RUSAGE_CHILDREN).ru_minflt
            timed([program], self.path("script"), self.path("output0"), 1)
            touched.append(resource.getrusage(resource.RUSAGE_CHILDREN).ru_minflt - before)
        row("  pages that it touches", touched)

    def images(self):
        image, text = self.path("image"), self.path("text")
        with open(image, "wb") as out:
            out.write(b"RVIOMMU1" + struct.pack("<QQII", BASE, SIZE, 1, 0) + struct.pack("<QI", BASE, SIZE))
            out.write(random.Random(1).randbytes(SIZE))
        self.used("load 64 MiB", ["run", image], SIZE >> 20, "MiB")
        for count in TEXTS:
            write_text(text, count)
            made = [self.path("made0"), self.path("made1")]
            self.used(f"assemble {count:,} data lines", ["asm", text], count, "data lines", made)
        for kind, size in ITEM_BYTES.items():
            count = LISTED // size
            self.used(f"list {count:,} items, {kind}", ["list", image, kind, hex(BASE), str(count)], count, "items")


def write_text(path, count):
    """Writes a text of that many data lines in random order, eight free bytes after each number."""
    numbers = random.Random(1)
    places = random.Random(1).sample(range(count), count)
    with open(path, "w", encoding="ascii") as out:
        out.write(f"ram {BASE:#x} {SIZE:#x}\n")
        out.writelines(f"at {BASE + 16 * place:#x}\nu64 {numbers.getrandbits(64):#x}\n" for place in places)


def main(*words):
    programs = [os.path.abspath(word) for word in words if not word.startswith("--")]
    if len(programs) not in (1, 2) or not all(os.access(it, os.X_OK) for it in programs):
        sys.exit(__doc__)
    with tempfile.TemporaryDirectory(prefix="rviommu-bench-") as room:
        bench = Bench(programs, room)
        if "--instructions" in words:
            return bench.instructions()
        if "--words" in words:
            return bench.words()
        for script in (BARE, *STAGED):
            bench.script(*script, LINES, 1, 25)
        bench.script("32 lines, a thousand starts", 0, 256, SHORT, STARTS, 5)
        bench.words()
        bench.images()


if __name__ == "__main__":
    main(*sys.argv[1:])
