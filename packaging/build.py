#!/usr/bin/env -S python3 -B
"""build.py [CRATE]    Builds a program or a static library, rviommu if none is named, with the crates below it.

All is proved as it is built, and what is current costs a few seconds. Progress goes to standard error; standard output
stays empty. The status is 1 if something could not be built.

What isn't current is built crate by crate, as many at a time as the machine has processors and memory for: so the
program is the gate's. If nothing below iom_player has been built, it and all below it are proved and built as one crate
(whole.py): the toolchain's libraries are read once, and nothing waits for a crate below. A static library is built over
the libraries that the gate left, which rt would build again.

rt locks a crate and all that it stands on for as long as it works on it. So each is built in a tree of its own, in the
folder out/ at the top: the whole crate, or a crate's sources and those below it as hard links, with what was built of
these. What is built there is then moved into the crate's own folder out/.
"""
import fcntl
import os
import re
import shutil
import subprocess
import sys
import time
from concurrent.futures import FIRST_COMPLETED, ThreadPoolExecutor, wait

import crates
import whole

BYTES_A_JOB = 3 << 30
# A way to the top is long if it has this part of the longest one's bytes.
LONG = 0.9
# What a check does before its first function takes as long as that of so many bytes.
BYTES_OF_A_START = 50_000
# One that is shorter by no more bytes than these is begun beside the long ones, with one job.
NEAR = 120_000
# The program of which the first answer is wanted soon.
FIRST = "iom_player"
HOW = {"stdin": subprocess.DEVNULL, "stdout": subprocess.PIPE, "stderr": subprocess.STDOUT}


def size(name):
    """Bytes of the crate's sources, definitions and proofs, and those of a start: about what its check takes."""
    paths = [path for part in crates.PARTS for path in (crates.FOLDER / name / part).rglob("*")]
    return BYTES_OF_A_START + sum(path.stat().st_size for path in paths if path.is_file())


def ways(stands_on, size_of):
    """For each crate the bytes from it up to the top, along the longest way: the longest way is built first."""
    found = {}
    for name in reversed(stands_on):
        found[name] = size_of(name) + max((found[it] for it in stands_on if name in stands_on[it]), default=0)
    return found


def processors():
    return len(os.sched_getaffinity(0))


def at_once():
    """As many crates as there are processors, and memory for."""
    memory = os.sysconf("SC_PHYS_PAGES") * os.sysconf("SC_PAGE_SIZE")
    return max(1, min(processors(), memory // BYTES_A_JOB))


def say(text):
    print(f"build: {text}", file=sys.stderr, flush=True)


def minutes_left(seconds):
    """About how long it still takes, as text; nothing if that is over."""
    count = max(1, round(seconds / 60))
    return f", about {count} minute{'s' if count > 1 else ''} left" if seconds > 0 else ""


def run(words, folder, name=None):
    """Runs a command in a folder; returns what it wrote if it failed. Of a crate that is named it says how far the check is."""
    lines, started = [], time.monotonic()
    with subprocess.Popen(words, cwd=folder, encoding="utf-8", errors="replace", **HOW) as made:
        for line in made.stdout:
            lines.append(line)
            far = re.match(r"so far: ([1-9]\d*) of (\d+) functions", line)
            if far and name:
                left = (time.monotonic() - started) * (int(far[2]) / int(far[1]) - 1)
                say(f"{name}: {far[1]} of {far[2]} functions{minutes_left(left)}")
    return "".join(lines) if made.returncode else None


class Tree:
    """A tree in which no other rt works: `write` puts the sources there, and `kept` has what was built of them."""

    def __init__(self, name, kept, write):
        self.top = crates.LIST.parent / "out/build" / name
        self.folder = self.top / "crates" / name
        self.kept = kept
        # A build that was killed may have left its work.
        if not kept.is_dir():
            self.keep()
        shutil.rmtree(self.top, ignore_errors=True)
        write(self.top)
        if kept.is_dir():
            kept.rename(self.folder / "out")

    def keep(self):
        """What was built is kept now."""
        if (self.folder / "out").is_dir():
            shutil.rmtree(self.kept, ignore_errors=True)
            self.kept.parent.mkdir(parents=True, exist_ok=True)
            (self.folder / "out").rename(self.kept)

    def close(self):
        self.keep()
        shutil.rmtree(self.top, ignore_errors=True)


def link(folder, name, part, ignored=None):
    """Links a crate's files at or below the part into a tree."""
    how = {"ignore": ignored, "copy_function": os.link, "dirs_exist_ok": True}
    shutil.copytree(crates.FOLDER / name / part, folder / "crates" / name / part, **how)


def link_all(folder, name, lower):
    """Links a crate's sources and those below it into a tree, with what was built of these."""
    for it in [name, *lower]:
        link(folder, it, "", shutil.ignore_patterns("out"))
    for it in lower:
        link(folder, it, "out/rlib")
    listed = crates.listed()
    lines = [f"{' '.join([it, *listed[it][0]])}: {' '.join(listed[it][1])}\n" for it in [name, *lower]]
    (folder / "crates.txt").write_text("".join(lines), encoding="utf-8")


class Build:
    """What is built crate by crate, and how far it is."""

    def __init__(self, top):
        stands_on = crates.stands_on()
        self.crates = crates.below(stands_on, top)
        self.lower = {name: [it for it in crates.below(stands_on, name) if it != name] for name in self.crates}
        self.ways = ways(self.crates, size)
        self.ready, self.running, self.failed = set(), {}, {}
        # Those that cost a few seconds; of the others when each was begun, and how long those took that are ready.
        self.current = {it for it in self.crates if crates.is_current(it)}
        self.begun, self.took = {}, {}

    def build_one(self, name, words):
        """Builds a crate; returns its name and what rt wrote if it failed."""
        try:
            write = lambda folder: link_all(folder, name, self.lower[name])
            tree = Tree(name, crates.FOLDER / name / "out", write)
            fault = run(words, tree.folder)
            tree.close()
            return name, fault
        except OSError as error:
            return name, str(error)

    def words(self, name):
        """The command that builds the crate. Those with a long way to the top have the processors first, and share
        them; those with a short one wait for what is left."""
        words = ["rt", "run" if crates.is_program(name) else "lib"]
        now = {it: self.ways[it] for it in [*self.running.values(), *self.next_ones(), name]}
        longest = max(now.values())
        first = [it for it in now if now[it] >= LONG * longest]
        near = [it for it in now if it not in first and now[it] >= longest - NEAR]
        if name in first:
            return [*words, "--jobs", str(max(1, (at_once() - len(near)) // len(first)))]
        return [*([] if name in near else ["nice"]), *words, "--jobs", "1"]

    def seconds_left(self):
        """About how long it still takes: all that isn't ready, shared by as many as are built at once, or the longest way
        if that is more, as fast as those were built that are ready. 0 if none is yet."""
        if not self.took:
            return 0
        speed, now = sum(map(size, self.took)) / sum(self.took.values()), time.monotonic()
        rest = {it: max(0, size(it) - speed * (now - self.begun.get(it, now))) for it in self.crates}
        rest |= {it: 0 for it in self.ready | self.current}
        return max(sum(rest.values()) / at_once(), *ways(self.crates, rest.get).values()) / speed

    def done(self, name, fault):
        if fault is not None:
            self.failed[name] = fault
            return
        self.ready.add(name)
        if name not in self.current:
            self.took[name] = time.monotonic() - self.begun[name]
        say(f"{len(self.ready)} of {len(self.crates)}: {name}{minutes_left(self.seconds_left())}")

    def next_ones(self):
        begun = {*self.ready, *self.running.values()}
        free = [it for it in self.crates if it not in begun and self.ready.issuperset(self.crates[it])]
        return sorted(free, key=self.ways.get, reverse=True)

    def run(self):
        with ThreadPoolExecutor(at_once()) as pool:
            while len(self.ready) < len(self.crates):
                for name in self.next_ones()[: at_once() - len(self.running)] if not self.failed else []:
                    words, self.begun[name] = self.words(name), time.monotonic()
                    self.running[pool.submit(self.build_one, name, words)] = name
                if not self.running:
                    break
                for future in wait(self.running, return_when=FIRST_COMPLETED)[0]:
                    del self.running[future]
                    self.done(*future.result())
        for name, text in self.failed.items():
            print(f"{text}\nbuild: {name} could not be built", file=sys.stderr)
        return 1 if self.failed else 0


def build_whole(top):
    """Builds a crate and all below it as one crate, and says how far it is."""
    out = crates.FOLDER / top / "out"
    tree = Tree(top, out / "whole", lambda folder: whole.Whole(top).write(folder, crates.listed()[top][0]))
    words = ["rt", "run" if crates.is_program(top) else "lib", "--jobs", str(at_once())]
    fault = run(words, tree.folder, top)
    tree.close()
    if fault is None:
        made = top if crates.is_program(top) else f"lib{top}.a"
        shutil.copy2(tree.kept / made, out / f"{made}.new")
        os.replace(out / f"{made}.new", out / made)
    return fault


def build_over_the_gate(top):
    """Builds a static library over the libraries that the gate left; its own crate is proved once more."""
    folder, kit = crates.FOLDER / top, crates.kit()
    (folder / "out").mkdir(exist_ok=True)
    words = [*crates.words("build", top, kit), "--toolchain", f"{kit}/toolchain", "--jobs", str(at_once())]
    # Such a check doesn't say how far it is.
    say(f"{top}, over the libraries that are there: some minutes")
    return run([*words, "-o", f"out/lib{top}.a"], folder)


def are_built(names):
    """Whether `rt lib` built a library of each of these crates, perhaps of older sources. Those of `rt ci` lack this
    stamp, and rt builds them again."""
    return all((crates.FOLDER / it / "out/rlib/stamp").is_file() for it in names)


def build(top):
    lower = [it for it in crates.below(crates.stands_on(), top) if it != top]
    is_library = "staticlib" in crates.listed()[top][0]
    if not are_built(lower) and top == FIRST:
        at_one_go = build_whole
    elif not are_built(lower) and is_library and all(map(crates.is_current, lower)):
        at_one_go = build_over_the_gate
    else:
        return Build(top).run()
    started = time.monotonic()
    fault = at_one_go(top)
    say(f"{top} ({time.monotonic() - started:.0f} s)" if fault is None else f"{top} could not be built:\n{fault}")
    return 0 if fault is None else 1


def main():
    top = sys.argv[1] if len(sys.argv) > 1 else "rviommu"
    if len(sys.argv) > 2 or top not in crates.listed():
        sys.exit(__doc__)
    with crates.LIST.open(encoding="utf-8") as alone:
        fcntl.flock(alone, fcntl.LOCK_EX)
        sys.exit(build(top))


if __name__ == "__main__":
    main()
