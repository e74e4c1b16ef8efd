"""The whole crate as which the program of `make run` is built, the page's crate, and `make try`."""
import os
import re
import subprocess
from collections import Counter

from frame import TOP, Case, page_build
import build
import crates
import whole


PATH = re.compile(r"\b(?:(?:Rattle|crate|specs|proofs|declared|contracts|iom_\w+)(?:::|\.))+")
DECLARED = re.compile(r"(?:pub )?mod \w+;?|#!\[tactic\(auto\)\]")


class Building(Case):
    def plain(self, texts):
        """The lines of texts without the paths by which they name each other, and without what declares them."""
        lines = (PATH.sub("", line) for text in texts for line in text.splitlines())
        return Counter(line for line in lines if line and not DECLARED.fullmatch(line))

    def test_whole(self):
        """build: the whole crate has what the crates have, and nothing else, by other paths"""
        made = whole.Whole(build.FIRST)
        names = [*made.below, made.top]
        own = [text for name in names for text in crates.texts(TOP / "crates" / name).values()]
        self.assertEqual(self.plain(made.files().values()), self.plain(own))

    def test_page(self):
        """page: the files of its crate are laid out as `rt fmt` lays them out"""
        self.needs("rt")
        page = page_build()
        page.COPY = crates.Path(self.path("copy"))
        own = crates.texts(page.OWN, ".page")
        self.assertEqual([path for path, text in page.formatted().items() if own[path] != text], [])


# What `rt try` writes on standard error, and how it ends; then what try.py prints there.
TRIED = [
    (b"of the program\nchecked: ended status=3\nrun=ended status=3 runners=1 proved=no\n", 3,
     "of the program\ntry: nothing was proved; `make build` proves and builds this program\n"),
    (b"the end of the program's standard output:\n| done\n| don\nchecked: no-answer: the program did not end within the "
     b"time limit\nrun=no-answer proved=no\n", 6,
     "try: the program did not end within the time limit; a program built by `make build` has no such limit\n"),
    (b"src/main.rt:9:1: error: no such name\nrun=none proved=no\n", 1,
     "src/main.rt:9:1: error: no such name\nrun=none proved=no\n"),
]


class Trying(Case):
    """packaging/try.py, over a command in the place of rt, which writes its words; README's test runs it over rt."""

    def tried(self, words, end=b"run=ended status=0 runners=1 proved=no\n", status=0):
        """The lines that the command in the place of rt was called with, and what is written on standard error."""
        self.put("errors", end)
        os.chmod(self.put("rt", f'#!/bin/sh\nprintf "%s\\n" "$@"\ncat {self.path("errors")} >&2\nexit {status}\n'), 0o755)
        env = {**os.environ, "PATH": f"{self.folder}:{os.environ['PATH']}"}
        how = {"cwd": self.folder, "env": env, "stdin": subprocess.DEVNULL, "capture_output": True, "encoding": "utf-8"}
        ended = subprocess.run([TOP / "packaging/try.py", *words], **how)
        self.assertEqual(ended.returncode, status)
        return ended.stdout.splitlines(), ended.stderr

    def test_ends(self):
        """try: it ends as the program does, or names the limit that was met, or prints what rt says"""
        for written, status, wanted in TRIED:
            out, errors = self.tried(["check", "--tap"], written, status)
            self.assertEqual(out, ["try", "--", "check", "--tap"])
            self.assertEqual(errors, wanted)

    def test_files(self):
        """try: the program finds its files and those that they include, and no file that isn't there is taken"""
        os.mkdir(self.path("tables"))
        self.put("a.script", "image tables/own.asm # its image\ninclude tables/one\n  include\ttables/two # again\ninclude gone\ncmd # include no\n")
        self.put("tables/one", "include two")
        self.put("tables/two", "include ../a.script\ncmd\n")
        self.put("tables/own.asm", "ram 0x80000000 0x1000\n")
        found = [f"{name}={self.path(name)}" for name in ("a.script", "tables/own.asm", "tables/one", "tables/two")]
        data = [word for it in found for word in ("--data", it)]
        for name in ("a.script", self.path("a.script")):
            out, _ = self.tried(["check", "--", name])
            self.assertEqual(out, ["try", *data, "--", "check", "a.script"])
        with self.assertRaises(AssertionError):
            self.tried(["--", "gone"])
