"""The program as it carries out scripts: at a pipe, of examples, of rows and at random, and its faults.

What a shell can show stands in tests/shell.
"""
import os
import pty
import random
import re
import signal
import subprocess
import tty

import fuzz
from documents import answered_lines
from frame import (
    ANSWER, ASK, BAD_FOR_RUN, BUILT_IN, PLAYER, ROWS, TESTS, Case, answers_of, program, run, scripts,
    words_of)
from fuzz import wanting

# What is sent at a pipe, with what is answered at once, and at the end of all.
TALKS = {
    "": ([
        (b"reg read 8 4\n", b"0x2\n"), (b"dma read 5 0x80000000 8\n", b"denied 256\n"), (b"\n", b""),
        (b"reg write 16 8 1   # mode Bare\n", b"done\n"), (b"store 0x80000000 8 0x0807060504030201\n", b"done\n"),
        (b"dma read 5 0x80000000 8\n", b"0102030405060708\n"), (b" \t\r# only a comment\n", b""), (b"jump\n", b"bad\n"),
        (b"load 0x80000000 4\n", b"0x4030201\n"), (b"dma write 5 0x80000fff Ab\n", b"done\n"),
        (b"load 0x80000fff 1\r\n", b"0xab\n"), (b"dma read 5 0x80000ffc 8\n", b"misuse\n"),
        (b"load 0x80100000 1\n", b"bus error\n"), (b"reg read 32 8\n", b"bad access\n"),
        (b"dev step 0\n", b"no device\n"),
        # A line is answered once its end is there, and not before.
        (b"cm", b""), (b"d", b""), (b"\nreg read 8 4\njump\ncm", b"idle\n0x2\nbad\n"), (b"d\n", b"idle\n")], b""),
    "debug": ([(b"reg write ddtp 1\n", b"done\n"), (b"dump 0x80000000 2\njump\n", b"0000\nbad\n"), (b"\n", b"")], b""),
    "explain": ([(ASK + b"\ncm", b"1: reg read 0x8 0x4 -> " + ANSWER), (b"d\n", b"2: cmd -> idle\n")],
                b"accesses: 0\ngranted: 0\nfrom the caches: 0\nstale: 0\n"),
    "check": ([(ASK + b" # => 0x2\n", b""), (b"jump\ncmd # => don", b'line 2: jump -> bad: no line begins with "jump"\n'), (b"", b""),
               (b"e\n", b"line 3: cmd -> idle, wanted done\n")], b"1 passed, 2 failed\n"),
    "judge": ([(ASK + b" # => 0x2\n", b""), (b"jump\ncmd # => don", b'line 2: jump -> bad: no line begins with "jump"\n'), (b"", b""),
               (b"e\n", b"line 3: cmd: seen done, allowed: idle\n")], b"1 passed, 2 failed\n"),
}
SHORT, LONG = b"cmd\n" + ASK + b"\n", (ASK + b"\n") * 100_000
WRITE_FAILED, UNREAD, BY_SIGNAL = (1, b"rviommu: write failed\n"), (1, b""), (-signal.SIGPIPE, b"")

# Lines that take long enough for the progress to be told.
COUNT = 2**20 - 1
LONG_WALK = b"reg write ddtp 0x20000402\n" + b"walk read 5 0x40201abc 3\n" * COUNT
PART = b"first level=0x1 at=0x80003008 in=0x80003008 pte ppn=0x80004 flags=0x1 pointer\n"


class Scripts(Case):
    def test_at_a_pipe(self):
        """at a pipe each line is answered before the next is sent, by each word and the player"""
        for word, (sent, end) in TALKS.items():
            with self.subTest(word):
                for talk in [self.talk([word])] if word else [self.talk(), self.talk(at=PLAYER)]:
                    for some, answer in sent:
                        talk.send(some, answer)
                    talk.end(end, (int(word in ("check", "judge")), b""))

    def test_words(self):
        """examples and rows: `debug` and `explain` answer each as `run` does, one that wants its answers passes
        `check`, and of one with a changed wish only that line is printed; an upgraded image answers alike"""
        played, steps = 0, {}
        for path, script, text in scripts():
            word = words_of(script)[0]
            if word == "check" or path.stem == BAD_FOR_RUN:
                continue
            with self.subTest(path.stem):
                image, new = self.image(text or BUILT_IN), self.path("new")
                self.assertIsNone(fuzz.between_words(program(), image, script, word))
                lines = wanting(script, answers_of(path))
                at = max(at for at, line in enumerate(lines) if b"# => " in line)
                out = fuzz.unnoted(run(["check", image], b"\n".join([*lines[:at], lines[at] + b"x", *lines[at + 1 :]]))[1])
                self.assertEqual((out.count(b"\n"), out.partition(b": ")[0]), (2, b"line %d" % (at + 1)))
                self.written(["upgrade", image, new])
                self.assertEqual(run([word, new], script), run([word, image], script))
                played += 1
            if path.parent == ROWS:
                lines = tuple(answered_lines(script.decode(errors="replace")))
                self.assertEqual(steps.setdefault(lines, path.stem), path.stem, "rows with the same steps")
        self.assertGreater(played, 60)

    def test_random_scripts(self):
        """the words agree on scripts made at random too"""
        seed = random.randrange(2**32)
        found, mutator, compared = fuzz.cases(), fuzz.Mutator(seed), 0
        pair = fuzz.Pair(program(), program(), self.folder)
        for _ in range(100):
            differs, lines = fuzz.tried(pair, mutator, "scripts", found)
            self.assertIsNone(differs, f"with the seed {seed}")
            compared += lines
        self.assertGreater(compared, 1000)


class Faults(Case):
    def test_closed_pipe(self):
        """status 1 and no message: nobody reads standard output, SIGPIPE ignored, as Python has it, or at its default; or
        the reader leaves after the first answer"""
        for given in (SHORT, LONG):
            for restored in (False, True):
                reader, writer = os.pipe()
                os.close(reader)
                with open(writer, "wb") as out:
                    status, _, errors = run([], given, stdout=out, restore_signals=restored)
                self.assertIn((status, errors), [UNREAD, BY_SIGNAL][: 1 + restored])
        talk = self.talk()
        talk.send(ASK + b"\n", ANSWER)
        talk.stdout.close()
        talk.stdin.write(SHORT)
        talk.stdin.close()
        self.assertIn((talk.wait(), talk.stderr.read()), [UNREAD, BY_SIGNAL])

    def test_terminal_hangs_up(self):
        """read failed: a terminal that hangs up after two lines, and after two and a part of a third"""
        for sent in (ASK + b"\ncmd\n", ASK + b"\ncmd\n" + ASK):
            terminal, far = os.openpty()
            self.addCleanup(os.close, terminal)
            tty.setraw(far)
            os.write(far, sent)
            os.close(far)
            # What was sent is read, and the read after it fails.
            self.assertEqual(run([], stdin=terminal), (1, ANSWER + b"idle\n", b"rviommu: read failed\n"))


class Progress(Case):
    def told(self, word, given, at_pipe=False):
        """What is told on standard error, a terminal, and what is written, of a script on the image of mapped.asm."""
        ours, theirs = pty.openpty()
        words = [program(), word, self.image((TESTS / "mapped.asm").read_bytes())]
        with open(ours, "rb", buffering=0) as terminal, open(theirs, "wb", buffering=0) as errors:
            how = {"input": given} if at_pipe else {"stdin": self.enterContext(open(self.put("script", given)))}
            out = subprocess.run(words, stdout=subprocess.PIPE, stderr=errors, check=True, **how).stdout
            errors.write(b"|")
            told = b""
            while not told.endswith(b"|"):
                told += terminal.read(1 << 16)
        return told[:-1], out

    def test_long_script(self):
        """debug, check, explain and judge: how far a long script from a file is stands on a terminal, and is cleared"""
        nothing = b"line 1048576: note: no line has a wish\n0 passed, 0 failed\n"
        wanted = {"debug": b"done\n" + PART * COUNT, "check": nothing, "judge": nothing}
        for word in ("debug", "check", "explain", "judge"):
            told, out = self.told(word, LONG_WALK)
            # A fast machine has played it before there is something to tell.
            if told:
                self.assertRegex(told, rb"\A(\r%b: \d+ %%)+\r +\r\Z" % word.encode())
                shares = [int(it) for it in re.findall(rb": (\d+) %", told)]
                self.assertEqual(shares, sorted({it for it in shares if it <= 100}), f"what {word} tells")
            self.assertTrue(out == wanted.get(word, out), f"what {word} writes")

    def test_nothing_told(self):
        """debug: nothing of it is told of a short script, or at a pipe"""
        self.assertEqual(self.told("debug", ASK + b"\n"), (b"", ANSWER))
        self.assertEqual(self.told("debug", b""), (b"", b""))
        self.assertEqual(self.told("debug", LONG_WALK, at_pipe=True)[0], b"")
