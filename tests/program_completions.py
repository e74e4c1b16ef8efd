"""The completions: keys are typed into a real bash and a real zsh at a terminal, and their words are compared.

A function stands in the place of the program there, and prints the words that it was called with.
"""
import fcntl
import json
import os
import pty
import re
import select
import shutil
import signal
import struct
import termios
import time

from frame import TESTS, TOP, Case, commands

FOLDER = TOP / "completions"
TELL = (
    "rviommu() { local word; printf '\\nbegins\\n'; "
    "for word in \"$@\"; do printf 'word <%s>\\n' \"$word\"; done; printf 'ends\\n'; }")
SHELLS = {
    "bash": (["bash", "--norc", "--noprofile", "-i"], [TELL, "source rviommu.bash"]),
    "zsh": (["zsh", "-f", "-i"], [
        TELL, "fpath=($PWD/functions $fpath)", "autoload -Uz compinit", "compinit -u -D"]),
}
FILES = ["two words.asm", "brackets [1].asm", "it's $5.asm", "plain.asm", "line\nend.asm", "folder/plain.image"]
# What is typed, and the words that it makes. In the last one, a folder of a word's name is no word.
TYPED = json.loads((TESTS / "typed.json").read_text(encoding="utf-8"))

TYPING_SECONDS = 20


class Terminal:
    """A shell, or another program, at a terminal of its own, in a folder; closed at the end of the test."""

    def __init__(self, case, words):
        case.needs(words[0])
        here = os.path.dirname(case.path(""))
        self.case, self.seen = case, b""
        self.pid, self.end = pty.fork()
        if self.pid == 0:
            fcntl.ioctl(0, termios.TIOCSWINSZ, struct.pack("HHHH", 24, 200, 0, 0))
            os.chdir(here)
            names = {"PATH": os.environ["PATH"], "HOME": here, "TERM": "dumb", "PS1": "ready> ", "INPUTRC": "/dev/null"}
            names |= {"LC_ALL": "C.UTF-8", "HISTFILE": "", "BASH_SILENCE_DEPRECATION_WARNING": "1"}
            os.execvpe(words[0], words, names)
        case.addCleanup(self.close)

    def close(self):
        os.kill(self.pid, signal.SIGKILL)
        os.waitpid(self.pid, 0)
        os.close(self.end)

    def wait_for(self, text):
        """Waits until the shell has written this, and takes all up to it."""
        until = time.monotonic() + TYPING_SECONDS
        while text not in self.seen:
            if not select.select([self.end], [], [], max(0, until - time.monotonic()))[0]:
                self.case.fail(f"the shell has not written {text!r}, only {self.seen[-300:]!r}")
            self.seen += os.read(self.end, 1 << 16)
        taken, _, self.seen = self.seen.partition(text)
        return taken

    def type(self, keys):
        """Types keys once nothing was written for a while: then a completion is done."""
        while select.select([self.end], [], [], 0.4)[0]:
            self.seen += os.read(self.end, 1 << 16)
        os.write(self.end, keys)

    def words(self, keys):
        """The words that these keys, and then the end of the line, call the program with."""
        self.type(keys.encode())
        self.type(b"\r")
        self.wait_for(b"begins\r\n")
        told = self.wait_for(b"ends\r\n").decode().replace("\r\n", "\n")
        return re.findall(r"(?ms)^word <(.*?)>$", told)


class Completions(Case):
    def completes(self, name):
        words, setup = SHELLS[name]
        for folder in ("folder", "run", "functions"):
            os.makedirs(self.path(folder))
        for file in FILES:
            self.put(file, b"")
        shutil.copy(FOLDER / "rviommu.bash", self.folder)
        shutil.copy(FOLDER / "_rviommu", self.path("functions"))
        shell = Terminal(self, words)
        shell.wait_for(b"ready> ")
        for line in setup:
            shell.type(line.encode() + b"\r")
        for keys, wanted in [*TYPED, *((f"{it} --he\t", [it, "--help"]) for it in commands() if it != "help")]:
            with self.subTest(keys):
                self.assertEqual(shell.words(f"rviommu {keys}"), wanted)

    def test_bash(self):
        """bash completes words, kinds, options, and names with blanks, brackets and line ends"""
        self.completes("bash")

    def test_zsh(self):
        """zsh completes words, kinds, options, and names with blanks, brackets and line ends"""
        self.completes("zsh")
