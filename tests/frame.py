"""What the tests share: where things are, the program, and how it is run.

The program is the one that RVIOMMU_PROGRAM names in the environment, else the built one. So `python3 -m unittest`, in
this folder, takes a module, a class or a test by its name.
"""
import functools
import importlib.util
import os
import re
import select
import shlex
import shutil
import subprocess
import sys
import tempfile
import textwrap
import time
import unittest
from pathlib import Path

TESTS = Path(__file__).resolve().parent
sys.path += map(str, (TESTS.parent / "packaging", TESTS.parent / "bench", TESTS / "peer"))
from crates import TOP  # noqa: E402

EXAMPLES, ROWS = TOP / "examples", TOP / "crates/iom_rows/data"
BUILT, PLAYER = (TOP / "crates" / name / "out" / name for name in ("rviommu", "iom_player"))
# The row whose lines are bad for run, and not for debug.
BAD_FOR_RUN = "lines_of_debug_alone"
# What a transcript's shell prints after each command.
MARK = "-- ended with"
ANSWER_SECONDS, RUN_SECONDS, QUIET_SECONDS = 10, 300, 0.2
# A line with a known answer, of the built-in platform; and the text of the image of that.
ASK, ANSWER = b"reg read 8 4", b"0x2\n"
BUILT_IN = "ram 0x80000000 0x100000\n"


# A make below another one names its folder; the tests run as from a shell.
for it in ("MAKEFLAGS", "MAKELEVEL", "MFLAGS"):
    os.environ.pop(it, None)


def program():
    return os.environ.get("RVIOMMU_PROGRAM") or str(BUILT)


def text_of(name):
    return (TOP / name).read_text(encoding="utf-8")


def called(words, **how):
    """What a command writes; it is to end well."""
    done = subprocess.run(words, **{"stdout": subprocess.PIPE, "stderr": subprocess.STDOUT, **how})
    end = done.stdout.decode(errors="replace")[-500:]
    assert done.returncode == 0, f"{words} ended with {done.returncode}: {end}"
    return done.stdout


def run(words=(), given=b"", at=None, **how):
    """Runs the program on these bytes, in a file; returns its status, standard output and standard error."""
    with tempfile.TemporaryFile() as script:
        script.write(given)
        script.seek(0)
        how = {"stdin": script, "stdout": subprocess.PIPE, "stderr": subprocess.PIPE, "timeout": RUN_SECONDS, **how}
        ended = subprocess.run([at or program(), *words], **how)
    return ended.returncode, ended.stdout, ended.stderr


@functools.cache
def commands():
    """The words that the program knows, by its help."""
    out = run(["--help"])[1].decode()
    return re.findall(r"(?m)^  (\w+)", out[out.index("Commands:\n") : out.index("Options:\n")])


@functools.cache
def forms(word=None):
    """The lines that the help of a word lists: those of a script, or the statements of a text."""
    told = run([*filter(None, [word]), "--help"])[1].decode().partition("Options:")[2].partition(" example:")[0]
    return re.findall(r"(?m)^  ([a-z].*?)(?:  .*)?$", told)


def scripts():
    """The scripts of the examples and of the rows, each with its bytes, and with the text of its image or None."""
    for path in sorted([*EXAMPLES.glob("*.script"), *ROWS.glob("*.script")]):
        text = path.with_suffix(".asm")
        yield path, path.read_bytes(), text.read_bytes() if text.exists() else None


def answers_of(path):
    """The bytes of the answers to a script, which are in a file beside it."""
    return next(it for it in (path.with_suffix(".answers"), path.with_suffix(".expect")) if it.exists()).read_bytes()


def words_of(script):
    """The words that an example's script is played with: those that its first line names, else run."""
    found = re.match(rb"# rviommu ((?:check|debug)(?: --\w+)*) image < examples/\w+\.script\n", script)
    return found[1].decode().split() if found else ["run"]


def page_build():
    """web/build.py, which builds the page."""
    spec = importlib.util.spec_from_file_location("page_build", TOP / "web/build.py")
    module = importlib.util.module_from_spec(spec)
    spec.loader.exec_module(module)
    return module


class Case(unittest.TestCase):
    """A test of the program, with a folder of its own."""

    maxDiff = 2000

    @functools.cached_property
    def folder(self):
        return self.enterContext(tempfile.TemporaryDirectory())

    def path(self, name):
        """The path of a file in the test's folder."""
        return os.path.join(self.folder, name)

    def put(self, name, data):
        """Writes a file into the test's folder, and returns its path."""
        Path(self.path(name)).write_bytes(data if isinstance(data, bytes) else data.encode())
        return self.path(name)

    def image(self, text, name="image"):
        """The path of the image that the program assembles of a text."""
        self.written(["asm", self.put("source", text), self.path(name)])
        return self.path(name)

    def on_image(self, text):
        """The operand that names the image of a text, if there is one."""
        return [] if text is None else [self.image(text)]

    def needs(self, *names):
        for name in names:
            if not shutil.which(name):
                self.skipTest(f"there is no {name}")

    def written(self, words, given=b"", **how):
        """The text that a run with these words writes; it is to end well."""
        status, out, errors = run(words, given, **how)
        self.assertEqual((status, errors), (0, b""), f"status and standard error of {words}")
        return out.decode()

    def want_within(self, some, others, where=None):
        """Wants each of some to be among the others."""
        self.assertEqual(sorted(set(some) - set(others)), [], where)

    def answers(self, text, lines, word="run"):
        """The answers to a script's lines on the image of a text."""
        script = "".join(f"{line}\n" for line in lines).encode()
        return self.written([word, self.image(text)], script).splitlines()

    def shell(self, command, **env):
        """What a shell writes in the test's folder, where `rviommu` is the program; and how it ends."""
        os.chmod(self.put("rviommu", f'#!/bin/sh\nexec {shlex.quote(program())} "$@"\n'), 0o755)
        env = {**os.environ, "PATH": f"{self.folder}:{os.environ['PATH']}", **env}
        how = {"cwd": self.folder, "env": env, "stdout": subprocess.PIPE, "timeout": RUN_SECONDS}
        ended = subprocess.run(["sh", "-c", command], **how)
        return ended.returncode, ended.stdout.decode(errors="backslashreplace")

    def replayed(self, path):
        """A transcript in the form of cram with what its commands print now, which may end with status 80: then it is
        skipped. In their environment TESTDIR is its folder, TOP the repository and RVIOMMU_PROGRAM the program."""
        head, *parts = re.split(r"(?m)^  \$ (.*\n(?:  > .*\n)*)(?:  (?!\$ ).*\n)*", path.read_text(encoding="utf-8"))
        commands = [it.replace("\n  > ", "\n") + f"echo {MARK} $?\n" for it in parts[::2]]
        env = {"TESTDIR": str(path.parent), "TOP": str(TOP), "RVIOMMU_PROGRAM": program()}
        ended, out = self.shell("exec 2>&1\n" + "".join(commands), **env)
        seen = re.split(rf"{MARK} (\d+)\n", out)
        if ended == 80:
            self.skipTest(seen[-1].strip())
        for command, printed, status, after in zip(parts[::2], seen[:-1:2], seen[1::2], parts[1::2], strict=True):
            printed += " (no-eol)\n" if printed and not printed.endswith("\n") else ""
            printed += f"[{status}]\n" if status != "0" else ""
            head += f"  $ {command}" + textwrap.indent(printed, "  ") + after
        return head

    def want_shown(self, text):
        """Wants the commands of a text, each after a $, to write what else stands there."""
        command = r"(?m)^\$ (.*<<'(\w+)'\n(?:.*\n)*?\2\n|(?:.*\\\n)*.*\n)"
        given = [it[1] for it in re.finditer(command, text)]
        self.assertEqual(self.shell("".join(given))[1], re.sub(command, "", text), given)

    def talk(self, words=(), at=None):
        talk = self.enterContext(Talk(self, [at or program(), *words]))
        self.addCleanup(talk.kill)
        return talk


def transcripts(name):
    """Tests of the transcripts in a folder of tests: each command prints what stands below it there."""

    def test_of(path):
        return lambda case: case.assertEqual(case.replayed(path), path.read_text(encoding="utf-8"))

    tests = {f"test_{path.stem}": test_of(path) for path in sorted((TESTS / name).glob("*.t"))}
    return type("Transcripts", (Case,), {"maxDiff": None, **tests})


class Talk(subprocess.Popen):
    """A conversation with the program over two pipes."""

    def __init__(self, case, words):
        pipes = {"stdin": subprocess.PIPE, "stdout": subprocess.PIPE, "stderr": subprocess.PIPE}
        super().__init__(words, bufsize=0, **pipes)
        self.case = case

    def take(self, seconds):
        """Returns what the program has written, or None after this time with nothing."""
        return os.read(self.stdout.fileno(), 1 << 16) if select.select([self.stdout], [], [], seconds)[0] else None

    def send(self, sent, wanted):
        """Sends bytes, and wants exactly this text as soon as it is there, or for b"" nothing for a while."""
        self.stdin.write(sent)
        seen, until = b"", time.monotonic() + (ANSWER_SECONDS if wanted else QUIET_SECONDS)
        while seen.count(b"\n") < wanted.count(b"\n") or not wanted:
            some = self.take(max(0, until - time.monotonic()))
            if not some:
                break
            seen += some
        self.case.assertEqual(seen, wanted, f"the answer to {sent[:100]}")

    def end(self, wanted=b"", ending=(0, b"")):
        """Ends the input, and wants exactly this text and this status and text on standard error."""
        out, errors = self.communicate(timeout=ANSWER_SECONDS)
        self.case.assertEqual((out, self.returncode, errors), (wanted, *ending))


def main(usage, files):
    """Carries out the tests of these files, with the program that the first word names; other words are unittest's."""
    if len(sys.argv) < 2:
        sys.exit(usage)
    os.environ["RVIOMMU_PROGRAM"] = os.path.abspath(sys.argv[1])
    if not os.access(program(), os.X_OK) or os.path.isdir(program()):
        sys.exit(f"{sys.argv[1]} is no program that can be run")
    unittest.main(None, argv=["unittest", "discover", "-v", "-s", str(TESTS), "-p", files, *sys.argv[2:]])
