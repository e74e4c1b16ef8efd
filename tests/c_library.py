#!/usr/bin/env -S python3 -B
"""c_library.py PROGRAM    Uses the C library and the Python module that c/build.py made in c/out.

Each script of examples/ and of crates/iom_rows/data is played through the library, line by line and by numbers, and
compared with PROGRAM, and so are 100,000 lines of generated scripts, under the address sanitizer and under valgrind.
A program lends its own memory, and threads use handles side by side, under these and under checkers of threads. A bench in
SystemVerilog has its IOMMU judged.

Prints each test. The status is 1 if one failed.
"""
import functools
import io
import os
import re
import shutil
import subprocess
import sys
import tempfile
from pathlib import Path

import frame
import fuzz
import generate
from frame import EXAMPLES, TOP, called, program, run, scripts, text_of
from program_cosimulation import BUGS, TRANSACTIONS

PREFIX = TOP / "c/out"
ARCHIVE, SHARED = PREFIX / "lib/librviommu.a", PREFIX / "lib/librviommu.so"
STRICT = ["-O1", "-g", "-pedantic", "-Wall", "-Wextra", "-Werror"]
COMPILERS = {"gcc": "-std=c11", "clang": "-std=c11", "g++": "-std=c++11", "clang++": "-std=c++11"}
SANITIZER = ["-fsanitize=address,undefined", "-fno-sanitize-recover=all"]
DRIVER = ["examples/c/iommu.c", "examples/c/test_driver.c"]
SEED = 1
# Of the generated scripts: how many lines have each number of stages, and how many are of scripts made to harm.
PLAIN_LINES, HARMFUL_LINES = 20_000, 40_000
VALGRIND = ["valgrind", "-q", "--leak-check=full", "--error-exitcode=9"]
CHECKERS_OF_THREADS = [["valgrind", "-q", f"--tool={tool}", "--error-exitcode=9"] for tool in ("drd", "helgrind")]
# How many accesses are played over lent memory, and how many rounds each thread makes: alone, and under a checker.
ACCESSES, CHECKED_ACCESSES = "1000000", "20000"
ROUNDS, CHECKED_ROUNDS = "20000", "300"
USED = """import os, rviommu
print(rviommu.__file__.startswith(os.environ['WANTED']), rviommu.Platform().line('reg read 0 8'))"""


def run_words(image):
    return ["run", *image] if image else []


def plain_scripts():
    """Scripts of accesses none of which is refused, and the text of their image: 1 MiB that is 0."""
    for stages in range(3):
        script = io.StringIO()
        generate.write(script, stages, 176, PLAIN_LINES, SEED)
        yield [fuzz.BUILT_IN.strip()], script.getvalue()


def harmful_scripts():
    """Scripts of the repository with the changes of tests/fuzz.py, each with the text of its image."""
    found, mutator, lines = fuzz.cases(), fuzz.Mutator(SEED), 0
    names = sorted(found)
    while lines < HARMFUL_LINES:
        text, script = found[mutator.random.choice(names)]
        donor = found[mutator.random.choice(names)]
        script = mutator.watched(mutator.lines(script, donor[1], mutator.random.choice([0, 1, 2, 4, 8])))
        lines += len(script)
        yield mutator.window(mutator.disks(text)), "".join(f"{line}\n" for line in script)


@functools.cache
def generated():
    """Generated scripts: the paths of the images and of the scripts, in turn, the answers to all, and their folder."""
    room = tempfile.TemporaryDirectory()
    paths, answers = [], b""
    for number, (text, script) in enumerate([*plain_scripts(), *harmful_scripts()]):
        source, image, path = (Path(room.name, f"{name}{number}") for name in ("text", "image", "script"))
        source.write_text("\n".join(text), encoding="utf-8")
        path.write_text(script, encoding="utf-8")
        called([program(), "asm", source, image])
        answers += called([program(), "run", image], input=script.encode())
        paths += [image, path]
    return paths, answers, room


class Library(frame.Case):
    def compiled(self, compiler, name, sources, *more):
        """A program of these sources and the archive, compiled with all warnings as errors."""
        self.needs(compiler)
        made, words = self.path(f"{name}-{compiler}"), [compiler, COMPILERS[compiler], *STRICT, f"-I{PREFIX}/include"]
        called([*words, "-o", made, *(TOP / it for it in sources), ARCHIVE, *more])
        return made

    def passes(self, *words):
        self.assertEqual(called(words).splitlines()[-1:], [b"passed"])


class OfC(Library):
    def test_functions(self):
        """the header, the archive and the Python module have the same functions"""
        self.needs("nm")
        header = (PREFIX / "include/rviommu.h").read_text(encoding="utf-8")
        named = set(re.findall(r"(?m)^(?:enum )?\w+ (rviommu_\w+)\(", header))
        archive = called(["nm", "--defined-only", "--extern-only", ARCHIVE]).decode()
        shared = called(["nm", "--defined-only", "--dynamic", SHARED]).decode()
        env = {**os.environ, "PYTHONPATH": str(TOP / "python"), "RVIOMMU_LIBRARY": str(SHARED)}
        listed = "from rviommu._library import FUNCTIONS; print(*FUNCTIONS)"
        bound = called([sys.executable, "-B", "-c", listed], env=env).decode().split()
        self.assertEqual(set(re.findall(r"(?m) T (rviommu_\w+)$", archive)), named)
        self.assertEqual({line.split()[-1] for line in shared.splitlines()}, named)
        self.assertEqual({f"rviommu_{it}" for it in bound}, named)

    def test_driver(self):
        """the driver's test passes, compiled with gcc and with clang, and valgrind finds nothing in it"""
        for compiler, checker in (("gcc", []), ("clang", []), ("gcc", VALGRIND)):
            with self.subTest([*checker, compiler]):
                self.needs(compiler, *checker[:1])
                self.passes(*checker, self.compiled(compiler, "driver", DRIVER))

    def test_cpp(self):
        """the header is used from C++, and its types are those that are promised, with g++ and with clang++; no name of it hides another"""
        for compiler in ("g++", "clang++"):
            with self.subTest(compiler):
                used = called([self.compiled(compiler, "header", ["examples/c/header.cpp"], "-Wshadow")])
                self.assertEqual(used, b"0x3810060610\n")
                self.passes(self.compiled(compiler, "types", ["tests/c/types.cpp"], "-Wshadow"))

    def test_calls(self):
        """refusals, refused memory and copies, and valgrind finds nothing in them"""
        calls = self.compiled("gcc", "calls", ["tests/c/calls.c"], "-Wl,--wrap=malloc,--wrap=realloc")
        for checker in ([], VALGRIND):
            with self.subTest(checker):
                self.needs(*checker[:1])
                self.passes(*checker, calls)

    def test_changes(self):
        """translations, a reset and writes of any length, and valgrind finds nothing in them"""
        changes = self.compiled("gcc", "changes", ["tests/c/changes.c"])
        for checker in ([], VALGRIND):
            with self.subTest(checker):
                self.needs(*checker[:1])
                self.passes(*checker, changes)

    def test_messages(self):
        """what is written into a window beside own and lent memory is told, kept, taken out, saved and restored; nothing is found by the
        sanitizer or valgrind"""
        self.passes(self.compiled("gcc", "messages-sanitized", ["tests/c/messages.c"], *SANITIZER))
        self.needs("valgrind")
        self.passes(*VALGRIND, self.compiled("gcc", "messages", ["tests/c/messages.c"]))

    def test_saved(self):
        """a run that is saved in the middle goes on alike in the restored handle; refused bytes and refused memory; nothing is found by the
        sanitizer or valgrind"""
        wrapped = "-Wl,--wrap=malloc,--wrap=realloc"
        self.passes(self.compiled("gcc", "saved-sanitized", ["tests/c/saved.c"], wrapped, *SANITIZER))
        self.needs("valgrind")
        self.passes(*VALGRIND, self.compiled("gcc", "saved", ["tests/c/saved.c"], wrapped))

    def test_settled(self):
        """requests that aren't settled are told with what leads them elsewhere, over own and lent memory, with each allocation refused; nothing is
        found by the sanitizer or valgrind"""
        wrapped = "-Wl,--wrap=malloc,--wrap=realloc"
        self.passes(self.compiled("gcc", "settled-sanitized", ["tests/c/settled.c"], wrapped, *SANITIZER))
        self.needs("valgrind")
        self.passes(*VALGRIND, self.compiled("gcc", "settled", ["tests/c/settled.c"], wrapped))

    def test_judged(self):
        """what another IOMMU answers is judged line by line, with its report in any room and with each allocation refused; nothing is found by the
        sanitizer or valgrind"""
        wrapped = "-Wl,--wrap=malloc,--wrap=realloc"
        self.passes(self.compiled("gcc", "judged-sanitized", ["tests/c/judged.c"], wrapped, *SANITIZER))
        self.needs("valgrind")
        self.passes(*VALGRIND, self.compiled("gcc", "judged", ["tests/c/judged.c"], wrapped))

    def test_readme(self):
        """the program in c/README.md"""
        code = text_of("c/README.md").split("```c\n")[1].split("```")[0]
        made = self.compiled("gcc", "readme", [self.put("readme.c", code)])
        self.assertEqual(called([made]), b"ddtp 0x20000402\ndenied 258\n")

    def test_shared(self):
        """the command of c/README.md makes a program that finds the shared object, wherever it is run"""
        self.needs("pkg-config")
        (line,) = re.findall(r"(?m)^    (gcc .*-Wl,-rpath,.*)$", text_of("c/README.md"))
        self.put("test.c", text_of("c/README.md").split("```c\n")[1].split("```")[0])
        env = {name: value for name, value in os.environ.items() if name != "LD_LIBRARY_PATH"}
        called(["sh", "-c", line], cwd=self.folder, env={**env, "PKG_CONFIG_PATH": str(PREFIX / "lib/pkgconfig")})
        self.assertEqual(called([self.path("a.out")], cwd="/", env=env), b"ddtp 0x20000402\ndenied 258\n")
        self.assertIn(b"librviommu.so", called(["ldd", self.path("a.out")], env=env))

    def test_top_readme(self):
        """the lines of C in README.md, in a main; if a comment names the answer to a call, that is its answer"""
        (block,) = [it for it in text_of("README.md").split("\n\n") if it.lstrip("\n").startswith("    rviommu_t ")]
        call = r"(?m)^ *(rviommu_\w+\(.*\)); +/\* (RVIOMMU_\w+) \*/$"
        code = re.sub(call, r"if (\1 != \2) return 2;", block)
        self.assertNotEqual(code, block, "no call has its answer beside it")
        text = f'#include "rviommu.h"\nint main(void) {{\n{code}\nreturn 0;\n}}\n'
        called([self.compiled("gcc", "top_readme", [self.put("top_readme.c", text)])])


class OfLentMemory(Library):
    def test_accesses(self):
        """a million accesses in front of 1 GiB of the caller's memory are answered as in front of the handle's own, and by the program"""
        lent, script = self.compiled("gcc", "lent", ["tests/c/lent.c"]), Path(self.path("lent.script"))
        self.passes(lent, ACCESSES, script)
        image, given = self.image("ram 0xbff00000 0x100000\n"), script.read_bytes()
        answers = [line.partition(" # => ")[2] for line in given.decode().splitlines()]
        self.assertGreaterEqual(len(answers), 3000)
        self.assertEqual(called([program(), "debug", image], input=given).decode().splitlines(), answers)

    def test_accesses_sanitized(self):
        """the address sanitizer reports nothing in them"""
        self.passes(self.compiled("gcc", "lent-sanitized", ["tests/c/lent.c"], *SANITIZER), ACCESSES)

    def test_accesses_checked(self):
        """valgrind reports nothing in some of them"""
        self.needs("valgrind")
        self.passes(*VALGRIND, self.compiled("gcc", "lent", ["tests/c/lent.c"]), CHECKED_ACCESSES)

    def test_threads(self):
        """eight threads with a handle each, and eight that look at one: the thread sanitizer reports nothing"""
        sanitized = self.compiled("gcc", "threads-sanitized", ["tests/c/threads.c"], "-fsanitize=thread", "-pthread")
        self.passes(sanitized, ROUNDS)

    def test_threads_checked(self):
        """nor do valgrind's checkers, which see each access of the library"""
        self.needs("valgrind")
        threads = self.compiled("gcc", "threads", ["tests/c/threads.c"], "-pthread")
        for checker in [VALGRIND, *CHECKERS_OF_THREADS]:
            with self.subTest(checker):
                self.passes(*checker, threads, CHECKED_ROUNDS)


class Played(Library):
    def setUp(self):
        self.play = self.compiled("gcc", "play", ["tests/c/play.c"])

    def test_record(self):
        """a record of a handle's steps is played by the program alike, and `explain` tells of it"""
        record, script = self.compiled("gcc", "record", ["tests/c/record.c"]), Path(self.path("record.script"))
        for image in ([], [self.image("ram 0x80000000 0x100000\ndisk 5 1 aabb\n")]):
            self.passes(record, script, *image)
            given = script.read_bytes()
            answers = [line.partition(" # => ")[2] for line in given.decode().splitlines()]
            self.assertGreaterEqual(len(answers), 3000)
            self.assertEqual(called([program(), *run_words(image)], input=given).decode().splitlines(), answers)
            called([program(), "check", *image], input=given)
            self.assertIn(b"granted", called([program(), "explain", *image], input=given))

    def test_lines_and_numbers(self):
        """each script is played alike, line by line and by numbers"""
        for path, script, text in scripts():
            image = self.on_image(text)
            wanted = called([program(), *run_words(image)], input=script)
            for how in ("text", "numbers"):
                self.assertTrue(called([self.play, how, *image], input=script) == wanted, (path.name, how))

    def test_reasons(self):
        """why each step went as it did is told alike after each line of each script that `debug` plays as `run` does"""
        told, asked = 0, b"".join(b"why %d\n" % step for step in range(32))
        for path, script, text in scripts():
            image = self.on_image(text)
            plain, asking = (b"".join(it + b"\n" + more for it in script.split(b"\n")[:-1]) for more in (b"", asked))
            debug = [program(), "debug", *image]
            if called(debug, input=plain) == called([program(), *run_words(image)], input=plain):
                seen = called([self.play, "why", *image], input=plain)
                self.assertTrue(seen == called(debug, input=asking), path.name)
                told += 1
        self.assertGreaterEqual(told, 50)

    def generated_alike(self, how, checker=()):
        """The generated scripts are played alike, without a report of the sanitizer or of the checker."""
        self.needs(*checker[:1])
        paths, answers, _ = generated()
        play = self.play if checker else self.compiled("gcc", "play-sanitized", ["tests/c/play.c"], *SANITIZER)
        self.assertTrue(called([*checker, play, how, *paths]) == answers, "they are answered otherwise")

    def test_generated_numbers(self):
        """100,000 generated lines are played alike by numbers, and the sanitizer reports nothing"""
        self.generated_alike("numbers")

    def test_generated_text(self):
        """100,000 generated lines are played alike line by line, and the sanitizer reports nothing"""
        self.generated_alike("text")

    def test_generated_checked(self):
        """100,000 generated lines are played alike by numbers under valgrind"""
        self.generated_alike("numbers", VALGRIND)


class OfSystemVerilog(Library):
    def test_judged(self):
        """of examples/cosimulation each event is judged as it happens, as the program judges its trace, and the first of a planted bug that is refused ends it"""
        self.needs("verilator", "make", "g++")
        folder = shutil.copytree(EXAMPLES / "cosimulation", self.path("cosimulation"), ignore=shutil.ignore_patterns("out"))
        for bug in (0, *BUGS):
            words = ["make", "DPI=1", f"BUG={bug}", f"TRANSACTIONS={TRANSACTIONS}", f"LIBRARY={PREFIX}"]
            done = subprocess.run(words, cwd=folder, stdout=subprocess.PIPE, stderr=subprocess.PIPE)
            told = re.findall(r"(?m)^line (\d+: (.*): seen .*, allowed: .*)$", done.stdout.decode())
            self.assertEqual((done.returncode != 0, len(told)), (bool(bug), bool(bug)), done.stderr.decode()[-500:])
            out = run(["judge", f"out/iommu{bug}.trace"], cwd=folder)[1].decode()
            self.assertEqual([report for report, _ in told], re.findall(r"(?m)^out/iommu\d\.trace:(\d+: .*)$", out))
            for _, line in told:
                self.assertRegex(line, f"^{BUGS[bug]}$", bug)


class OfPython(Library):
    def setUp(self):
        self.pip = {**os.environ, "RVIOMMU_LIBRARY": str(SHARED), "PIP_NO_INDEX": "1"}
        self.env = {**os.environ, "RVIOMMU_LIBRARY": str(SHARED), "PYTHONPATH": str(TOP / "python")}

    def want_used(self, python, wanted, **more):
        """A Python finds the module below a folder, and its library without being told of it."""
        env = {name: value for name, value in os.environ.items() if name not in ("RVIOMMU_LIBRARY", "PYTHONPATH")}
        seen = called([python, "-B", "-c", USED], env={**env, "WANTED": str(wanted), **more}, cwd=self.folder)
        self.assertEqual(seen, b"True 0x3810060610\n")

    def test_tests(self):
        """the Python module's tests"""
        called([sys.executable, "-B", "-m", "unittest", "discover", "-s", "tests"], cwd=TOP / "python", env=self.env)

    def test_readme(self):
        """the test in python/README.md"""
        code = text_of("python/README.md").split("```python\n")[1].split("```")[0]
        called([sys.executable, "-B", "-c", code], env=self.env)

    def test_installed(self):
        """the Python module is installed by pip, from its folder and as a wheel, and used"""
        self.needs("pip")
        packed = called(["make", "-s", "-o", SHARED, "wheel", f"library={SHARED}"], cwd=TOP).decode().strip()
        for name, source in (("folder", TOP / "python"), ("wheel", TOP / packed)):
            site = self.path(name)
            words = ["install", "--quiet", "--no-deps", "--target", site, source]
            called([sys.executable, "-m", "pip", *words], env=self.pip)
            self.assertTrue(os.path.exists(f"{site}/rviommu/py.typed"))
            self.want_used(sys.executable, site, PYTHONPATH=site)

    def test_editable(self):
        """an editable install of it is used"""
        self.needs("pip")
        python = self.path("venv/bin/python")
        called([sys.executable, "-m", "venv", self.path("venv")])
        words = ["install", "--quiet", "--no-deps", "--editable", TOP / "python"]
        called([python, "-m", "pip", *words], env=self.pip)
        self.want_used(python, TOP / "python")


if __name__ == "__main__":
    frame.main(__doc__, "c_library.py")
