"""Scripts that `check` judges by their names: its reports of each, and of all, as text, TAP and JUnit's XML."""
import os
import re
import subprocess
from xml.etree import ElementTree

from frame import Case, run

RIGHT = b"# a comment\nreg write 16 8 1 # => done\nstore 0x80000000 8 7 # => done\nload 0x80000000 8 # => 0x7\n"
# Memory is 0 again at the beginning of each script.
FRESH = b"load 0x80000000 8 # => 0x0\nreg read 16 8 # => 0x0\n"
WRONG = b"load 0x80000000 8 # => 0x1\ncmd # => idle\n"
BAD = b"jump\n\ncmd # => idle\nload 0x80000000 8 # => 0x0\n"
# Ten files, three of them wrong.
SUITE = {
    "right.script": RIGHT, "fresh.script": FRESH, "wrong.script": WRONG, "bad.script": BAD, "empty.script": b"",
    "two words.script": RIGHT, "it's <&> \"odd\".script": WRONG, "#1.script": FRESH, "folder/deep.script": RIGHT,
    "end.script": b"cmd # => idle",
}
PASSED, FAILED = 3 + 2 + 1 + 2 + 0 + 3 + 1 + 2 + 3 + 1, 3
NAMES = list(SUITE)
NONE = "none.script"
# More bytes than a script may have, of comments.
LONG = (b"#" + b" " * 510 + b"\n") * (2**17 + 1)


def lacking(name):
    """The fault of a file that isn't there."""
    return f"cannot read {name}: there is no such file"


def of_text(out):
    """The scripts, and the lines that passed, that failed, and the scripts that were not read, by the sum of text."""
    last = out.decode().splitlines()[-1]
    found = re.fullmatch(r"(\d+) files?: (\d+) passed, (\d+) failed(?:, (\d+) not read)?", last)
    return tuple(int(it or 0) for it in found.groups())


def of_tap(out):
    """The points that are ok, and that aren't, and the latter's descriptions; the frame is to be that of TAP 13."""
    head, *lines, plan = out.decode().splitlines()
    assert head == "TAP version 13", head
    points = [re.fullmatch(r"(not ok|ok) (\d+) - (.*)", it) for it in lines if re.match("ok|not ok", it)]
    assert [int(it[2]) for it in points] == list(range(1, len(points) + 1))
    assert plan == f"1..{len(points)}", plan
    assert all(re.match("#|  |ok|not ok", it) for it in lines)
    failed = [it[3] for it in points if it[1] == "not ok"]
    return len(points) - len(failed), len(failed), failed


class Suites(Case):
    def setUp(self):
        os.mkdir(self.path("folder"))
        for name, script in SUITE.items():
            self.put(name, script)

    def check(self, *words, given=b""):
        """The status, standard output and standard error of a check in the test's folder."""
        return run(["check", *words], given, cwd=self.folder)

    def suites(self, *words, given=b""):
        """What a check with JUnit's XML writes, and for each suite its name and counts, which are to be those of its cases."""
        ended = self.check("--junit", "out.xml", *words, given=given)
        root = ElementTree.parse(self.path("out.xml")).getroot()
        self.assertEqual(root.tag, "testsuites")
        told = []
        for suite in root:
            counts = [int(suite.get(it)) for it in ("tests", "failures", "errors")]
            cases = [len(suite.findall("testcase")), *(len(suite.findall(f"testcase/{it}")) for it in ("failure", "error"))]
            self.assertEqual((suite.tag, counts), ("testsuite", cases))
            self.assertEqual({it.get("classname") for it in suite}, {suite.get("name")} if len(suite) else set())
            told.append((suite.get("name"), *counts))
        return ended, told

    def test_counts(self):
        """text, TAP and XML have the same counts: of ten files three of which are wrong, and of these with a file that
        can't be read"""
        for more, status in (([], 1), ([NONE], 3)):
            names, unread = [*NAMES, *more], len(more)
            ended, out, errors = self.check(*names)
            self.assertEqual((ended, of_text(out)), (status, (len(names), PASSED, FAILED, unread)))
            self.assertEqual(errors.decode(), "".join(f"rviommu: {lacking(it)}\n" for it in more))
            ended, tap, _ = self.check("--tap", *names)
            passed, failed, texts = of_tap(tap)
            self.assertEqual((ended, passed, failed), (status, PASSED, FAILED + unread))
            self.assertEqual(texts[FAILED:], [lacking(it) for it in more])
            (ended, again, _), told = self.suites(*names)
            self.assertEqual((ended, again), (status, out))
            tests, failures, errors = (sum(it) for it in list(zip(*told))[1:])
            self.assertEqual((tests, failures, errors), (PASSED + FAILED + unread, FAILED, unread))
            self.assertEqual(len(told), len(names))
            # Both at once.
            self.assertEqual(self.suites("--tap", *names), ((status, tap, self.check(*names)[2]), told))

    def test_prove(self):
        """prove, which knows TAP 13, reads what --tap prints: it counts the points, and fails if one does"""
        self.needs("prove")
        whole = [*NAMES, NONE]
        for names, points, failed in ((["right.script"], 3, 0), (whole, PASSED + FAILED + 1, FAILED + 1)):
            self.put("points.tap", self.check("--tap", *names)[1])
            ended = subprocess.run(["prove", "-e", "cat", "points.tap"], cwd=self.folder, capture_output=True, text=True)
            self.assertEqual((ended.returncode, ended.stderr), (int(failed > 0), ""))
            self.assertIn(f"Tests={points}, ", ended.stdout)
            self.assertEqual(re.findall(r"Failed: (\d+)\)", ended.stdout), [str(failed)] if failed else [])

    def test_names(self):
        """text: each report has its file and line, each file its counts"""
        status, out, errors = self.check("right.script", "folder/deep.script", "bad.script")
        wanted = [
            "right.script: 3 passed, 0 failed", "folder/deep.script: 3 passed, 0 failed", "bad.script:1: jump -> bad",
            "bad.script: 2 passed, 1 failed", "3 files: 8 passed, 1 failed"]
        seen = [it for it in out.decode().splitlines() if "note: " not in it]
        self.assertEqual((status, [it[: len(wanted[at])] for at, it in enumerate(seen)], errors), (1, wanted, b""))

    def test_right(self):
        """status 0 where each line passes, of one file or many"""
        for names in (["right.script"], ["right.script", "fresh.script", "end.script"]):
            for how in ([], ["--tap"]):
                self.assertEqual(self.check(*how, *names)[0], 0)
            self.assertEqual(self.suites(*names)[0][0], 0)
        self.assertEqual(of_text(self.check("right.script")[1]), (1, 3, 0, 0))

    def test_input(self):
        """standard input: without a name, or as - among files"""
        plain = self.check(given=WRONG)
        self.assertEqual(plain, (1, b"line 1: load 0x80000000 8 -> 0x0, wanted 0x1\n1 passed, 1 failed\n", b""))
        self.assertEqual(self.suites(given=WRONG)[0], plain)
        self.assertEqual([it[1:] for it in self.suites(given=WRONG)[1]], [(2, 1, 0)])
        for words in (["fresh.script", "-"], ["-", "fresh.script"]):
            status, out, _ = self.check(*words, given=WRONG)
            self.assertEqual((status, of_text(out)), (1, (2, 3, 1, 0)))
            self.assertIn(b"-:1: load 0x80000000 8 -> 0x0, wanted 0x1\n", out)
            self.assertEqual(self.suites(*words, given=WRONG)[0], (status, out, b""))

    def test_image(self):
        """an image: of --image, for each script; or as the one file, which begins as an image does"""
        self.image("ram 0x80000000 0x1000\nu64 7\n")
        self.put("seven.script", b"load 0x80000000 8 # => 0x7\n")
        for words in (["--image", "image", "seven.script"], ["seven.script", "--image", "image"]):
            self.assertEqual(of_text(self.check(*words)[1]), (1, 1, 0, 0))
        status, out, _ = self.check("--image", "image", "seven.script", "fresh.script", "seven.script")
        self.assertEqual((status, of_text(out)), (1, (3, 3, 1, 0)))
        given = b"load 0x80000000 8 # => 0x7\n"
        for words in (["image"], ["--image", "image"]):
            self.assertEqual(self.check(*words, given=given), (0, b"1 passed, 0 failed\n", b""))
        # Of several files none is the image.
        self.assertEqual(self.check("image", "fresh.script", given=given)[0], 1)

    def test_no_image(self):
        """a file that is no image: it is named, and nothing is judged"""
        self.put("short", b"RVIOMMU1")
        self.put("new", b"RVIOMMU9" + bytes(24))
        for name, why in (("short", "truncated"), ("new", "bad magic")):
            for words in ([name], ["--image", name], ["--image", name, "fresh.script"]):
                wanted = f"rviommu: {name}: {why}\n".encode()
                self.assertEqual(self.check(*words), (3, b"", wanted))
                status, out, errors = self.check("--tap", *words)
                self.assertEqual((status, of_tap(out), errors), (3, (0, 1, [f"{name}: {why}"]), wanted))
                self.assertEqual(self.suites(*words), ((3, b"", wanted), [(name, 1, 0, 1)]))
        self.assertEqual(self.check("--image", "none", "fresh.script"), (3, b"", f"rviommu: {lacking('none')}\n".encode()))

    def test_too_long(self):
        """a script that is too long: what was judged stands and is counted, and the others are judged"""
        self.put("long.script", b"cmd # => done\n" + LONG)
        names, told = ["long.script", "fresh.script"], b"rviommu: long.script: script too long\n"
        status, out, errors = self.check(*names)
        self.assertEqual((status, of_text(out), errors), (3, (2, 2, 1, 1), told))
        status, out, _ = self.check("--tap", *names)
        passed, failed, texts = of_tap(out)
        self.assertEqual((status, passed, failed, texts[1]), (3, 2, 2, "long.script: script too long"))
        ended, suites = self.suites(*names)
        self.assertEqual((ended[0], suites), (3, [("long.script", 2, 1, 1), ("fresh.script", 2, 0, 0)]))
        self.assertEqual(self.suites(given=b"cmd # => done\n" + LONG)[0][0], 3)

    def test_unwritten(self):
        """XML that can't be written, and standard output that can't: status 3"""
        status, out, errors = self.check("--junit", "none/out.xml", "fresh.script")
        self.assertEqual((status, of_text(out), errors), (3, (1, 2, 0, 0), b"rviommu: cannot write none/out.xml\n"))
        with open("/dev/full", "wb") as full:
            for words in (["wrong.script"], ["--tap", "fresh.script"], ["--junit", "out.xml", "fresh.script"]):
                status, _, errors = run(["check", *words], cwd=self.folder, stdout=full)
                self.assertEqual((status, errors), (3, b"rviommu: write failed\n"))

    def test_odd_bytes(self):
        """XML: it is well-formed, and TAP has its frame, whatever bytes stand in a script and in its name"""
        name = "a\n\t\x7f\u00e9\ufffe\\.script"
        self.put(name, bytes(range(256)) + b"\ncmd # => <&>\"']]>\x00\xff\ncmd # => idle\n")
        ended, suites = self.suites(name, "fresh.script")
        self.assertEqual((ended[0], len(suites)), (1, 2))
        passed, failed, _ = of_tap(self.check("--tap", name, "fresh.script")[1])
        self.assertEqual((passed + failed, failed), (suites[0][1] + 2, suites[0][2]))


class Only(Case):
    def test_only(self):
        """explain --only: the accesses of one kind, or of both, and the counts of all"""
        script = b"dma read 5 0 1\nreg write 16 8 1\ndma read 5 0x80000000 1\n"
        whole = self.written(["explain"], script)
        counts = whole[whole.index("accesses: ") :]
        for what in ("denied", "denied,stale", "stale,denied"):
            told = self.written(["explain", "--only", what], script)
            self.assertEqual(told, whole[: whole.index("2: ")] + counts)
        self.assertEqual(self.written(["explain", "--only", "stale"], script), counts)
        none = self.written(["explain", "--only", "denied", self.image("ram 0x80000000 0x1000\n")])
        self.assertEqual(none, "accesses: 0\ngranted: 0\nfrom the caches: 0\nstale: 0\n")
