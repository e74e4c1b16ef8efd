"""Lines `include FILE` of the scripts of check, judge, debug and explain."""
import os
import re
import time
from xml.etree import ElementTree

from frame import TESTS, Case, run

# Three lines that pass, and the number that the others use.
PRELUDE = b"# what each script begins with\nlet spot 0x80000000\nreg write ddtp 1 # => done\nstore spot 8 7 # => done\nload spot 8 # => 0x7\n"
FIRST = b"include common/prelude.script\nload spot 8 # => 0x7\n"
SECOND = b"# another\ninclude common/prelude.script # and a comment\nload spot 8 # => 0x8\ndma read 5 spot 1 # => 07\n"


class Includes(Case):
    def setUp(self):
        for folder in ("common", "common/deep", "suite"):
            os.mkdir(self.path(folder))
        self.put("common/prelude.script", PRELUDE)
        self.put("first.script", FIRST)
        self.put("second.script", SECOND)

    def check(self, *words, given=b""):
        """The status, standard output and standard error of a check in the test's folder."""
        return run(["check", *words], given, cwd=self.folder)

    def faults(self, script, text):
        """Each word ends at a line of a script on standard input that can't include its file, and says so."""
        told = f"rviommu: {text}\n".encode()
        for word in ("check", "judge"):
            self.assertEqual(run([word], script, cwd=self.folder), (3, b"", told), word)
        for word in ("debug", "explain"):
            status, out, errors = run([word], script, cwd=self.folder)
            self.assertEqual((status, errors), (1, told), word)
            self.assertNotIn(b"accesses:", out)

    def test_prelude(self):
        """a prelude of two scripts of a suite: its lines count in each, and each report has the file and line in which
        its line stands"""
        status, out, errors = self.check("first.script", "second.script")
        wanted = [
            "first.script: 4 passed, 0 failed", "second.script:3: load spot 8 -> 0x7, wanted 0x8",
            "second.script: 4 passed, 1 failed", "2 files: 8 passed, 1 failed"]
        self.assertEqual((status, out.decode().splitlines(), errors), (1, wanted, b""))
        self.put("common/prelude.script", PRELUDE.replace(b"=> 0x7", b"=> 0x9"))
        status, out, _ = self.check("first.script", "second.script")
        lines = out.decode().splitlines()
        told = "common/prelude.script:5: load spot 8 -> 0x7, wanted 0x9"
        self.assertEqual((status, lines[0], lines[2], lines[3]), (1, told, told, wanted[1]))
        self.assertEqual(lines[-1], "2 files: 6 passed, 3 failed")
        # On standard input a line of the script itself has no file.
        status, out, _ = self.check(given=SECOND)
        wanted = [told, "line 3: load spot 8 -> 0x7, wanted 0x8", "3 passed, 2 failed"]
        self.assertEqual((status, out.decode().splitlines()), (1, wanted))

    def test_styles(self):
        """TAP and JUnit's XML have the counts of text, and the same places"""
        self.put("common/prelude.script", PRELUDE.replace(b"=> 0x7", b"=> 0x9"))
        status, out, _ = self.check("--tap", "--junit", "out.xml", "first.script", "second.script")
        lines = out.decode().splitlines()
        self.assertEqual((status, lines[-1]), (1, "1..9"))
        points = [it for it in lines if it.startswith(("ok", "not ok"))]
        self.assertEqual(len(points), 9)
        self.assertEqual(points[2], "not ok 3 - common/prelude.script:5: load spot 8")
        self.assertEqual(points[3], "ok 4 - first.script:2: load spot 8")
        self.assertEqual(points[7], "not ok 8 - second.script:3: load spot 8")
        told = '  message: "common/prelude.script:5: load spot 8 -> 0x7, wanted 0x9"'
        self.assertEqual(lines.count(told), 2)
        suites = ElementTree.parse(self.path("out.xml")).getroot()
        counts = [tuple(it.get(name) for name in ("name", "tests", "failures", "errors")) for it in suites]
        self.assertEqual(counts, [("first.script", "4", "1", "0"), ("second.script", "5", "2", "0")])
        names = [it.get("name") for it in suites[1]]
        self.assertEqual(names[2:4], ["common/prelude.script:5: load spot 8", "line 3: load spot 8"])
        self.assertEqual({it.get("classname") for it in suites[1]}, {"second.script"})

    def test_lines_named(self):
        """a report names each other line by its file too, but a line of the script by its number"""
        self.image((TESTS / "mapped.asm").read_bytes())
        self.put("common/begin.script", b"# an access that reads its entries\nreg write ddtp 0x20000402\ndma read 5 0x40201abc 4\n")
        self.put("common/unmap.script", b"\nstore 0x80004008 8 0\n")
        script = b"include common/begin.script\ninclude common/unmap.script\ndma read 5 0x40201abc 4 # => 11223344\n"
        told = "the tables now say denied 13"
        status, out, _ = self.check("--stale", "--settled", "image", given=script)
        used, tally = out.decode().splitlines()
        self.assertEqual((status, tally), (1, "0 passed, 1 failed"))
        self.assertEqual(used, "line 3: dma read 5 0x40201abc 4 -> 11223344, stale: read 0x40201abc served by "
                         f"common/begin.script:3, {told}, unsettled: read 0x40201abc may still go to addr=0x80010abc, "
                         f"read in common/begin.script:3, {told}")
        # Its own lines keep their numbers, behind a file too.
        status, out, _ = self.check("--settled", "image", given=b"include common/begin.script\n"
                                    b"dma read 5 0x40202abc 4\nstore 0x80004010 8 0\n")
        self.assertEqual(out.decode().splitlines()[0], "line 3: read 0x40202000 of device 5, as in line 2, may still go to "
                         f"addr=0x80011000, read in line 2, {told}")
        status, out, _ = self.check("--settled", "image", given=b"include common/begin.script\nstore 0x80004008 8 0\n")
        self.assertEqual(out.decode().splitlines()[0], "line 2: read 0x40201000 of device 5, as in common/begin.script:3, "
                         f"may still go to addr=0x80010000, read in common/begin.script:3, {told}")

    def test_odd_names(self):
        """names with bytes that TAP, YAML and XML quote"""
        name = "common/a\"b\\c&'<d>.script"
        shown = re.sub(r"([\"\\'])", r"\\\1", name)
        self.put(name, b"cmd # => done\n")
        self.put("odd.script", f"include {name}\n".encode())
        self.assertEqual(self.check("odd.script")[1].decode().splitlines()[0], f"{shown}:1: cmd -> idle, wanted done")
        lines = self.check("--tap", "--junit", "out.xml", "odd.script")[1].decode().splitlines()
        quoted = shown.replace("\\", "\\\\")
        self.assertIn(f"not ok 1 - {quoted}:1: cmd", lines)
        told = quoted.replace('"', '\\"')
        self.assertIn(f'  message: "{told}:1: cmd -> idle, wanted done"', lines)
        case = ElementTree.parse(self.path("out.xml")).getroot()[0][0]
        self.assertEqual(case.get("name"), f"{shown}:1: cmd")

    def test_folders(self):
        """a file is named from the folder of the file that names it, and may lack its last line end or be empty"""
        self.put("common/deep/end.script", b"cmd # => done")
        self.put("common/empty.script", b"")
        self.put("common/middle.script", b"include deep/end.script\ninclude ../common/empty.script\ncmd # => bad\n")
        self.put("suite/outer.script", b"cmd # => idle\ninclude ../common/middle.script\ncmd # => misuse")
        status, out, errors = self.check("suite/outer.script")
        wanted = [
            "suite/../common/deep/end.script:1: cmd -> idle, wanted done",
            "suite/../common/middle.script:3: cmd -> idle, wanted bad",
            "suite/outer.script:3: cmd -> idle, wanted misuse", "suite/outer.script: 1 passed, 3 failed",
            "1 file: 1 passed, 3 failed"]
        self.assertEqual((status, out.decode().splitlines(), errors), (1, wanted, b""))
        self.put("absolute.script", f"include {self.path('common/middle.script')}\n".encode())
        self.assertIn(b"1 file: 0 passed, 2 failed", self.check("absolute.script")[1])

    def test_faults(self):
        """a file that is missing, a folder, too long, or includes itself: one fault, with the place"""
        self.put("common/broken.script", b"cmd\n\ninclude none.script\n")
        self.faults(b"include none.script\n", "line 1: cannot read none.script: there is no such file")
        self.faults(b"\ninclude common\n", "line 2: cannot read common: is a directory")
        told = "common/broken.script:3: cannot read common/none.script: there is no such file"
        self.faults(b"include common/broken.script", told)
        self.put("itself.script", b"# a cycle\ninclude itself.script\n")
        told = "itself.script:2: itself.script is included more than 8 files deep"
        self.faults(b"include itself.script\n", told)
        self.put("long.script", b"#" * (2**26 + 1))
        self.faults(b"include long.script\n", "line 1: long.script: script too long")
        self.put("half.script", (b"#" * 511 + b"\n") * 2**16 + b"\n")
        self.put("halves.script", b"include half.script\n" * 3)
        self.faults(b"include halves.script\n", "halves.script:2: half.script: script too long")
        self.faults(b"include \xff\n", "line 1: cannot read ?")

    def test_many_empty(self):
        """eight files of forty lines that include each other, above an empty one: its fault within seconds"""
        for number in range(1, 8):
            self.put(f"{number}.script", f"include {number + 1}.script\n".encode() * 40)
        self.put("8.script", b"")
        began = time.monotonic()
        self.faults(b"include 1.script\n", "7.script:28: 8.script: script too long")
        self.assertLess(time.monotonic() - began, 20)

    def test_unjudged(self):
        """a script of a suite whose file can't be included: what stands before is judged, and the other scripts are"""
        self.put("lacking.script", b"cmd # => idle\ncmd # => done\ninclude none.script\ncmd # => idle\n")
        status, out, errors = self.check("lacking.script", "first.script")
        wanted = [
            "lacking.script:2: cmd -> idle, wanted done", "first.script: 4 passed, 0 failed",
            "2 files: 5 passed, 1 failed, 1 not read"]
        self.assertEqual((status, out.decode().splitlines()), (3, wanted))
        self.assertEqual(errors, b"rviommu: lacking.script:3: cannot read none.script: there is no such file\n")
        status, out, _ = self.check("--tap", "--junit", "out.xml", "lacking.script", "first.script")
        lines = out.decode().splitlines()
        self.assertEqual((status, lines[-1]), (3, "1..7"))
        self.assertIn("not ok 3 - lacking.script:3: cannot read none.script: there is no such file", lines)
        suites = ElementTree.parse(self.path("out.xml")).getroot()
        self.assertEqual([it.get("errors") for it in suites], ["1", "0"])

    def test_debug(self):
        """debug and explain: the file's lines are answered in place; explain names each by its file, and its own by their numbers"""
        self.assertEqual(run(["debug"], FIRST, cwd=self.folder), (0, b"done\ndone\ndone\n0x7\n0x7\n", b""))
        self.put("common/stores.script", b"# a comment\n\nreg write ddtp 1\nstore 0x80000000 8 7\nload 0x80000000 8\n")
        script = b"include common/stores.script\nload 0x80000000 8\ndma read 5 0x80000000 1\n"
        status, out, _ = run(["explain"], script, cwd=self.folder)
        self.assertEqual(status, 0)
        self.assertIn(b"\ncommon/stores.script:4: store 0x80000000 0x8 0x7 -> done\n", out)
        self.assertIn(b"\n2: load 0x80000000 0x8 -> 0x7\n3: dma read 0x5 0x80000000 0x1 -> 07\n", out)
        self.assertIn(b"\ngranted: 1\n", out)

    def test_lines_explained(self):
        """in what explain writes, and in the answers to owed and free, each line is named by its file, a line of the script by its number"""
        self.image((TESTS / "mapped.asm").read_bytes())
        self.put("common/begin.script", b"# an access that reads its entries\nreg write ddtp 0x20000402\ndma read 5 0x40201abc 4\n")
        self.put("common/unmap.script", b"\nstore 0x80004008 8 0")
        script = b"include common/begin.script\ninclude common/unmap.script\nowed\nfree 0x80010000 0x1000\ndma read 5 0x40201abc 4\nowed\n"
        place, told = "common/begin.script:3", "the tables now say denied 13"
        owed = f"1, the first read 0x40201000 of device 5, as in %s, may still go to addr=0x80010000, read in {place}, {told}"
        free = f"2, the first read in {place}: a whole translation, page=0x40201 did=0x5 pscid=0x3"
        status, out, _ = run(["debug", "image"], script, cwd=self.folder)
        answers = ["done", "11223344", "done", owed % place, free, "11223344", owed % "line 5"]
        self.assertEqual((status, out.decode().splitlines()), (0, answers))
        status, out, _ = run(["explain", "--settled", "image"], script, cwd=self.folder)
        lines = out.decode().splitlines()
        self.assertEqual((status, lines[0], lines[1]), (
            0, "common/begin.script:2: reg write 0x10 0x8 0x20000402 -> done", f"{place}: dma read 0x5 0x40201abc 0x4 -> 11223344"))
        self.assertIn("common/unmap.script:2: store 0x80004008 0x8 0x0 -> done", lines)
        at = lines.index(f"3: owed -> {owed % place}")
        self.assertEqual(lines[at + 1:at + 7], [
            f"4: free 0x80010000 0x1000 -> {free}", "5: dma read 0x5 0x40201abc 0x4 -> 11223344",
            f"    caches: context of {place}, page of {place}, addr=0x80010abc",
            f"    warrant: walked context={place} walk={place} current={place}",
            f"    stale: read 0x40201abc served by {place}, {told}",
            f"    unsettled: may still go to addr=0x80010abc, read in {place}, {told}"])
        self.assertEqual(lines[-4:], ["granted: 2", "from the caches: 1", "stale: 1 (line 5)", "unsettled: 1 (line 5)"])
        script = b"include common/begin.script\nstore 0x80004008 8 0\ninclude common/begin.script\n"
        out = run(["explain", "image"], script, cwd=self.folder)[1]
        self.assertEqual(out.decode().splitlines()[-1], f"stale: 1 (line {place})")

    def test_marks(self):
        """a file that lacks its last line end, files in files, and comments like the marks between texts"""
        self.put("common/inner.script", b"cmd # => done")
        self.put("common/outer.script", b"cmd # => done\ninclude inner.script # last\ncmd # => done\n")
        self.put("marks.script", b"#\x03\ninclude common/outer.script\ncmd # => done\n#\x03\ncmd # => done\n")
        lines = self.check("marks.script")[1].decode().splitlines()
        wanted = ["common/outer.script:1", "common/inner.script:1", "common/outer.script:3", "marks.script:3", "marks.script:5"]
        self.assertEqual(lines[:5], [f"{it}: cmd -> idle, wanted done" for it in wanted])

    def test_other_lines(self):
        """with another number of words the line is bad, and for run always; in a long line it is too"""
        long = b"include common/prelude.script" + b" " * 500
        for line in (b"include", b"include a b", b"includes common/prelude.script", long):
            self.assertEqual(run(["debug"], line, cwd=self.folder), (0, b"bad\n", b""))
        self.assertEqual(run([], FIRST, cwd=self.folder), (0, b"bad\nbad\n", b""))
        self.assertEqual(run(["debug"], b"# include none.script\n", cwd=self.folder), (0, b"", b""))

    def test_typed(self):
        """each line is answered before the next one is read, also behind an included file"""
        long = b"".join(b"load 0x80000000 8 # %d\n" % it for it in range(4000))
        self.put("long.script", long)
        status, out, _ = run(["debug"], b"include long.script\ncmd\n" * 3, cwd=self.folder)
        self.assertEqual((status, out), (0, (b"0x0\n" * 4000 + b"idle\n") * 3))
