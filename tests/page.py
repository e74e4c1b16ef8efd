#!/usr/bin/env -S python3 -B
"""page.py PROGRAM    Drives the page of web/out in Chromium without a window, and in Firefox if it is new enough.

Each example's answers in the page are those of its file NAME.answers, or give the verdicts that stand there. What the
page shows at each line is what the program's word `debug` answers to the same questions, and what it marks is what
`check` tells. Scripts of 10,000 to 1,000,000 lines are answered and shown within some seconds, a script kept in the
address comes back, the page can be served, the keys move through the steps, a picture of a walk has a box for each
part, no box lies on another, nothing is wider than a narrow screen, and nothing is told on the browser's console. How
one uses it stands in page_using.py, and what is asked of the page itself in page.js. Prints each test. The status is 1
if one failed.

README's picture, web/page.png, is made by `chromium --headless --window-size=1440,1100 --screenshot=web/page.png`, with
the address of the page at `#example=stale_translation&line=18`.
"""
import filecmp
import functools
import http.server
import re
import threading
import unittest

import frame
from browsers import Chromium, Firefox
from documents import answered_lines
from frame import EXAMPLES
from page_using import NAMES, PAGE, WEB, Using, lines_of

WIDE, NARROW = (1440, 1100), (390, 1600)
WHY = [f"why {it}" for it in range(32)]


def read(name, ending):
    return (EXAMPLES / f"{name}.{ending}").read_text(encoding="utf-8")


def long_script():
    """10,000 lines: the mapping of stale_translation is used, taken away, used again and put back."""
    lines = answered_lines(read("stale_translation", "script"))
    setting = [it for it in lines if it.startswith("store 0x800") and "0x8009" not in it]
    around = [
        *("store 0x80004008 8 0x200040d7", "dma read 5 0x40201abc 8", "dma write 5 0x40201abc ff"),
        *("store 0x80004008 8 0", "dma read 5 0x40201abc 8", "cmd"),
    ]
    return (["reg write 16 8 0x20000402", *setting] + around * 1700)[:10000]


def runs_script():
    """The script of the example disk with the steps of the device that follow each other as lines of many steps. After
    twenty of them the pages that the device uses are unmapped, and nothing is invalidated."""
    lines = []
    for line in answered_lines(read("disk", "script")):
        line = "dev run 0 500" if line.startswith("dev step 0") else line
        if lines[-1:] != [line] or line != "dev run 0 500":
            lines.append(line)
    first = lines.index("dev run 0 500")
    return [*lines[:first], "dev run 0 20", "store 0x80004008 8 0", "store 0x80004010 8 0", *lines[first:]]


class Shown(Using):
    """What the page shows, beside what the program answers."""

    def setUp(self):
        super().setUp()
        self.browser.size(*WIDE)

    def tearDown(self):
        told = list(self.browser.told)
        self.browser.forget()
        self.assertEqual(told, [], "the console")

    def image_of(self, name):
        """The words that name the image of an example, none if it has none."""
        text = EXAMPLES / f"{name}.asm"
        return [self.image(text.read_bytes(), f"{name}.image")] if text.exists() else []

    def told(self, words, script):
        """The lines that the program writes of a script."""
        return frame.run(words, script.encode())[1].decode().splitlines()

    def answers(self, image, lines):
        """What `debug` answers to the lines, blank ones too."""
        return self.told(["debug", *image], lines_of(lines))

    def want_shown(self, image, lines, at, shown):
        """Wants what is shown to be what `debug` answers: of a walk before line `at`, and of all else after it."""
        before = {it: told for it, told in shown.items() if it.startswith(("walk", "stale read", "stale write"))}
        after = {it: told for it, told in shown.items() if it not in before}
        for count, asked in ((at, after), (max(at - 1, 0), before)):
            if asked:
                told = self.answers(image, [*lines[:count], *asked])[-len(asked) :]
                self.assertEqual(told, list(asked.values()), f"line {at}")
        return before

    def test_answers(self):
        """each example's answers, or the verdicts of a checked one, are those of its file of answers"""
        self.browser.open(PAGE)
        for name in NAMES:
            self.show(name)
            lines = read(name, "script").splitlines()
            got = self.browser.run('script.answers.filter((it) => it !== "")')
            wanted = read(name, "answers")
            if "--settled" in lines[0].split():
                got = self.settled_verdicts(lines)
            elif "check" in lines[0].split():
                # The page names the lines that served an access below it.
                got, wanted = self.verdicts(lines), re.sub(r"(?<=stale: )\w+ 0x\w+ served by line \d+, ", "", wanted)
            self.want_equal(name, got, wanted.splitlines())

    def verdicts(self, lines):
        """What `check --stale` tells of the lines, by what the page shows at each."""
        told, passed, failed = [], 0, 0
        for number, line in enumerate(lines, 1):
            answer, wanted, stale, _ = self.ask("verdict", number)
            stale = stale.strip(" .").replace("Stale: the tables said", "stale: the tables now say")
            faults = [f"wanted {wanted}"] * (wanted not in (None, answer)) + [stale] * bool(stale)
            if faults or (answer == "bad" and wanted != answer):
                shown = ", ".join([f"{line.partition('#')[0].strip()} -> {answer}", *faults])
                told.append(f"line {number}: {shown}")
                failed += 1
            elif wanted is not None:
                passed += 1
        return [*told, f"{passed} passed, {failed} failed"]

    def settled_verdicts(self, lines):
        """What `check --settled` tells of the lines, by what the page shows at each."""
        told, passed, failed, known = [], 0, 0, set()
        for number, line in enumerate(lines, 1):
            answer, wanted, _, report = self.ask("verdict", number)
            report = report.strip(" .").replace("Unsettled: ", "unsettled: ")
            if report and wanted in ("any unsettled", f"{answer} unsettled"):
                passed += 1
                continue
            if found := re.match(r"unsettled: (\w+) (\w+) of device (\d+)", report):
                known.add((found[1], int(found[2], 16) >> 12, found[3]))
                report = report.replace(f" of device {found[3]}", "", 1)
            if faults := [f"wanted {wanted}"] * (wanted not in (None, answer)) + [report] * bool(report):
                told.append(f"line {number}: " + ", ".join([f"{line.partition('#')[0].strip()} -> {answer}", *faults]))
                failed += 1
            elif wanted is not None:
                passed += 1
        for request in self.ask("owed", len(lines))[1]:
            kind, iova, device = re.match(r"(\w+) (\w+) of device (\d+),", request).groups()
            # What failed before isn't told again.
            if (kind, int(iova, 16) >> 12, device) not in known:
                told.append(f"line {len(lines)}: {request}")
                failed += 1
        return [*told, f"{passed} passed, {failed} failed"]

    def test_owed(self):
        """what is owed at each line of each example that is checked so is what the program says there"""
        seen, unfenced = 0, 0
        self.browser.open(PAGE)
        for name in NAMES:
            image, lines = self.image_of(name), read(name, "script").splitlines()
            if "--settled" not in lines[0].split():
                continue
            self.show(name, 0)
            for number in range(1, len(lines) + 1):
                told = self.told(["check", "--settled", *image], lines_of([*lines[:number], "owed # => wanted"]))
                found = [re.match(rf"line {number + 1}: owed -> (.*), wanted wanted$", it) for it in told]
                note, owed = self.ask("owed", number)
                unfenced += sum(it.endswith("isn't fenced yet") for it in owed)
                # The page names the steps of a line of many, and check escapes an answer.
                first = re.sub(r", step \d+", "", (owed or [""])[0])
                wanted = f"{len(owed)}, the first {first}" if owed else "none"
                self.want_equal((name, number), [it[1].replace("\\'", "'") for it in found if it], [wanted])
                self.assertEqual(note.startswith("Nothing"), not owed)
                seen += len(owed)
        self.assertTrue(seen > 10 and unfenced > 1, "what is owed, and what isn't fenced")

    def test_states(self):
        """what is shown at each line of each example is what the program answers to the same questions"""
        self.browser.open(PAGE)
        for name in NAMES:
            image, script = self.image_of(name), read(name, "script").splitlines()
            self.show(name, 0)
            with self.subTest(name):
                for number in range(len(script) + 1):
                    told, steps = self.ask("state", number)
                    # Of a line of many steps one is shown.
                    lines = script if steps is None else [*script[: number - 1], *steps]
                    self.want_shown(image, lines, number if steps is None else len(lines), dict(told))

    def test_verdicts(self):
        """the lines that fail and those with a stale access are those that `check` and `check --stale` tell of"""
        stale = unsettled = 0
        self.browser.open(PAGE)
        for name in NAMES:
            image, script = self.image_of(name), read(name, "script")
            # A stale access is shown, and one that isn't settled, whatever its line wants.
            plain = re.sub(r"(?m)# => .* (stale|unsettled)$", "", script)
            settled = self.told(["check", "--settled", *image], plain)
            told = [self.told([*words, *image], lines) for words, lines in ((["check"], script), (["check", "--stale"], plain))]
            # The page shows neither notes nor the places at the end.
            told = [[it for it in one if not re.match(r"line \d+: (note: |place \w+ \d+ is stale)", it)] for one in told]
            (*failed, counts), (*either, _) = told
            failed, either = ([int(re.match(r"line (\d+): ", it)[1]) for it in told] for told in (failed, either))
            self.show(name)
            self.wait_for_stale()
            wrong, late = self.ask("marked", "wrong"), self.ask("marked", "stale")
            seen = wrong, sorted({*wrong, *late}), ", ".join(self.ask("counts")[:2])
            # Without --settled the program answers no line `owed` or `free`.
            if not re.search(r"(?m)^(owed|free)\b", script):
                self.want_equal(name, seen, (failed, either, counts))
            stale += len(set(either) - set(failed))
            settled = [int(re.match(r"line (\d+): ", it)[1]) for it in settled if ", unsettled: " in it]
            self.want_equal((name, "unsettled"), self.ask("marked", "unsettled"), settled)
            unsettled += len(settled)
        self.assertTrue(stale > 2 and unsettled > 10, "stale and unsettled accesses")

    def test_runs(self):
        """each step of a line of many is shown as a line of its own is, and what they all were is told"""
        lines, image = runs_script(), self.image_of("disk")
        self.open_own(lines_of(lines), read("disk", "asm"), 1)
        plain = self.answers(image, lines)
        runs = [number for number, line in enumerate(lines, 1) if line.startswith("dev run")]
        self.assertTrue(len(runs) > 1 and any(it.endswith("idle") for it in plain))
        most_stale = all_denied = 0
        for number in runs:
            stale, denied = self.want_run(image, lines, number, int(plain[number - 1].split()[0], 16))
            most_stale, all_denied = max(most_stale, stale), all_denied + denied
        self.assertTrue(most_stale > 1 and all_denied > 0, "stale accesses of one line, and denied ones")
        self.browser.run(f"go({runs[0]}, 3), at('run-forward').click()")
        self.assertEqual(self.browser.run("Number(at('run-step').value)"), 4, "the next step of a line")

    def want_run(self, image, lines, number, count):
        """Wants a line of so many steps shown as so many lines of one; returns how many were stale, and denied."""
        asked = ["dev show 0", "dev step 0", *WHY]
        around = self.answers(image, [*lines[: number - 1], *asked * count])[number - 1 :]
        around = [around[i : i + len(asked)] for i in range(0, len(around), len(asked))]
        accesses = [i for i, (view, *_) in enumerate(around, 1) if re.search("next=(read|write) ", view)]
        denied = sum(answer.startswith("denied") for _, answer, *_ in around)
        stale = sum(" stale " in [it for it in whys if it != "none"][-1] for _, _, *whys in around)
        text, is_stale, why, *picture = self.ask("run", number)
        steps = "1 step" if count == 1 else f"{count} steps"
        made = f", {len(accesses)} accesses: {denied} denied, {stale} stale" if accesses else ""
        self.assertEqual(text, f"This line made {steps}{made}; the last was {around[-1][1]}.")
        self.assertEqual(is_stale, stale > 0, number)
        first = [True, True, accesses[-1]] if accesses else [False, False, count]
        self.assertEqual([why != "No access.", *picture], first, "the step that is shown first")
        for step in range(1, count + 1):
            told = [*lines[: number - 1], *["dev step 0"] * step]
            before = self.want_shown(image, told, len(told), dict(self.ask("stepShown", number, step)))
            self.assertEqual(bool(before), step in accesses, step)
        return stale, denied

    def test_pictures_of_walks(self):
        """the picture of each access of each example has a box for each part, apart from all others"""
        self.browser.open(PAGE)
        for name in NAMES:
            self.show(name, 0)
            for number in self.browser.run("script.accesses"):
                seen = self.ask("picture", number)
                parts = seen["parts"]
                wanted = {"parts": parts, "boxes": parts, "apart": True, "within": True, "decides": min(parts, 1)}
                self.want_equal((name, number), seen, wanted)

    def test_fillers(self):
        """the lines that are told to have filled what an access used are those that `why` tells of it"""
        seen = 0
        self.browser.open(PAGE)
        for name in NAMES:
            self.show(name, 0)
            for number in self.browser.run("script.accesses"):
                fillers, why = self.ask("fillers", number)
                if found := re.match(r"walked context=\d+ walk=(\d+) current=(\d+)", why):
                    self.assertIn(int(found[1]), fillers["pages"], (name, number))
                    self.assertIn(int(found[2]), fillers["contexts"], (name, number))
                    seen += 1
        self.assertGreater(seen, 20)

    def test_speed(self):
        """10,000 lines are answered within two seconds, as the program answers them"""
        lines = long_script()
        self.browser.open(PAGE)
        self.ask("own", lines_of(lines), "")
        milliseconds, step = self.ask("played"), self.ask("stepped", 5000)
        print(f"page: {self.browser.name}: 10,000 lines answered in {milliseconds:.0f} ms, one shown in {step:.0f} ms")
        self.assertLess(milliseconds, 2000)
        answers = self.browser.run("script.answers")
        self.assertEqual(self.ask("row", 5000), [lines[4999], answers[4999], True])
        self.assertEqual(answers, self.answers([], lines))

    def test_address(self):
        """an example and a script of one's own come back by the address, and the script can be saved"""
        self.open("example=first_stage&line=3")
        self.assertEqual(self.browser.run("[at('example').value, line]"), ["first_stage", 3])
        self.ask("own", "reg read 0 8\nload 0x80000000 8\n", "")
        self.browser.wait('location.href.includes("own=")')
        self.browser.open(self.browser.run("location.href"))
        self.assertEqual(self.browser.run("script.answers"), ["0x3810060610", "0x0"])
        saved = self.browser.run("fetch(at('save').href).then((it) => it.text())")
        self.assertEqual(saved, "reg read 0 8\nload 0x80000000 8\n")

    def test_served(self):
        """the page can be served"""
        class Quiet(http.server.SimpleHTTPRequestHandler):
            def log_message(self, *words):
                pass

        handler = functools.partial(Quiet, directory=WEB / "out")
        with http.server.ThreadingHTTPServer(("127.0.0.1", 0), handler) as server:
            threading.Thread(target=server.serve_forever, daemon=True).start()
            self.addCleanup(server.shutdown)
            self.browser.open(f"http://127.0.0.1:{server.server_address[1]}/#example=disk")
            self.assertEqual(self.browser.run("[at('example').value, script.answers[1]]"), ["disk", "done"])
            server.shutdown()

    def test_keys(self):
        """the keys and the slider move through the steps"""
        self.browser.open(PAGE)
        self.show("first_stage")
        self.browser.run("document.activeElement.blur()")
        overflow = self.browser.run('getComputedStyle(document.querySelector(".row .answer")).textOverflow')
        self.assertEqual(overflow, "ellipsis", "an answer that is longer than its place")
        moved = []
        for key in ("Home", ".", ".", ",", "End", "."):
            self.browser.key(key)
            moved.append(self.browser.run("line"))
        stops = [0]
        stops += [at for at, it in enumerate(read("first_stage", "script").splitlines(), 1) if it.split("#")[0].strip()]
        self.assertEqual(moved, [0, stops[1], stops[2], stops[1], stops[-1], stops[-1]])
        self.assertEqual(self.ask("slid", 1), [stops[1], len(stops) - 1])

    def test_largest_image(self):
        """an image with the most memory, and with the largest disks"""
        self.browser.open(PAGE)
        image = "ram 0x80000000 0x4000000\ndisk 5 65536\nrodisk 6 65536\n"
        self.ask("own", "store 0x83fffff8 8 5\nload 0x83fffff8 8\ndisk 1 33554368 64\n", image)
        self.assertEqual(self.browser.run("script.answers"), ["done", "0x5", "00" * 64])

    def test_screens(self):
        """nothing is wider than a narrow screen"""
        self.browser.open(PAGE)
        self.browser.size(*NARROW)
        for name in NAMES:
            self.show(name)
            self.assertTrue(self.browser.run("document.documentElement.scrollWidth <= innerWidth"), name)


class InBrowser(frame.Case):
    """The tests above in one browser."""

    @classmethod
    def setUpClass(cls):
        if cls.kind.program() is None:
            raise unittest.SkipTest(f"there is no {cls.kind.name} that is new enough")
        cls.browser = cls.kind()
        cls.addClassCleanup(cls.browser.close)


class InChromium(Shown, InBrowser):
    kind = Chromium


class InFirefox(Shown, InBrowser):
    kind = Firefox


class Built(unittest.TestCase):
    def test_built(self):
        """the page in web/out is that of web/"""
        own = [it for it in WEB.iterdir() if it.suffix in frame.page_build().ENDINGS]
        others = [it.name for it in own if not filecmp.cmp(it, WEB / "out" / it.name, shallow=False)]
        self.assertEqual(others, [], "what 'make page' has yet to copy")


if __name__ == "__main__":
    frame.main(__doc__, "page.py")
