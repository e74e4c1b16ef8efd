"""The page as one uses it: what is typed, clicked, chosen and named in its address."""
import base64
import json
import re
import time
import zlib

from frame import EXAMPLES, TOP

WEB = TOP / "web"
PAGE, UNBUILT = (WEB / "out/index.html").as_uri(), (WEB / "index.html").as_uri()
NAMES = sorted(it.stem for it in EXAMPLES.glob("*.script"))
# Of each number of lines, within how many seconds they are shown.
LARGE = [(100_000, 4), (1_000_000, 30)]
MARKED = """\
dma read 5 0 1 # => denied 256
dma read 5 0 1
dma read 5 0 1 # => done
reg read 0 8
jump
jump # => bad
reg read 0 8 # => 0x38
"""
# Flags and levels as they are not to be told.
IN_HEX = re.compile(r"\b(on|av|pscv|gv|dv|wsi|pr|pw|pv|priv|dtf|tav|global|level)=0x")
LOOKED_AT = 'document.querySelector(".right").ariaBusy !== "true"'


def packed(what):
    """What an address names a script and an image of one's own by."""
    packer = zlib.compressobj(9, zlib.DEFLATED, -15)
    text = packer.compress(json.dumps(what).encode()) + packer.flush()
    return "own=" + base64.urlsafe_b64encode(text).decode().rstrip("=")


def lines_of(script):
    return "".join(f"{line}\n" for line in script)


def large_script(count):
    """So many lines, with accesses that are denied, granted and stale, and comments, some of which are wrapped."""
    lines = [
        *("reg write 16 8 0x20000402", "store 0x800010a0 8 1", "store 0x800010b0 8 0x3000"),
        *("store 0x800010b8 8 0x8000000000080002", "store 0x80002008 8 0x20000c01", "store 0x80003008 8 0x20001001"),
        "store 0x80004008 8 0x200040d7",
    ]
    around = [
        *("dma read 5 0x40201abc 8 # the device reads", "store 0x80004008 8 0", "dma read 5 0x40201abc 8"),
        *("dma write 5 0x40201abc ff # => denied 15", "store 0x80004008 8 0x200040d7"),
        "load 0x80010abc 8 # the hart reads the page that the device was led to, at the same place",
    ]
    return (lines + around * (count // len(around) + 1))[:count]


class Using:
    """Tests of a page in `browser`."""

    def open(self, fragment):
        self.browser.open(f"{PAGE}#{fragment}")

    def open_own(self, script, image="", line=None):
        self.open(packed([script, image]) + ("" if line is None else f"&line={line}"))

    def ask(self, name, *words):
        return self.browser.ask(name, *words)

    def show(self, name, *line):
        self.browser.run(f"show({', '.join(map(json.dumps, [name, *line]))}), 0")

    def type(self, name, text):
        """Puts a text into a field, as typing it does, and waits until it is played."""
        self.ask("type", name, text)
        self.browser.wait("fresh === Infinity", 20)

    def wait_for_stale(self, seconds=20):
        """Waits until the page has found which lines made stale accesses, and which unsettled ones."""
        self.assertTrue(self.browser.wait('!/looking/.test(at("counts").textContent)', seconds))

    def want_equal(self, name, got, wanted):
        with self.subTest(name):
            self.assertEqual(got, wanted)

    def test_broken_addresses(self):
        """an address that names what isn't there is told of as long as nothing else is chosen, and it isn't lost"""
        good = packed(["cmd\n", ""])
        broken = {
            "example=nosuch": "names an example that doesn't exist", "own=!": "is broken", good[:-6]: "is broken",
            packed(["cmd"]): "holds something else", "own=": "is broken",
        }
        for part, told in broken.items():
            with self.subTest(part):
                self.open(part)
                self.assertIn(told, self.ask("text", "notice"))
                self.assertIn('"stale translation"', self.ask("text", "notice"))
                self.browser.key(",")
                time.sleep(0.6)
                self.assertEqual(self.browser.run("location.hash"), f"#{part}")
                self.assertTrue(self.ask("isSeen", "notice"), "what is told is seen after a step")
        self.ask("choose", "disk")
        self.assertEqual(self.browser.run("at('notice').hidden && location.hash"), f"#{part}")
        self.assertTrue(self.browser.wait('asked.hash() === "#example=disk"', 5))
        self.type("script", "cmd\ncmd\n")
        self.browser.wait('location.hash.startsWith("#own=")', 5)
        self.browser.run('location.hash = "#example=nosuch", 0')
        self.browser.wait("!at('notice').hidden", 5)
        self.assertEqual(self.ask("scripts")[0], "cmd\ncmd\n", "an own script stays")
        self.assertIn("your own", self.ask("text", "notice"))

    def test_refused(self):
        """while the image's text is refused no answer stands beside a line, nothing at the right, and it is seen"""
        height = 'document.querySelector(".right").getBoundingClientRect().height'
        self.open("example=first_stage")
        self.type("script", "cmd\ncmd\ncmd\n")
        self.assertEqual(self.ask("answers"), ["idle", "idle", "idle", ""])
        self.type("image", "ram 0x80000000 0x1000\nnonsense\n")
        self.type("script", "reg read 0 8\n")
        self.assertEqual((self.ask("numbers"), self.ask("answers")), (["1", ""], ["", ""]))
        self.assertEqual(self.browser.run(height), 0, "nothing holds")
        self.assertRegex(self.ask("text", "fault"), r"(?s)refused.*line 2: bad line\Z")
        for place in ("0", "document.documentElement.scrollHeight"):
            self.browser.run(f"scrollTo(0, {place}), 0")
            self.assertTrue(self.ask("isSeen", "fault"), place)
        self.type("image", "")
        self.assertEqual(self.ask("answers"), ["0x3810060610", ""])
        self.assertTrue(self.browser.run(f"at('fault').hidden && {height} > 0"))

    def test_own(self):
        """a script of one's own comes back, whatever was chosen or typed meanwhile"""
        mine = ["cmd # mine\ncmd\n", "ram 0x80000000 0x2000\n"]
        self.browser.open(PAGE)
        self.browser.run("sessionStorage.clear()")
        self.open("example=first_stage")
        self.type("script", "cmd # mine\n")
        self.type("image", mine[1])
        # What was typed is kept though it isn't played before something is chosen.
        self.ask("type", "script", mine[0])
        self.ask("choose", "disk")
        self.assertTrue(self.ask("scripts")[0].startswith("#"))
        self.assertEqual(self.ask("owns"), ["own 0"])
        self.ask("choose", "own 0")
        self.assertEqual(self.ask("scripts"), mine)
        self.ask("choose", "command_queue")
        self.type("script", "reg read 0 8\n")
        self.assertEqual(self.ask("owns"), ["own 0", "own 1"], "an example that was changed is another own script")
        self.ask("choose", "own 0")
        self.assertEqual(self.ask("scripts"), mine)
        self.ask("choose", "disk")
        self.browser.wait('asked.hash() === "#example=disk"', 5)
        self.open("example=disk")
        self.assertEqual(self.ask("owns"), ["own 0", "own 1"], "both after a reload")
        self.ask("choose", "own 1")
        self.assertEqual(self.ask("scripts")[0], "reg read 0 8\n")

    def test_too_long(self):
        """a script that is too long for the page's address isn't put there, and that is told"""
        self.open("example=disk")
        self.ask("ownTooLong")
        self.browser.wait("location.hash === ''", 20)
        self.assertEqual((self.ask("hash"), self.ask("isSeen", "too-long")), ("", True))
        self.ask("choose", "disk")
        self.browser.wait("location.hash !== ''", 5)
        self.assertEqual((self.ask("hash"), self.browser.run("at('too-long').hidden")), ("#example=disk", True))

    def test_clicks(self):
        """a line is shown that is clicked: its number, its text, in its second row if it is wrapped, or its answer"""
        self.open("example=stale_translation&line=1")
        for number in (3, 18, 5, 12, 10):
            for part in range(3):
                self.browser.click(*self.ask("placeOf", number, part))
                self.assertEqual(self.browser.run("line"), number, f"part {part}")
        self.assertTrue(0 < self.ask("wrapped") < len(self.ask("scripts")[0].splitlines()))

    def test_lines(self):
        """each line of each example can be read as a whole, and stands beside its number and its answer"""
        self.browser.open(PAGE)
        for name in NAMES:
            self.show(name)
            self.want_equal(name, self.ask("carets"), {"bad": [], "wide": False, "high": False})

    def test_marks(self):
        """a denial that is wanted, one that isn't told of, and a wish that fails look each another way"""
        self.open_own(MARKED)
        told = ["✓ denied 256", "denied 256", "✗ denied 256  (wanted done)", "0x3810060610", "✗ bad", "✓ bad"]
        self.assertEqual(self.ask("answers"), [*told, "✗ 0x3810060610  (wanted 0x38)", ""])
        self.assertEqual(len({tuple(it) for it in self.ask("looks", 4)}), 4, "how they look")
        self.wait_for_stale()
        self.assertEqual(self.ask("counts"), ["2 passed", "3 failed", "0 stale", "0 unsettled"])

    def test_readable(self):
        """flags and levels aren't told in hex"""
        cells, many = set(), 0
        self.browser.open(PAGE)
        for name in NAMES:
            self.show(name)
            for number in self.browser.run("script.stops"):
                self.browser.run(f"go({number}), 0")
                told = self.ask("flagged")
                self.assertEqual([it for it in told if IN_HEX.search(it)], [], (name, number))
                cells |= {tuple(it) for it in self.ask("pages")}
                many += len(told)
        self.assertGreater(many, 500)
        self.assertEqual(sorted(cells), [("0", "no"), ("0, of 64 KiB", "no"), ("3", "no")], "levels, and whether a page is global")
        lines = large_script(8)
        self.open_own("\n".join([*lines[:6], lines[6].replace("d7", "f7"), lines[7]]))
        self.assertEqual(self.ask("pages"), [["0", "yes"]])

    def test_queues(self):
        """a queue at address 0 has items; of more than are shown it is told how many there are"""
        at_zero = "reg write cqb 0x3\nput 0 cmd iodir dv=1 did=5\nput 0x10 cmd fence\n"
        self.open_own(at_zero + "reg write cqcsr 1\nreg write cqt 2\n", "ram 0 0x100000\n")
        fence = "1 cmd fence av=0 wsi=0 pr=0 pw=0 data=0x0 addr=0x0"
        note = "on at 0x0, 16 entries; head 0, tail 2; 2 entries wait"
        seen = self.ask("queue", "commands")
        self.assertEqual(seen, [note, ["head → 0 cmd iodir dv=1 did=0x5", fence, "tail → 2"]])
        puts = [f"put {0x80040000 + 16 * i:#x} cmd iodir dv=1 did={i}" for i in range(60)]
        many = lines_of(["reg write cqb 0x20010005", *puts, "reg write cqcsr 1", "reg write cqt 40"])
        self.open_own(many)
        note, items = self.ask("queue", "commands")
        queue = "on at 0x80040000, 64 entries; "
        self.assertEqual(note, queue + "head 0, tail 40; 40 entries wait, the first 16 are shown")
        told = ["15 cmd iodir dv=1 did=0xf", "… 24 entries more that wait", "tail → 40"]
        self.assertEqual((len(items), items[0], items[15:]), (18, "head → 0 cmd iodir dv=1 did=0x0", told))
        self.open_own(many + "cmd run 30\n")
        note, items = self.ask("queue", "commands")
        self.assertEqual((note, len(items)), (queue + "head 30, tail 40; 10 entries wait", 18))
        self.assertEqual(items[:2], ["… 24 entries before, taken already", "24 cmd iodir dv=1 did=0x18"])
        self.open_own("reg read 0 8\n", "ram 0 0x100000\n")
        self.assertEqual(self.ask("queue", "commands")[0], "off; head 0, tail 0")

    def test_large(self):
        """a script of many lines is shown within some seconds, whatever of it is looked at"""
        for count, most in LARGE:
            with self.subTest(count):
                self.large(count, most)

    def large(self, count, most):
        lines, start = large_script(count), time.monotonic()
        self.open_own(lines_of(lines), "", 1)
        self.browser.wait(LOOKED_AT, 4 * most)
        self.assertLess(time.monotonic() - start, most, "seconds until what holds at one is shown")
        self.wait_for_stale(4 * most)
        print(f"page: {self.browser.name}: {count} lines, and which are stale and unsettled, after {time.monotonic() - start:.1f} s")
        self.assertLess(self.ask("elements"), 6000, "the page has the elements about what is seen")
        self.assertEqual(self.browser.run("script.answers.length"), count)
        for number in (count // 2, count, count // 3):
            start = time.monotonic()
            self.browser.run(f"go({number}), 0")
            self.browser.wait(LOOKED_AT, 4 * most)
            self.assertLess(time.monotonic() - start, most, "seconds of a step")
            answer = self.browser.run(f"script.answers[{number - 1}]")
            self.assertEqual(self.ask("row", number), [lines[number - 1], answer, True])
        self.ask("scrollTo", 1 / 4)
        self.browser.wait("asked.firstRow() !== null", 5)
        number, text = self.ask("firstRow")
        self.assertAlmostEqual(number / count, 1 / 4, delta=0.02)
        self.assertEqual(text, lines[number - 1])
        seen = self.ask("scrolled")
        self.assertEqual([it for it in zip(seen, seen[1:]) if not (all(it) and 8 < it[1] - it[0] < 24)], [])

    def test_large_typing(self):
        """what is typed amid many lines changes that one; all can be replaced, and many inserted"""
        lines = large_script(100_000)
        self.open_own(lines_of(lines), "", 50_000)
        self.ask("typeAt", 50_000, "# ")
        self.browser.wait('script.lines[49999].startsWith("# ")', 20)
        lines[49_999] = f"# {lines[49_999]}"
        self.assertEqual(self.browser.run("editor.lines.length"), 100_001)
        self.assertEqual(self.browser.run("editor.lines.slice(49998, 50001)"), lines[49_998:50_001])
        place, is_left = self.ask("paste", "cmd\n" * 2000)
        self.assertEqual((is_left, self.browser.run("editor.lines.length")), (False, 102_001))
        seen = self.browser.run(f"editor.lines.slice({place}, {place + 2001})")
        self.assertEqual(seen, [*["cmd"] * 2000, lines[place]])
        self.assertEqual(self.ask("replaceAll", "cmd"), "cmd")
        self.browser.wait("script.lines.length === 1", 20)
        self.assertEqual((self.ask("numbers"), self.ask("answers")), (["1"], ["idle"]))

    def test_unbuilt(self):
        """the page as it lies in the repository says how it is built"""
        self.browser.open(UNBUILT)
        self.assertIn("make page", self.ask("text", "fault"))
        self.assertTrue(self.ask("isSeen", "fault"))
        self.browser.forget()
