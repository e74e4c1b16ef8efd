#!/usr/bin/env -S python3 -B
"""fuzz.py PROGRAM [OTHER] [MINUTES] [SEED]    Runs two programs beside each other on cases made to harm.

A case is a text for an image and a script, made by small changes from those of examples/ and crates/iom_rows/data:
numbers moved to their neighbours, to limits and to other numbers of the case, bits turned over, lines left out,
doubled, moved, garbled and taken from other cases, writable disks made read-only, windows stated, stores into tables,
rings and queues, accesses and questions between other lines, images of all versions cut short and with bytes replaced.
What the programs write, the images, upgraded ones too, the statuses and the texts of faults are compared. Without
OTHER, or with PROGRAM once more, the words of one program are compared: the answers of run have to be those of debug
and of explain, and a script whose lines want them passes a check.

Prints how many lines were compared on scripts, texts and images; at the first difference its line and the shortest
script and text that show it, and the status is 1.
"""
import os
import random
import re
import subprocess
import sys
import tempfile
import time
from pathlib import Path

from frame import BAD_FOR_RUN, BUILT_IN, RUN_SECONDS, scripts, words_of

KINDS = ["cmd", "fault", "context", "dir", "pte", "msi", "u64"]
NUMBER = re.compile(r"\b(0x[0-9a-fA-F]+|[0-9]+)\b")
LIMITS = [0, 1, 2, 3, 4, 5, 7, 8, 9, 16, 4095, 4096, 0x80000000, 0x800FFFFF, 0x80100000, 2**64 - 1, 2**64]
LIMITS += [1 << bit for bit in (38, 39, 41, 44, 47, 48, 50, 63)]
LIMITS += [(1 << bit) - less for bit in (6, 7, 9, 16, 24, 32, 56) for less in (0, 1)]
IOVAS = [0x40201ABC, 0x40202000, 0x8040201ABC, 0xFFFF800080010ABC, 0x2010080010ABC]
# A window that is stated, unless memory is there.
WINDOW, WINDOW_SIZE = 0x28000000, 0x10000
LIMITS += [WINDOW, WINDOW + WINDOW_SIZE - 4, WINDOW + WINDOW_SIZE]
# Of a stage of device 5's context: its modes, one that there isn't, and the PPNs of roots, two of them not aligned.
MODES = [0, 8, 9, 10]
ROOTS = [0x30, 0x80002, 0x80005, 0x80020, 0x80024, 0x80030]
THEMES = ("scripts",) * 8 + ("texts", "images")
MOST_IN_LINE = 512
# Stands for the image of each program among the words that both are run with.
IMAGE = object()


def cases():
    """Each script of run with the text of its image, by name, as lines without comments."""
    lines = lambda text: [line for it in text.splitlines() if (line := it.split("#")[0].rstrip())]
    return {
        path.stem: (lines(text.decode() if text else BUILT_IN), lines(script.decode()))
        for path, script, text in scripts() if words_of(script) == ["run"] and path.stem != BAD_FOR_RUN}


def wanting(script, answers):
    """The lines of a script, which want these answers in place of its comments."""
    left, lines = answers.splitlines(), []
    for line in script.splitlines():
        words = line.partition(b"#")[0]
        is_answered = bool(words.split()) or len(line) > MOST_IN_LINE
        lines.append(words.strip() + b" # => " + left.pop(0) if is_answered else line)
    assert not left, f"the answers that are left: {left}"
    return lines


def numbers_in(lines):
    return [int(it, 0) for line in lines for it in NUMBER.findall(line) if not re.match(r"0[0-9]", it)]


class Mutator:
    def __init__(self, seed):
        self.random = random.Random(seed)

    def number(self, old, others):
        dice, pick = self.random, self.random.randrange(7)
        if pick == 0:
            return old + dice.choice([-1, 1, 2, 4, 8, -8, 16, 4096, -4096])
        if pick <= 2:
            return old ^ (1 << dice.randrange(64))
        if pick == 3:
            return dice.choice(LIMITS)
        if pick == 4 and others:
            return dice.choice(others)
        if pick == 5:
            return dice.choice(LIMITS) + dice.choice([-1, 1])
        return old & ~((1 << dice.randrange(64)) - 1)

    def written(self, value):
        value = max(0, value)
        return str(value) if self.random.random() < 0.2 else hex(value)

    def line(self, line, others):
        """A line with one of its numbers, or a digit of its data, changed."""
        found = list(NUMBER.finditer(line))
        if not found:
            return line
        at = self.random.choice(found)
        (old,) = numbers_in([at.group()]) or [0]
        return line[: at.start()] + self.written(self.number(old, others)) + line[at.end() :]

    def lines(self, lines, donor, count):
        dice, lines = self.random, list(lines)
        others = numbers_in(lines)
        for _ in range(count):
            if not lines:
                return lines
            at, pick = dice.randrange(len(lines)), dice.randrange(10)
            if pick <= 4:
                lines[at] = self.line(lines[at], others)
            elif pick == 5:
                del lines[at]
            elif pick == 6:
                lines.insert(at, dice.choice(lines))
            elif pick == 7:
                lines.insert(dice.randrange(len(lines)), lines.pop(at))
            elif donor:
                first = dice.randrange(len(donor))
                lines[at:at] = donor[first : first + dice.choice([1, 2, 8])]
        return lines

    def disks(self, lines):
        """The lines with some disks of the other kind."""
        other = {"disk": "rodisk", "rodisk": "disk"}
        parts = [line.split(" ", 1) for line in lines]
        return [" ".join([other.get(it, it) if self.random.random() < 0.2 else it, *rest]) for it, *rest in parts]

    def window(self, lines):
        """The lines, at times with a window beside the memory, where they state none."""
        dice = self.random
        found = [re.match(r"\s*ram\s+(\w+)\s+(\w+)", line) for line in lines]
        memory = next((range(int(it[1], 0), int(it[1], 0) + int(it[2], 0)) for it in found if it), None)
        if memory is None or dice.random() < 0.7 or any(line.lstrip().startswith("window") for line in lines):
            return lines
        bases = [it for it in (WINDOW, memory.start - WINDOW_SIZE, memory.stop) if it > 0]
        base = dice.choice([it for it in bases if it + WINDOW_SIZE <= memory.start or it >= memory.stop])
        return [*lines, f"window {base:#x} {WINDOW_SIZE:#x}"]

    def watched(self, lines):
        """The lines with stores, accesses and questions between them."""
        dice, out = self.random, []
        addresses = [it for it in numbers_in(lines) if 0x80000000 <= it < 0x80100000] or [0x80000000]
        for line in lines:
            out.append(line)
            if dice.random() < 0.15:
                near = (dice.choice(addresses) & ~7) + 8 * dice.randrange(-2, 6)
                frame = dice.choice([0x80000 + dice.randrange(256), (WINDOW >> 12) + dice.randrange(17)])
                entry = frame << 10 | dice.choice([0, 1, 0x53, 0xD7])
                stage = dice.choice(MODES) << 60 | dice.choice(ROOTS)
                out.append(dice.choice([
                    f"store {near:#x} 8 {dice.choice([0, dice.getrandbits(64), entry]):#x}",
                    f"show {dice.choice(KINDS)} {near + dice.randrange(2):#x}", "cmd", "dev step 0",
                    f"place {dice.choice(['page', 'context'])} {dice.randrange(4)}", f"trace {dice.randrange(34)}",
                    f"message {dice.choice([0, 1, dice.randrange(18)])}",
                    f"dma write 5 {dice.choice(IOVAS + [WINDOW, near & ~3]):#x} {dice.randbytes(4).hex()}",
                    f"reg read {dice.choice([16, 24, 32, 36, 40, 48, 52, 72, 76, 84])} 4",
                    f"dma read 5 {dice.choice(IOVAS + [near]):#x} {dice.choice([1, 8, 64])}",
                    f"store {dice.choice([0x800010A8, 0x800010B8]):#x} 8 {stage:#x}",
                ]))
        return out

    def garbled(self, lines):
        """The lines, now and then with one of any characters, but those that end a line or are blanks elsewhere."""
        dice, lines = self.random, list(lines)
        if lines and dice.random() < 0.3:
            text = "".join(map(chr, dice.randbytes(dice.randrange(1, 200))))
            lines[dice.randrange(len(lines))] = re.sub("[\\n\\v\\f\\r\\x1c-\\x1f\\x85\\xa0#]", "", text)
        return lines

    def bytes(self, image):
        dice, image = self.random, bytearray(image)
        for _ in range(dice.choice([1, 1, 2, 4])):
            pick = dice.randrange(4)
            if pick == 0 and image:
                del image[dice.randrange(len(image)) :]
            elif pick == 1:
                image += dice.randbytes(dice.randrange(1, 4))
            elif image:
                image[dice.randrange(len(image))] = dice.choice([0, 1, 8, 9, 0x80, 0xFF])
        return bytes(image)


def run(program, words, given=b""):
    ended = subprocess.run([program, *words], input=given, capture_output=True, timeout=RUN_SECONDS)
    # What is said of bad words is each program's own.
    return ended.returncode, ended.stdout, ended.stderr if ended.returncode != 2 else b""


def difference(one, other):
    """What differs between two runs: the first line, or how they end; None if nothing does."""
    if one == other:
        return None
    lines = zip(one[1].split(b"\n"), other[1].split(b"\n"))
    ends = f"status and text: {one[0::2]} and {other[0::2]}, {one[1][-200:]!r} and {other[1][-200:]!r}"
    return next((f"answer {at}: {a!r} and {b!r}" for at, (a, b) in enumerate(lines, 1) if a != b), ends)


def unnoted(out):
    """What `check` writes but for notes of writes that a busy register ignores."""
    return re.sub(rb"(?m)^line \d+: note: the register is busy, and ignores the write\n", b"", out)


def between_words(program, image, script, word="run"):
    """What differs between the words of one program on a script of this word."""
    played = run(program, [word, image], script)
    if found := difference(played, run(program, ["debug", image], script)):
        return f"debug: {found}"
    explained = run(program, ["explain", image], script)
    # A line of many steps is printed last.
    told = dict(re.findall(rb"(?m)^(\d+): .*? -> (bad(?=: )|.*$)", explained[1]))
    if found := difference(played, (explained[0], b"".join(it + b"\n" for it in told.values()), explained[2])):
        return f"explain: {found}"
    wished = b"\n".join(wanting(script, played[1]))
    # It is noted at the end of a script that it has no answer, so no wish.
    note = b"" if told else b"line %d: note: no line has a wish\n" % len(wished.splitlines())
    passed = b"%s%d passed, 0 failed\n" % (note, len(told))
    status, out, errors = run(program, ["check", image], wished)
    found = difference((0, passed, b""), (status, unnoted(out), errors))
    return found and f"check: {found}"


class Pair:
    """Two programs, or one and its own words, with an image of each in a folder."""

    def __init__(self, one, other, here):
        self.programs, self.here = (one, other), Path(here)
        self.images = [self.here / f"image{at}" for at in range(2)]

    def put(self, name, data):
        (self.here / name).write_bytes(data)
        return self.here / name

    def difference(self, *words, given=b""):
        """What differs if both programs run with these words, of which IMAGE stands for the image of each."""
        ended = []
        for program, image in zip(self.programs, self.images):
            ran = run(program, [image if it is IMAGE else it for it in words], given)
            ended.append((*ran, image.read_bytes() if image.exists() else None))
        return difference(*ended)

    def of_case(self, text, script):
        """What differs on a text and a script, and how many lines were compared."""
        for image in self.images:
            image.unlink(missing_ok=True)
        found = self.difference("asm", self.put("source", "\n".join(text).encode()), IMAGE)
        if found or not self.images[0].exists():
            return found, len(text)
        given = "\n".join(script).encode()
        if self.programs[0] == self.programs[1]:
            return between_words(self.programs[0], self.images[0], given), len(text) + len(script)
        return self.difference("run", IMAGE, given=given), len(text) + len(script)

    def of_bytes(self, image, script, words):
        """What differs on the bytes of an image that a script is run on and these words list."""
        path = self.put("bytes", image)
        found = self.difference("run", path, given="\n".join(script).encode())
        return found or self.difference("list", path, *words) or self.difference("upgrade", path, IMAGE)


def shortened(lines, is_shown):
    """The lines without those that can be left out while the difference is still shown."""
    for at in reversed(range(len(lines))):
        fewer = lines[:at] + lines[at + 1 :]
        lines = fewer if is_shown(fewer) else lines
    return lines


def tried(pair, mutator, theme, found):
    """Tries a case of a theme; returns what differs with the text and script that show it, or None, and how many lines
    were compared."""
    dice = mutator.random
    (text, script), donor = (found[dice.choice(list(found))] for _ in range(2))
    text = mutator.window(mutator.disks(text))
    if theme == "images":
        pair.of_case(text, [])
        address = mutator.written(mutator.number(0x800FFFF0, []))
        words = [dice.choice(KINDS), address, str(dice.choice([0, 1, 2, 9, 2**64 - 1]))]
        image = mutator.bytes(pair.images[0].read_bytes())
        differs = pair.of_bytes(image, script, words)
        return (f"{differs} of the image {image.hex()}, listed {words}", text, script) if differs else None, len(script)
    if theme == "texts":
        text = mutator.lines(text, donor[0], dice.choice([1, 2, 3]))
    elif dice.random() < 0.3:
        text = mutator.lines(text, [], 1)
    script = mutator.garbled(mutator.watched(mutator.lines(script, donor[1], dice.choice([0, 1, 2, 4, 8]))))
    differs, lines = pair.of_case(text, script)
    if not differs:
        return None, lines
    script = shortened(script, lambda it: pair.of_case(text, it)[0])
    text = shortened(text, lambda it: pair.of_case(it, script)[0])
    return (pair.of_case(text, script)[0], text, script), lines


def main(one, other=None, minutes="1", seed="1"):
    found, mutator, counts, tries = cases(), Mutator(int(seed)), dict.fromkeys(THEMES, 0), 0
    until = time.monotonic() + 60 * float(minutes)
    with tempfile.TemporaryDirectory() as here:
        pair = Pair(os.path.abspath(one), os.path.abspath(other or one), here)
        while time.monotonic() < until:
            for theme in THEMES:
                differs, lines = tried(pair, mutator, theme, found)
                counts[theme] += lines
                tries += 1
                if differs:
                    told, text, script = differs
                    print(f"difference: {told}\n--- the text of the image", *text, "--- the script", *script, sep="\n")
                    return 1
    for theme, lines in counts.items():
        print(f"{theme}: {lines} lines")
    print(f"fuzz: {tries} cases, {sum(counts.values())} lines, no difference")
    return 0


if __name__ == "__main__":
    if not 2 <= len(sys.argv) <= 5:
        sys.exit(__doc__)
    sys.exit(main(*sys.argv[1:]))
