#!/usr/bin/env -S python3 -B
"""fuzz_bytes.py PROGRAM [CASES] [SEED]    Scripts of any bytes, through all four words that read one.

A script is one of examples/ or crates/iom_rows/data in which bytes were replaced, left out, doubled and put in: line
ends, blanks, signs of comments, zeros, and runs longer than a line may be. The answers of run have to be those of debug
and of explain, and a script whose lines want them passes a check. The status is 1 at the first script that shows a
difference, which is printed.
"""
import os
import random
import re
import sys
import tempfile
from concurrent.futures import ThreadPoolExecutor

from fuzz import cases, difference, run

MOST_IN_LINE = 512
BLANKS = b" \t\r"
ODD = [b"\n", b"\r", b"\r\n", b"\t", b" ", b"#", b"# => ", b"\0", b"\xff", b"0x", b"=", b"-", b"\n\n", b"\v", b"\\"]


def garbled(dice, script):
    """A script with some bytes changed."""
    script = bytearray(script)
    for _ in range(dice.choice([1, 2, 4, 16, 64])):
        at, pick = dice.randrange(len(script) + 1), dice.randrange(8)
        if pick <= 2:
            script[at : at + 1] = dice.randbytes(1)
        elif pick <= 4:
            script[at:at] = dice.choice(ODD)
        elif pick == 5:
            del script[at : at + dice.choice([1, 1, 2, 8])]
        elif pick == 6:
            script[at:at] = script[at : at + dice.choice([1, 4, 40])]
        elif dice.random() < 0.1:
            script[at:at] = dice.choice(ODD + [b"7"]) * dice.choice([MOST_IN_LINE - 8, MOST_IN_LINE, MOST_IN_LINE + 1])
    return bytes(script)


def wishes(script, answers):
    """The lines of a script, each with the answer that it wants, and how many want one. Of a line that has no room for
    its wish another that is bad stands for a bad one, and any other wants nothing."""
    left, lines, count = list(answers), [], 0
    for line in script.split(b"\n"):
        words = b" ".join(re.split(rb"[ \t\r]+", line.partition(b"#")[0].strip(BLANKS)))
        if words or len(line) > MOST_IN_LINE:
            wish = b" # => " + left.pop(0)
            has_room = max(len(line), len(words + wish)) <= MOST_IN_LINE
            if has_room or wish.endswith(b"bad"):
                words = (words if has_room else b"bad") + wish
                count += 1
        lines.append(words)
    return b"\n".join(lines), count


def tells(line, answer):
    """Whether a line of explain has this answer; behind bad stands why."""
    return b" -> bad: " in line if answer == b"bad" else line.endswith(b" -> " + answer)


def between_words(program, image, script):
    """What differs between the words on a script, and how many answers it has."""
    played, debugged, explained = (run(program, [word, image], script) for word in ("run", "debug", "explain"))
    answers = played[1].split(b"\n")[:-1]
    if found := difference(played, debugged):
        return f"debug: {found}", 0
    told = [line for line in explained[1].split(b"\n") if line[:1].isdigit()]
    if len(told) != len(answers) or not all(map(tells, told, answers)):
        return f"explain: {explained}", 0
    given, count = wishes(script, answers)
    found = difference((0, b"%d passed, 0 failed\n" % count, b""), run(program, ["check", image], given))
    return found and f"check: {found}", len(answers)


def main(program, count="1000", seed="1"):
    dice, found, lines = random.Random(int(seed)), cases(), 0
    with tempfile.TemporaryDirectory() as here, ThreadPoolExecutor(os.cpu_count()) as pool:
        images = {}
        for name, (text, _) in found.items():
            images[name] = f"{here}/{name}.image"
            with open(f"{here}/source", "wb") as out:
                out.write("\n".join(text).encode())
            if run(program, ["asm", f"{here}/source", images[name]]) != (0, b"", b""):
                sys.exit(f"fuzz_bytes: {name} is no text of an image")
        names = sorted(found)
        picked = [dice.choice(names) for _ in range(int(count))]
        scripts = [garbled(dice, "\n".join(found[name][1]).encode() + dice.choice([b"", b"\n"])) for name in picked]
        tried = pool.map(lambda it: between_words(program, images[it[0]], it[1]), zip(picked, scripts))
        for name, script, (differs, answers) in zip(picked, scripts, tried):
            lines += answers
            if differs:
                print(f"difference, on the image of {name}: {differs}", f"the script: {script!r}", sep="\n")
                return 1
    print(f"fuzz_bytes: {count} scripts, {lines} answers, no difference")
    return 0


if __name__ == "__main__":
    if not 2 <= len(sys.argv) <= 4:
        sys.exit(__doc__)
    sys.exit(main(os.path.abspath(sys.argv[1]), *sys.argv[2:]))
