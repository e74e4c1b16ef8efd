"""Why a line of a script can't be read, as check, explain, judge and, on a terminal, debug tell it."""
import os
import subprocess
import tty

from frame import Case, program, run

# Lines of a script, each with what is answered.
LINES = {
    "lod 0x80000000 8": 'no line begins with "lod"',
    "LOAD 0x80000000 8": 'no line begins with "LOAD"',
    "store 0x80000001 8": "VALUE is missing",
    "load 0x80000000 8 7": '"7" is one word too many',
    "load 0xzz 8": 'ADDR "0xzz" isn\'t a number',
    "load 0x80000000 18446744073709551616": 'SIZE "18446744073709551616" is 2^64 or more',
    "reg reed 8 4": '"reed" isn\'t read or write',
    "reg": "read or write is missing",
    "reg read ddtq": '"ddtq" is no register',
    "reg read ddtp 8": '"8" is one word too many',
    "dev read 0 status": '"status" is no register of a block device',
    "dma write 5 0x80000000 c0f": "DATA has an odd number of digits",
    "dma write 5 0x80000000 0x12": 'DATA "0x12" isn\'t hex digits',
    "dump 0x80000000 65": 'LEN "65" isn\'t 1 to 64',
    "stale read 0x1000000 0": 'DID "0x1000000" is 2^24 or more',
    "ahead 5 0 0x1000001": 'LEN "0x1000001" isn\'t 1 to 2^24',
    "put 0x80000000": "ITEM is missing",
    "put 0x80000000 cmd vnaa": '"vnaa" isn\'t vma, gvma, fence or iodir',
    "put 0x80000000 cmd vma pg=1": '"pg=1" has an unknown key',
    "put 0x80000000 cmd vma av=1 av=1": '"av=1" has a key that is given twice',
    "put 0x80000000 cmd iodir dv=2": '"dv=2": the value isn\'t 0 or 1',
    "put 0xfffffffffffffff8 cmd iodir": "ITEM would end above 2^64",
    "message one": 'I "one" isn\'t a number',
    "include": "include: FILE is missing",
    "include a b # two words": "include: a file's name has no blank",
    "\N{BELL}": 'no line begins with "\\xf0\\x9f\\x94\\x94"',
    "x" * 33: f'no line begins with "{"x" * 32}.."',
    "x" * 513: "a line has at most 512 bytes",
}


SCRIPT = "".join(f"{line}\n" for line in LINES).encode()


class Slips(Case):
    def answers(self, line):
        """What debug writes on a terminal for a line."""
        ours, theirs = os.openpty()
        tty.setraw(theirs)
        self.addCleanup(os.close, ours)
        with open(theirs, "wb", buffering=0) as terminal:
            subprocess.run([program(), "debug"], input=line.encode() + b"\n", stdout=terminal, check=True)
            terminal.write(b"|")
        told = b""
        while not told.endswith(b"|"):
            told += os.read(ours, 1 << 16)
        return told[:-1].decode()

    def test_lines(self):
        """debug: on a terminal it tells why a line is bad, and nothing else otherwise; at a pipe it does not"""
        for line, reason in LINES.items():
            self.assertEqual(self.answers(line), f"bad: {reason}\n", line)
        self.assertEqual(self.answers("cmd"), "idle\n")
        self.assertEqual(run(["debug"], SCRIPT)[1], b"bad\n" * len(LINES))

    def test_told(self):
        """check, explain and judge: behind each bad line stands why it is bad"""
        for word in ("check", "explain", "judge"):
            told = run([word], SCRIPT)[1].decode().splitlines()
            seen = [it.partition(" -> ")[2] for it in told if " -> " in it]
            self.assertEqual(seen, [f"bad: {reason}" for reason in LINES.values()])

    def test_names(self):
        """check and explain: a reason is by the names that stood before its line"""
        script, unlike = "let a 0x80000000\nload a 8 9 # => 0x0\nlet a\nlet a 1\nload b 8\n", 'ADDR "b" isn\'t a number'
        taken = "let: NUMBER is missing"
        self.assertEqual(run(["check"], script.encode())[1].decode().splitlines(), [
            'line 2: load a 8 9 -> bad: "9" is one word too many, wanted 0x0', f"line 3: let a -> bad: {taken}",
            f"line 5: load b 8 -> bad: {unlike}", "0 passed, 3 failed"])
        told = run(["explain"], script.encode())[1].decode().splitlines()
        self.assertEqual(told[1:3] + told[4:5], [
            '2: load a 8 9 -> bad: "9" is one word too many', f"3: let a -> bad: {taken}", f"5: load b 8 -> bad: {unlike}"])

    def test_let_slips(self):
        """check: why a let gives no name a number"""
        slips = {
            "let": "NAME is missing", "let a": "NUMBER is missing", "let a 1 2": "an operator is none of + - << >> & |",
            "let a 1 + b": "NUMBER is neither a number nor a name", "let a 1 + 2 <<": "NUMBER is missing behind an operator",
            "let a 0xffffffffffffffff + 1": "a sum is 2^64 or more", "let a 1 + 2 - 4": "a difference is below 0",
            "let a 1 << 64": "a shift is by 64 or more", "let a 3 << 63": "a shift left loses a bit",
            "let a 3 << 63 2": "a shift left loses a bit", "let 1a": "NAME doesn't begin with a letter or _",
            f"let {'a' * 33} 1": "NAME has more than 32 bytes", "let 1a 1": "NAME doesn't begin with a letter or _",
            "let a-b 1": "NAME has a byte that isn't a letter, a digit or _",
            "let load 1": "NAME is a word of lines, a key, a register or bytes",
            "let a b": "NUMBER is neither a number nor a name", "let full 1": "there are 64 names already"}
        names = [f"let n{i} {i}" for i in range(64)]
        told = run(["check"], "\n".join([*names, *slips]).encode())[1].decode().splitlines()
        self.assertEqual(told[: len(slips)], [
            f"line {65 + i}: {line} -> bad: let: {why}" for i, (line, why) in enumerate(slips.items())])

    def test_let(self):
        """explain: a name stands for its number on the lines behind its let, also behind one that gives it another number"""
        script = b"let a 0x80000000\nload a 8\nlet a 0x80000008\nput a cmd iodir\nload a 8\n"
        self.assertEqual(run(["explain"], script)[1].decode().splitlines()[:7], [
            "1: let a 0x80000000 -> done", "2: load 0x80000000 0x8 -> 0x0", "3: let a 0x80000008 -> done",
            "4: store 0x80000008 0x8 0x3 -> done", "4: store 0x80000010 0x8 0x0 -> done", "4: put a cmd iodir -> done",
            "5: load 0x80000008 0x8 -> 0x3"])
