"""What README, CHANGELOG.md and GATE say, where the program, a command or the repository itself can be asked."""
import os
import re

from documents import blocks, names_there, plain, played, section, section_of, spans, table_with
from frame import EXAMPLES, TOP, Case, commands, forms, text_of

# Words that a line may be answered by.
ANSWERS = {
    *("done", "idle", "denied CAUSE", "bus error", "bad access", "no device", "misuse", "outside", "none", "empty"),
    *("same", "no directory", "register", "context", "no access", "denied")}
# RISC-V IOMMU Architecture 1.0, "IOMMU capabilities": version 1.0, Sv39, Sv48, Sv39x4, Sv48x4, wires, 56 bits.
CAPABILITIES = 0x10 | 1 << 9 | 1 << 10 | 1 << 17 | 1 << 18 | 1 << 28 | 56 << 32


def operands(word, told):
    """What a word of the program is followed by, as its help has it: its options, and its operands."""
    usage = re.search(rf"(?m)^Usage: \S+ {word}(.*)$", told)[1]
    listed = told[told.index("Options:") :].partition("\n\n")[0]
    options = re.findall(r"(?m)^ +(?:-\w, )?(--[\w-]+)(?: <(\w+)>)?", listed)
    found = re.findall(r"<(\w+)>|\[([A-Z]+)\](\.\.\.)?", usage)
    named = [must or f"[{may}{' ..' if more else ''}]" for must, may, more in found if may != "OPTIONS"]
    return [f"[{' '.join(filter(None, it))}]" for it in options if it[0] != "--help"] + named


def pattern(answer):
    """What an answer looks like: ADDRESS, CAUSE and a number stand for any, and .. for what follows."""
    text = re.sub(r"\d+", r"\\d+", re.escape(answer)).replace("ADDRESS", "0x[0-9a-f]+").replace("CAUSE", r"\d+")
    return text.replace(r"\.\.", ".+=.+")


def named_answers(head):
    """The answers that the man page's table below this head names for each form of a line."""
    rows = re.search(rf"(?ms)^{head} +answers\n(.*?)^\.EE$", section("ANSWERS"))[1]
    for row in re.sub(r"\n {10,}", " ", rows).splitlines():
        lines, answers = re.fullmatch(r"(.+?)  +(.+)", row).groups()
        # A word in capitals stands for others.
        yield lines.split(", "), {it for it in answers.split(", ") if not re.match("[A-Z]", it)}


class Readme(Case):
    def test_commands(self):
        """README: its commands after a $ write what is below them, and that on an example its answers"""
        self.needs("rt")
        for name in ("Makefile", "crates", "examples", "packaging"):
            os.symlink(TOP / name, self.path(name))
        shown = [it for it in blocks("README.md") if it.startswith("$ ")]
        self.assertTrue(shown)
        for block in shown:
            self.want_shown(block)
        (command,) = re.findall(r"(?m)^    (rviommu asm .*)$", text_of("README.md"))
        self.assertEqual(self.shell(command), (0, text_of("examples/disk.answers")))

    def test_lengths(self):
        """README has at most 1,300 words and lines of 120 columns, all documents together at most 28,000 words"""
        self.assertLessEqual(len(text_of("README.md").split()), 1300)
        self.assertEqual([it for it in text_of("README.md").splitlines() if len(it) > 120], [])
        names = ["README.md", "CHANGELOG.md", "man/rviommu.1", *names_there("docs/*.md")]
        self.assertLessEqual(sum(len(text_of(it).split()) for it in names), 28_000)

    def test_targets(self):
        """README and CHANGELOG.md: each target of make that they name is there"""
        targets = set(re.findall(r"(?m)^(\w+):", text_of("Makefile")))
        for name in ("README.md", "CHANGELOG.md"):
            self.want_within(set(re.findall(r"(?m)(?:`|^    )make (\w+)", text_of(name))), targets, name)

    def test_examples(self):
        """examples/README.md: its table names each of them"""
        rows = table_with("examples/README.md", "`stale_translation`")
        named = {name for row in rows for name in re.findall(r"`(\w+)`", row[0])}
        self.assertEqual(named, {it.stem for it in EXAMPLES.glob("*.script")})

    def test_words(self):
        """README names each word of the program, and the man page each with its operands, and no other"""
        helps = {word: self.written([word, "--help"]) for word in commands() if word != "help"}
        self.want_within(set(helps), set(spans(text_of("README.md"))))
        wanted = [" ".join([word, *operands(word, told)]) for word, told in helps.items()]
        shown = " ".join(plain(section("SYNOPSIS")).split()).split("rviommu")[1:]
        self.assertEqual(sorted(it.strip() for it in shown), sorted([*wanted, "", "help [WORD]"]))

    def test_documents(self):
        """README: its table of documents has each"""
        there = {*names_there("docs/*.md"), "CHANGELOG.md"}
        self.want_within(there, set(spans("".join(map("".join, table_with("README.md", "`docs/MAP.md`"))))))

    def test_gate(self):
        """GATE: it names each part of `make test`, in their order"""
        recipe = re.search(r"(?m)^test:\n((?:\t.*\n)+)", text_of("Makefile"))[1]
        made = re.findall(r"rt ci|tests/\w+\.\w+|c/build\.py", recipe)
        self.assertEqual([it for it in spans(section_of("docs/GATE.md", "Its parts")) if it in made], made)


class Answers(Case):
    def test_named(self):
        """man page: the answers that its tables name for a form are those that there are, and are given"""
        told = []
        for head in ("line", "line of debug"):
            for lines, named in named_answers(head):
                told += lines
                given = {answer for line, answer in played() if line.startswith(tuple(lines))}
                # The answer of a line of many steps, or of many stores, is that of the last.
                seen = {it for it in ANSWERS | named for answer in given if re.fullmatch(pattern(it), answer)}
                self.assertEqual(named, seen if named else set(), lines)
        wanted = {re.match("(?:[a-z]+ ?)+", form)[0].strip() for form in [*forms(), *forms("debug")]}
        self.want_within(wanted, set(told))

    def test_capabilities(self):
        """README: the value of capabilities; and the features that a block device offers"""
        (shown,) = self.answers("ram 0x80000000 0x80000\n", ["reg read 0 8"])
        self.assertIn(shown, spans(text_of("README.md")))
        self.assertEqual(int(shown, 16), CAPABILITIES)
        # VIRTIO 1.2: FLUSH, and of the features of every device VERSION_1 and ACCESS_PLATFORM.
        lines = [line for half in range(3) for line in (f"dev write 0 0x14 4 {half}", "dev read 0 0x10 4")]
        seen = self.answers("ram 0x80000000 0x1000\ndisk 5 1\n", lines)[1::2]
        self.assertEqual(seen, [hex(1 << 9), hex(1 << 32 - 32 | 1 << 33 - 32), "0x0"])
