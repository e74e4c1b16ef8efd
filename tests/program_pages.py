"""What help and the man page say, where the program can be asked: words, lines, answers, registers, causes."""
import re

from documents import man_page, plain, played, section, table
from frame import Case, commands, forms, run, text_of
from fuzz import KINDS

WIDTH = 80
IMAGE = "ram 0x80000000 0x80000\n"
TEXTS = [
    *("done", "idle", "denied", "bus error", "bad access", "no device", "misuse", "outside", "none", "empty", "bad"),
    *("line N: bad line", "line N: overlap", "line N: outside memory", "bad magic", "truncated", "trailing bytes"),
    *("bad memory", "bad chunk", "bad device", "bad capabilities", "outside memory", "read failed", "write failed"),
    *("bad window", "script too long", "out of memory", "cannot read FILE", "cannot write FILE"),
]
# The flags of registers with their bits, as "The queue and interrupt registers" of the standard has them.
FLAGS = {
    "cqcsr": ["cqen 0", "cie 1", "cqmf 8", "cmd_to 9", "cmd_ill 10", "fence_w_ip 11", "cqon 16"],
    "fqcsr": ["fqen 0", "fie 1", "fqmf 8", "fqof 9", "fqon 16"], "ipsr": ["cip 0", "fip 1"],
}


def bold(name):
    """The words in bold type after `name=` in its paragraph of the man page, without names of other fields."""
    told = re.search(rf"(?ms)^\.B {name}=\n(.*?)(?=^\.(?:IP|TP|PP))", text_of("man/rviommu.1"))[1]
    words = {re.sub(r"[() ,.;]", "", it) for it in re.findall(r"(?m)^\.(?:B|BR|RB) (.*)$", told)}
    return {it for it in words if not it.endswith("=")}


class Page(Case):
    def test_names(self):
        """man page: it names every word, line, statement, answer and text of the program"""
        shown = [it for word in (None, "debug", "asm") for form in forms(word) for it in form.split(", ")]
        lines = [re.sub(r" (KEY=NUMBER|HEX|SECTORS|ITEM|\[.*|VALUE \.\.).*", "", it) for it in shown]
        self.assertGreater(len(lines), 40)
        page = man_page()
        lacking = [
            it for it in [*commands(), "--help", "--version", *lines, *KINDS, *TEXTS]
            if not re.search(r"(?m)(^|[\s,])" + re.escape(it) + r"(?=[\s,.;=]|$)", page)]
        self.assertEqual(lacking, [])

    def test_help(self):
        """help: `help WORD` and `WORD --help` are the word's help, a word after --help is not looked at, no line has
        more than 80 characters, and its examples are answered as they say"""
        general = self.written(["--help"])
        self.assertEqual(self.written(["-h"]), general)
        helps = {word: self.written([word, "--help"]) for word in commands() if word != "help"}
        self.image("ram 0x80000000 0x1000\nu64 7\n", "seven.image")
        for word, own in [("", general), *helps.items()]:
            if word:
                self.assertEqual(self.written(["help", word]), own, word)
                self.assertEqual(self.written(["--help", word]), general, word)
            self.assertEqual([line for line in own.splitlines() if len(line) > WIDTH], [])
            with self.subTest(word):
                self.want_shown("".join(re.findall(r"(?m)^  (.*\n)", own[own.index("\n  $ ") :])))
        self.assertNotIn("--stale", helps["debug"], "it has an option of check")

    def test_lines(self):
        """man page: each line of a script that it shows is answered as it says"""
        shown = re.findall(r"(?m)^(?!line |\d+: )(.+?) -> (.+)$", man_page())
        of_run = len(forms())
        wanted = sorted(form.split()[0] for form in [*forms(), *forms("debug")])
        self.assertEqual(sorted(line.split()[0] for line, _ in shown), wanted)
        for word, lines in (("run", shown[:of_run]), ("debug", shown)):
            given, answers = map(list, zip(*lines))
            self.assertEqual(self.answers("ram 0x80000000 0x1000\ndisk 5 1\n", given, word), answers)

    def test_commands_shown(self):
        """man page: its commands are answered as it says"""
        shown = [plain(it) for it in re.findall(r"(?ms)^\.EX\n(.*?)^\.EE$", text_of("man/rviommu.1"))]
        self.want_shown("".join(it for it in shown if it.startswith("$ ")))


class Facts(Case):
    """What its tables and paragraphs state of registers, commands, causes and devices."""

    def test_registers(self):
        """man page: the registers of the IOMMU are those of the program"""
        listed = [re.fullmatch(r" *(\d+)(\+16x)? +([48])  (\w+) +(0x[0-9a-f]+) +(.*)", line).groups() for line in
                  table("REGISTERS OF THE IOMMU")]
        rows = [(off, *rest) for off, vector, *rest in listed if not vector]
        defined = re.findall(r"off == (\d+) then (Whole|Low) (\w+)", text_of("crates/iom_regs/specs/Table.antt"))
        wanted = [(off, "8" if slot == "Low" else "4", name.lower()) for off, slot, name in defined]
        self.assertEqual([(off, size, name) for off, size, name, *_ in rows], wanted, "offsets, bytes and names")
        for off, size, _, value, kept in rows:
            # The mode of ddtp with all bits set is none that there is.
            ones = (1 << 8 * int(size)) - 1 - (11 if off == "16" else 0)
            lines = [f"reg read {off} {size}", f"reg write {off} {size} {ones}", f"reg read {off} {size}"]
            reset, _, seen = self.answers(IMAGE, lines)
            self.assertEqual(reset, value, f"offset {off} at reset")
            bits = [tuple(map(int, it.split(":"))) for it in re.findall(r"\d+:\d+", kept)]
            wide = sum((2 << high) - (1 << low) for high, low in bits)
            if kept != "an index":
                wanted = int(value, 16) if kept == "none" else wide & ones
                seen = int(seen, 16) & ~(1 << 16 if size == "4" else 0)
                self.assertEqual(seen, wanted, f"offset {off} with all bits written")
        named = {int(off) + 4 * half for off, size, *_ in rows for half in range(int(size) // 4)}
        free = [off for off in range(0, 4096, 4) if off not in named]
        lines = [line for off in free for line in (f"reg write {off} 4 0xffffffff", f"reg read {off} 4")]
        self.assertEqual(set(self.answers(IMAGE, lines)), {"done", "0x0"}, "what other offsets show")
        mixed = {int(off) // 8 * 8 for off, slot, _ in defined if slot == "Whole"}
        seen = self.answers(IMAGE, [f"reg read {off} 8" for off in range(0, 4096, 8)])
        self.assertEqual({8 * at for at, it in enumerate(seen) if it == "bad access"}, mixed, "8 bytes are refused")

    def test_vectors(self):
        """man page: the registers of each vector keep the bits that it tells, with their names"""
        image = "ram 0x80000000 0x1000\ncapabilities igs=2 vectors=4\n"
        listed = [re.fullmatch(r"(\d+)\+16x +([48])  (\w+)_x +(0x[0-9a-f]+) +(.*)", line).groups() for line in
                  table("REGISTERS OF THE IOMMU") if "x " in line[:8]]
        self.assertEqual([it[2] for it in listed], ["msi_addr", "msi_data", "msi_vec_ctl"])
        for off, size, name, value, kept in listed:
            high, low = ([int(it) for it in kept.split(":")] * 2)[:2]
            for x in range(4):
                at, ones = int(off) + 16 * x, (1 << 8 * int(size)) - 1
                lines = [f"reg read {at} {size}", f"reg write {at} {size} {ones}", f"reg read {name}_{x}"]
                wanted = [value, "done", hex((2 << high) - (1 << low))]
                self.assertEqual(self.answers(image, lines, "debug"), wanted, f"{name}_{x}")

    def test_registers_by_names(self):
        """debug: registers by their names are those by their offsets"""
        lines = []
        for line in table("REGISTERS OF THE IOMMU"):
            offset, size, name, *_ = line.split()
            for x in range(4) if "x" in offset else [0]:
                own = int(offset.partition("+")[0]) + 16 * x
                lines += [f"reg read {re.sub('x$', str(x), name)}", f"reg read {own} {size}"]
        for line in table("REGISTERS OF A BLOCK DEVICE"):
            offset, _, name, *_ = line.split()
            if not name.startswith(("SHM", "capacity")):
                lines += [f"dev read 0 {name}", f"dev read 0 {offset} 4"]
        seen = self.answers("ram 0x80000000 0x1000\nrodisk 5 1 aa\n", lines, "debug")
        self.assertEqual((len(seen), seen[::2]), (2 * (13 + 12 + 23), seen[1::2]))
        self.assertEqual([it for it in seen if not it.startswith("0x")], [])

    def test_flags(self):
        """man page: the bits of cqcsr, fqcsr and ipsr"""
        for name, bits in FLAGS.items():
            told = re.search(rf"(?ms)^\.B {name}\n(.*?)(?=^\.TP|\Z)", section("REGISTERS OF THE IOMMU"))[1]
            self.assertEqual(re.findall(r"\w+ \d+(?=[,.])", told)[: len(bits)], bits)

    def test_device_registers(self):
        """man page: the registers of a block device are those of the program"""
        rows = [re.fullmatch(r"(0x[0-9a-f]{3})   (read|write|both) +(\w+) *(0x[0-9a-f]+)?.*", line).groups() for line in
                table("REGISTERS OF A BLOCK DEVICE")]
        shown = {int(off, 16): value or "0x0" for off, _, _, value in rows}
        shown[0x100] = "0x3"
        offsets = range(0, 0x1000, 4)
        seen = self.answers(IMAGE + "disk 5 3\n", [f"dev read 0 {off} 4" for off in offsets])
        self.assertEqual(seen, [shown.get(off, "0x0") for off in offsets], "at reset")
        # All that can be read, after all bits were written to what can't be written.
        kept = [f"dev write 0 {off} 4 0xffffffff" for off, way, *_ in rows if way == "read"]
        readable = [off for off, way, *_ in rows if way != "write"]
        seen = self.answers(IMAGE + "disk 5 3\n", [*kept, *(f"dev read 0 {off} 4" for off in readable)])[len(kept) :]
        self.assertEqual(seen, [shown[int(off, 16)] for off in readable], "after writes")

    def test_commands(self):
        """man page: the words of each command are those that the program makes"""
        rows, name = {}, None
        for line in table("WORDS OF A COMMAND"):
            first, second = line[:53].strip(), line[53:].strip()
            if not line.startswith(" "):
                name, number, first = first.split(None, 2)
                rows[name] = (int(number, 16), [], [])
            for text, fields in ((first, rows[name][1]), (second, rows[name][2])):
                found = re.findall(r"(\w+) (\d+)(?::(\d+))?", text)
                fields += [(key, int(high), int(low or high)) for key, high, low in found]
        self.assertEqual(list(rows), ["vma", "gvma", "fence", "iodir"], "the commands")
        offered = f"{IMAGE}capabilities nl=1 s=1\n"
        for name, (number, *words) in rows.items():
            for at, (key, high, low) in ((at, field) for at, fields in enumerate(words) for field in fields):
                ones = (2 << high - low) - 1
                value = ones * 4 if key == "addr" else ones
                wanted = [number, 0]
                wanted[at] += ones << low
                image = self.image(f"{offered}cmd {name} {key}={value}\n")
                seen = self.written(["list", image, "u64", "0x80000000", "2"]).splitlines()
                self.assertEqual(seen, [f"u64 {word:#x}" for word in wanted])
                if value == ones:
                    source = self.put("wide", f"{offered}cmd {name} {key}={2 * ones + 2}\n")
                    told = run(["asm", source, image])[2].decode()
                    self.assertRegex(told, rf'\Arviommu: .*wide: line 3: bad line: "{key}=\d+": the value is', f"a wider {key}")

    def test_keys(self):
        """man page: the keys of a context and of a fault record are those that the program shows and takes"""
        lines = ["show context 0x80000000", "show fault 0x80000020"]
        shown = self.answers(IMAGE + "context mode=8\nfault cause=1\n", lines)
        for kind, line in zip(("context", "fault"), shown):
            keys = re.findall(r"(\w+)=", line)
            told = re.search(rf"(?ms)^\.BI {kind} .*?\n(.*?)(?=^\.TP)", section("IMAGE TEXTS"))[1]
            self.want_within(set(keys), set(re.findall(r"\w+", told)), kind)
            self.image("".join([IMAGE, *(f"{kind} {key}=0\n" for key in keys)]))
            self.assertGreater(len(keys), 6)

    def test_causes(self):
        """man page: each cause that an access is denied for has a line of its own"""
        heads = re.findall(r"(?m)^\.TP\n\.BR? (.*)$", section("CAUSES"))
        told = [[int(it) for it in re.findall(r"\d+", head)] for head in heads]
        self.assertEqual(told, [[5, 7], [13, 15], [21, 23], *([cause] for cause in range(256, 264))])
        seen = {answer for line, answer in played() if line.startswith("dma ") and answer.startswith("denied")}
        self.assertEqual({f"denied {cause}" for causes in told for cause in causes}, seen)

    def test_phases(self):
        """man page: each phase of a block device's request, and each reason that broke a device, and no other"""
        script = re.sub(r"(?m)^dev step 0.*", "dev show 0\ndev step 0", text_of("examples/disk.script"))
        shown = self.answers(text_of("examples/disk.asm"), script.splitlines(), "debug")
        self.assertEqual(bold("phase"), {it for line in shown for it in re.findall(r"phase=(\S+)", line)})
        self.assertEqual(bold("broken"), {it for _, line in played() for it in re.findall(r"broken=(\S+)", line)})
