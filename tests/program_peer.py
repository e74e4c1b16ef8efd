"""The program beside the standard's model of tests/peer, without QEMU; and that model beside a hart's own walks.

Debug tells the parts of each access, too: those of the model, before its step and with nothing cached; and explain
what leads it. Judge is given the answers of QEMU's model as traces. walks.txt has page-table walks that a RISC-V hart of QEMU made by itself (walks.py says how), on the
program and on the model.
"""
import re
from collections import Counter

from frame import TESTS, Case, program
from cases import Case as Memory, random_case, random_case_of_files, random_case_of_messages
from model import BASE, DDTP, FQB, FQCSR, OtherDevice
from stages import GUEST, OUTSIDE, READ, WRITE, Parts
import directed
import peer
from traces import Trace

RANDOM_CASES, FILES_CASES, MESSAGES_CASES, JUDGED_CASES, LEAST_NESTED = 500, 150, 150, 40, 10_000
# What there is to meet, without numbers: how entries of both stages are judged, and how walks end.
FIELDS = re.compile(r" ?\b(?:level|at|in|of|ppn|flags|frame|addr|iotval2|did|iova|guest)=\S+| pte| u64 \S+| to 0x\S+")
JUDGED = ["V=0", "R=0 W=1", "reserved bits", "reserved in pointer", "last level", "pointer", "misaligned"]
JUDGED += [*"URWAD", "leaf", OUTSIDE]
ENDS = ["register", "context", "", *(f"denied {cause}" for cause in (5, 7, 13, 15, 21, 23, 256, 257, 258, 259, 260))]
TO_MEET = {f"{stage} {it}" for stage in ("first", "second") for it in JUDGED} | {f"first {GUEST}", *ENDS}
# What is too wide for a table, with the part that follows.
TO_MEET |= {"dir width, denied 260", *(f"first width, denied {cause}" for cause in (13, 15))}
TO_MEET |= {f"second width, {it}" for it in (f"first {GUEST}", "denied 21", "denied 23")}
# What there is to meet of MSI page tables.
FILES_TO_MEET = {f"msi {it}" for it in ("V=0", "for custom use, C=1", "reserved mode, M=0 or M=2", "memory-resident interrupt file, M=1",
                                        "reserved bit set", "leads", OUTSIDE)}
FILES_TO_MEET |= {f"msi {it}, denied {cause}" for it, cause in ((OUTSIDE, 261), ("V=0", 262), ("for custom use, C=1", 262), ("reserved bit set", 263))}
FILES_TO_MEET |= {"first leaf, msi leads", "msi leads, "}
# What explain is to have told.
TO_MEET |= {"stale: read 0x", "stale: write 0x", "walk: cached context"}
# Pages of the hart's memory that its walks leave alone, and what is written to have directory and fault queue there.
DIRECTORY, FAULTS, HARTS_SIZE = 0x800F8, 0x800FA, 1 << 20
SET_UP = [("reg", DDTP, 8, DIRECTORY << 10 | 2), ("reg", FQB, 8, FAULTS << 10 | 6), ("reg", FQCSR, 4, 1)]


def address_in(part):
    return next(iter(re.findall(r"addr=0x\w+", part)), None)


def outcome(context, address, parts):
    """What an access comes to: where it is led and by which context, or the cause of its denial."""
    return (context.line(), address) if address else (None, parts[-1].partition(" iotval2")[0])


class Told(Parts):
    """What debug and explain tell of the accesses of a case, by the model before each."""

    def __init__(self, walk):
        super().__init__(walk.model.load, walk.model.features)
        self.model, self.explained = walk.model, {}

    def explain(self, line, parts, did, iova, kind):
        """Notes what explain tells of the access of a line, whose parts these are if nothing is cached."""
        now, said = self.context, address_in(parts[-1])
        has_context = not re.match("ddtp mode=0x[01] ", parts[0]) and not parts[1].startswith("dir did")
        places = self.model.contexts if has_context else []
        cached = next((it[1] for it in places if it and it[0] == did), None)
        used = cached or now
        if not used:
            warrant = "warrant: register" if said else "warrant: none, it is denied"
            self.explained[line] = [*(f"walk: {it}" for it in parts), warrant]
            return
        is_bare = used.is_bare
        entry = None if is_bare else self.model.found(did, used, iova, kind)
        is_other = cached and not (now and cached.line() == now.line())
        shown = self.parts_under(cached, iova, kind) if is_other else parts
        found = f"addr={entry.frame << 12 | iova & 4095:#x}" if entry else address_in(shown[-1])
        caches = f"caches: context of line {cached.filled}" if cached else "caches: no context"
        if not is_bare:
            caches += f", page of line {entry.filled}, {found}" if entry else ", no page"
        elif cached:
            caches += f", {found}"
        lines = [caches, *(f"walk: {it}" for it in shown if not (cached and (entry or is_bare)))]
        current = cached.filled if cached else line
        origin = f"context={entry.context} walk={entry.filled}" if entry else f"context={current} walk={line}"
        if not found:
            lines.append("warrant: none, it is denied")
        else:
            lines.append(f"warrant: context {current}" if is_bare else f"warrant: walked {origin} current={current}")
        tables = outcome(now, said, parts)
        if outcome(used, found, shown) != tables:
            # What changed of the context that it went by, if the tables lead it at all.
            changed = [it for it, its in zip(now.line().split(), used.line().split()) if it != its] if found and tables[0] else []
            lines.append(f"stale: {'read' if kind == READ else 'write'} {iova:#x} {'served' if found else 'denied'} by line "
                         f"{entry.filled if entry and not changed else cached.filled}, "
                         + (f"same address, another context: {' '.join(changed)}" if found == tables[1] else f"the tables now say {tables[1]}"))
        self.explained[line] = lines

    def note(self, line):
        """Notes that what the caches have now, and hadn't before, was filled in this line."""
        filled = {}
        for did, context in filter(None, self.model.contexts):
            context.filled = filled[did] = getattr(context, "filled", line)
        for entry in filter(None, self.model.pages):
            entry.context = getattr(entry, "context", filled.get(entry.did))
            entry.filled = getattr(entry, "filled", line)


class Peer(Case):
    def differing(self, case, met):
        """Where the program says something else than the standard's model in a case; notes which parts it met."""
        walk, script = peer.Walk(case, ()), peer.Script(case)
        told = Told(walk)
        for script.number, (kind, *rest) in enumerate(peer.cut(case, ())):
            line = 0
            if kind in peer.WORDS:
                access = walk.ids[rest[0]], rest[1], READ if kind == "read" else WRITE
                try:
                    parts = told.parts(walk.model.registers[DDTP], *access)
                    for at, part in enumerate([*parts, "none"]):
                        script.line(f"walk {peer.WORDS[kind]} {access[0]:#x} {access[1]:#x} {at}", part)
                    line = len(script.rows) + 1
                    told.explain(line, parts, *access)
                    parts = [FIELDS.sub("", part) for part in parts]
                    met.update([*parts, *map(", ".join, zip(parts, parts[1:]))])
                except OtherDevice:
                    pass
            script.add(script.number, (kind, *rest), walk, *walk.step(kind, *rest))
            told.note(line)
        met.update([f"record {walk.model.load(it) & 4095}" for it in walk.model.records])
        met.update(["owed"] * len(walk.model.owed))
        script.end(walk, sorted(walk.model.touched))
        said = peer.program_answers(program(), script.image, [it[1] for it in script.rows], "explain")
        heads = [at for at, it in enumerate(said) if not it.startswith("    ")]
        below = {said[at].partition(":")[0]: said[at + 1 : end] for at, end in zip(heads, heads[1:])}
        for it in (it for lines in told.explained.values() for it in lines):
            met.update([re.sub(r"0x\w+", "0x", " ".join(it.split()[:3]))])
        wanted = {str(line): ["    " + it for it in lines] for line, lines in told.explained.items()}
        others = [(line, below[line], lines) for line, lines in wanted.items() if below[line] != lines]
        return script.played(program(), word="debug")[0] + others[:1]

    def test_directed(self):
        """peer: the program is as the standard's model in the directed cases"""
        for name, cases in directed.CASES.items():
            for at, case in enumerate(cases):
                self.assertEqual(self.differing(case, Counter()), [], f"{name}, case {at + 1}")

    def test_random(self):
        """peer: the program is as the standard's model in random cases, which meet all that a walk can"""
        met = Counter()
        for number in range(RANDOM_CASES):
            self.assertEqual(self.differing(random_case("without QEMU", number), met), [], number)
        self.assertEqual(TO_MEET - met.keys(), set(), "what no walk met")

    def test_files(self):
        """peer: the program is as the standard's model in random cases with MSI page tables"""
        met = Counter()
        for number in range(FILES_CASES):
            self.assertEqual(self.differing(random_case_of_files("with files", number), met), [], number)
        self.assertEqual(FILES_TO_MEET - met.keys(), set(), "what no walk met")

    def test_messages(self):
        """peer: the program is as the standard's model in random cases with interrupts by message, some of which are owed or refused"""
        met = Counter()
        for number in range(MESSAGES_CASES):
            self.assertEqual(self.differing(random_case_of_messages("with messages", number), met), [], number)
        self.assertEqual({"owed", "record 273"} - met.keys(), set())

    def test_noticed(self):
        """peer: each answer that is another one than the model's is noticed, of the program and of QEMU"""
        case = directed.CASES["record-iotval2"][1]
        walk, script = peer.Walk(case, ()), peer.Script(case)
        for number, step in enumerate(case.steps):
            for one in walk.resolved(step):
                script.add(number, one, walk, *walk.step(*one))
        for at, (number, line, wanted) in enumerate(script.rows):
            other = "denied 1" if wanted.startswith("denied") else wanted[:-1]
            rows = [(*row[:2], row[2] if row != script.rows[at] else other, row[2]) for row in script.rows]
            self.assertEqual(len(script.differences(rows)), 1, line)


# Classes in whose directed cases an access, or what a command does, isn't as the standard says.
REFUSED = {
    *("a-on-write", "ade", "cached-address", "cached-kind", "command-reserved", "context-258", "context-checks", "context-root"),
    *("context-msi", "msi-bus-error", "msi-mrif", "msi-number", "msi-outside", "msi-reads", "msi-reserved", "msi-writes"),
    *("implicit-kind", "iova-44-bits", "mode-behind-cache", "pointer-adu", "pte-reserved", "second-stage-kind", "svnapot"),
    *("u-bit", "width-order")}


class Judged(Case):
    """What judge says of the answers of QEMU's model, which `make peer` compares with QEMU's."""

    def unexplained(self, case, names, counts):
        own, other, trace = peer.Walk(case, ()), peer.Walk(case, names), Trace()
        for step in peer.cut(case, names):
            for walk in (own, other):
                walk.step(*step)
            trace.add(step, own, other)
        return trace.unexplained(program(), peer.Script(case).image, counts), trace.lines

    def test_judged(self):
        """peer: of the answers of QEMU's model none is refused before it met a difference that isn't free, and some of each
        wrong access are; some answers are other ones than this program's, and allowed"""
        names, counts, refused = peer.table(), Counter(), Counter()
        cases = [(name, case) for name in directed.CASES for case in directed.CASES[name]]
        cases += [(None, random_case("judged", number)) for number in range(JUDGED_CASES)]
        for name, case in (it for it in cases if "messages" not in it[1].features):
            before = counts["refused"]
            found, lines = self.unexplained(case, names, counts)
            self.assertEqual(found, [], "\n".join(lines))
            refused[name] += counts["refused"] - before
        self.want_within(REFUSED, +refused)
        self.assertGreater(counts["free"], JUDGED_CASES // 2)
        self.assertLess(counts["undecided"], 0.03 * counts["traces"])


class Walks(Case):
    def world(self, lines):
        """A world as a case, in which each walk is that of a device of its own; what the hart was told at each walk,
        the words that it left, and how many walks went through both stages."""
        case, told, left, stages, nested = Memory(), [], {}, (0, 0), 0
        case.ids, case.size = range(128), HARTS_SIZE
        for word, *rest in map(str.split, lines):
            if word == "stages":
                stages = [int(it, 16) for it in rest]
            elif word == "left":
                left[int(rest[0], 16)] = int(rest[1], 16)
            elif word in ("r", "w"):
                is_refused = rest[1].startswith("!")
                data = bytes(8) if is_refused else int(rest[1], 16).to_bytes(8, "little")
                for at, part in enumerate((1, stages[1], 0, stages[0])):
                    case.words[(DIRECTORY << 12) + 32 * len(told) + 8 * at] = part
                case.step("read" if word == "r" else "write", len(told), int(rest[0], 16), 8, data)
                told.append(data.hex() if word == "r" and not is_refused else rest[-1])
                nested += all(stages)
            else:
                case.words[int(word, 16)] = int(rest[0], 16)
        return case, told, left, nested

    def want_hart(self, told, answer, iotval2, where):
        """Wants a model's answer to be the hart's; a hart's access fault may be a walk's or the access's own."""
        cause, _, guest = told.removeprefix("!").partition(":")
        if told in ("!5", "!7") and answer == "bus error":
            return
        self.assertEqual(answer, f"denied {cause}" if told.startswith("!") else told, where)
        self.assertEqual(iotval2, int(guest or "0", 16), where)

    def test_walks(self):
        """walks.txt: what a RISC-V hart's own walks gave, the model gives, and the program what the model does"""
        worlds, nested = (TESTS / "walks.txt").read_text().split("world\n")[1:], 0
        for number, lines in enumerate(worlds):
            case, told, left, count = self.world(lines.splitlines())
            walk, script, nested = peer.Walk(case, ()), peer.Script(case), nested + count
            walk.model.has = lambda address, length: BASE <= address <= BASE + HARTS_SIZE - length
            for script.number, step in enumerate(SET_UP + case.steps):
                answer, count, records = walk.step(*step)
                script.add(script.number, step, walk, answer, count, records)
                if step[0] != "reg":
                    iotval2 = walk.model.load(records[0] + 24) if records else 0
                    self.want_hart(told.pop(0), answer[0], iotval2, (number, step))
            changed = {it: walk.model.load(it) for it in walk.model.touched if it >> 12 != FAULTS}
            self.assertEqual(changed, left)
            script.end(walk, sorted(changed))
            self.assertEqual(script.played(program())[0], [], number)
        self.assertGreaterEqual(nested, LEAST_NESTED)
