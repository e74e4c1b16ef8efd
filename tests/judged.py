"""IOMMUs with caches of their own, right ones and ones with a planted fault; and runs of a driver and its devices on them,
written as traces for `judge`.
"""
from iommus import (
    BASE, DTF, FAULT_ENTRIES, FAULTS, PAGE, QUEUE_ENTRIES, READ, WRITE, Command, Denial, Device, Every, File, Page, Request, State,
    TooMany, V, Walk, is_leaf)

IMAGE_HEAD = "ram 0x80000000 0x40000\ncapabilities nl=1 s=1{}\n"
QUEUE, FRAMES, IOVA = BASE + 0x30000, range(0x80020, 0x80030), 0x40020000
GUEST_FAULTS = "denied 21", "denied 23"
FULL, READ_ONLY, GLOBAL, CLEAN, OLD = 0xD7, 0xD3, 0xF7, 0x57, 0x97
DATA = {PAGE * frame + 8 * at: 0x0101010101010101 * (frame & 15 | 16 * at + 16) for frame in FRAMES for at in (0, 1)}


def pte(ppn, flags):
    return (ppn << 10 | flags,)


def at(table, index):
    return BASE + PAGE * table + 8 * index


def context(pscid, root, gscid=0, guest_root=0, tc=V):
    return tc, guest_root and 8 << 60 | gscid << 44 | guest_root, pscid << 12, root and 8 << 60 | root


def tables():
    """The places in tables, each with the words that may stand there."""
    pages = range(0x20, 0x23)
    leaf = lambda ppn: [pte(ppn, FULL), pte(ppn, READ_ONLY), pte(ppn, GLOBAL), pte(ppn, CLEAN), pte(ppn, OLD), (0,)]
    return {
        # the host's first stage: a root, two tables below it, and two with leaves
        at(2, 1): [pte(0x80004, 1), pte(0x80005, 1), pte(0x80000, FULL), pte(0x80000, READ_ONLY), (0,)],
        at(4, 0): [pte(0x80006, 1), pte(0x80007, 1), pte(0x80000, FULL), (0,)],
        at(5, 0): [pte(0x80007, 1), pte(0x80000, GLOBAL), (0,), pte(0x90000, 1)],
        **{at(6, page): leaf(0x80008 + page) for page in pages},
        **{at(7, page): leaf(0x8000B + page) for page in pages},
        # the guest's, at guest-physical addresses
        at(8, 1): [pte(0x80009, 1), pte(0x40000, FULL), (0,)],
        at(9, 0): [pte(0x8000A, 1), pte(0x40000, FULL), (0,)],
        **{at(10, page): leaf(0x40042 - page) for page in pages},
        # the second stage: tables of the guest, and its pages
        at(16, 2): [pte(0x80000, FULL), pte(0x80000, FULL), (0,)],
        at(16, 1): [pte(0x80014, 1), pte(0x80000, FULL), pte(0x80000, READ_ONLY), (0,)],
        at(20, 0): [pte(0x80015, 1), pte(0x80016, 1), pte(0x80000, FULL), (0,)],
        **{at(21, page): leaf(0x80008 + page) for page in pages},
        **{at(22, page): leaf(0x8000B + page) for page in pages},
    }


def contexts(tc):
    return [
        context(1, 0x80002, tc=tc), context(2, 0x80002, tc=tc),
        context(1, 0x80008, 1, 0x80010, tc), context(1, 0x80008, 2, 0x80010, tc),
        context(0, 0, 1, 0x80010, tc), context(3, 0x80002, tc=V | 2), (0, 0, 0, 0), context(0, 0, tc=tc)]


def files():
    """The places in an MSI page table, of two interrupt files."""
    basic = lambda ppn: (ppn << 10 | 7, 0)
    others = [(0, 0), (0x8002D << 10 | 3, 0), (0x8002D << 10 | 0xF, 0), (1 << 63 | 0x8002D << 10 | 7, 0)]
    return {at(24, 0): [basic(0x80024), basic(0x80025), *others], at(24, 2): [basic(0x80026), basic(0x80027), *others]}


def contexts_with_files(tc):
    """Contexts of the extended format, with the MSI page table. The interrupt files are two pages that the first stage reaches."""
    table = lambda pattern, mode=1: (mode << 60 | 0x80018, 1, pattern, 0)
    guest = 0x40020
    return [
        (*context(0, 0, 1, 0x80010, tc), *table(guest)), (*context(1, 0x80002, tc=tc), *table(0x80028)),
        (*context(1, 0x80008, 1, 0x80010, tc), *table(guest)), (*context(0, 0, 2, 0x80010, tc), *table(guest)),
        (tc, 1 << 44, 0, 0, *table(guest)), (*context(1, 0x80002, tc=tc), *table(0x80028, 0)), (*context(0, 0, tc=tc), *table(guest, 2)), (0,) * 8]


class Own:
    """An IOMMU with caches of its own: what is held stands beside whether a command names it that no fence has completed.
    Its driver sends the invalidations `flushes`, with an access before each command as often as one of `betweens` says, begins with
    entries that have the flags `prefers` and gives its devices different contexts, or changes contexts alone, where that shows
    a fault. A small run has as many `pages`, if that isn't None."""

    walk, prefers, has_two_contexts, changes_contexts, betweens, pages = Walk, None, False, False, (0.2, 0.2, 0.8), None
    flushes = ("all", "all", "contexts", "first", "others", "page", "page", "device")

    def __init__(self, chance, state):
        self.chance, self.state, self.held = chance, state, {}
        self.keeps, self.uses = chance.choice((0, 0.5, 0.9, 1, 1)), chance.choice((0, 0.5, 0.9, 1, 1))
        self.forgets, self.walks_again = chance.choice((0, 0, 0.05, 0.2)), chance.choice((0, 0.3))
        self.drops_soon, self.between = chance.choice((0, 0.3, 1)), chance.choice(self.betweens)

    def is_so(self, share):
        return self.chance.random() < share

    def step(self, step):
        """Its answer, and where its access goes."""
        goes = self.go(step[1]) if step[0] == "access" else None
        command = self.state.executed(step)
        answer = self.told(step, self.state.act(step, goes))
        self.carry_out(command)
        self.held = {it: named for it, named in self.held.items() if not self.is_so(self.drops_soon if named else self.forgets)}
        return answer, self.seen_at(goes)

    def pick(self, options):
        return self.chance.choice(options[1:]) if len(options) > 1 and self.is_so(self.uses) else None

    def go(self, request):
        walks = [self.walk(self.state, list(self.held), self.pick) for _ in range(1 + self.is_so(self.walks_again))]
        ends = [it.lead(request) for it in walks]
        before = dict(self.held)
        for walk in walks:
            is_due = any(before[it] and is_leaf(it) for it in walk.used)
            self.keep([it for it in walk.reads if self.is_so(self.keeps)], is_due)
        return self.bent(ends[0])

    def keep(self, reads, is_due):
        """Keeps what a walk read. A whole translation goes with the leaf from which it was made, if a command names that."""
        for it in reads:
            goes_too = isinstance(it, Page) and self.goes_with_leaf(is_due)
            self.held[it] = goes_too and self.held.get(it, True)

    def carry_out(self, command):
        if command and command.kind == "fence":
            self.held = {it: False for it, named in self.held.items() if not named or self.outlasts(it)}
        elif command:
            self.held = {it: named or self.names(command, it) for it, named in self.held.items()}

    # What a faulty one does otherwise.

    def names(self, command, entry):
        return command.names(entry)

    def outlasts(self, entry):
        return False

    def goes_with_leaf(self, is_due):
        return is_due

    def bent(self, goes):
        return goes

    def told(self, step, answer):
        return answer

    def seen_at(self, goes):
        return goes


class Faulty(Own):
    """One with a planted fault, which keeps and uses much."""

    def __init__(self, chance, state):
        super().__init__(chance, state)
        self.keeps, self.uses = chance.choice((0.9, 1)), chance.choice((0.7, 1))
        self.forgets, self.drops_soon = 0, chance.choice((0, 0.3))


class KeepsPastFence(Faulty):
    """keeps an entry past its invalidation and the fence"""

    def outlasts(self, entry):
        return self.is_so(0.7)


class KeepsMadeLate(Faulty):
    """keeps a whole translation past the fence that it made from a leaf behind its invalidation"""

    flushes, betweens = ("all", "page"), (1,)

    def goes_with_leaf(self, is_due):
        return False

    def carry_out(self, command):
        super().carry_out(command)
        self.held = {it: named for it, named in self.held.items() if not named or is_leaf(it)}


class KeepsContext(Faulty):
    """keeps a context past its IODIR"""

    flushes, changes_contexts = ("contexts", "device"), True

    def names(self, command, entry):
        return command.names(entry) and not (isinstance(entry, Device) and self.is_so(0.7))


class DropsAsOfGuest(Faulty):
    """takes an IOTINVAL.VMA for a GVMA"""

    flushes = ("all", "first", "page")

    def names(self, command, entry):
        return (command._replace(kind="gvma") if command.kind == "vma" else command).names(entry)


class DropsOnePage(Faulty):
    """drops an entry of a superpage only by the first of its pages"""

    flushes, prefers = ("page",), FULL

    def names(self, command, entry):
        if command.av and getattr(entry, "level", 0) > 0:
            return command.page % (1 << 9 * entry.level) == 0 and command.names(entry)
        return command.names(entry)


class WalkOfReads(Walk):
    def points_on(self, word, level, kind, is_held, refused):
        return super().points_on(word, level, READ if is_held else kind, is_held, refused)

    def is_for(self, entry, key):
        return entry[:4] == key[:4]


class WritesByReads(Faulty):
    """lets an entry that it holds serve a write, whether or not it may be written"""

    walk, prefers = WalkOfReads, READ_ONLY


class WalkOfOthers(Walk):
    def is_for(self, entry, key):
        return entry[3:5] == key[3:5]


class TakesOthersPages(Faulty):
    """uses the whole translation of another device's context"""

    walk, has_two_contexts = WalkOfOthers, True


class WalkOfSmallPages(Walk):
    def frame_in(self, word, level, page):
        return super().frame_in(word, 0, page)


class MistakesSize(Faulty):
    """takes a superpage for a page of 4 KiB"""

    walk = WalkOfSmallPages


class WalkOfAll(Walk):
    def keep(self, entry, word):
        self.reads.append(entry)


class KeepsInvalid(Faulty):
    """keeps an entry with V = 0"""

    walk = WalkOfAll


class WrongFrame(Faulty):
    """goes to the frame beside the right one"""

    def bent(self, goes):
        return goes ^ PAGE if isinstance(goes, int) and self.is_so(0.3) else goes


class BentDenial(Faulty):
    def bent(self, goes):
        return self.bent_denial(goes) if isinstance(goes, Denial) and self.is_so(0.5) else goes


class WrongSecondValue(BentDenial):
    """writes a wrong iotval2 into a record"""

    def bent_denial(self, goes):
        return goes._replace(iotval2=goes.iotval2 ^ self.chance.choice((1, PAGE)))


class WrongCause(BentDenial):
    """denies with another cause"""

    def bent_denial(self, goes):
        return goes._replace(cause=goes.cause ^ self.chance.choice((2, 8, 24)))


class WritesNoRecord(BentDenial):
    """writes no record"""

    def bent_denial(self, goes):
        return goes._replace(is_told=False)


class DeniedIsDone(Faulty):
    """answers a denied access as one that is done"""

    def told(self, step, answer):
        if not answer.startswith("denied") or self.is_so(0.5):
            return answer
        return "done" if step[1].kind == WRITE else self.chance.choice(list(DATA.values())).to_bytes(8, "little").hex()

    def seen_at(self, goes):
        return None if isinstance(goes, Denial) else goes


class KeepsFile(Faulty):
    """keeps an entry of an MSI page table past its IOTINVAL.GVMA"""

    flushes = ("all", "others")

    def names(self, command, entry):
        return command.names(entry) and not (isinstance(entry, File) and self.is_so(0.7))


class WalkOfOtherFiles(Walk):
    def is_for_file(self, entry, page):
        return True


class TakesOtherFiles(Faulty):
    """uses the entry of another interrupt file that it holds"""

    walk, pages = WalkOfOtherFiles, 2


class WalkWithoutFiles(Walk):
    def frame(self, context, request):
        context.has_files = context.has_files and request.kind == WRITE
        return super().frame(context, request)


class ReadsWithoutFiles(Faulty):
    """uses an MSI page table for writes alone"""

    walk = WalkWithoutFiles


class LeavesTail(Faulty):
    """leaves fqt where it is when it writes a record"""

    def go(self, request):
        self.tail = self.state.registers["fqt"]
        return super().go(request)

    def told(self, step, answer):
        if answer.startswith("denied") and self.is_so(0.5):
            self.state.registers["fqt"] = self.tail
        return answer


FAULTY = (
    KeepsPastFence, KeepsMadeLate, KeepsContext, DropsAsOfGuest, DropsOnePage, WritesByReads, TakesOthersPages, MistakesSize,
    KeepsInvalid, WrongFrame, WrongSecondValue, WrongCause, WritesNoRecord, DeniedIsDone, LeavesTail)


# Of those with MSI page tables.
FAULTY_WITH_FILES = KeepsPastFence, KeepsFile, TakesOtherFiles, ReadsWithoutFiles


def line(step):
    """A step as a line of a script."""
    kind, *operands = step
    if kind == "store":
        return f"put {operands[0]:#x} u64 {' '.join(f'{it:#x}' for it in operands[1])}"
    if kind == "send":
        place, command = operands
        fields = " ".join(f"{key}={value:#x}" for key, value in command._asdict().items() if key != "kind" and value)
        return f"put {QUEUE + 16 * place:#x} cmd {command.kind} {fields}".rstrip()
    if kind == "access":
        request, data = operands
        end = data.to_bytes(8, "little").hex() if request.kind == WRITE else "8"
        return f"dma {request.kind} {request.did} {request.iova:#x} {end}"
    if kind == "set":
        return f"reg write {operands[0]} {operands[1]:#x}"
    return {"load": "load {:#x} 8", "get": "reg read {}", "cmd": "cmd"}[kind].format(*operands)


class Seen:
    """What was seen of a step: its answer, the address of its access, or nothing."""

    def __init__(self, answer=None, addr=None):
        self.answer, self.addr = answer, addr

    def fits(self, answer, goes):
        return self.answer in (None, answer) and self.addr in (None, goes)

    def __str__(self):
        told = [*([self.answer] if self.answer else []), *([f"at {self.addr:#x}"] if self.addr is not None else [])]
        return f" # => {' '.join(told)}" if told else ""


def seen_of(chance, share, answer, goes):
    """What a bus monitor and a driver see; a `share` of the addresses."""
    if chance.random() < 0.02:
        return Seen()
    is_at = isinstance(goes, int) and chance.random() < share
    return Seen(None if is_at and chance.random() < 0.1 else answer, goes if is_at else None)


class Run:
    """A run of a driver and devices on an IOMMU. `lines` has its steps, each with what was seen of it; `elsewhere` counts
    accesses that don't go where the tables lead them."""

    def __init__(self, chance, made=Own, small=False, hidden=False, has_files=False):
        self.chance, self.made, self.small, self.hidden, self.lines, self.places = chance, made, small, hidden, [], tables()
        self.has_files = has_files
        self.places |= files() if has_files else {}
        levels = 1 if small else chance.choice((1, 2))
        self.dids, self.sent = ((1, 2), (1, 66 if has_files else 130))[levels - 1], 0
        self.place_contexts(levels)
        memory = {}
        for addr, all_words in self.places.items():
            memory.update({addr + 8 * at: word for at, word in enumerate(self.first_of(all_words))})
        self.begun, self.pages = dict(memory), range(made.pages or chance.choice((1, 2))) if small else range(3)
        self.begun_state = State({**DATA, **memory}, levels, has_files)
        self.own = made(chance, self.begun_state.copy())
        self.is_told_apart = chance.random() < 0.5
        self.share, self.request = chance.choice((0, 0.5, 0.8, 1, 1)), None
        self.elsewhere = 0

    def place_contexts(self, levels):
        tc = self.chance.choice((V, V, V, V | DTF))
        if levels == 2:
            for part in (0, 1):
                own, other = pte(0x8000B + part, 1), pte(0x8000C - part, 1)
                self.places[at(1, part)] = [own, own, (0,), other]
        tops = {1: (1, 1), 2: (11, 12)}[levels]
        for number, (did, table) in enumerate(zip(self.dids, tops)):
            some = contexts_with_files(tc) if self.has_files else contexts(tc)
            first = some[: 2 if self.small and self.chance.random() < 0.5 else 5]
            first = [some[2 * number]] if self.made.has_two_contexts else first
            index = 8 * (did % 64) if self.has_files else 4 * (did % 128)
            self.places[at(table, index)] = [self.chance.choice(first), *some]

    def first_of(self, all_words):
        preferred = [it for it in all_words if it[0] & 0x3FF == self.made.prefers]
        if preferred and self.chance.random() < 0.5:
            return preferred[0]
        return self.chance.choice(all_words) if self.chance.random() < (0.15 if self.small else 0.1) else all_words[0]

    def script(self):
        """The lines of its trace: those before its steps, and those of its steps."""
        levels = self.own.state.levels
        begun = [line(("store", addr, [word])) for addr, word in sorted(self.begun.items()) if word]
        queues = [f"cqb {QUEUE // PAGE << 10 | 2:#x}", "cqcsr 1", f"fqb {FAULTS // PAGE << 10 | 1:#x}", "fqcsr 1"]
        registers = [f"ddtp {0x20000401 + levels:#x}", *queues]
        return [*begun, *(f"reg write {it}" for it in registers)], [f"{line(step)}{seen}" for step, seen in self.lines]

    def judged(self):
        """For each line of a small run all answers with their places, and whether what was seen is one of them; up to the
        line from which on there are too many choices, where the run ends."""
        every, told = Every(self.begun_state), []
        for step, seen in self.lines:
            try:
                if self.hidden:
                    every.may_take()
                told.append(every.follow(step, seen.fits))
            except TooMany:
                break
        del self.lines[len(told) :]
        return told

    def step(self, *step):
        while self.hidden and self.chance.random() < 0.5 and self.own.state.executed(("cmd",)):
            self.own.step(("cmd",))
        fqt, tables = self.own.state.registers["fqt"], None
        if step[0] == "access":
            tables = Walk(self.own.state, [], lambda options: None).lead(step[1])
        answer, goes = self.own.step(step)
        self.elsewhere += goes != tables
        is_silent = step[0] in ("store", "set", "send")
        self.lines.append((step, Seen() if is_silent else seen_of(self.chance, self.share, answer, goes)))
        # the iotval2 of a guest page fault tells which of several places of a table was met
        if answer in GUEST_FAULTS and self.is_told_apart:
            self.step("load", FAULTS + 32 * fqt + 24)

    def play(self, steps):
        kinds = self.access, self.change, self.flush, self.command, self.ask
        odds = (6, 6, 1, 1, 1) if self.small else (10, 4, 1, 1, 2)
        while len(self.lines) < steps:
            self.chance.choices(kinds, odds)[0]()
        return self

    def access(self, again=0.3):
        chance = self.chance
        if not self.request or chance.random() > again:
            did = chance.choice(self.dids) if chance.random() < 0.99 else 1 << 20
            iova = IOVA + PAGE * chance.choice(self.pages) + 8 * chance.choice((0, 0, 1)) + (chance.random() < 0.01) * (1 << 38)
            self.request = Request(did, iova, chance.choice((READ, READ, WRITE)))
        self.step("access", self.request, chance.getrandbits(64) if self.request.kind == WRITE else None)
        if chance.random() < 0.2:
            self.ask()

    def met(self):
        """The places that a walk of the last request meets in memory."""
        met, state = [], self.own.state.copy()
        load = state.load
        state.load = lambda addr: met.append(addr) or load(addr)
        Walk(state, [], lambda options: None).lead(self.request)
        return [it for it in met if it in self.places]

    def change(self):
        """A store to a table or a context, mostly one that the last request met, and an invalidation; and the request again."""
        places = self.met() if self.request and self.chance.random() < 0.8 else []
        if self.own.changes_contexts:
            places = [it for it in places if len(self.places[it][0]) > 1]
        addr = self.chance.choice(places or list(self.places))
        own = self.own.state
        words = [it for it in self.places[addr] if own.load(addr) != it[0] or len(it) > 1]
        self.step("store", addr, list(self.chance.choice(words)))
        if self.chance.random() < 0.7:
            self.flush()
        self.access(again=0.9)

    def flush(self):
        """Some invalidations, mostly with a fence."""
        page, nl = self.request.iova // PAGE if self.request else 0, self.chance.choice((0, 1))
        every = [Command("iodir"), Command("vma"), Command("vma", gv=1, gscid=1), Command("gvma")]
        commands = {
            "all": every, "contexts": every[:1], "first": every[1:3], "others": every[2:],
            "page": [Command("vma", av=1, page=page, nl=nl), Command("vma", gv=1, gscid=1, av=1, page=page, nl=nl)],
            "device": [Command("iodir", dv=1, did=self.chance.choice(self.dids))],
        }[self.chance.choice(self.own.flushes)]
        for command in commands:
            self.send(command)
        if self.chance.random() < 0.8:
            self.send(Command("fence"))

    def command(self):
        chance = self.chance
        page = IOVA // PAGE + chance.choice(range(3)) if chance.random() < 0.8 else 0x80000
        ids = {"gv": chance.choice((0, 1)), "gscid": chance.choice((1, 1, 2)), "av": chance.choice((0, 0, 1)), "page": page,
               "nl": chance.choice((0, 1)), "s": chance.choice((0, 0, 1))}
        self.send(chance.choice((
            Command("iodir", dv=chance.choice((0, 1)), did=chance.choice(self.dids)),
            Command("vma", **ids, pscv=chance.choice((0, 0, 1)), pscid=chance.choice((1, 2))),
            Command("vma"), Command("vma", gv=1, gscid=1), Command("gvma", **ids))))

    def send(self, command):
        self.step("send", self.sent % QUEUE_ENTRIES, command)
        self.sent += 1
        self.step("set", "cqt", self.sent % QUEUE_ENTRIES)
        if self.chance.random() < self.own.between:
            self.access(again=max(0.3, self.own.between))
        while self.own.state.executed(("cmd",)):
            self.step(*(("get", "cqh") if self.hidden else ("cmd",)))

    def ask(self):
        """The driver looks at registers, records and data; it may take records off their queue."""
        chance, registers = self.chance, self.own.state.registers
        self.step("get", chance.choice(("fqt", "fqt", "fqcsr", "cqh")))
        if chance.random() < 0.6:
            record = FAULTS + 32 * ((registers["fqt"] - 1) % FAULT_ENTRIES)
            for at in chance.sample((0, 2, 3), 2):
                self.step("load", record + 8 * at)
        if chance.random() < 0.3:
            self.step("set", "fqh", registers["fqt"])
            self.step("set", "fqcsr", 0x201)
        if chance.random() < 0.5:
            self.step("load", chance.choice(list(DATA)))


def image(has_files=False):
    """The text of the image: the data of all frames."""
    return IMAGE_HEAD.format(" msi_flat=1" * has_files) + "".join(f"at {addr:#x}\nu64 {DATA[addr]:#x} {DATA[addr + 8]:#x}\n" for addr in DATA if addr % PAGE == 0)
