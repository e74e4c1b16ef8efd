"""A plain model of every IOMMU that keeps what it likes: a platform, the walks of a request over held entries, and all that
such an IOMMU may be after some steps.

The walks are those of the RISC-V IOMMU Architecture 1.0, "Process to translate an IOVA": a directory of one or two levels,
Sv39 and Sv39x4, and MSI page tables. A step is a tuple whose first word names it; `line` of program_judge.py writes it as a line of a script.
"""
from typing import NamedTuple

BASE, SIZE, PAGE = 0x80000000, 0x40000, 4096
READ, WRITE = "read", "write"
V, R, W, X, U, G, A, D = (1 << bit for bit in range(8))
TOP_LEVEL, QUEUE_ENTRIES, FAULT_ENTRIES = 2, 8, 4
FAULTS, FQOF, FQ_ON = BASE + 0x31000, 1 << 9, 1 << 16 | 1
# Causes: of a read, and of a write.
ACCESS_FAULT, PAGE_FAULT, GUEST_FAULT = {READ: 5, WRITE: 7}, {READ: 13, WRITE: 15}, {READ: 21, WRITE: 23}
NO_ACCESS, INVALID, MISCONFIGURED, TOO_WIDE = 257, 258, 259, 260
MSI_NO_ACCESS, MSI_INVALID, MSI_MISCONFIGURED = 261, 262, 263
DTF = 1 << 4
# Of a run of which all choices are tried.
MOST_ENTRIES, MOST_STATES = 10, 8


class Request(NamedTuple):
    did: int
    iova: int
    kind: str


class Denial(NamedTuple):
    cause: int
    iotval2: int
    is_told: bool


# The entries that an IOMMU may hold. `part` is what they stand for: a part of a device id, or of a page's number.


class Device(NamedTuple):
    did: int
    words: tuple


class Directory(NamedTuple):
    part: int
    word: int


class First(NamedTuple):
    gscid: int | None
    pscid: int
    level: int
    part: int
    word: int
    is_global: bool


class Second(NamedTuple):
    gscid: int
    level: int
    part: int
    word: int
    is_global: bool


class File(NamedTuple):
    """An entry of an MSI page table, for the page of the address that reached it."""

    gscid: int
    page: int
    word: int


class Page(NamedTuple):
    did: int
    pscid: int | None
    gscid: int | None
    page: int
    kind: str
    frame: int
    level: int
    is_global: bool


def is_leaf(entry):
    """Whether it is a leaf of a stage, or of an MSI page table: a whole translation is made from these."""
    return isinstance(entry, File) or isinstance(entry, (First, Second)) and entry.word & (R | W | X) != 0


class Command(NamedTuple):
    kind: str
    av: int = 0
    page: int = 0
    pscv: int = 0
    pscid: int = 0
    gv: int = 0
    gscid: int = 0
    nl: int = 0
    s: int = 0
    dv: int = 0
    did: int = 0

    def meets(self, page, width):
        """Whether an entry for the 2^width pages around a page stands for one of those that the command names."""
        if not self.av:
            return True
        own = (~self.page & self.page + 1).bit_length() if self.s else 0
        return (page ^ self.page) >> max(width, own) == 0

    def meets_entry(self, entry):
        is_leaf = entry.word & (R | W | X)
        return self.meets(entry.part << 9 * entry.level, 9 * entry.level) and (not self.av or self.nl or is_leaf)

    def names(self, entry):
        """Whether it drops an entry, at the next fence at the latest."""
        return getattr(self, f"_{self.kind}_names")(entry)

    def _fence_names(self, entry):
        return False

    def _iodir_names(self, entry):
        return isinstance(entry, (Device, Directory)) and (not self.dv or isinstance(entry, Device) and entry.did == self.did)

    def _vma_names(self, entry):
        if not isinstance(entry, (First, Page)) or entry.gscid != (self.gscid if self.gv else None):
            return False
        if self.pscv and (entry.pscid != self.pscid or entry.is_global):
            return False
        return self.meets_entry(entry) if isinstance(entry, First) else self.meets(entry.page, 9 * entry.level)

    def _gvma_names(self, entry):
        if not isinstance(entry, (Second, File, Page)) or entry.gscid is None or self.gv and entry.gscid != self.gscid:
            return False
        if isinstance(entry, File):
            return not self.gv or self.meets(entry.page, 0)
        return isinstance(entry, Page) or not self.gv or self.meets_entry(entry)


class Refused(Exception):
    def __init__(self, cause, iotval2=0):
        self.cause, self.iotval2 = cause, iotval2


class State:
    """Memory, registers and the commands in the queue. A context of the extended format has eight words."""

    def __init__(self, memory, levels, is_extended=False):
        self.memory, self.levels, self.commands, self.is_extended = dict(memory), levels, {}, is_extended
        self.registers = {"cqh": 0, "cqt": 0, "fqh": 0, "fqt": 0, "fqcsr": FQ_ON}

    def copy(self):
        other = State(self.memory, self.levels, self.is_extended)
        other.commands, other.registers = dict(self.commands), dict(self.registers)
        return other

    def key(self):
        """All in which two IOMMUs may differ after the same steps."""
        return frozenset(self.memory.items()), frozenset(self.registers.items())

    def load(self, addr):
        """The word at an address, or None outside memory."""
        return self.memory.get(addr, 0) if BASE <= addr <= BASE + SIZE - 8 else None

    def executed(self, step):
        """The command that a step carries out."""
        if step[0] != "cmd" or self.registers["cqh"] == self.registers["cqt"]:
            return None
        return self.commands[self.registers["cqh"]]

    def act(self, step, goes):
        """Carries a step out, whose access goes there, and answers it."""
        return getattr(self, f"_{step[0]}")(*step[1:], goes)

    def _store(self, addr, words, goes):
        self.memory.update({addr + 8 * at: word for at, word in enumerate(words)})
        return "done"

    def _load(self, addr, goes):
        return f"{self.load(addr):#x}"

    def _get(self, name, goes):
        return f"{self.registers[name]:#x}"

    def _set(self, name, value, goes):
        if name == "fqcsr":
            value = self.registers[name] & ~(value & FQOF)
        self.registers[name] = value
        return "done"

    def _send(self, place, command, goes):
        self.commands[place] = command
        return "done"

    def _cmd(self, goes):
        if self.registers["cqh"] == self.registers["cqt"]:
            return "idle"
        self.registers["cqh"] = (self.registers["cqh"] + 1) % QUEUE_ENTRIES
        return "done"

    def _access(self, request, data, goes):
        """By a device: a write of this word, or a read."""
        if isinstance(goes, Denial):
            if goes.is_told:
                self.deliver(request, goes)
            return f"denied {goes.cause}"
        if self.load(goes) is None:
            return "bus error"
        if request.kind == READ:
            return self.load(goes).to_bytes(8, "little").hex()
        self.memory[goes] = data
        return "done"

    def deliver(self, request, denial):
        """Writes the record of a denial into the fault queue."""
        registers = self.registers
        after = (registers["fqt"] + 1) % FAULT_ENTRIES
        if registers["fqcsr"] & FQOF:
            return
        if after == registers["fqh"]:
            registers["fqcsr"] |= FQOF
            return
        ttyp = 2 if request.kind == READ else 3
        words = denial.cause | ttyp << 34 | request.did << 40, 0, request.iova, denial.iotval2
        self._store(FAULTS + 32 * registers["fqt"], words, None)
        registers["fqt"] = after


class Context:
    """The fields of a context's words."""

    def __init__(self, words):
        tc, iohgatp, ta, fsc, *more = words
        table, self.mask, self.pattern, _ = more or (0, 0, 0, 0)
        if tc & ~DTF != V or table >> 60 > 1:
            raise Refused(MISCONFIGURED)
        self.has_files, self.table = table >> 60, (table & (1 << 44) - 1) * PAGE
        self.is_silent, self.pscid = bool(tc & DTF), ta >> 12
        self.has_first, self.root = fsc >> 60, (fsc & (1 << 44) - 1) * PAGE
        self.has_second, self.guest_root = iohgatp >> 60, (iohgatp & (1 << 44) - 1) * PAGE
        self.own_gscid = iohgatp >> 44 & 0xFFFF
        self.gscid = self.own_gscid if self.has_second else None

    def file(self, page):
        """Where the entry stands of the interrupt file whose page this is, or None."""
        if not self.has_files or page | self.mask != self.pattern | self.mask:
            return None
        bits = [page >> at & 1 for at in range(52) if self.mask >> at & 1]
        return self.table | 16 * sum(bit << at for at, bit in enumerate(bits))


def ppn_of(word):
    return word >> 10 & (1 << 44) - 1


class Walk:
    """The walk of a request over held entries. At each look-up `pick` takes one of its options: None for memory, or an
    entry. `used` are those that it took, `reads` those that it read and that may be kept."""

    def __init__(self, state, held, pick):
        self.state, self.held, self.pick = state, held, pick
        self.used, self.reads = set(), []

    def look(self, fits):
        used = self.pick([None, *(it for it in self.held if fits(it))])
        self.used.update(() if used is None else [used])
        return used

    def keep(self, entry, word):
        if word & V:
            self.reads.append(entry)

    def lead(self, request):
        """The physical address that it leads to, or its denial."""
        is_told = True
        try:
            context = self.context(request.did)
            is_told = not context.is_silent
            return self.frame(context, request) * PAGE + request.iova % PAGE
        except Refused as it:
            return Denial(it.cause, it.iotval2, is_told)

    def context(self, did):
        levels, low = self.state.levels, 6 if self.state.is_extended else 7
        if did >> low + 9 * (levels - 1):
            raise Refused(TOO_WIDE)
        is_above = lambda it: levels == 2 and isinstance(it, Directory) and it.part == did >> low
        used = self.look(lambda it: isinstance(it, Device) and it.did == did or is_above(it))
        if isinstance(used, Device):
            return Context(used.words)
        count = 512 >> low
        place = (self.table(used, did >> low) if levels == 2 else BASE + PAGE) + 8 * count * (did % (1 << low))
        words = tuple(self.state.load(place + 8 * at) for at in range(count))
        if None in words:
            raise Refused(NO_ACCESS)
        self.keep(Device(did, words), words[0])
        if not words[0] & V:
            raise Refused(INVALID)
        return Context(words)

    def table(self, used, part):
        """The last table of a directory of two levels."""
        word = used.word if used else self.state.load(BASE + PAGE + 8 * part)
        if not used:
            self.keep(Directory(part, word), word)
        if not word & V:
            raise Refused(INVALID)
        if word & 0x3FE:
            raise Refused(MISCONFIGURED)
        return ppn_of(word) * PAGE

    def frame(self, context, request):
        """The number of the frame of a request's page."""
        page = request.iova // PAGE
        if not context.has_first and not context.has_second and not context.has_files:
            return page
        key = request.did, context.pscid if context.has_first else None, context.gscid, page, request.kind
        used = self.look(lambda it: isinstance(it, Page) and self.is_for(it, key))
        if used:
            return used.frame
        frame, level, is_global = self.first(context, request) if context.has_first else (page, 0, False)
        addr = frame * PAGE + request.iova % PAGE
        if context.file(frame) is not None:
            frame = self.file(context, frame)
        elif context.has_second:
            frame = self.second(context, addr, request.kind, Refused(GUEST_FAULT[request.kind], addr & ~3))
        self.keep(Page(*key, frame, level, is_global), V)
        return frame

    def is_for(self, entry, key):
        return entry[:5] == key

    def first(self, context, request):
        ids, page = (context.gscid, context.pscid), request.iova // PAGE
        if request.iova >> 38 not in (0, (1 << 26) - 1):
            raise Refused(PAGE_FAULT[request.kind])
        used = self.look(lambda it: isinstance(it, First) and it.gscid == ids[0] and (it.is_global or it.pscid == ids[1])
                         and it.part == page >> 9 * it.level)

        def fetch(place):
            if context.has_second:
                frame = self.second(context, place, READ, Refused(GUEST_FAULT[request.kind], place | 1), request.kind)
                place = frame * PAGE + place % PAGE
            return self.state.load(place)

        refused = Refused(PAGE_FAULT[request.kind])
        return self.stage(used, context.root, page, request.kind, fetch, lambda *it: First(*ids, *it), refused)

    def second(self, context, addr, kind, refused, told_kind=None):
        """The frame of a guest-physical address, which is below 2^39 here."""
        used = self.look(lambda it: isinstance(it, Second) and it.gscid == context.own_gscid
                         and it.part == addr // PAGE >> 9 * it.level)
        keep = lambda *it: Second(context.own_gscid, *it)
        return self.stage(used, context.guest_root, addr // PAGE, kind, self.state.load, keep, refused, told_kind)[0]

    def is_for_file(self, entry, page):
        return entry.page == page

    def file(self, context, page):
        """The frame to which the entry of an interrupt file leads: "Process to translate addresses of MSIs"."""
        used = self.look(lambda it: isinstance(it, File) and it.gscid == context.own_gscid and self.is_for_file(it, page))
        word = used.word if used else self.state.load(context.file(page))
        if word is None:
            raise Refused(MSI_NO_ACCESS)
        if not used:
            self.keep(File(context.own_gscid, page, word), word)
        if not word & V or word >> 63:
            raise Refused(MSI_INVALID)
        if word >> 1 & 3 != 3 or word & 0x3F8 or word >> 54:
            raise Refused(MSI_MISCONFIGURED)
        return ppn_of(word)

    def stage(self, used, table, page, kind, fetch, made, refused, told_kind=None):
        """Where the tables of a stage lead a page, from their root on or behind an entry: a frame, the leaf's level, and
        whether it is global."""
        level, is_global, word = TOP_LEVEL, False, None
        if used:
            level, is_global, word = used.level, used.is_global, used.word
        while True:
            is_held = word is not None
            if not is_held:
                word = fetch(table + 8 * (page >> 9 * level & 511))
                if word is None:
                    raise Refused(ACCESS_FAULT[told_kind or kind])
                is_global |= bool(word & G)
                self.keep(made(level, page >> 9 * level, word, is_global), word)
            if not self.points_on(word, level, kind, is_held, refused):
                return self.frame_in(word, level, page), level, is_global
            table, level, word = ppn_of(word) * PAGE, level - 1, None

    def points_on(self, word, level, kind, is_held, refused):
        """Whether an entry is a pointer; else it is a leaf, or refuses."""
        if not word & V or word & (R | W) == W or word >> 54:
            raise refused
        if not word & (R | W | X):
            if word & (A | D | U) or level == 0:
                raise refused
            return True
        wanted = U | A | R if kind == READ else U | A | W | D
        if ppn_of(word) % (1 << 9 * level) or word & wanted != wanted:
            raise refused
        return False

    def frame_in(self, word, level, page):
        return ppn_of(word) + page % (1 << 9 * level)


def each_way(state, held, request):
    """Each way of a request over held entries: where it goes, which of them it uses, and what it reads."""
    left = [[]]
    while left:
        chosen = left.pop()
        made = []

        def pick(options):
            at = chosen[len(made)] if len(made) < len(chosen) else 0
            if len(made) >= len(chosen):
                left.extend([*made, other] for other in range(1, len(options)))
            made.append(at)
            return options[at]

        walk = Walk(state, held, pick)
        yield walk.lead(request), walk.used, walk.reads


def bits_of(number):
    return [1 << at for at in range(number.bit_length()) if number >> at & 1]


def forgetting(all_held):
    """These sets of held entries, and those without any that may be forgotten."""
    found, left = set(), list(all_held)
    while left:
        one = left.pop()
        if one not in found:
            found.add(one)
            left += [(one[0] & ~bit, one[1] & ~bit) for bit in bits_of(one[0])]
    return found


class TooMany(Exception):
    """Too many sets of entries, or states, to try them all."""


class Every:
    """All that IOMMUs may be: states, each with all sets of entries that one in it may hold. Such a set is two numbers with
    a bit for each entry: those that are held, and those of them that a command names that no fence has completed."""

    def __init__(self, state):
        self.bits, self.worlds = {}, {state.key(): (state, {(0, 0)})}

    def follow(self, step, fits):
        """Goes on after a step whose answer and place fit what was seen; as if nothing had been seen of it, if none do.
        Returns all answers with their places, and whether one fits."""
        after = [(fits(answer, goes), answer, goes, state, sets) for answer, goes, state, sets in self.after(step)]
        if len(after) > MOST_STATES:
            raise TooMany
        does_fit = any(it[0] for it in after)
        self.worlds = {}
        for fit, _, _, state, sets in after:
            if fit or not does_fit:
                self.worlds.setdefault(state.key(), (state, set()))[1].update(sets)
        return {(answer, goes) for _, answer, goes, _, _ in after}, does_fit

    def number(self, entries):
        """The set of these entries, as a number."""
        return sum({self.bits.setdefault(it, 1 << len(self.bits)) for it in entries})

    def some(self, test):
        """The set of those that pass."""
        return sum(bit for it, bit in self.bits.items() if test(it))

    def ways(self, state, all_held, request):
        """Each way of a request over what may be held: where it goes, what it uses and what it reads."""
        most = 0
        for held, _ in all_held:
            most |= held
        entries = [it for it, bit in self.bits.items() if most & bit]
        return [(goes, self.number(used), self.number(reads)) for goes, used, reads in each_way(state, entries, request)]

    def after(self, step):
        """What may be behind a step: its answer, where its access goes, the state, and the sets that may be held there."""
        request = step[1] if step[0] == "access" else None
        for state, all_held in self.worlds.values():
            command, going = state.executed(step), {}
            is_fence = command is not None and command.kind == "fence"
            named_now = self.some(lambda it: command and command.names(it))
            ways = self.ways(state, all_held, request) if request else [(None, 0, 0)]
            leaves, wholes = self.some(is_leaf), self.some(lambda it: isinstance(it, Page))
            for held, named in all_held:
                mine = [way for way in ways if not way[1] & ~held]
                fresh = due = 0
                for _, used, read in mine:
                    # what is made from a leaf that a command names goes with it
                    made = read & wholes if used & named & leaves else 0
                    fresh, due = fresh | read & ~made, due | made
                # an entry that is read again does all that the same entry from before does
                left, named_left = held | fresh | due, (named | due & ~held) & ~fresh
                if left.bit_count() > MOST_ENTRIES:
                    raise TooMany
                one = (left & ~named_left, 0) if is_fence else (left, named_left | left & named_now)
                for goes, _, _ in mine:
                    going.setdefault(goes, set()).add(one)
            for goes, sets in going.items():
                other = state.copy()
                yield other.act(step, goes), goes, other, forgetting(sets) if request else sets

    def may_take(self):
        """Commands may be carried out that nobody sees, as many as there are."""
        worlds, taken = self.worlds, self.worlds
        while taken:
            self.worlds, taken = {key: it for key, it in taken.items() if it[0].executed(("cmd",))}, {}
            for _, _, state, sets in self.after(("cmd",)):
                taken.setdefault(state.key(), (state, set()))[1].update(sets)
            for key, (state, sets) in taken.items():
                worlds.setdefault(key, (state, set()))[1].update(sets)
        self.worlds = worlds
