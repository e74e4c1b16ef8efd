"""`check --settled` beside a plain program that plays small runs through every choice of what an IOMMU keeps, and of when
a command takes effect.

A run has up to six accesses of two devices to three pages, through two tables, between stores to their entries,
invalidations and fences. `Every` has all sets of entries that an IOMMU may hold after it, and each way that such an IOMMU
may lead an access: to a frame under a context, of which only the frame makes a difference to a device. An invalidation may
take an entry away at any time up to the next fence, or leave it until then; what is read again behind the invalidation may
stay. With `--ahead` it may also read the run's pages ahead, by memory alone: between any two steps, so between the words of
a context that is stored.
"""
import random
import re
from itertools import combinations, product

from frame import EXAMPLES, Case, run, scripts

DEVICES, PAGES, TABLES = range(2), range(3), range(2)
KINDS = "read", "write"
REQUESTS = [*product(DEVICES, PAGES, KINDS[:1])]
RUNS, MOST_ENTRIES = 200, 11
# The examples that show an access behind a store for which no invalidation, the wrong one, or no fence was carried out.
FAULTY = {
    *("both_stages", "four_levels", "freed_table", "full_invalidation", "guest_fault", "missing_invalidation", "no_fence"),
    *("seventy_pages", "sixteen_pages", "stale_context", "stale_translation", "stopped_queue", "two_fences"),
}
# A run whose second access may go to the same frame under another context.
BESIDE = [("access", REQUESTS[0]), ("store", ("contexts", 0, (1, 0))), ("access", REQUESTS[0])]
# One whose second access may go elsewhere only if its page is read ahead, behind its invalidation.
EARLY = [
    ("access", REQUESTS[0]), ("drop", ("page", 0)), ("fence", None),
    ("store", ("leaves", (0, 0), None)), ("access", REQUESTS[0]),
]
# Causes: no context, no page.
NO_CONTEXT, NO_PAGE = 258, 13
IMAGE = b"ram 0x80000000 0x100000\ncapabilities nl=1\n"
IOVA, CONTEXTS, ROOTS, MIDDLES, LEAVES = 0x40200000, 0x80001000, 0x80002, 0x80004, 0x80006
FRAMES, QUEUE = 0x80040, 0x80090000


class Memory:
    """Each device's context has an id of its entries and the place of a pointer, which leads to a table of pages."""

    def __init__(self):
        self.contexts = {0: (0, 0), 1: (1, 1)}
        self.pointers = {0: 0, 1: 1}
        self.leaves = {(table, page): 10 * table + page for table in TABLES for page in PAGES}
        # The words of a context that isn't valid stay.
        self.words = dict(self.contexts)

    def stores(self, part, key, value):
        """Stores an entry, and stops behind each word of it."""
        if part == "contexts" and value is not None:
            for words in (self.words[key], (value[0], self.words[key][1]), value):
                self.contexts[key] = self.words[key] = words
                yield
        else:
            getattr(self, part)[key] = value
            yield


def below(memory, tag, table, page):
    """The end of a walk from a table on, None if it has no page, and the entries that it reads."""
    frame = memory.leaves[table, page]
    return frame, [] if frame is None else [("leaf", tag, page, frame)]


def behind(memory, tag, table, page):
    """The same from the table on that a pointer leads to, whose own pointer to the table of pages never changes."""
    frame, reads = below(memory, tag, table, page)
    return frame, [("middle", tag, table), *reads]


def first_ends(memory, held, tag, place, page):
    table = memory.pointers[place]
    if table is None:
        yield None, []
    else:
        frame, reads = behind(memory, tag, table, page)
        yield frame, [("pointer", tag, table), *reads]
    for entry in held:
        if entry[:3] == ("leaf", tag, page):
            yield entry[3], []
        if entry[:2] == ("middle", tag):
            yield below(memory, tag, entry[2], page)
        if entry[:2] == ("pointer", tag):
            yield behind(memory, tag, entry[2], page)


def page_ends(memory, held, context, page, kind):
    tag, place = context
    for frame, reads in first_ends(memory, held, tag, place, page):
        yield frame, reads + ([] if frame is None else [("page", tag, page, kind, frame)])
    for entry in held:
        if entry[:4] == ("page", tag, page, kind):
            yield entry[4], []


def ways(memory, held, request):
    """Each way of a request over these entries: its end, and what it reads. The first is memory's."""
    device, page, kind = request
    context = memory.contexts[device]
    searches = [(context, [] if context is None else [("device", device, context)])]
    searches += [(entry[2], []) for entry in held if entry[:2] == ("device", device)]
    for found, located in searches:
        if found is None:
            yield NO_CONTEXT, located
            continue
        for frame, reads in page_ends(memory, held, found, page, kind):
            yield NO_PAGE if frame is None else (found, frame), located + reads


def is_dropped(command, entry):
    kind, operand = command
    if kind == "page":
        return entry[0] in ("leaf", "page") and entry[2] == operand
    if kind == "page and pointers":
        return entry[0] in ("pointer", "middle") or entry[0] in ("leaf", "page") and entry[2] == operand
    if kind == "device":
        return entry[:2] == ("device", operand)
    return entry[0] != "device"


class TooMany(Exception):
    """More entries may be held than are played, behind so many steps that are."""


class Every:
    """All that IOMMUs may hold: one set for each that chose otherwise. Each entry stands beside whether a command names it
    that came since it was read, and that no fence has completed."""

    def __init__(self, memory, ahead):
        self.holdings, self.ahead, self.walks, self.steps = {frozenset()}, ahead, {}, 0
        self.pause(memory)

    def walked(self, memory, request):
        """Each way of a request, by what is held."""
        if request not in self.walks:
            self.walks[request] = {held: [*ways(memory, entries_of(held), request)] for held in self.holdings}
        return self.walks[request]

    def follow(self, memory, kind, operand):
        """A step, and what is read ahead behind it."""
        if kind == "access":
            self.keep({with_reads(held, {(it, False) for _, reads in found for it in reads})
                       for held, found in self.walked(memory, operand).items()})
        else:
            self.keep({left(held, kind, operand) for held in self.holdings})
        self.pause(memory)
        self.steps += 1

    def pause(self, memory):
        """What is read ahead is by memory alone, whatever is held."""
        if self.ahead:
            reads = {(it, False) for request in self.ahead for it in next(ways(memory, [], request))[1]}
            self.keep({with_reads(held, reads) for held in self.holdings})

    def keep(self, gained):
        """Of each of these sets an IOMMU may keep any part. Parts of a part are parts."""
        self.holdings, self.walks, whole = set(), {}, []
        for some in sorted(gained, key=len, reverse=True):
            if len(some) > MOST_ENTRIES:
                raise TooMany(self.steps)
            if not any(some <= other for other in whole):
                whole.append(some)
                for count in range(len(some) + 1):
                    self.holdings.update(map(frozenset, combinations(some, count)))

    def ends(self, memory, request):
        """Each end of a request; the first is memory's."""
        tables = next(ways(memory, [], request))[0]
        return [tables, *{end for found in self.walked(memory, request).values() for end, _ in found} - {tables}]

    def elsewhere(self, memory, request):
        """Each frame or cause that isn't memory's."""
        tables, *others = map(place_of, self.ends(memory, request))
        return set(others) - {tables}

    def is_beside(self, memory, request):
        """Whether it only goes to memory's frame, and under another context."""
        return not self.elsewhere(memory, request) and len(self.ends(memory, request)) > 1


def with_reads(held, reads):
    """An entry that was read again does all that the same entry from before does."""
    return frozenset(reads).union((it, is_named) for it, is_named in held if (it, False) not in reads)


def left(held, kind, operand):
    """What a command leaves of these entries, if none is forgotten; a store leaves all."""
    if kind == "drop":
        return frozenset((it, is_named or is_dropped(operand, it)) for it, is_named in held)
    return frozenset((it, is_named) for it, is_named in held if not (kind == "fence" and is_named))


def place_of(end):
    return end if isinstance(end, int) else end[1]


def entries_of(held):
    return [it for it, _ in held]


def steps_of(chance, requests):
    """A run, six of whose steps are accesses, each by one of these requests."""
    devices, pages, _ = zip(*requests)
    for _ in range(6):
        yield "access", chance.choice(requests)
        for _ in range(chance.choice((0, 0, 1, 1, 2))):
            yield chance.choice((
                ("store", ("leaves", (chance.choice(TABLES), chance.choice(pages)), chance.choice((None, 5)))),
                ("store", ("pointers", chance.choice(TABLES), chance.choice((None, 0, 1)))),
                ("store", ("contexts", chance.choice(devices), chance.choice((None, (0, 0), (0, 1), (1, 0), (1, 1))))),
                ("drop", ("all", None)), ("drop", ("page", chance.choice(pages))),
                ("drop", ("page and pointers", chance.choice(pages))), ("drop", ("device", chance.choice(devices))),
                *[("fence", None)] * 4,
            ))


def named_in(steps):
    """What may be read ahead: of each page that a run asks for both kinds."""
    return {(*operand[:2], kind) for what, operand in steps if what == "access" for kind in KINDS}


def stored(part, key, value):
    """The line that stores an entry of this memory."""
    if part == "contexts":
        place = f"{CONTEXTS + 32 * key:#x}"
        return f"store {place} 8 0" if value is None else f"put {place} context pscid={value[0]} mode=8 ppn={ROOTS + value[1]:#x}"
    if part == "pointers":
        place, word = f"put {4096 * (ROOTS + key) + 8:#x} pte", None if value is None else f"ppn={MIDDLES + value:#x} flags=1"
    else:
        place = f"put {4096 * (LEAVES + key[0]) + 8 * key[1]:#x} pte"
        word = None if value is None else f"ppn={FRAMES + value:#x} flags=0xd7"
    return f"{place} {word or 'flags=0'}"


def sent(command, index):
    """The lines that send a command, the one of this index in the queue, and have it carried out."""
    kind, operand = command
    page = f"page={(IOVA >> 12) + operand:#x}" if "page" in kind else ""
    item = {"all": "vma", "page": f"vma av=1 {page}", "page and pointers": f"vma av=1 nl=1 {page}",
            "device": f"iodir dv=1 did={operand}", "fence": "fence"}[kind]
    return [f"put {QUEUE + 16 * index:#x} cmd {item}", f"reg write cqt {index + 1}", "cmd # => done"]


def begun():
    """The lines before a run: the entries of a new memory, and the registers."""
    memory = Memory()
    entries = [(part, *it) for part in ("contexts", "pointers", "leaves") for it in getattr(memory, part).items()]
    middles = [f"put {4096 * (MIDDLES + table) + 8:#x} pte ppn={LEAVES + table:#x} flags=1" for table in TABLES]
    return [*(stored(*it) for it in entries), *middles, "reg write ddtp 0x20000402", "reg write cqb 0x20024005", "reg write cqcsr 1"]


def end_told(told):
    """The end that a report names: a frame or a cause, of a write as of a read."""
    frame, cause = re.fullmatch(r"go to addr=0x(\w+)|be denied (\d+)", told).groups()
    return {15: NO_PAGE}.get(int(cause), int(cause)) if cause else int(frame, 16) // 4096 - FRAMES


class Choices(Case):
    def played(self, steps, ahead):
        """A run's lines, where its accesses may go that aren't settled, by their lines, where those requests may that are
        owed at its end, and the lines of accesses that may go under another context."""
        memory = Memory()
        every, lines, made, unsettled, noted, sends = Every(memory, ahead), begun(), {}, {}, set(), 0
        for kind, operand in steps:
            if kind == "store":
                lines.append(stored(*operand))
                for _ in memory.stores(*operand):
                    every.pause(memory)
            elif kind in ("drop", "fence"):
                lines += sent(operand or ("fence", None), sends)
                sends += 1
            else:
                lines.append(f"dma read {operand[0]} {IOVA + 4096 * operand[1]:#x} 4")
                unsettled[len(lines)] = every.elsewhere(memory, operand)
                noted.update({len(lines)} if every.is_beside(memory, operand) else set())
                made[operand] = len(lines)
            every.follow(memory, kind, operand)
        owed = {(kind, IOVA + 4096 * page, device, line): every.elsewhere(memory, (device, page, kind))
                for (device, page, kind), line in {**dict.fromkeys(ahead, 0), **made}.items()}
        return lines, unsettled, owed, noted

    def play(self, steps, is_ahead=False):
        """The longest front of these steps after which few enough entries may be held, and what is found of it."""
        while True:
            try:
                return steps, self.played(steps, named_in(steps) if is_ahead else set())
            except TooMany as too_many:
                steps = steps[: too_many.args[0]]

    def told(self, option, lines):
        """What is told of a run: the output, where accesses may go, by their lines, and where owed requests may."""
        out = run(["check", option, self.path("image")], "\n".join([*lines, ""]).encode())[1].decode()
        found = {int(line): end_told(end) for line, end in
                 re.findall(r"(?m)^line (\d+): dma .*, unsettled: read \w+ may still ((?:go|be) .*?),", out)}
        left = {(what, int(iova, 16), int(device), int(line)): end_told(end) for what, iova, device, line, end in
                re.findall(r"(?m)^line \d+: (\w+) (\w+) of device (\d+), as in line (\d+), may still ((?:go|be) .*?),", out)}
        return out, found, left

    def wanted(self, told):
        return {key: ends for key, ends in told.items() if ends}

    def compare(self, option, lines, unsettled, owed, noted, **which):
        """Compares what is told of a run, and of the same one whose accesses want not to be settled; counts what isn't."""
        out, found, left = self.told(option, lines)
        with self.subTest(lines=lines, out=out, **which):
            pages = {re.match(r"dma read (\d+) (\w+)", lines[line - 1]).groups() for line in found}
            others = {key: ends for key, ends in owed.items() if (str(key[2]), f"{key[1]:#x}") not in pages}
            for wanted, told in ((self.wanted(unsettled), found), (self.wanted(others), left)):
                self.assertEqual(set(told), set(wanted))
                for key, end in told.items():
                    self.assertIn(end, wanted[key])
            notes = re.findall(r"(?m)^line (\d+): note: read \w+ may still go to .*, same address, another context: ", out)
            self.assertEqual(set(map(int, notes)), noted)
            self.assertEqual(out.splitlines()[-1].split(", ")[1], f"{len(found) + len(left)} failed")
        differing = len(found) + len(left)
        lines = [f"{line} # => any unsettled" if at in unsettled else line for at, line in enumerate(lines, 1)]
        out, found, left = self.told(option, lines)
        with self.subTest(lines=lines, out=out, **which):
            settled = {int(line) for line in re.findall(r"(?m)^line (\d+): dma .*, wanted any unsettled$", out)}
            self.assertEqual(settled, {line for line, ends in unsettled.items() if not ends})
            self.assertEqual((found, set(left)), ({}, set(self.wanted(owed))))
        return differing

    def test_every_choice(self):
        """an access is settled, and a request owed, exactly as every choice of keeping and forgetting says: a request of a page
        that failed isn't told at the end, and one of accesses that want not to be settled is"""
        seed = random.randrange(2**32)
        chance, differing, besides = random.Random(seed), 0, 0
        self.image(IMAGE)
        for number in range(RUNS):
            _, played = self.play([*steps_of(chance, REQUESTS)] if number else BESIDE)
            differing += self.compare("--settled", *played, seed=seed, run=number)
            besides += len(played[-1])
        self.assertGreater(differing, RUNS // 20)
        self.assertGreater(besides, 0)

    def test_every_choice_ahead(self):
        """the same if the pages of a run may be read ahead"""
        seed = random.randrange(2**32)
        chance, more = random.Random(seed), 0
        self.image(IMAGE)
        for number in range(RUNS):
            device = chance.choice(DEVICES)
            requests = chance.sample([it for it in REQUESTS if it[0] == device], chance.choice((1, 2)))
            steps, played = self.play([*steps_of(chance, requests)] if number else EARLY, True)
            self.compare("--ahead", *played, seed=seed, run=number)
            more += self.wanted(played[1]) != self.wanted(self.played(steps, set())[1])
        self.assertGreater(more, 0)

    def test_examples(self):
        """each access of the examples is settled, but for those that show what a missing invalidation does"""
        found = set()
        for path, script, text in scripts():
            if path.parent == EXAMPLES and b", unsettled: " in run(["check", "--settled", *self.on_image(text)], script)[1]:
                found.add(path.stem)
        self.assertEqual(found, FAULTY)
