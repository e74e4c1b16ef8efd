#!/usr/bin/env -S python3 -B
"""walks.py FILE [WORLDS] [SEED]    Records what a RISC-V hart's own page-table walks give, by QEMU, into FILE.

The hart is in M-mode and loads and stores as a guest's user by HLV.D and HSV.D, through both stages, without hardware
updates of A and D (walks.S is its program). Its PMP lets it reach one MiB of memory from 0x80000000 on and nothing
else. Each world has page tables and data of its own in memory that is else 0, and walks. `program_peer.py` plays the
file, tests/walks.txt, on the program and on the model of the walk, where a device makes the same accesses.

A line of FILE is one of

    world                   a world begins
    ADDRESS WORD            a word is stored
    stages FIRST SECOND     vsatp and hgatp of the walks that follow, in the form of a context's fsc and iohgatp
    r ADDRESS RESULT        eight bytes are read; RESULT is their number
    w ADDRESS WORD RESULT   eight bytes are written; RESULT is `done`
    left ADDRESS WORD       a word at the end of the world that was another one

with numbers in hex. RESULT is `!CAUSE` or `!CAUSE:GUEST` if the access is refused: mcause, and for a guest page fault
the guest-physical address with bits 1:0 cleared, and 1 more if the hart says that it was an entry of the first stage.
It needs QEMU, clang and llvm-objcopy.
"""
import subprocess
import sys
import tempfile
from pathlib import Path

from frame import TESTS
from cases import Device, Maker
from qemu import Qtest
from stages import OUTSIDE, READ, WRITE, Context, Parts, Refused

BASE, SIZE = 0x80000000, 0x100000
CODE, MAIL = 0x80400000, 0x80500000
# Pages of the tables and data; the last eight have directory and queues where the walks are played.
PAGES = range(BASE >> 12, (BASE + SIZE >> 12) - 8)
WALKS, MOST_PAGES = 100, 60
BOTH, ONE = [(8, 8), (8, 9), (9, 8), (9, 9)], [(8, 0), (9, 0), (0, 8), (0, 9)]
PSEUDO_INSTRUCTIONS = (0x3000, 0x3020)


class Hart(Qtest):
    def __init__(self, folder):
        compiled, code = Path(folder, "walks.o"), Path(folder, "walks.bin")
        target = ["--target=riscv64-unknown-elf", "-march=rv64g", "-mno-relax"]
        subprocess.run(["clang", *target, "-c", TESTS / "walks.S", "-o", compiled], check=True)
        subprocess.run(["llvm-objcopy", "-O", "binary", "-j", ".text", compiled, code], check=True)
        loaded = ["-device", f"loader,file={code},addr={CODE:#x}", "-device", f"loader,addr={CODE:#x},cpu-num=0"]
        super().__init__("-m", "8M", "-cpu", "rv64,h=on,svade=on,svadu=off,svnapot=off,svpbmt=off", *loaded)

    def memory(self):
        return bytes.fromhex(self.ask([f"read {BASE:#x} {SIZE:#x}"])[0][2:])

    def words(self, addresses):
        return [int(answer, 0) for answer in self.ask([f"readq {address:#x}" for address in addresses])]

    def walks(self, requests):
        """Carries requests out: vsatp, hgatp, an address and a word to write or 0 for a read."""
        words = [word for request in requests for word in request]
        places = [MAIL + 32 + 8 * at for at in range(len(words))]
        self.ask([f"writeq {at:#x} {word:#x}" for at, word in zip([*places, MAIL], [*words, len(requests)])])
        while self.words([MAIL])[0]:
            pass
        words = self.words(places)
        return [words[at : at + 4] for at in range(0, len(words), 4)]


class Spared(Exception):
    """A walk reads, or leads to, memory that the hart has and the player hasn't, or the other way round."""


class Seen(Parts):
    """The walks of the standard's model over a world."""

    def read(self, place, size=8):
        if PAGES.stop <= place >> 12 < MAIL + (1 << 20) >> 12 or 1 << 24 <= place < BASE:
            raise Spared
        return self.words.get(place, 0) if BASE <= place < BASE + SIZE else None

    def __init__(self, words):
        super().__init__(self.read)
        self.words = dict(words)

    def tell_entry(self, is_second, address, level, place, entry, judgement):
        # If a second stage's table is outside memory QEMU's hart reports a guest page fault for an entry of the first
        # stage, and the standard an access fault.
        if is_second and judgement == OUTSIDE:
            raise Spared

    def is_taken(self, first, second, address, data):
        """Whether the hart makes a walk as the player does; a word that is written is kept."""
        try:
            place = self.walked(Context(1, second, 0, first), address, WRITE if data else READ)[0]
            self.words |= {place: data} if self.read(place) is not None and data else {}
        except Refused:
            pass
        except Spared:
            return False
        return True


class World(Maker):
    """Page tables, data and walks, made at random."""

    def __init__(self, seed):
        super().__init__(seed)
        rng, case = self.rng, self.case
        case.bytes, self.pages = {}, [page for page in self.pages if page in PAGES]
        self.data, self.offsets = self.pages[:4], [8 * rng.randrange(512) for _ in range(4)]
        del self.pages[:4]
        for page in self.data:
            case.words |= {(page << 12) + offset: self.datum() for offset in self.offsets}
        wanted = []
        while len(wanted) < WALKS and len(self.pages) > MOST_PAGES:
            wanted += self.walks_of(*rng.choice(BOTH if self.chance(0.9) else ONE))
        seen = Seen(case.words)
        self.walks = [walk for walk in wanted if seen.is_taken(*walk)][:WALKS]

    def features(self):
        return frozenset()

    def datum(self):
        """A word other than 0 that is no valid entry."""
        return 2 * self.rng.randrange(1, 1 << 63)

    def walks_of(self, first, second):
        """Walks under two stages of these modes."""
        rng, device = self.rng, Device(0, 0)
        first, root, second, guest_root = self.tables_of(device, first, second)
        stages = first and first << 60 | root, second and second << 60 | guest_root
        addresses = [rng.choice(device.iovas) | rng.choice(self.offsets) for _ in range(rng.randrange(12, 28))]
        turned = [address ^ (1 << rng.randrange(20, 64) if self.chance(0.08) else 0) for address in addresses]
        return [(*stages, address, self.datum() if self.chance(0.4) else 0) for address in turned]


def result(is_write, cause, value, guest, instruction):
    if cause in (21, 23):
        return f"!{cause}:{guest << 2 | (instruction in PSEUDO_INSTRUCTIONS):x}"
    return f"!{cause}" if cause else "done" if is_write else f"{value:x}"


def recorded(hart, world):
    """The lines of a world."""
    words, lines, stages = world.case.words, ["world"], None
    hart.ask([f"memset {BASE:#x} {SIZE:#x} 0", *(f"writeq {at:#x} {word:#x}" for at, word in words.items())])
    lines += [f"{address:x} {word:x}" for address, word in words.items()]
    for walk, told in zip(world.walks, hart.walks(world.walks)):
        if walk[:2] != stages:
            stages = walk[:2]
            lines.append(f"stages {stages[0]:x} {stages[1]:x}")
        said = result(walk[3], *told)
        lines.append(f"w {walk[2]:x} {walk[3]:x} {said}" if walk[3] else f"r {walk[2]:x} {said}")
    after = hart.memory()
    left = {BASE + at: int.from_bytes(after[at : at + 8], "little") for at in range(0, SIZE, 8)}
    return lines + [f"left {at:x} {word:x}" for at, word in left.items() if word != words.get(at, 0)]


def main(file, worlds="120", seed="1"):
    with tempfile.TemporaryDirectory() as folder:
        hart = Hart(folder)
        try:
            lines = [it for at in range(int(worlds)) for it in recorded(hart, World(f"{seed}/{at}"))]
        finally:
            hart.end()
    Path(file).write_text("".join(f"{line}\n" for line in lines), encoding="utf-8")


if __name__ == "__main__":
    if not 2 <= len(sys.argv) <= 4:
        sys.exit(__doc__)
    main(*sys.argv[1:])
