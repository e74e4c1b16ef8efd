"""Scripts of accesses at random, none of which is refused; the same one for the same numbers.

The first lines set the IOMMU up: mode Bare for no stage; else device 5 with a first stage (1), or both (2), each
mapping the built-in memory, 1 MiB at 0x80000000, by one superpage. The others are 30 in 100 device reads, 30 device
writes, 20 loads and 20 stores, in some pages of that memory (at most 256 under mode Bare, else 176). A device access
has 8 to 64 bytes inside one page; a load or a store has 1, 2, 4 or 8 bytes and is aligned. 24 pages fit the
translation cache, with a key for reads and one for writes each; 176 don't.
"""
import random

KINDS = ["dma read"] * 3 + ["dma write"] * 3 + ["load"] * 2 + ["store"] * 2

DIRECTORY = ["store 0x800010a0 8 1", "reg write 16 8 0x20000402"]
SET_UP = {
    0: ["reg write 16 8 1"],
    1: [
        *("store 0x800010b8 8 0x8000000000080002", "store 0x80002008 8 0x20000c01", "store 0x80003008 8 0x200000d7"),
        *DIRECTORY,
    ],
    2: [
        *("store 0x800010a8 8 0x8000700000080020", "store 0x800010b8 8 0x8000000000000030"),
        *("store 0x80020000 8 0x200000d7", "store 0x80030008 8 0xc401", "store 0x80031008 8 0xd7"),
        *DIRECTORY,
    ],
}


def access(dice, hart_page, device_page):
    """A line that makes an access in a page, which the hart and the device call so."""
    kind = dice.choice(KINDS)
    if kind in ("dma read", "dma write"):
        size = dice.randrange(8, 65)
        address = (device_page << 12) + dice.randrange(4097 - size)
        return f"{kind} 5 {address:#x} {size if kind == 'dma read' else dice.randbytes(size).hex()}\n"
    size = dice.choice((1, 2, 4, 8))
    address = (hart_page << 12) + dice.randrange(0, 4096, size)
    return f"{kind} {address:#x} {size}{f' {dice.getrandbits(8 * size):#x}' if kind == 'store' else ''}\n"


def write(out, stages, count, lines, seed=1):
    """Writes such a script, with accesses in so many pages, to a file of text."""
    dice = random.Random(seed)
    # The tables stand in the first 0x50 pages.
    first, device = (0x50, 0x40200) if stages else (0, 0x80000)
    out.writelines(f"{line}\n" for line in SET_UP[stages])
    for _ in range(lines - len(SET_UP[stages])):
        page = first + dice.randrange(count)
        out.write(access(dice, 0x80000 + page, device + page))
