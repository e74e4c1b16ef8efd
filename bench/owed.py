#!/usr/bin/env python3
"""A script of a driver that never invalidates: device 5 reads so many pages, and then each of them is unmapped.

`owed.py COUNT [GAP]` writes it. Each request is owed at its end: `check --settled` reports each of them, and `debug`
answers the line `owed` at the end. GAP pages, 1 if it isn't given, are between one page and the next; pages further
apart share fewer tables. The tables stand in the built-in memory, 1 MiB at 0x80000000, so there are at most 200 of them.
"""
import sys

ROOT = 0x80002
FRAME = 0x80050
TABLES = range(0x80100 - 200, 0x80100)


class Tables:
    """Tables of Sv39 that are made where a page needs them."""

    def __init__(self):
        self.free = iter(TABLES)
        self.pages = {(): ROOT}
        self.lines = []

    def page(self, indexes):
        """The page of the table that these indexes lead to."""
        if indexes not in self.pages:
            table = next(self.free)
            self.lines.append(f"store {self.place(indexes):#x} 8 {table << 10 | 1:#x}")
            self.pages[indexes] = table
        return self.pages[indexes]

    def place(self, indexes):
        """The address of the entry of these indexes."""
        return (self.page(indexes[:-1]) << 12) + 8 * indexes[-1]

    def leaf(self, page):
        """The address of the entry of a page."""
        return self.place((page >> 18 & 511, page >> 9 & 511, page & 511))


def script(count, gap=1):
    """The lines of the script."""
    tables = Tables()
    pages = [0x40000 + gap * each for each in range(count)]
    leaves = [tables.leaf(page) for page in pages]
    set_up = ["store 0x800010b8 8 0x8000000000080002", "store 0x800010b0 8 0x3000", "store 0x800010a0 8 1", "reg write 16 8 0x20000402"]
    maps = [f"store {leaf:#x} 8 {FRAME << 10 | 0xD7:#x}" for leaf in leaves]
    reads = [f"dma read 5 {page << 12:#x} 8" for page in pages]
    unmaps = [f"store {leaf:#x} 8 0" for leaf in leaves]
    return [*set_up, *tables.lines, *maps, *reads, *unmaps]


if __name__ == "__main__":
    sys.stdout.writelines(f"{line}\n" for line in script(*map(int, sys.argv[1:])))
