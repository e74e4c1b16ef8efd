"""The contents of memory by their fields: contexts, page-table entries, commands and fault records.

Each form has `words()`, its 64-bit words, and `bytes()`, the same in memory order. The names are those of the RISC-V IOMMU
Architecture 1.0 and of the Privileged Architecture 1.12.
"""
from __future__ import annotations

import builtins
import struct
from dataclasses import dataclass
from typing import ClassVar

BARE, SV39, SV48 = 0, 8, 9
OFF, FLAT = 0, 1


def _field(value: int, low: int, width: int) -> int:
    if not 0 <= value < 1 << width:
        raise ValueError(f"{value:#x} has more than {width} bits")
    return value << low


def _of(word: int, low: int, width: int) -> int:
    return word >> low & (1 << width) - 1


class Form:
    """Something that is stored in memory as 64-bit words."""

    def words(self) -> tuple[int, ...]:
        raise NotImplementedError

    def bytes(self) -> builtins.bytes:
        words = self.words()
        return struct.pack(f"<{len(words)}Q", *words)


@dataclass(frozen=True)
class Context(Form):
    """A device context of the base format ("Device-context fields"): 32 bytes. PPNs are addresses divided by 4096."""

    mode: int = BARE
    ppn: int = 0
    pscid: int = 0
    gmode: int = BARE
    gppn: int = 0
    gscid: int = 0
    dtf: bool = False
    valid: bool = True

    def words(self) -> tuple[int, ...]:
        return (
            _field(self.valid, 0, 1) | _field(self.dtf, 4, 1),
            _field(self.gppn, 0, 44) | _field(self.gscid, 44, 16) | _field(self.gmode, 60, 4),
            _field(self.pscid, 12, 20),
            _field(self.ppn, 0, 44) | _field(self.mode, 60, 4),
        )


@dataclass(frozen=True)
class ExtendedContext(Context):
    """A device context of the extended format ("Device-context fields"): 64 bytes. Those of an IOMMU with MSI_FLAT have it. With `msimode` FLAT
    an MSI page table at `msippn` serves each page whose number is `msipattern`, at the bits that `msimask` leaves out."""

    msimode: int = OFF
    msippn: int = 0
    msimask: int = 0
    msipattern: int = 0

    def words(self) -> tuple[int, ...]:
        table = _field(self.msippn, 0, 44) | _field(self.msimode, 60, 4)
        return *super().words(), table, _field(self.msimask, 0, 52), _field(self.msipattern, 0, 52), 0


@dataclass(frozen=True)
class MsiPte(Form):
    """An entry of an MSI page table in basic mode ("MSI page tables" of the Advanced Interrupt Architecture): 16 bytes. It leads to its PPN."""

    ppn: int

    def words(self) -> tuple[int, ...]:
        return _field(self.ppn, 10, 44) | 7, 0


@dataclass(frozen=True)
class Pte(Form):
    """An entry of a page table ("Sv39 Page Table Entry"): its PPN, and a letter of `vrwxugad` for each bit that is 1. `Pte(ppn, "v")`
    points to a table."""

    ppn: int
    bits: str = "vrwuad"

    def words(self) -> tuple[int, ...]:
        letters = "vrwxugad"
        if not set(self.bits) <= set(letters):
            raise ValueError(f"{self.bits!r} has a letter that is none of {letters!r}")
        return (sum(1 << letters.index(it) for it in set(self.bits)) | _field(self.ppn, 10, 44),)


@dataclass(frozen=True)
class Vma(Form):
    """IOTINVAL.VMA. An operand that is None is left out. `page` is the IOVA divided by 4096. An IOMMU accepts `nl` and `s` only with the
    capability of this name. With `s`, `page` stands for the aligned 2^(X+1) pages around it, where bit X is its lowest 0."""

    page: int | None = None
    pscid: int | None = None
    gscid: int | None = None
    nl: bool = False
    s: bool = False
    func3: ClassVar[int] = 0

    def words(self) -> tuple[int, ...]:
        flags = (self.page is not None) << 10 | (self.pscid is not None) << 32 | (self.gscid is not None) << 33 | self.nl << 34
        first = 1 | _field(self.func3, 7, 3) | flags | _field(self.pscid or 0, 12, 20) | _field(self.gscid or 0, 44, 16)
        return first, self.s << 9 | _field(self.page or 0, 10, 52)


class Gvma(Vma):
    """IOTINVAL.GVMA. `page` is the guest-physical address divided by 4096, and there is no PSCID."""

    func3 = 1


@dataclass(frozen=True)
class Fence(Form):
    """IOFENCE.C. If `addr` is given, a physical address that is a multiple of 4, the 32 bits of `data` are stored there."""

    addr: int | None = None
    data: int = 0
    wsi: bool = False
    pr: bool = True
    pw: bool = True

    def words(self) -> tuple[int, ...]:
        if self.addr is not None and self.addr % 4:
            raise ValueError(f"{self.addr:#x} is no multiple of 4")
        flags = (self.addr is not None) << 10 | self.wsi << 11 | self.pr << 12 | self.pw << 13
        return 2 | flags | _field(self.data, 32, 32), _field((self.addr or 0) >> 2, 0, 62)


@dataclass(frozen=True)
class Iodir(Form):
    """IODIR.INVAL_DDT: of one device, or of all."""

    did: int | None = None

    def words(self) -> tuple[int, ...]:
        return 3 | (self.did is not None) << 33 | _field(self.did or 0, 40, 24), 0


@dataclass(frozen=True)
class FaultRecord:
    """A record of the fault queue ("Fault/Event-Queue (FQ)"): 32 bytes."""

    cause: int
    ttyp: int
    did: int
    iotval: int
    iotval2: int

    @classmethod
    def from_bytes(cls, data: builtins.bytes) -> FaultRecord:
        first, _, iotval, iotval2 = struct.unpack("<4Q", data)
        return cls(_of(first, 0, 12), _of(first, 34, 6), _of(first, 40, 24), iotval, iotval2)
