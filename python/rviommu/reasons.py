"""The kinds of a `Part`, a `Way`, a `Located`, a `Why` and a `Naming`, the outcomes of a judge, and registers that may be busy."""
from enum import IntEnum

Register = IntEnum("Register", "DDTP CQCSR FQCSR", start=0)
Register.__doc__ = "A register that may be busy on a machine with delays, until `Platform.settle`."

WayKind = IntEnum("WayKind", "REGISTER CONTEXT WALK NOWHERE", start=0)
WayKind.__doc__ = ("How a request is translated: by ddtp in mode Bare, by a context whose stages are both Bare, by the stages of a context and its MSI page table, "
                   "or not at all.")

LocatedKind = IntEnum("LocatedKind", "NO_DIRECTORY CONTEXT NO_CONTEXT", start=0)
LocatedKind.__doc__ = "What ddtp and the directory say of a device id."

PartKind = IntEnum("PartKind", "DDTP ENTRY CONTEXT FIRST SECOND END WIDE_DEVICE WIDE_IOVA WIDE_GUEST FILE", start=0)
PartKind.__doc__ = ("A part of a walk: ddtp, an entry of the directory or its leaf, an entry of the first or second stage, the end; or, in place of "
                    "entries, a number that is too wide for the directory, the first stage or the second; or, in place of the second stage, an entry of an "
                    "MSI page table.")

Ruling = IntEnum("Ruling", "OUTSIDE GUEST INVALID WRITE_ONLY RESERVED RESERVED_IN_POINTER LAST_LEVEL POINTER MISALIGNED NOT_USER NOT_READABLE NOT_WRITABLE "
                 "NOT_ACCESSED NOT_DIRTY LEAF FILE_OUTSIDE FILE_INVALID FILE_CUSTOM FILE_BAD_MODE FILE_RESIDENT FILE_RESERVED FILE_LEADS", start=0)
Ruling.__doc__ = "The ruling on an entry of a page table, or, from FILE_OUTSIDE on, of an MSI page table. All but POINTER, LEAF and FILE_LEADS are faults."

WhyKind = IntEnum("WhyKind", "NO_ACCESS DENIED REGISTER CONTEXT WALK", start=0)
WhyKind.__doc__ = "Where a step got its translation from: nowhere, ddtp, a context whose stages are both Bare, or the stages of a context."

HeldKind = IntEnum("HeldKind", "DIRECTORY CONTEXT FIRST SECOND TRANSLATION FILE", start=0)
HeldKind.__doc__ = ("An entry that an IOMMU may hold: a non-leaf entry of the directory, a context, an entry of the first or second stage's tables, a whole "
                    "translation, or an entry of an MSI page table.")

Outcome = IntEnum("Outcome", {"ALLOWED": 0, "BAD_LINE": 8, "REFUSED": 22, "UNDECIDED": 23, "UNDECIDED_BEFORE": 24})
Outcome.__doc__ = ("What a judge says of a line: some IOMMU could answer so, or nothing was seen; the line can't be read, or what was seen of it, or that can't be "
                   "judged; no IOMMU could answer so; too many states are possible, so that nothing is judged from here on; or that was so before.")
