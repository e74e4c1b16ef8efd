"""A proved platform model of the RISC-V IOMMU, for tests of drivers and of hardware.

A `Platform` is physical memory, one IOMMU and up to eight virtio block devices. Its methods are steps: the hart's loads, stores and
register accesses, the devices' accesses, and the commands that the IOMMU takes. A step that isn't carried out raises a `Refusal`.
`Platform.over` stands in front of memory of yours, which others may write between steps. A `Judge` says whether the standard allows what
another IOMMU answers.
Addresses and lengths are in bytes; a number that doesn't fit its place raises `ValueError`. `rviommu.forms` builds what is stored in
memory, as contexts and commands. Any threads may use one platform: each method runs as a whole.
"""
from .errors import AssemblyError, BadAccess, BusError, Denied, ImageError, Misuse, NoDevice, Outside, QueueStopped, Refusal, SaveError
from . import forms
from .forms import Context, ExtendedContext, FaultRecord, Fence, Gvma, Iodir, MsiPte, Pte, Vma
from .judge import Judge, Judgement
from .platform import Platform, assemble
from .reasons import HeldKind, LocatedKind, Outcome, PartKind, Register, Ruling, WayKind, WhyKind
from .values import Context as CachedContext
from .values import Located, Message, Naming, Owed, Page, Part, Unsettled, Way, Why

__all__ = ["AssemblyError", "BadAccess", "BusError", "CachedContext", "Context", "Denied", "ExtendedContext", "FaultRecord", "Fence", "Gvma", "HeldKind",
           "ImageError", "Iodir", "Judge", "Judgement", "Located", "LocatedKind", "Message", "Misuse", "MsiPte", "Naming", "NoDevice", "Outcome", "Outside", "Owed", "Page", "Part", "PartKind",
           "Platform", "Pte", "QueueStopped", "Refusal", "Register", "Ruling", "SaveError", "Unsettled", "Vma", "Way", "WayKind", "Why", "WhyKind",
           "assemble", "forms"]
__version__ = "0.4.0"
