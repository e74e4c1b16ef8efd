"""Values that the platform returns: entries of the caches, parts of walks, ways, messages, and the reasons of steps."""
from __future__ import annotations

from ctypes import Structure, c_bool, c_uint32, c_uint64
from enum import IntEnum
from typing import Any, Callable, ClassVar, TypeVar, Union

from .reasons import HeldKind, LocatedKind, PartKind, Ruling, WayKind, WhyKind


Struct = TypeVar("Struct", bound="Value")


def _all(kind: type[Any], names: str) -> list[tuple[str, type[Any]]]:
    return [(name, kind) for name in names.split()]


# The kinds of an access that was let through.
_LED = (WhyKind.REGISTER, WhyKind.CONTEXT, WhyKind.WALK)
# The entries of the stages' tables, those that stand for pages of IOVAs, and those that stand for pages.
_OF_TABLES, _OF_IOVAS = (HeldKind.FIRST, HeldKind.SECOND), (HeldKind.FIRST, HeldKind.TRANSLATION)
_OF_PAGES = (*_OF_TABLES, HeldKind.TRANSLATION, HeldKind.FILE)
# Fields that `repr` prints in hex: addresses, addresses divided by 4096, words of memory, and values of messages.
_HEX = frozenset("page frame gppn ppn iotval2 place read_at guest word iohgatp ta fsc iova address value".split())


class Value(Structure):
    """A struct of the C library. Two are equal if their fields are. `repr` prints addresses in hex, and only the fields that the value's kind
    has; the others are 0."""

    # The fields that only some values have, each with the kinds that have it, or with the field that says whether it is there.
    ONLY: ClassVar[dict[str, Union[tuple[IntEnum, ...], str]]] = {}

    def _has(self, name: str) -> bool:
        only = self.ONLY.get(name)
        if only is None:
            return True
        return bool(getattr(self, only)) if isinstance(only, str) else getattr(self, "kind") in only

    def _shown(self, name: str) -> str:
        value = getattr(self, name)
        if isinstance(value, IntEnum):
            return value.name
        return f"{value:#x}" if name in _HEX else repr(value)

    def _names(self) -> list[str]:
        return [name for name, *_ in self._fields_ if not name.startswith("_")]

    def __repr__(self) -> str:
        fields = ", ".join(f"{name}={self._shown(name)}" for name in self._names() if self._has(name))
        return f"{type(self).__name__}({fields})"

    def __eq__(self, other: object) -> bool:
        if type(self) is not type(other):
            return NotImplemented
        return all(getattr(self, name) == getattr(other, name) for name in self._names())

    __hash__ = None  # type: ignore[assignment]


def _with_kinds(**kinds: type[IntEnum]) -> Callable[[type[Struct]], type[Struct]]:
    """Reads these fields of a struct as members of these enums."""

    def typed(struct: type[Struct]) -> type[Struct]:
        for name, kind in kinds.items():
            field = getattr(struct, name)
            setattr(struct, name, property(lambda value, field=field, kind=kind: kind(field.__get__(value)), field.__set__))
        return struct

    return typed


def _only(kind: IntEnum, names: str) -> dict[str, tuple[IntEnum, ...]]:
    return {name: (kind,) for name in names.split()}


class Page(Value):
    """An entry of the translation cache, `struct rviommu_page_place`. Pages and frames are addresses divided by 4096."""

    ONLY = {"pscid": "has_pscid", "gscid": "has_gscid"}

    page: int
    frame: int
    did: int
    pscid: int
    gscid: int
    level: int
    has_pscid: bool
    has_gscid: bool
    is_write: bool
    is_global: bool
    is_napot: bool

    _fields_ = [*_all(c_uint64, "page frame"), *_all(c_uint32, "did pscid gscid level"),
                *_all(c_bool, "has_pscid has_gscid is_write is_global is_napot"), ("_reserved", c_uint64 * 2)]


class Context(Value):
    """An entry of the context cache, `struct rviommu_context_place`. PPNs are addresses divided by 4096."""

    gppn: int
    ppn: int
    did: int
    pscid: int
    gscid: int
    gmode: int
    mode: int
    custom: int
    dtf: bool
    tav: bool

    _fields_ = [*_all(c_uint64, "gppn ppn"), *_all(c_uint32, "did pscid gscid gmode mode custom"), *_all(c_bool, "dtf tav"),
                ("_reserved", c_uint64 * 2)]


@_with_kinds(kind=WayKind)
class Way(Value):
    """How a request is translated, `struct rviommu_way`."""

    ONLY = {"context": (WayKind.CONTEXT, WayKind.WALK), **_only(WayKind.WALK, "frame level is_global is_napot"),
            **_only(WayKind.NOWHERE, "iotval2 cause is_reported")}

    context: Context
    frame: int
    iotval2: int
    kind: WayKind
    level: int
    cause: int
    is_global: bool
    is_reported: bool
    is_napot: bool

    _fields_ = [("context", Context), *_all(c_uint64, "frame iotval2"), *_all(c_uint32, "kind level cause"),
                *_all(c_bool, "is_global is_reported is_napot"), ("_reserved", c_uint64 * 2)]


@_with_kinds(kind=LocatedKind)
class Located(Value):
    """What ddtp and the directory say of a device, `struct rviommu_located`."""

    ONLY = {**_only(LocatedKind.CONTEXT, "context"), **_only(LocatedKind.NO_CONTEXT, "cause")}

    context: Context
    kind: LocatedKind
    cause: int

    _fields_ = [("context", Context), *_all(c_uint32, "kind cause"), ("_reserved", c_uint64 * 2)]


@_with_kinds(kind=PartKind, ruling=Ruling)
class Part(Value):
    """A part of a walk, `struct rviommu_walk_part`."""

    ONLY = {
        "place": (PartKind.ENTRY, PartKind.CONTEXT, PartKind.FIRST, PartKind.SECOND, PartKind.FILE), "read_at": "has_read_at", "word": "has_word",
        "guest": (PartKind.SECOND, PartKind.FILE), **_only(PartKind.CONTEXT, "iohgatp ta fsc"), **_only(PartKind.DDTP, "mode"),
        **_only(PartKind.END, "way"), "ruling": (PartKind.FIRST, PartKind.SECOND, PartKind.FILE),
        **{name: (PartKind.FIRST, PartKind.SECOND) for name in ("level", "has_read_at", "is_napot")},
    }

    place: int
    read_at: int
    guest: int
    word: int
    iohgatp: int
    ta: int
    fsc: int
    kind: PartKind
    mode: int
    level: int
    ruling: Ruling
    has_word: bool
    has_read_at: bool
    is_napot: bool
    way: Way

    _fields_ = [*_all(c_uint64, "place read_at guest word iohgatp ta fsc"), *_all(c_uint32, "kind mode level ruling"),
                *_all(c_bool, "has_word has_read_at is_napot"), ("way", Way), ("_reserved", c_uint64 * 4)]


class Message(Value):
    """Four bytes that a device, a fence or an interrupt wrote into the window, `struct rviommu_sent_message`: the physical address, and the number."""

    address: int
    value: int

    _fields_ = [("address", c_uint64), ("value", c_uint32), ("_reserved", c_uint64 * 2)]


class Unsettled(Value):
    """Where a request may be led that isn't settled, `struct rviommu_unsettled`: `elsewhere`, by entries that an IOMMU may hold, and `tables`. If
    a single entry leads it there, `has_number` is true, and `number` that of the last step that could read it; else `number` is 0. If a command
    names that entry that no IOFENCE.C has completed yet, `is_unfenced` is true, and `unfenced` the number of its step; else `unfenced` is 0."""

    ONLY = {"number": "has_number", "unfenced": "is_unfenced"}

    elsewhere: Way
    tables: Way
    number: int
    has_number: bool
    is_unfenced: bool
    unfenced: int

    _fields_ = [("elsewhere", Way), ("tables", Way), ("number", c_uint64), *_all(c_bool, "has_number is_unfenced"), ("unfenced", c_uint64),
                ("_reserved", c_uint64 * 2)]


class Owed(Value):
    """A request that steps made and that isn't settled, `struct rviommu_owed`. `iova` is that of the first byte of its page, `number` that of
    the last step that made such a request."""

    unsettled: Unsettled
    iova: int
    number: int
    did: int
    is_write: bool

    _fields_ = [("unsettled", Unsettled), *_all(c_uint64, "iova number"), ("did", c_uint32), ("is_write", c_bool), ("_reserved", c_uint64 * 3)]


@_with_kinds(kind=HeldKind)
class Naming(Value):
    """The entries that an IOMMU may hold and that name some memory, `struct rviommu_naming`: their `count`, and what the oldest of them is. `number`
    is that of the last step that could read it. If a command names it that no IOFENCE.C has completed yet, `is_unfenced` is true, and `unfenced`
    the number of its step; else `unfenced` is 0. `page` is the first one that it stands for, an IOVA or, of the second stage and of an MSI page
    table, the address that the first stage reached, divided by 4096; so is `did` of an entry of the directory the first."""

    ONLY = {
        "unfenced": "is_unfenced", "page": _OF_PAGES, "level": (HeldKind.DIRECTORY, *_OF_TABLES, HeldKind.TRANSLATION),
        "did": (HeldKind.DIRECTORY, HeldKind.CONTEXT, HeldKind.TRANSLATION), "pscid": "has_pscid", "gscid": "has_gscid", "has_pscid": _OF_IOVAS,
        "has_gscid": _OF_PAGES, "is_leaf": _OF_TABLES, "is_global": _OF_IOVAS, **_only(HeldKind.TRANSLATION, "is_write"),
    }

    count: int
    number: int
    unfenced: int
    page: int
    kind: HeldKind
    level: int
    did: int
    pscid: int
    gscid: int
    is_unfenced: bool
    has_pscid: bool
    has_gscid: bool
    is_leaf: bool
    is_global: bool
    is_write: bool

    _fields_ = [*_all(c_uint64, "count number unfenced page"), *_all(c_uint32, "kind level did pscid gscid"),
                *_all(c_bool, "is_unfenced has_pscid has_gscid is_leaf is_global is_write"), ("_reserved", c_uint64 * 4)]


@_with_kinds(kind=WhyKind)
class Why(Value):
    """Why a step had its answer, `struct rviommu_why`. `address` is the physical address that its access was led to, or 0."""

    ONLY = {
        "way": "is_stale", "context": (WhyKind.CONTEXT, WhyKind.WALK), **_only(WhyKind.WALK, "walk current"),
        **{name: (WhyKind.DENIED, *_LED) for name in ("iova", "did", "is_write", "is_stale")}, "address": _LED,
    }

    way: Way
    number: int
    iova: int
    context: int
    walk: int
    current: int
    did: int
    kind: WhyKind
    is_write: bool
    is_stale: bool
    address: int

    _fields_ = [("way", Way), *_all(c_uint64, "number iova context walk current"), *_all(c_uint32, "did kind"),
                *_all(c_bool, "is_write is_stale"), ("address", c_uint64), ("_reserved", c_uint64 * 3)]
