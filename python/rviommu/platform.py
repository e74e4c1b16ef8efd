"""The platform: a handle of the C library, with the library's functions as methods."""
from __future__ import annotations

import copy
import ctypes
import mmap
import operator
import os
import threading
from typing import Any, Callable, Optional, SupportsIndex, TextIO, TypeVar, Union

from . import forms
from ._library import LENT, LIBRARY, Handle, status_words
from .errors import AssemblyError, BadAccess, BusError, Denied, ImageError, Misuse, NoDevice, Outside, QueueStopped, Refusal, SaveError
from .reasons import Register, WayKind
from .values import Context, Located, Message, Naming, Owed, Page, Part, Unsettled, Value, Way, Why

Memory = Union[bytearray, memoryview, mmap.mmap, ctypes.Array[Any]]
Bytes = Union[bytes, Memory]
Entry = TypeVar("Entry", bound=Value)

_VALUE, _DONE, _BYTES, _IDLE, _DENIED, _BUS_ERROR, _BAD_ACCESS, _NO_DEVICE, _MISUSE = range(9)
_OK, _OUT_OF_MEMORY, _OUTSIDE, _LITTLE_ROOM, _NO_DISK, _OTHER_MEMORY = 0, 7, 10, 11, 12, 15
_NOT_KEPT, _UNSETTLED, _CACHED, _NAMED = 18, 19, 20, 21
_LIVE, _EMPTY = 0, 1
_STALE = 3
_MOST_STEPS = 32
_MOST_BYTES = 64
_MOST_MEMORY = 64 << 20
_ROOM = 321
# Fewer than 32 pieces, wherever pages end.
_RECORDED_BYTES = 1024
_BUILT_IN = "ram 0x80000000 0x100000\n"
_BASE = 0x80000000
# The calls that need a memory of the platform's own.
_OF_OWN = ("line", "part", "stale", "stale_page", "stale_context", "judge_open")
_FQB, _FQH, _FQT, _CQB, _CQH, _CQT, _CQCSR = 0x28, 0x30, 0x34, 0x18, 0x20, 0x24, 0x48
# Of cqcsr: cqmf, cmd_to and cmd_ill, each of which stops the queue; cqon.
_CQ_ERRORS, _CQON = 7 << 8, 1 << 16

# Which operands of a step are its device and its address.
_AT_FIRST, _OF_DEVICE = (None, 0), (0, 1)
_WHERE: dict[str, tuple[Optional[int], Optional[int]]] = {
    **dict.fromkeys(("load", "store", "reg_read", "reg_write"), _AT_FIRST),
    **dict.fromkeys(("dma_read", "dma_write", "dma_read_all", "dma_write_all", "translate", "dev_read", "dev_write"), _OF_DEVICE),
    "dev_step": (0, None),
}
_REFUSALS: dict[int, type[Refusal]] = {_BUS_ERROR: BusError, _BAD_ACCESS: BadAccess, _NO_DEVICE: NoDevice, _MISUSE: Misuse}


def _started(status: int) -> None:
    if status == _OUT_OF_MEMORY:
        raise MemoryError
    if status != _OK:
        raise ImageError(status_words(status))


def _number(value: SupportsIndex) -> int:
    """A number for the library, which takes 64 bits."""
    number = operator.index(value)
    if not 0 <= number < 1 << 64:
        raise ValueError(f"{number:#x} is no number of 64 bits")
    return number


def _bytes(data: Union[str, Bytes]) -> bytes:
    # A number is no buffer, though `bytes` takes one.
    return data.encode() if isinstance(data, str) else bytes(memoryview(data))


def _room(count: int) -> Any:
    return (ctypes.c_uint8 * max(count, 1))()


def assemble(text: Union[str, Bytes]) -> bytes:
    """The image that a text of statements describes."""
    given = _bytes(text)
    length, line, room = ctypes.c_size_t(), ctypes.c_uint64(), 4096
    while True:
        image = _room(room)
        status = LIBRARY.rviommu_assemble(given, len(given), image, room, length, line)
        if status == _OK:
            return bytes(image)[: length.value]
        if status == _OUT_OF_MEMORY:
            raise MemoryError
        if status != _LITTLE_ROOM:
            raise AssemblyError(status_words(status), line.value)
        room = length.value


class Platform:
    """A platform. `image` is bytes, as `assemble` returns them; without it there are 1 MiB of memory at 0x80000000 and no block device.
    The platform is closed by `close`, at the end of a `with`, or when it is no longer used.

    If `record` names a file, each step is written there as a line of a script with its answer, and the image to a file of that name with
    `.image` added. `rviommu check RECORD.image < RECORD` replays it, and so do `debug` and `explain`."""

    # What is lent, if memory is: the buffer, and the type of its words.
    _memory: Optional[Memory] = None
    _words: Any = ctypes.c_uint64 * 0
    _record: Optional[TextIO] = None
    #: If it is set, it is called after each step that raises an interrupt, with the bits of `interrupt` that weren't pending before. A copy
    #: has none.
    on_interrupt: Optional[Callable[[int], object]] = None
    _pending = 0
    _recorded = 0

    def __init__(self, image: Optional[Bytes] = None, record: Optional[Union[str, os.PathLike[str]]] = None) -> None:
        self._begin()
        if image is None:
            _started(LIBRARY.rviommu_open_built_in(self._handle))
        else:
            given = _bytes(image)
            _started(LIBRARY.rviommu_open(given, len(given), self._handle))
        if record is not None:
            path = os.fspath(record)
            with open(path + ".image", "wb") as file:
                file.write(assemble(_BUILT_IN) if image is None else given)
            # Each line is in the file when its step is done.
            self._record = open(path, "w", encoding="ascii", buffering=1)

    def _begin(self) -> None:
        # Every use of the handle holds this lock: one thread at a time.
        self._lock = threading.RLock()
        self._handle = Handle()

    @classmethod
    def over(cls, memory: Memory, base: SupportsIndex = _BASE, image: Optional[Bytes] = None) -> Platform:
        """A platform in front of memory of yours, which is lent to it for each call: a buffer that can be written, as a bytearray, an mmap, a
        memoryview or an array of ctypes. It begins at the physical address `base`; base and size are multiples of 4096, and the end is at
        most 2^56. `image` says what the IOMMU offers, and has the window and the block devices; its memory doesn't count.

        Other platforms, and threads of this interpreter, may use the buffer too: its lock is held during each call. A buffer that has become
        shorter raises `ValueError`. So do the calls that need a memory of the platform's own: `line`, `walk`, `stale`, `stale_page`,
        `stale_context` and `Judge`."""
        with memoryview(memory) as view:
            size = view.nbytes
        start = _number(base)
        if not size or start % 4096 or size % 4096 or start + size > 1 << 56:
            raise ValueError(f"{size:#x} bytes at {start:#x} are no memory: both are multiples of 4096, and the end is at most 2^56")
        made = cls.__new__(cls)
        made._begin()
        made._memory, made._words = memory, ctypes.c_uint64 * (size // 8)
        made._lend()
        if image is None:
            _started(LIBRARY.rviommu_open_lent(start, size, made._handle))
        else:
            given = _bytes(image)
            _started(LIBRARY.rviommu_open_lent_image(given, len(given), start, size, made._handle))
        return made

    def _lend(self) -> Any:
        """The words of the lent memory, for one call."""
        words = self._words.from_buffer(self._memory)
        if ctypes.addressof(words) % 8:
            raise ValueError("the memory doesn't begin at a multiple of 8 bytes")
        return words

    def __enter__(self) -> Platform:
        return self

    def __exit__(self, *_: object) -> None:
        self.close()

    def __del__(self) -> None:
        # An instance whose making failed has no handle.
        if "_handle" in vars(self):
            self.close()

    def __repr__(self) -> str:
        with self._lock:
            if not self._handle.own:
                return "<Platform, closed>"
            base, size = self.memory_place
            return f"<Platform of {size:#x} bytes of {'' if self._memory is None else 'lent '}memory at {base:#x}>"

    def close(self) -> None:
        """Frees the platform's memory. Closing it again does nothing; all other methods then raise `ValueError`."""
        with self._lock:
            LIBRARY.rviommu_close(self._handle)
            if self._record:
                self._record.close()

    def _call(self, name: str, *operands: Any) -> Any:
        """Calls a function of the library on the open handle."""
        with self._lock:
            if not self._handle.own:
                raise ValueError("the platform is closed")
            if self._memory is not None and name in _OF_OWN:
                raise ValueError("this needs a platform with its own memory")
            if self._memory is not None and name in LENT:
                words = self._lend()
                name, operands = f"{name}_lent", (words, len(words), *operands)
            answer = getattr(LIBRARY, "rviommu_" + name)(self._handle, *operands)
            if self._record:
                self._write_steps(self._record)
            return answer

    def _write_steps(self, record: TextIO) -> None:
        """Writes the steps that aren't in the record yet."""
        now = LIBRARY.rviommu_steps(self._handle)
        answer, length = ctypes.create_string_buffer(_ROOM), ctypes.c_size_t()
        for number in range(self._recorded, now):
            question = b"trace %d" % (min(now, _MOST_STEPS) - (now - number))
            LIBRARY.rviommu_line(self._handle, question, len(question), answer, _ROOM, length)
            record.write(" # => ".join(answer.value.decode().split(" -> ", 1)) + "\n")
        self._recorded = now

    def copy(self) -> Platform:
        """A new platform equal to this one; from now on the two are independent, but a memory that is lent to this one is lent to both. The
        copy continues the count of steps. Its trace and its reasons are about its own steps only, and it keeps as many reasons as this
        one, and no holdings."""
        made = Platform.__new__(Platform)
        made._begin()
        made._memory, made._words = self._memory, self._words
        _started(self._call("copy", made._handle))
        return made

    def __copy__(self) -> Platform:
        return self.copy()

    def __deepcopy__(self, memo: dict[int, Any]) -> Platform:
        made = self.copy()
        made._memory = copy.deepcopy(self._memory, memo)
        return made

    def save(self) -> bytes:
        """The platform as bytes, for `restore`: all but its trace, its reasons, its holdings, its record, and a memory that is lent to it."""
        length = ctypes.c_size_t()
        with self._lock:
            self._call("save", None, 0, length)
            data = _room(length.value)
            if self._call("save", data, length.value, length) != _OK:
                raise MemoryError
        return bytes(data)

    @classmethod
    def restore(cls, saved: Bytes, memory: Optional[Memory] = None) -> Platform:
        """A platform that goes on where the one that was saved stood: each later step has the same answer. The count of steps goes on, and
        `trace` and `why` are about its own steps. If the saved one stood over a buffer, `memory` is a buffer of the same size, else None.
        Raises `SaveError` if the bytes are no saved platform."""
        made = cls.__new__(cls)
        made._begin()
        given = _bytes(saved)
        status = LIBRARY.rviommu_restore(given, len(given), made._handle)
        if status == _OUT_OF_MEMORY:
            raise MemoryError
        if status != _OK:
            raise SaveError(status_words(status))
        made._stand_over(memory)
        return made

    def _stand_over(self, memory: Optional[Memory]) -> None:
        """Takes the buffer that a restored platform is lent, if it is lent one."""
        base, size = self.memory_place
        is_lent = LIBRARY.rviommu_memory(self._handle, base, _room(0), 0) == _OTHER_MEMORY
        if memory is None:
            given = None
        else:
            with memoryview(memory) as view:
                given = view.nbytes
        if given != (size if is_lent else None):
            raise ValueError(f"the platform is lent {size:#x} bytes" if is_lent else "the platform has its own memory")
        if memory is not None:
            self._memory, self._words = memory, ctypes.c_uint64 * (size // 8)
            self._lend()

    def __reduce__(self) -> tuple[Any, ...]:
        """A pickle has what `save` returns and, of a platform over a buffer, the bytes of that."""
        with self._lock:
            memory = None if self._memory is None else bytearray(memoryview(self._memory).tobytes())
            return type(self).restore, (self.save(), memory)

    def reset(self) -> None:
        """Resets the IOMMU: its registers are as at reset, and both caches are empty. Memory, messages and disks stay, and the count of steps
        goes on. This is no step, so a platform with a record raises `ValueError`."""
        with self._lock:
            self._want_no_record()
            self._call("reset")

    def _want_no_record(self) -> None:
        if self._record:
            raise ValueError("a record has nothing but steps")

    def keep_reasons(self, most: SupportsIndex, accesses_only: bool = False) -> None:
        """Sets how many reasons are kept for `why`: those of the last `most` steps or, if `accesses_only` is true, of the last `most` steps
        that make an access of a device. The reasons kept so far are dropped."""
        count = _number(most)
        with self._lock:
            if self._call("keep_reasons", count, accesses_only) != _OK:
                raise MemoryError

    def keep_holdings(self, keeps: bool = True) -> None:
        """Keeps from now on what any IOMMU may hold, for `settled`, `owed` and `naming`; if `keeps` is false, ends that. It can't know what was
        read before: call it on a new platform, or right after `reset`; raises `ValueError` if something was cached since then. Each step then
        takes more time, and memory; if that is refused, these raise `MemoryError` until `reset`."""
        if self._call("keep_holdings", bool(keeps)) == _CACHED:
            raise ValueError("something is cached already: call keep_holdings on a new platform, or right after reset")

    def line(self, text: Union[str, Bytes]) -> str:
        """Carries out a line of the script, and returns its answer, which is empty for a blank line."""
        given = _bytes(text)
        answer, length = ctypes.create_string_buffer(_ROOM), ctypes.c_size_t()
        self._call("line", given, len(given), answer, _ROOM, length)
        self._tell_interrupt()
        return answer.raw[: length.value].decode()

    def _tell_interrupt(self) -> None:
        if self.on_interrupt is None:
            return
        with self._lock:
            before, self._pending = self._pending, self.interrupt
            raised = self._pending & ~before
        if raised:
            self.on_interrupt(raised)

    def _step(self, name: str, *operands: Any, number: Optional[ctypes.c_uint64] = None) -> int:
        """Carries out a step, and returns the kind of its answer. A refusal is raised."""
        answer: int = self._call(name, *operands, *([] if number is None else [number]))
        self._tell_interrupt()
        if answer == _DENIED or answer in _REFUSALS:
            device, address = (None if at is None else operands[at] for at in _WHERE.get(name, (None, None)))
            if answer in _REFUSALS:
                raise _REFUSALS[answer](name, address, device)
            if number is not None:
                raise Denied(number.value, name, address, device)
        return answer

    def _value(self, name: str, *operands: SupportsIndex) -> int:
        number = ctypes.c_uint64()
        self._step(name, *map(_number, operands), number=number)
        return number.value

    # The hart
    def load(self, address: SupportsIndex, size: SupportsIndex = 8) -> int:
        """The hart reads a number of 1, 2, 4 or 8 bytes at a physical address."""
        return self._value("load", address, size)

    def store(self, address: SupportsIndex, value: SupportsIndex, size: SupportsIndex = 8) -> None:
        """The hart writes a number at a physical address."""
        self._step("store", _number(address), _number(size), _number(value))

    def put(self, address: SupportsIndex, form: Union[forms.Form, Bytes]) -> None:
        """The hart stores a form, as a `Context` or a `Pte`, or a multiple of 8 bytes, word by word."""
        data = form.bytes() if isinstance(form, forms.Form) else _bytes(form)
        if len(data) % 8:
            raise ValueError("bytes are put by words of 8")
        with self._lock:
            for at in range(0, len(data), 8):
                self.store(operator.index(address) + at, int.from_bytes(data[at : at + 8], "little"))

    def reg_read(self, offset: SupportsIndex, size: SupportsIndex = 8) -> int:
        """The hart reads a register of the IOMMU."""
        return self._value("reg_read", offset, size)

    def reg_write(self, offset: SupportsIndex, value: SupportsIndex, size: SupportsIndex = 8) -> None:
        """The hart writes a register of the IOMMU."""
        self._step("reg_write", _number(offset), _number(size), _number(value))

    # Devices
    def _length(self, value: SupportsIndex) -> int:
        """A number of bytes, at most the largest memory."""
        length, most = operator.index(value), max(_MOST_MEMORY, ctypes.sizeof(self._words))
        if not 0 <= length <= most:
            raise ValueError(f"{length} is no length: at most {most} bytes")
        return length

    def dma_read(self, did: SupportsIndex, iova: SupportsIndex, length: SupportsIndex) -> bytes:
        """A device reads 1 to 64 bytes at an IOVA, all in one page."""
        # A longer read is refused whatever its length, so it needs no more room than this.
        count = min(self._length(length), _MOST_BYTES + 1)
        data, cause = _room(count), ctypes.c_uint64()
        self._step("dma_read", _number(did), _number(iova), data, count, number=cause)
        return bytes(data)[:count]

    def dma_write(self, did: SupportsIndex, iova: SupportsIndex, data: Bytes) -> None:
        """A device writes 1 to 64 bytes at an IOVA, all in one page."""
        given = _bytes(data)
        self._step("dma_write", _number(did), _number(iova), given, len(given), number=ctypes.c_uint64())

    def dma_read_all(self, did: SupportsIndex, iova: SupportsIndex, length: SupportsIndex) -> bytes:
        """A device reads any number of bytes, across pages, in pieces of at most 64 bytes, each of them a step. If a piece is refused, the
        refusal's `done` is the number of bytes before it."""
        count = self._length(length)
        data = _room(count)
        self._in_pieces("dma_read_all", _number(did), _number(iova), data, count)
        return bytes(data)[:count]

    def dma_write_all(self, did: SupportsIndex, iova: SupportsIndex, data: Bytes) -> None:
        """A device writes any number of bytes, likewise."""
        given = _bytes(data)
        self._in_pieces("dma_write_all", _number(did), _number(iova), (ctypes.c_uint8 * max(len(given), 1)).from_buffer_copy(given or b"\0"), len(given))

    def _in_pieces(self, name: str, did: int, iova: int, data: Any, length: int) -> None:
        at = 0
        with self._lock:
            while True:
                # A record reads the last 32 steps after each call, so it takes no more than these in one.
                count = min(length - at, _RECORDED_BYTES) if self._record and length - 1 < (1 << 64) - iova else length - at
                done = ctypes.c_size_t()
                try:
                    self._step(name, did, iova + at, ctypes.byref(data, at), count, done, number=ctypes.c_uint64())
                except Refusal as refusal:
                    refusal.done = at + done.value
                    refusal.address = iova + refusal.done
                    raise
                at += count
                if at == length:
                    return

    def translate(self, did: SupportsIndex, iova: SupportsIndex, is_write: bool = False) -> int:
        """A device asks for the translation of an IOVA, for a read or a write; no memory is accessed. Returns the physical address, also if it
        is outside memory. As an access does, this fills the caches, and a denial leaves a fault record."""
        return self._value("translate", did, iova, bool(is_write))

    def dev_read(self, device: SupportsIndex, offset: SupportsIndex, size: SupportsIndex = 4) -> int:
        """The hart reads a register of a block device; the first device is 0."""
        return self._value("dev_read", device, offset, size)

    def dev_write(self, device: SupportsIndex, offset: SupportsIndex, value: SupportsIndex, size: SupportsIndex = 4) -> None:
        """The hart writes a register of a block device."""
        self._step("dev_write", _number(device), _number(offset), _number(size), _number(value))

    def dev_step(self, device: SupportsIndex) -> bool:
        """A block device goes on by one access. Returns False if it is idle."""
        return self._step("dev_step", _number(device), number=ctypes.c_uint64()) == _DONE

    # The IOMMU
    def command(self) -> bool:
        """The command unit takes a command and carries it out. Returns False if it is idle."""
        return self._step("command") == _DONE

    def settle(self, register: Register) -> bool:
        """The IOMMU ends a write that keeps a register busy, so that it acts. Returns False if it isn't busy; only a machine with delays
        ever is."""
        return self._step("settle", Register(register)) == _DONE

    def _take_commands(self) -> None:
        """Lets the command unit take all commands. Raises `QueueStopped` if the queue is off or stops."""
        while self.command():
            pass
        cqcsr = self.reg_look(_CQCSR, 4)
        if cqcsr & _CQ_ERRORS or not cqcsr & _CQON:
            raise QueueStopped("stopped" if cqcsr & _CQON else "off", cqcsr)

    def send(self, *commands: Union[forms.Form, Bytes]) -> None:
        """Puts commands into the command queue of cqb, moves cqt, and lets the command unit take them all. Raises `QueueStopped` if the
        queue is off or stopped, or if one of the commands stops it; the commands after that one aren't put."""
        with self._lock:
            self._take_commands()
            cqb = self.reg_read(_CQB)
            base, entries = (cqb >> 10 & (1 << 44) - 1) << 12, 2 << (cqb & 0x1F)
            for command in commands:
                tail = self.reg_read(_CQT, 4)
                self.put(base + 16 * tail, command)
                self.reg_write(_CQT, (tail + 1) % entries, 4)
                self._take_commands()

    def take_fault(self) -> Optional[forms.FaultRecord]:
        """Takes the oldest record from the fault queue of fqb, and moves fqh. Returns None if the queue is empty."""
        with self._lock:
            head = self.reg_read(_FQH, 4)
            if head == self.reg_read(_FQT, 4):
                return None
            fqb = self.reg_read(_FQB)
            record = self.memory(((fqb >> 10 & (1 << 44) - 1) << 12) + 32 * head, 32)
            self.reg_write(_FQH, (head + 1) % (2 << (fqb & 0x1F)), 4)
            return forms.FaultRecord.from_bytes(record)

    # Looking
    @property
    def steps(self) -> int:
        """The number of the last step: how many steps the platform was given, including those of the one that it was copied from."""
        number: int = self._call("steps")
        return number

    @property
    def interrupt(self) -> int:
        """The pending interrupts: the value of ipsr, with bit 0 for the command queue and bit 1 for the fault queue."""
        pending: int = self._call("interrupt")
        return pending

    def reg_look(self, offset: SupportsIndex, size: SupportsIndex = 8) -> int:
        """The value that `reg_read` would return, without a step."""
        value = ctypes.c_uint64()
        if self._call("reg_look", _number(offset), _number(size), value) != _OK:
            raise BadAccess("reg_look", _number(offset))
        return value.value

    @property
    def memory_place(self) -> tuple[int, int]:
        """The first physical address of memory, and its size."""
        base, size = ctypes.c_uint64(), ctypes.c_uint64()
        self._call("memory_place", base, size)
        return base.value, size.value

    def memory(self, address: SupportsIndex, length: SupportsIndex) -> bytes:
        """The bytes of memory from a physical address on."""
        at, count = _number(address), self._length(length)
        if self._memory is not None:
            return bytes(self._view(at, count))
        data = _room(count)
        if self._call("memory", at, data, count) == _OUTSIDE:
            raise Outside(f"{count} bytes at {at:#x}")
        return bytes(data)[:count]

    def write(self, address: SupportsIndex, data: Bytes) -> None:
        """Writes any number of bytes into memory from a physical address on. This is no step, so a platform with a record raises
        `ValueError`."""
        at, given = _number(address), _bytes(data)
        with self._lock:
            self._want_no_record()
            if self._memory is not None:
                self._view(at, len(given))[:] = given
            elif self._call("memory_write", at, given, len(given)) == _OUTSIDE:
                raise Outside(f"{len(given)} bytes at {at:#x}")

    def _view(self, at: int, count: int) -> memoryview:
        """These bytes of the lent memory."""
        base, size = self.memory_place
        if not 0 <= at - base <= size - count:
            raise Outside(f"{count} bytes at {at:#x}")
        return memoryview(self._lend()).cast("B")[at - base : at - base + count]

    def disk(self, device: SupportsIndex, offset: SupportsIndex = 0, length: Optional[SupportsIndex] = None) -> bytes:
        """The bytes of a block device's disk from an offset on, to its end if no length is given."""
        number, at, size = _number(device), _number(offset), ctypes.c_uint64()
        if self._call("disk_size", number, size) == _NO_DISK:
            raise NoDevice("disk", None, number)
        count = max(size.value - at, 0) if length is None else _number(length)
        if at + count > size.value:
            raise Outside(f"{count} bytes at {at} of a disk")
        data = _room(count)
        self._call("disk", number, at, data, count)
        return bytes(data)[:count]

    def _places(self, name: str, kind: type[Entry]) -> list[Optional[Entry]]:
        found: list[Optional[Entry]] = []
        with self._lock:
            while True:
                entry = kind()
                told = self._call(name, len(found), entry)
                if told not in (_LIVE, _EMPTY):
                    return found
                found.append(entry if told == _LIVE else None)

    def pages(self) -> list[Optional[Page]]:
        """The entries of the translation cache (IOTLB), oldest first; None for an empty place."""
        return self._places("page", Page)

    def contexts(self) -> list[Optional[Context]]:
        """The entries of the context cache (DDTC), oldest first; None for an empty place."""
        return self._places("context", Context)

    @property
    def messages_sent(self) -> int:
        """How many messages devices, fences and interrupts sent, modulo 2^64: writes of four bytes into the window of the image."""
        sent: int = self._call("messages_sent")
        return sent

    def messages(self) -> list[Message]:
        """The messages that are kept, oldest first: the last 16, without those that were taken out."""
        found: list[Message] = []
        message = Message()
        with self._lock:
            while self._call("message", len(found), message) == _OK:
                found.append(message)
                message = Message()
        return found

    def take_message(self) -> Optional[Message]:
        """Takes out the oldest message that is kept. This is no step. Returns None if there is none."""
        message = Message()
        return message if self._call("take_message", message) == _OK else None

    def _device(self, did: SupportsIndex) -> int:
        number = operator.index(did)
        if not 0 <= number < 1 << 24:
            raise ValueError(f"{number:#x} is no device id")
        return number

    def walk(self, did: SupportsIndex, iova: SupportsIndex, is_write: bool = False) -> list[Part]:
        """The parts of the walk of a request, as if nothing were cached. The first is ddtp, the last is the end."""
        device, at = self._device(did), _number(iova)
        parts: list[Part] = []
        part = Part()
        with self._lock:
            while self._call("part", device, at, is_write, len(parts), part) == _OK:
                parts.append(part)
                part = Part()
        return parts

    def way_now(self, did: SupportsIndex, iova: SupportsIndex, is_write: bool = False) -> tuple[Way, Optional[int]]:
        """Where the caches, or else the tables, lead a request now: the way, and the physical address, which is None if it leads nowhere.
        Nothing is cached or reported."""
        way, address = Way(), ctypes.c_uint64()
        self._call("way_now", self._device(did), _number(iova), is_write, way, address)
        return way, None if way.kind == WayKind.NOWHERE else address.value

    def stale(self, did: SupportsIndex, iova: SupportsIndex, is_write: bool = False) -> Optional[Way]:
        """The way that the tables give a request, if it is stale: if the caches translate it otherwise. Else None."""
        way = Way()
        return way if self._call("stale", self._device(did), _number(iova), is_write, way) == _STALE else None

    def _stale_place(self, name: str, place: SupportsIndex, now: Entry) -> Optional[Entry]:
        return now if self._call(name, _number(place), now) == _STALE else None

    def stale_page(self, place: SupportsIndex) -> Optional[Way]:
        """The way that the tables give instead of the entry at a place of the translation cache, if it is stale. Else None."""
        return self._stale_place("stale_page", place, Way())

    def stale_context(self, place: SupportsIndex) -> Optional[Located]:
        """What ddtp and the directory give instead of the entry at a place of the context cache, if it is stale. Else None."""
        return self._stale_place("stale_context", place, Located())

    def _is_told(self, status: int) -> bool:
        """Whether an IOMMU may hold an entry that matters, by the answer to `settled`, `owed` or `may_free`."""
        if status == _OUT_OF_MEMORY:
            raise MemoryError
        if status == _NOT_KEPT:
            raise ValueError("what any IOMMU may hold isn't kept: call keep_holdings first")
        return status in (_UNSETTLED, _NAMED)

    def settled(self, did: SupportsIndex, iova: SupportsIndex, is_write: bool = False) -> Optional[Unsettled]:
        """None if a request is settled: if each IOMMU leads it where the tables do, whatever it keeps of what it could read and wasn't told to
        drop. Else where it may be led. Needs `keep_holdings`."""
        unsettled = Unsettled()
        return unsettled if self._is_told(self._call("settled", self._device(did), _number(iova), is_write, unsettled)) else None

    def owed(self) -> list[Owed]:
        """The requests that steps made and that aren't settled now. Needs `keep_holdings`."""
        found, room = ctypes.c_size_t(), 16
        with self._lock:
            while True:
                owed = (Owed * room)()
                self._is_told(self._call("owed", owed, room, found))
                if found.value <= room:
                    return owed[: found.value]
                room = found.value

    def naming(self, address: SupportsIndex, length: SupportsIndex) -> Optional[Naming]:
        """None if no entry that an IOMMU may hold names one of these bytes of physical memory, as its frame or as the table that it leads to: then
        they may be freed, if tables and registers don't name them. Else how many entries do, and the oldest. Needs `keep_holdings`."""
        naming = Naming()
        return naming if self._is_told(self._call("may_free", _number(address), _number(length), naming)) else None

    def why(self, step: Optional[SupportsIndex] = None) -> Optional[Why]:
        """One of the kept reasons, the oldest 0: why a step had its answer. Without `step`, the newest one. None if there is none."""
        why = Why()
        with self._lock:
            place = self._count_reasons(why) - 1 if step is None else _number(step)
            found = place >= 0 and self._call("reason", place, why) == _OK
        return why if found else None

    def _count_reasons(self, why: Why) -> int:
        """The number of kept reasons, found by bisection."""
        low, high = 0, 1
        while self._call("reason", high - 1, why) == _OK:
            low, high = high, 2 * high
        while low < high:
            middle = (low + high) // 2
            low, high = (middle + 1, high) if self._call("reason", middle, why) == _OK else (low, middle)
        return low

    def page_origin(self, place: SupportsIndex) -> Optional[tuple[int, int]]:
        """The numbers of two steps: the one that filled the context under which the page at a place of the translation cache was walked, and
        the one that filled the place. None if there are fewer places."""
        context, walk = ctypes.c_uint64(), ctypes.c_uint64()
        found = self._call("page_origin", _number(place), context, walk) == _OK
        return (context.value, walk.value) if found else None

    def context_origin(self, place: SupportsIndex) -> Optional[int]:
        """The number of the step that filled a place of the context cache. None if there are fewer places."""
        number = ctypes.c_uint64()
        return number.value if self._call("context_origin", _number(place), number) == _OK else None
