"""The judge of what another IOMMU answers."""
from __future__ import annotations

import ctypes
import threading
from typing import NamedTuple, Union

from ._library import LIBRARY, Handle
from .platform import Bytes, Platform, _bytes, _started
from .reasons import Outcome

_OUT_OF_MEMORY = 7
# More than the longest report has.
_ROOM = 8192


class Judgement(NamedTuple):
    """What a judge says of a line: its outcome, and the report, without a line end, which is empty if the line is allowed."""

    outcome: Outcome
    report: str


class Judge:
    """Judges event by event whether the standard allows what another IOMMU answers, whatever that keeps in its caches. It begins as the IOMMU of
    `platform` is now, with its registers and memory, and with nothing cached, whatever `platform` has cached; later steps of `platform` don't
    matter. If `hides` is true, it may carry out commands that no line reports.

    The judge is closed by `close`, at the end of a `with`, or when it is no longer used. Any threads may use it."""

    def __init__(self, platform: Platform, hides: bool = False) -> None:
        self._lock = threading.RLock()
        self._handle = Handle()
        _started(platform._call("judge_open", bool(hides), self._handle))

    def __enter__(self) -> Judge:
        return self

    def __exit__(self, *_: object) -> None:
        self.close()

    def __del__(self) -> None:
        # An instance whose making failed may have no handle.
        if "_handle" in vars(self):
            self.close()

    def close(self) -> None:
        """Frees the judge's memory. Closing it again does nothing; `line` then raises `ValueError`."""
        with self._lock:
            LIBRARY.rviommu_judge_close(self._handle)

    def line(self, text: Union[str, Bytes]) -> Judgement:
        """Judges the next line of a trace, an event with what was seen of it, as `dma read 5 0x40202abc 4 # => 11223344 at 0x80010abc`, or without a
        comment if nothing was. A refused line is reported with the answers that are allowed, and the judgement goes on as if nothing of it had been
        seen. If memory is refused, raises `MemoryError`, and so does each later line."""
        given = _bytes(text)
        report, length = ctypes.create_string_buffer(_ROOM), ctypes.c_size_t()
        with self._lock:
            if not self._handle.own:
                raise ValueError("the judge is closed")
            status = LIBRARY.rviommu_judge_line(self._handle, given, len(given), report, _ROOM, length)
        if status == _OUT_OF_MEMORY:
            raise MemoryError
        return Judgement(Outcome(status), report.value.decode().rstrip("\n"))
