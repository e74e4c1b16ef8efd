"""The errors. Each can be pickled, and has the same text afterwards."""
from __future__ import annotations

from typing import Any, Optional

from ._library import cause_name


class Refusal(Exception):
    """A step that the platform doesn't carry out. `step` is the step's name. `address` is the physical address, the IOVA or the offset of a
    register that the step was for, and `device` the id of its device, or of `dev_read`, `dev_write` and `dev_step` the number of the block
    device; None if the step has none. If the access was made in pieces, `done` is the number of bytes before the refused piece, and `address`
    that of this piece."""

    WORDS = "refused"
    done = 0

    def __init__(self, step: str = "", address: Optional[int] = None, device: Optional[int] = None) -> None:
        super().__init__(*_without_end((step, address, device)))
        self.step, self.address, self.device = step, address, device

    def _why(self) -> str:
        return self.WORDS

    def __str__(self) -> str:
        of = "" if self.device is None else f" of device {self.device}"
        at = "" if self.address is None else f" at {self.address:#x}"
        return f"{self.step}{of}{at}: {self._why()}" if self.step else self._why()

    def __repr__(self) -> str:
        return f"{type(self).__name__}({self})"


def _without_end(operands: tuple[Any, ...]) -> tuple[Any, ...]:
    """Without the last operands that are None."""
    return operands if not operands or operands[-1] is not None else _without_end(operands[:-1])


class Denied(Refusal):
    """The IOMMU denied a device's access; `cause` is the number in its fault record, and `name` the standard's name of that."""

    def __init__(self, cause: int, step: str = "", address: Optional[int] = None, device: Optional[int] = None) -> None:
        super().__init__(step, address, device)
        self.args = _without_end((cause, step or None, address, device))
        self.cause = cause

    @property
    def name(self) -> str:
        return cause_name(self.cause)

    def _why(self) -> str:
        return f"denied {self.cause}, {self.name}"


class BusError(Refusal):
    """A byte of the hart's access, or of the device's translated access, is outside memory."""

    WORDS = "a byte is outside memory"


class BadAccess(Refusal):
    """The registers have no access of this offset and size."""

    WORDS = "not an access that the registers take"


class NoDevice(Refusal):
    """There is no such block device."""

    WORDS = "no such block device"


class Misuse(Refusal):
    """A size, an alignment, a device id or a length is wrong, or the value doesn't fit its size."""

    WORDS = "no step has this size, alignment, device id, length or value"


class QueueStopped(Exception):
    """The command queue takes no commands. `why` is "off", or "stopped" after an error; `cqcsr` is the value of that register."""

    def __init__(self, why: str, cqcsr: int) -> None:
        super().__init__(why, cqcsr)
        self.why, self.cqcsr = why, cqcsr

    def __str__(self) -> str:
        return f"the command queue is {self.why}: cqcsr {self.cqcsr:#x}"


class Outside(Exception):
    """A byte to look at is outside memory, or beyond the end of a disk."""


class ImageError(Exception):
    """The bytes are no image."""


class SaveError(Exception):
    """The bytes are no saved platform, or one of another version."""


class AssemblyError(Exception):
    """The text can't be assembled; `line` is its first faulty line, counted from 1."""

    def __init__(self, why: str, line: int) -> None:
        super().__init__(why, line)
        self.why, self.line = why, line

    def __str__(self) -> str:
        return f"line {self.line}: {self.why}"
