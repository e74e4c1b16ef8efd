"""The C library, librviommu.so, by ctypes: each function with its types."""
from __future__ import annotations

import ctypes
import ctypes.util
import os
from typing import Any

from ctypes import POINTER, Structure, c_bool, c_char_p, c_size_t, c_uint8, c_uint32, c_uint64, c_void_p

from .values import Context, Located, Message, Naming, Owed, Page, Part, Unsettled, Way, Why

HERE = os.path.dirname(os.path.abspath(__file__))


class Handle(Structure):
    """Of a platform, or of a judge."""

    _fields_ = [("own", c_void_p)]


HANDLE, NUMBER, SIZE, BYTES = POINTER(Handle), POINTER(c_uint64), POINTER(c_size_t), POINTER(c_uint8)

# The parameters of each function. Each returns 32 bits, except those of NOTHING and of WIDE.
FUNCTIONS = {
    "version": (),
    "open": (c_char_p, c_size_t, HANDLE),
    "open_built_in": (HANDLE,),
    "open_lent": (c_uint64, c_uint64, HANDLE),
    "open_lent_image": (c_char_p, c_size_t, c_uint64, c_uint64, HANDLE),
    "copy": (HANDLE, HANDLE),
    "save": (HANDLE, BYTES, c_size_t, SIZE),
    "restore": (c_char_p, c_size_t, HANDLE),
    "keep_reasons": (HANDLE, c_size_t, c_bool),
    "reset": (HANDLE,),
    "close": (HANDLE,),
    "line": (HANDLE, c_char_p, c_size_t, c_char_p, c_size_t, SIZE),
    "load": (HANDLE, c_uint64, c_uint64, NUMBER),
    "store": (HANDLE, c_uint64, c_uint64, c_uint64),
    "reg_read": (HANDLE, c_uint64, c_uint64, NUMBER),
    "reg_write": (HANDLE, c_uint64, c_uint64, c_uint64),
    "dma_read": (HANDLE, c_uint64, c_uint64, BYTES, c_size_t, NUMBER),
    "dma_write": (HANDLE, c_uint64, c_uint64, c_char_p, c_size_t, NUMBER),
    "dma_read_all": (HANDLE, c_uint64, c_uint64, c_void_p, c_size_t, SIZE, NUMBER),
    "dma_write_all": (HANDLE, c_uint64, c_uint64, c_void_p, c_size_t, SIZE, NUMBER),
    "translate": (HANDLE, c_uint64, c_uint64, c_bool, NUMBER),
    "command": (HANDLE,),
    "settle": (HANDLE, c_uint32),
    "dev_read": (HANDLE, c_uint64, c_uint64, c_uint64, NUMBER),
    "dev_write": (HANDLE, c_uint64, c_uint64, c_uint64, c_uint64),
    "dev_step": (HANDLE, c_uint64, NUMBER),
    "interrupt": (HANDLE,),
    "steps": (HANDLE,),
    "reg_look": (HANDLE, c_uint64, c_uint64, NUMBER),
    "memory_place": (HANDLE, NUMBER, NUMBER),
    "memory": (HANDLE, c_uint64, BYTES, c_size_t),
    "memory_write": (HANDLE, c_uint64, c_char_p, c_size_t),
    "disk_size": (HANDLE, c_uint64, NUMBER),
    "disk": (HANDLE, c_uint64, c_uint64, BYTES, c_size_t),
    "page": (HANDLE, c_uint64, POINTER(Page)),
    "context": (HANDLE, c_uint64, POINTER(Context)),
    "messages_sent": (HANDLE,),
    "message": (HANDLE, c_uint64, POINTER(Message)),
    "take_message": (HANDLE, POINTER(Message)),
    "way_now": (HANDLE, c_uint64, c_uint64, c_bool, POINTER(Way), NUMBER),
    "part": (HANDLE, c_uint64, c_uint64, c_bool, c_uint64, POINTER(Part)),
    "stale": (HANDLE, c_uint64, c_uint64, c_bool, POINTER(Way)),
    "stale_page": (HANDLE, c_uint64, POINTER(Way)),
    "stale_context": (HANDLE, c_uint64, POINTER(Located)),
    "reason": (HANDLE, c_uint64, POINTER(Why)),
    "page_origin": (HANDLE, c_uint64, NUMBER, NUMBER),
    "context_origin": (HANDLE, c_uint64, NUMBER),
    "keep_holdings": (HANDLE, c_bool),
    "settled": (HANDLE, c_uint64, c_uint64, c_bool, POINTER(Unsettled)),
    "all_owed": (HANDLE, POINTER(Owed), c_size_t, SIZE),
    "may_free": (HANDLE, c_uint64, c_uint64, POINTER(Naming)),
    "judge_open": (HANDLE, c_bool, HANDLE),
    "judge_line": (HANDLE, c_char_p, c_size_t, c_char_p, c_size_t, SIZE),
    "judge_close": (HANDLE,),
    "assemble": (c_char_p, c_size_t, BYTES, c_size_t, SIZE, NUMBER),
    "text": (c_uint32, c_char_p, c_size_t, SIZE),
    "cause_text": (c_uint64, c_char_p, c_size_t, SIZE),
}
# Earlier names of the header.
EARLIER = {"why": "reason", "owed": "all_owed"}
FUNCTIONS |= {earlier: FUNCTIONS[name] for earlier, name in EARLIER.items()}
# Those with a form NAME_lent: it takes the words of a lent memory and their count after the handle.
LENT = ("load", "store", "reg_read", "reg_write", "dma_read", "dma_write", "dma_read_all", "dma_write_all", "translate", "command", "settle", "dev_read",
        "dev_write", "dev_step", "way_now", "settled", "owed")
FUNCTIONS |= {f"{name}_lent": (HANDLE, NUMBER, c_size_t, *FUNCTIONS[name][1:]) for name in LENT}
NOTHING = ("close", "memory_place", "reset", "judge_close")
WIDE = ("interrupt", "messages_sent", "steps")


def where() -> str:
    """The path of the shared object: $RVIOMMU_LIBRARY, else the packed one, else the one that c/build.py made beside this source, else one
    that the system finds."""
    named = os.environ.get("RVIOMMU_LIBRARY")
    packed = os.path.join(HERE, "librviommu.so")
    built = os.path.join(HERE, os.pardir, os.pardir, "c", "out", "lib", "librviommu.so")
    found = named or next((it for it in (packed, built) if os.path.exists(it)), None) or ctypes.util.find_library("rviommu")
    if not found:
        raise ImportError("there is no librviommu.so: build it with c/build.py, or name it in RVIOMMU_LIBRARY")
    return found


def loaded() -> ctypes.PyDLL:
    # Each call of a PyDLL holds the interpreter's lock, so that no other thread writes a lent memory meanwhile.
    library = ctypes.PyDLL(where())
    for name, takes in FUNCTIONS.items():
        function = getattr(library, "rviommu_" + name)
        function.argtypes = takes
        function.restype = None if name in NOTHING else c_uint64 if name in WIDE else c_uint32
    return library


LIBRARY = loaded()


def status_words(status: int) -> str:
    """The words for a status of the library."""
    return _text(LIBRARY.rviommu_text, status)


def cause_name(cause: int) -> str:
    """The standard's name of a cause of a denial."""
    return _text(LIBRARY.rviommu_cause_text, cause)


def _text(function: Any, number: int) -> str:
    words, length = ctypes.create_string_buffer(48), c_size_t()
    function(number, words, len(words), length)
    return words.value.decode()
