"""Tests of the module. Expected values are the standards', or the answers of the script's own lines."""
import copy
import ctypes
import enum
import mmap
import os
import pickle
import random
import re
import subprocess
import sys
import tempfile
import threading
import typing
import unittest

import rviommu
from rviommu import (AssemblyError, BadAccess, BusError, Context, Denied, FaultRecord, Fence, Gvma, HeldKind, ImageError, Iodir, Judge, LocatedKind, Misuse, NoDevice,
                     Outcome, Outside, PartKind, Platform, Pte, QueueStopped, Register, Ruling, SaveError, Vma, WayKind, WhyKind, assemble, forms)

RAM, SIZE = 0x80000000, 0x100000
ROOT, DATA, IOVA, DID = 0x80002000, 0x80010000, 0x40201000, 5
DDTP, CQB, FQB, CQCSR, FQCSR = 0x10, 0x18, 0x28, 0x48, 0x4C


def mapped(platform=None, **context):
    """A platform in which device 5 is led by Sv39 from IOVA to DATA."""
    platform = platform or Platform()
    platform.reg_write(DDTP, 0x20000402)
    platform.put(0x80001000 + 32 * DID, Context(mode=forms.SV39, ppn=ROOT >> 12, **context))
    for table, index, entry in ((ROOT, 1, Pte(0x80003, "v")), (0x80003000, 1, Pte(0x80004, "v")), (0x80004000, 1, Pte(DATA >> 12, "vrwuad"))):
        platform.put(table + 8 * index, entry)
    return platform


def with_queues(platform):
    for base, csr, page in ((CQB, CQCSR, 0x80020), (FQB, FQCSR, 0x80021)):
        platform.reg_write(base, page << 10 | 5)
        platform.reg_write(csr, 1, 4)
    return platform


class Steps(unittest.TestCase):
    def test_hart(self):
        with Platform() as platform:
            platform.store(RAM, 0x1122334455667788)
            self.assertEqual(platform.load(RAM, 2), 0x7788)
            self.assertEqual(platform.reg_read(0), 0x3810060610)
            for error, step in ((BusError, lambda: platform.load(0)), (Misuse, lambda: platform.load(RAM + 1, 2)), (BadAccess, lambda: platform.reg_read(1, 4)),
                                (Misuse, lambda: platform.store(RAM, 256, 1)), (NoDevice, lambda: platform.dev_read(0, 0))):
                with self.assertRaises(error):
                    step()

    def test_device(self):
        platform = mapped(pscid=9)
        platform.store(DATA, 0x11)
        self.assertEqual(platform.dma_read(DID, IOVA, 2), b"\x11\0")
        platform.dma_write(DID, IOVA + 4, b"abc")
        self.assertEqual(platform.memory(DATA, 8), b"\x11\0\0\0abc\0")
        with self.assertRaises(Denied) as denied:
            platform.dma_read(6, IOVA, 1)
        self.assertEqual(denied.exception.cause, 258)
        for length in (0, 65, 4096):
            with self.assertRaises(Misuse):
                platform.dma_read(DID, IOVA, length)
            with self.assertRaises(Misuse):
                platform.dma_write(DID, IOVA, bytes(length))

    def test_caches(self):
        platform = mapped(pscid=9)
        self.assertEqual(platform.pages(), [])
        platform.dma_read(DID, IOVA, 1)
        (page,), (context,) = platform.pages(), platform.contexts()
        self.assertEqual((page.did, page.page, page.frame, page.pscid, page.has_pscid, page.has_gscid), (DID, IOVA >> 12, DATA >> 12, 9, True, False))
        self.assertEqual((page.is_write, page.is_global, page.level), (False, False, 0))
        self.assertEqual((context.did, context.mode, context.ppn, context.pscid, context.gmode), (DID, forms.SV39, ROOT >> 12, 9, forms.BARE))

    def test_64_kib(self):
        """Svnapot: a leaf whose PPN[3:0] is 8 leads page 1 of its 64 KiB to frame 1 of them."""
        platform = mapped(Platform(assemble(f"ram {RAM:#x} 0x100000\ncapabilities\n")))
        platform.store(0x80004008, 1 << 63 | (DATA >> 12 | 8) << 10 | 0xD7)
        platform.store(DATA + 0x1000, 0x77)
        self.assertEqual(platform.dma_read(DID, IOVA, 1), b"\x77")
        (page,), walk = platform.pages(), platform.walk(DID, IOVA)
        self.assertEqual((page.is_napot, page.level, page.frame), (True, 0, (DATA >> 12) + 1))
        self.assertEqual([part.is_napot for part in walk], [False, False, False, False, True, False])
        self.assertTrue(walk[5].way.is_napot)
        platform.store(0x80004008, (DATA >> 12 | 1) << 10 | 0xD7)
        way = platform.stale(DID, IOVA)
        self.assertEqual((way.is_napot, way.frame), (False, page.frame))

    def test_queues(self):
        platform = with_queues(mapped(pscid=9))
        platform.dma_read(DID, IOVA, 1)
        platform.put(0x80004008, Pte(0, ""))
        platform.dma_read(DID, IOVA, 1)
        platform.send(Vma(page=IOVA >> 12, pscid=9), Fence(addr=RAM, data=7))
        self.assertEqual(platform.load(RAM, 4), 7)
        self.assertEqual(platform.pages(), [None])
        with self.assertRaises(Denied):
            platform.dma_read(DID, IOVA, 1)
        self.assertEqual(platform.take_fault(), FaultRecord(cause=13, ttyp=2, did=DID, iotval=IOVA, iotval2=0))
        self.assertIsNone(platform.take_fault())
        platform.send(Iodir(did=DID))
        self.assertEqual(platform.contexts(), [None])

    def test_numbers_out_of_range(self):
        platform = mapped()
        too_many = (-1, 1 << 64, 1 << 64 | 5)
        for number in too_many:
            for call in (lambda n: platform.load(n), lambda n: platform.load(RAM, n), lambda n: platform.store(n, 0), lambda n: platform.store(RAM, n),
                         lambda n: platform.reg_read(n), lambda n: platform.reg_write(DDTP, n), lambda n: platform.dma_read(n, IOVA, 1),
                         lambda n: platform.dma_read(DID, n, 1), lambda n: platform.dma_read(DID, IOVA, n), lambda n: platform.dma_write(n, IOVA, b"a"),
                         lambda n: platform.dma_write(DID, n, b"a"), lambda n: platform.dev_read(n, 0), lambda n: platform.dev_write(0, n, 0),
                         lambda n: platform.dev_step(n), lambda n: platform.memory(n, 1), lambda n: platform.memory(RAM, n), lambda n: platform.put(n, Pte(0)),
                         lambda n: platform.walk(DID, n), lambda n: platform.stale(DID, n), lambda n: platform.stale_page(n), lambda n: platform.why(n),
                         lambda n: platform.page_origin(n), lambda n: platform.context_origin(n), lambda n: platform.translate(n, IOVA),
                         lambda n: platform.translate(DID, n), lambda n: platform.way_now(n, IOVA), lambda n: platform.way_now(DID, n),
                         lambda n: platform.write(n, b"a"), lambda n: Platform.over(bytearray(SIZE), n)):
                with self.subTest(number=number), self.assertRaises(ValueError):
                    call(number)
        with self.assertRaises(ValueError):
            platform.dma_read(DID, IOVA, 1 << 40)
        self.assertEqual(platform.load(RAM), 0)
        for call in (lambda: platform.store(RAM, 1.5), lambda: platform.put(RAM, 8), lambda: platform.dma_write(DID, IOVA, 8), lambda: platform.line(8),
                     lambda: platform.write(RAM, 8), lambda: Platform(8)):
            with self.assertRaises(TypeError):
                call()

    def test_stopped_queue(self):
        platform = mapped()
        with self.assertRaises(QueueStopped) as off:
            platform.send(Iodir())
        self.assertEqual((off.exception.why, off.exception.cqcsr), ("off", 0))
        platform = with_queues(platform)
        platform.send(Iodir())
        with self.assertRaises(QueueStopped) as stopped:
            platform.send(b"\xff" * 16, Iodir())
        self.assertEqual((stopped.exception.why, stopped.exception.cqcsr >> 8 & 7), ("stopped", 4))
        self.assertEqual((platform.reg_read(0x20, 4), platform.reg_read(0x24, 4)), (1, 2))
        with self.assertRaises(QueueStopped):
            platform.send(Iodir())
        self.assertEqual(platform.reg_read(0x24, 4), 2)

    def test_more_commands_than_the_queue_has_entries(self):
        platform = with_queues(mapped())
        platform.send(*[Fence(addr=RAM + 4 * number, data=number) for number in range(100)])
        self.assertEqual([platform.load(RAM + 4 * number, 4) for number in range(100)], list(range(100)))


class Translations(unittest.TestCase):
    """Of a platform with its own memory, and of one whose memory is lent."""

    def setUp(self):
        self.platforms = (Platform(), Platform.over(bytearray(SIZE)))

    def test_translate(self):
        for platform in self.platforms:
            mapped(with_queues(platform), pscid=9)
            before = platform.steps
            self.assertEqual((platform.translate(DID, IOVA + 5), platform.translate(DID, IOVA + 7, is_write=True)), (DATA + 5, DATA + 7))
            self.assertEqual([(page.page, page.is_write) for page in platform.pages()], [(IOVA >> 12, False), (IOVA >> 12, True)])
            self.assertEqual((platform.steps, platform.memory(DATA, 16)), (before + 2, bytes(16)))
            with self.assertRaises(Denied) as denied:
                platform.translate(DID, IOVA + 0x1000, True)
            self.assertEqual((denied.exception.cause, platform.take_fault()), (15, FaultRecord(cause=15, ttyp=3, did=DID, iotval=IOVA + 0x1000, iotval2=0)))
            with self.assertRaises(Misuse):
                platform.translate(1 << 24, IOVA)
            platform.put(0x80004010, Pte(0x12345, "vrwuad"))
            self.assertEqual(platform.translate(DID, IOVA + 0x1FFF), 0x12345FFF)
            with self.assertRaises(BusError):
                platform.dma_read(DID, IOVA + 0x1FFF, 1)

    def test_way_now(self):
        for platform in self.platforms:
            way, address = platform.way_now(DID, IOVA)
            self.assertEqual((way.kind, way.cause, address), (WayKind.NOWHERE, 256, None))
            mapped(platform, pscid=9)
            before = platform.steps
            way, address = platform.way_now(DID, IOVA + 5)
            self.assertEqual((way.kind, way.frame, way.context.pscid, address), (WayKind.WALK, DATA >> 12, 9, DATA + 5))
            self.assertEqual((platform.steps, platform.pages(), platform.contexts()), (before, [], []))
            platform.dma_read(DID, IOVA, 1)
            platform.store(0x80004008, 0)
            self.assertEqual((platform.way_now(DID, IOVA)[1], platform.way_now(DID, IOVA, is_write=True)[0].cause), (DATA, 15))
            platform.reg_write(DDTP, 1)
            way, address = platform.way_now(6, 5)
            self.assertEqual((way.kind, address), (WayKind.REGISTER, 5))
            with self.assertRaises(ValueError):
                platform.way_now(1 << 24, IOVA)

    def test_why_has_the_address(self):
        for platform in self.platforms:
            mapped(platform)
            self.assertEqual(platform.why().address, 0)
            platform.dma_write(DID, IOVA + 5, b"a")
            self.assertEqual((platform.why().address, platform.why().iova), (DATA + 5, IOVA + 5))
            with self.assertRaises(Denied):
                platform.dma_read(6, IOVA, 1)
            self.assertEqual(platform.why().address, 0)

    def test_reset(self):
        for platform in self.platforms:
            mapped(with_queues(platform))
            platform.dma_write(DID, IOVA, b"abc")
            steps, memory = platform.steps, platform.memory(RAM, SIZE)
            platform.reset()
            self.assertEqual((platform.steps, platform.memory(RAM, SIZE) == memory), (steps, True))
            self.assertEqual([platform.reg_look(register) for register in (DDTP, CQB, FQB)], [0, 0, 0])
            self.assertEqual((platform.pages(), platform.contexts(), platform.why().number), ([], [], steps))
            with self.assertRaises(Denied):
                platform.dma_read(DID, IOVA, 1)
            platform.reg_write(DDTP, 0x20000402)
            self.assertEqual(platform.dma_read(DID, IOVA, 3), b"abc")

    def test_write(self):
        for platform in self.platforms:
            before = platform.steps
            data = random.Random(1).randbytes(0x2003)
            platform.write(RAM + 0xFFD, data)
            platform.write(RAM + SIZE, b"")
            platform.write(RAM + SIZE - 1, memoryview(b"a"))
            self.assertEqual((platform.memory(RAM + 0xFFC, 0x2005), platform.memory(RAM + SIZE - 2, 2), platform.steps), (b"\0" + data + b"\0", b"\0a", before))
            for address in (RAM - 1, RAM + SIZE - 1, (1 << 64) - 1):
                with self.assertRaises(Outside):
                    platform.write(address, b"bc")
                with self.assertRaises(Outside):
                    platform.memory(address, 2)
            self.assertEqual(platform.memory(RAM + SIZE - 1, 1), b"a")


class Lent(unittest.TestCase):
    """A memory that is lent for each call."""

    def setUp(self):
        self.memory = bytearray(SIZE)
        self.platform = mapped(Platform.over(self.memory), pscid=9)

    def test_buffers(self):
        for memory in (bytearray(SIZE), mmap.mmap(-1, SIZE), memoryview(bytearray(SIZE + 8))[8:], (ctypes.c_uint64 * (SIZE // 8))(), (ctypes.c_uint8 * SIZE)()):
            with self.subTest(type(memory).__name__), memoryview(memory).cast("B") as view:
                platform = mapped(Platform.over(memory))
                view[DATA - RAM : DATA - RAM + 3] = b"abc"
                self.assertEqual((platform.dma_read(DID, IOVA, 4), platform.load(DATA, 2), platform.memory(DATA, 3)), (b"abc\0", 0x6261, b"abc"))
                platform.dma_write(DID, IOVA + 4, b"def")
                platform.store(DATA + 8, 0x1122334455667788)
                platform.write(DATA + 16, b"ghi")
                self.assertEqual(bytes(view[DATA - RAM : DATA - RAM + 20]), b"abc\0def\0\x88\x77\x66\x55\x44\x33\x22\x11ghi\0")
                self.assertEqual(bytes(view[0x4008:0x4010]), Pte(DATA >> 12, "vrwuad").bytes())
        self.assertEqual(repr(self.platform), "<Platform of 0x100000 bytes of lent memory at 0x80000000>")

    def test_answers_are_those_of_own_memory(self):
        """Random steps, some words of memory written by others: as stores there where memory is the platform's own."""
        chance, own, lent = random.Random(65), with_queues(mapped(pscid=9)), with_queues(self.platform)
        own_steps = []

        def answer(step):
            try:
                return step()
            except (rviommu.Refusal, QueueStopped) as refusal:
                return repr(refusal)

        for _ in range(2000):
            did, iova, size = chance.choice((DID, DID, 6)), IOVA + chance.randrange(0x1100), chance.choice((1, 2, 4, 8))
            data, word = chance.randbytes(chance.randrange(1, 65)), RAM + 8 * chance.choice((0x800, 0x801, 0x1000, 0x1001))
            entry = chance.choice((0, Pte(0x80030, "vrwuad").words()[0], Pte(DATA >> 12, "vruad").words()[0], Pte(DATA >> 12, "vrwuad").words()[0]))
            name = chance.choice(("read", "write", "translate", "others", "store", "all", "send"))
            for platform in (own, lent):
                step = {
                    "read": lambda: platform.dma_read(did, iova, len(data)),
                    "write": lambda: platform.dma_write(did, iova, data),
                    "translate": lambda: platform.translate(did, iova, size > 2),
                    "others": lambda: platform.write(0x80004008, entry.to_bytes(8, "little")),
                    "store": lambda: platform.store(DATA + iova % 0x1000, size, size),
                    "all": lambda: platform.dma_read_all(did, iova, 200),
                    "send": lambda: platform.send(Vma(page=IOVA >> 12, pscid=9), Fence(addr=word, data=size)),
                }[name]
                own_steps.append((answer(step), platform.steps, platform.why(), platform.pages(), platform.contexts(), platform.way_now(did, iova)))
            self.assertEqual(*own_steps[-2:], name)
        self.assertTrue(own.memory(RAM, SIZE) == self.memory)
        refused = {re.sub(r" at 0x[0-9a-f]+", "", kind) for kind, *_ in own_steps if isinstance(kind, str)}
        misuse = "no step has this size, alignment, device id, length or value"
        self.assertLessEqual({"Denied(dma_read of device 5: denied 13, read page fault)", "Denied(dma_write of device 5: denied 15, write page fault)",
                              "Denied(translate of device 6: denied 258, DDT entry not valid)", f"Misuse(dma_read of device 5: {misuse})",
                              f"Misuse(store: {misuse})"}, refused)

    def test_others_write(self):
        platform = self.platform
        self.memory[DATA - RAM] = 0x11
        self.assertEqual(platform.dma_read(DID, IOVA, 1), b"\x11")
        steps = platform.steps
        self.memory[0x4008:0x4010] = Pte(0x80030, "vrwuad").bytes()
        self.memory[0x30000] = 0x22
        self.assertEqual((platform.steps, platform.way_now(DID, IOVA)[1]), (steps, DATA))
        self.assertEqual((platform.dma_read(DID, IOVA, 1), platform.why().is_stale, platform.why().way.frame), (b"\x11", True, 0x80030))
        with_queues(platform).send(Vma(page=IOVA >> 12, pscid=9))
        self.assertEqual((platform.dma_read(DID, IOVA, 1), platform.why().is_stale), (b"\x22", False))

    def test_two_platforms_over_one_memory(self):
        other = Platform.over(self.memory)
        other.reg_write(DDTP, 1)
        other.dma_write(DID, DATA, b"abc")
        self.assertEqual((self.platform.dma_read(DID, IOVA, 3), self.platform.pages() != [], other.pages()), (b"abc", True, []))
        self.platform.dma_write(DID, IOVA, b"d")
        self.assertEqual(other.dma_read(7, DATA, 3), b"dbc")
        other.close()
        self.assertEqual(self.platform.load(DATA, 1), ord("d"))

    def test_place(self):
        memory = bytearray(0x3000)
        platform = Platform.over(memory, base=(1 << 56) - 0x3000)
        self.assertEqual(platform.memory_place, ((1 << 56) - 0x3000, 0x3000))
        platform.store((1 << 56) - 8, 5)
        self.assertEqual(memory[-8], 5)
        for size, base in ((0, RAM), (0x1008, RAM), (0x1000, RAM + 8), (0x1000, 1 << 56), (0x2000, (1 << 56) - 0x1000)):
            with self.subTest(size=size, base=base), self.assertRaises(ValueError):
                Platform.over(bytearray(size), base)
        for memory in (bytes(SIZE), memoryview(bytes(SIZE)), SIZE, memoryview(bytearray(2 * SIZE))[::2]):
            with self.assertRaises(TypeError):
                Platform.over(memory)
        with self.assertRaises(ValueError):
            Platform.over(memoryview(bytearray(SIZE + 8))[4 : SIZE + 4])

    def test_large(self):
        """A memory of 1 GiB, and an access longer than the 64 MiB that an image may have."""
        with mmap.mmap(-1, 1 << 30) as memory:
            platform = mapped(Platform.over(memory))
            platform.reg_write(DDTP, 1)
            memory[-5:] = b"abcde"
            self.assertEqual(platform.dma_read_all(DID, RAM + (1 << 30) - 5, 5), b"abcde")
            with self.assertRaises(BusError) as refused:
                platform.dma_read_all(DID, RAM + (1 << 30) - 70, (64 << 20) + 1)
            self.assertEqual((refused.exception.done, len(platform.memory(RAM, (64 << 20) + 1))), (70, (64 << 20) + 1))
            with self.assertRaises(ValueError):
                platform.dma_read_all(DID, RAM, (1 << 30) + 1)

    def test_nothing_is_kept_between_calls(self):
        end = self.memory[-1:]
        del self.memory[-1:]
        for call in (lambda: self.platform.dma_read(DID, IOVA, 1), lambda: self.platform.memory(RAM, 1), lambda: self.platform.write(RAM, b"a")):
            with self.assertRaises(ValueError):
                call()
        self.memory += end
        self.assertEqual(self.platform.dma_read(DID, IOVA, 1), b"\0")
        memory = mmap.mmap(-1, SIZE)
        platform = mapped(Platform.over(memory))
        memory.close()
        with self.assertRaises(ValueError):
            platform.load(RAM)

    def test_image(self):
        text = "ram 0x80000000 0x1000\ncapabilities vectors=4\n"
        platform = mapped(Platform.over(self.memory, image=assemble(text)))
        platform.reg_write(0x2F8, 0x3, 8)
        self.assertEqual((platform.memory_place, platform.reg_look(0x2F8)), ((RAM, SIZE), 3))
        platform = Platform.over(self.memory, image=assemble(text + "disk 3 1 aabb\n"))
        self.assertEqual((platform.disk(0)[:3], platform.dev_read(0, 0), platform.dev_step(0)), (b"\xaa\xbb\0", 0x74726976, False))
        with self.assertRaises(NoDevice):
            self.platform.dev_read(0, 0)
        with self.assertRaises(ImageError):
            Platform.over(self.memory, image=b"")

    def test_delays(self):
        platform = Platform(assemble("ram 0x80000000 0x1000\ncapabilities delays=1\n"))
        platform.reg_write(0x10, 1, 8)
        with self.assertRaises(Denied):
            platform.dma_read(DID, RAM, 1)
        self.assertEqual((platform.reg_read(0x10, 8), platform.settle(Register.CQCSR), platform.settle(Register.DDTP)), (0x11, False, True))
        self.assertEqual((platform.reg_read(0x10, 8), platform.settle(Register.DDTP), platform.dma_read(DID, RAM, 1)), (1, False, b"\0"))
        with self.assertRaises(ValueError):
            platform.settle(3)

    def test_calls_of_own_memory(self):
        platform = self.platform
        for call in (lambda: platform.line("reg read 0 8"), lambda: platform.walk(DID, IOVA), lambda: platform.stale(DID, IOVA), lambda: platform.stale_page(0),
                     lambda: platform.stale_context(0)):
            with self.assertRaises(ValueError):
                call()

    def test_copies(self):
        self.platform.dma_write(DID, IOVA, b"a")
        shallow, (memory, deep) = copy.copy(self.platform), copy.deepcopy((self.memory, self.platform))
        self.platform.dma_write(DID, IOVA, b"b")
        self.assertEqual((shallow.dma_read(DID, IOVA, 1), deep.dma_read(DID, IOVA, 1), memory[DATA - RAM]), (b"b", b"a", ord("a")))
        self.assertEqual((shallow.steps, deep.steps, deep.page_origin(0)), (self.platform.steps, self.platform.steps, self.platform.page_origin(0)))

    def test_closed(self):
        self.platform.close()
        for call in (lambda: self.platform.load(RAM), lambda: self.platform.memory(RAM, 1), lambda: self.platform.write(RAM, b"a"), lambda: self.platform.reset()):
            with self.assertRaises(ValueError):
                call()


class Messages(unittest.TestCase):
    WINDOW = 0x28000000
    IMAGE = assemble(f"ram {RAM:#x} {SIZE:#x}\nwindow 0x28000000 0x10000\n")

    def sending(self, platform):
        """Device 5 is led from IOVA to the window."""
        platform = with_queues(mapped(platform))
        platform.put(0x80004008, Pte(self.WINDOW >> 12, "vrwuad"))
        return platform

    def told(self, platform):
        return [(message.address, message.value) for message in platform.messages()]

    def test_sent(self):
        for platform in (Platform(self.IMAGE), Platform.over(bytearray(SIZE), image=self.IMAGE)):
            self.sending(platform)
            self.assertEqual((platform.messages(), platform.messages_sent, platform.take_message()), ([], 0, None))
            platform.dma_write(DID, IOVA + 8, b"\x01\x02\x03\x84")
            for data in (b"", b"\1" * 3, b"\1" * 8):
                with self.assertRaises((BusError, Misuse)):
                    platform.dma_write(DID, IOVA + 8, data)
            platform.send(Fence(addr=self.WINDOW + 0xFFFC, data=7))
            steps = platform.steps
            self.assertEqual(self.told(platform), [(self.WINDOW + 8, 0x84030201), (self.WINDOW + 0xFFFC, 7)])
            first, last = platform.take_message(), platform.take_message()
            self.assertEqual(((first.address, first.value), (last.address, last.value)), ((self.WINDOW + 8, 0x84030201), (self.WINDOW + 0xFFFC, 7)))
            self.assertEqual((platform.take_message(), platform.messages(), platform.messages_sent, platform.steps), (None, [], 2, steps))

    def test_shown(self):
        platform = self.sending(Platform(self.IMAGE))
        platform.dma_write(DID, IOVA, b"\x1f\0\0\0")
        (message,) = platform.messages()
        self.assertEqual((repr(message), platform.line("message 0")), ("Message(address=0x28000000, value=0x1f)", "addr=0x28000000 data=0x1f"))
        self.assertEqual(message, platform.take_message())
        self.assertEqual(platform.line("message 0"), "none")

    def test_last_are_kept(self):
        platform = self.sending(Platform(self.IMAGE))
        for value in range(20):
            platform.dma_write(DID, IOVA + 4 * value, bytes([value, 0, 0, 0]))
        wanted = [(self.WINDOW + 4 * value, value) for value in range(4, 20)]
        self.assertEqual((self.told(platform), platform.messages_sent), (wanted, 20))
        platform.reset()
        other, again, pickled = platform.copy(), Platform.restore(platform.save()), pickle.loads(pickle.dumps(platform))
        platform.take_message()
        for it in (other, again, pickled):
            self.assertEqual((self.told(it), it.messages_sent, it.save()), (wanted, 20, other.save()))
        self.assertEqual(self.told(platform), wanted[1:])

    def test_saved(self):
        memory = bytearray(SIZE)
        for platform, given in ((Platform(self.IMAGE), None), (Platform.over(memory, image=self.IMAGE), memory)):
            self.sending(platform).dma_write(DID, IOVA, b"\1\0\0\0")
            again = Platform.restore(platform.save(), given)
            for it in (platform, again):
                it.dma_write(DID, IOVA, b"\2\0\0\0")
            self.assertEqual((again.messages(), again.messages_sent, again.save()), (platform.messages(), 2, platform.save()))

    def test_recorded(self):
        with tempfile.TemporaryDirectory() as folder:
            record = os.path.join(folder, "script")
            with self.sending(Platform(self.IMAGE, record=record)) as platform:
                platform.dma_write(DID, IOVA, b"\1\0\0\0")
                platform.take_message()
                steps = platform.steps
            with open(record, encoding="ascii") as file:
                lines = file.read().splitlines()
        self.assertEqual((len(lines), lines[-1]), (steps, f"dma write {DID:#x} {IOVA:#x} 01000000 # => done"))

    def test_no_window(self):
        platform = mapped()
        platform.put(0x80004008, Pte(self.WINDOW >> 12, "vrwuad"))
        with self.assertRaises(BusError):
            platform.dma_write(DID, IOVA, b"\1\0\0\0")
        self.assertEqual((platform.messages(), platform.messages_sent), ([], 0))


class Pieces(unittest.TestCase):
    """Accesses of any length. Two pages are mapped side by side, the third isn't."""

    def setUp(self):
        self.platform = mapped(pscid=9)
        self.platform.put(0x80004010, Pte(0x80020, "vrwuad"))

    def test_over_pages(self):
        platform, data = self.platform, bytes(range(256)) * 20
        before = platform.steps
        platform.dma_write_all(DID, IOVA + 0xC01, data[: 0x1300])
        self.assertEqual(platform.memory(DATA + 0xC01, 0x3FF) + platform.memory(0x80020000, 0xF01), data[: 0x1300])
        # 0x3ff bytes up to the page's end are 16 pieces, and 0xf01 bytes are 61.
        self.assertEqual(platform.steps - before, 16 + 61)
        self.assertEqual(platform.dma_read_all(DID, IOVA + 0xC01, 0x1300), data[: 0x1300])
        self.assertEqual(platform.dma_read_all(DID, IOVA, 5), bytes(5))

    def test_how_far(self):
        platform = self.platform
        for step in (lambda: platform.dma_write_all(DID, IOVA + 0x1FA0, bytes(200)), lambda: platform.dma_read_all(DID, IOVA + 0x1FA0, 200)):
            with self.assertRaises(Denied) as denied:
                step()
            self.assertEqual((denied.exception.done, pickle.loads(pickle.dumps(denied.exception)).done), (0x60, 0x60))
        before = platform.steps
        for iova, length in ((IOVA, 0), ((1 << 64) - 1, 2)):
            with self.assertRaises(Misuse) as misuse:
                platform.dma_read_all(DID, iova, length)
            self.assertEqual(misuse.exception.done, 0)
            with self.assertRaises(Misuse):
                platform.dma_write_all(DID, iova, bytes(length))
        self.assertEqual(platform.steps, before)
        with self.assertRaises(Denied):
            platform.dma_read_all(DID, (1 << 64) - 1, 1)

    def test_steps_are_counted_by_one_rule(self):
        platform = self.platform
        before = platform.steps
        for length in (0, 65, 4096):
            with self.assertRaises(Misuse):
                platform.dma_read(DID, IOVA, length)
            with self.assertRaises(Misuse):
                platform.dma_write(DID, IOVA, bytes(length))
        self.assertEqual(platform.steps, before)


class Records(unittest.TestCase):
    def test_record(self):
        with tempfile.TemporaryDirectory() as here:
            for image in (None, assemble("ram 0x80000000 0x100000\ndisk 5 1 aa\n")):
                path = os.path.join(here, "record")
                with Platform(image, record=path) as platform:
                    platform.reg_write(DDTP, 1)
                    platform.dma_write_all(DID, RAM + 0x3FF0, bytes(range(200)) * 30)
                    self.assertEqual(platform.dma_read(DID, RAM + 0x4000, 2), b"\x10\x11")
                    platform.line("load 0x80000000 8")
                    platform.line("trace 0")
                    platform.pages()
                    for _ in range(40):
                        platform.command()
                    with self.assertRaises(BusError):
                        platform.load(0)
                    for call in (platform.reset, lambda: platform.write(RAM, b"a")):
                        with self.assertRaises(ValueError):
                            call()
                    steps = platform.steps
                with open(path, encoding="ascii") as file:
                    lines = file.read().splitlines()
                self.assertEqual((len(lines), lines[0], lines[-1]), (steps, "reg write 0x10 0x8 0x1 # => done", "load 0x0 0x8 # => bus error"))
                with open(path + ".image", "rb") as file, Platform(file.read()) as again:
                    self.assertEqual([again.line(line) for line in lines], [line.split(" # => ")[1] for line in lines])


def in_threads(*uses):
    """Runs each of these in a thread; the errors that were raised."""
    errors = []

    def run(use):
        try:
            use()
        except Exception as error:
            errors.append(error)

    threads = [threading.Thread(target=run, args=(use,)) for use in uses]
    for thread in threads:
        thread.start()
    for thread in threads:
        thread.join()
    return errors


class Threads(unittest.TestCase):
    def test_eight_threads_on_one_platform(self):
        for platform in (with_queues(mapped()), with_queues(mapped(Platform.over(bytearray(SIZE))))):
            def use(number):
                for turn in range(300):
                    platform.store(RAM + 8 * number, turn)
                    self.assertEqual(platform.load(RAM + 8 * number), turn)
                    self.assertEqual(platform.dma_read_all(DID, IOVA, 0x100), bytes(0x100))
                    platform.send(Fence(addr=RAM + 0x400 + 8 * number, data=turn))
                    self.assertEqual((platform.memory(RAM + 0x400 + 8 * number, 4), len(platform.pages())), (turn.to_bytes(4, "little"), 1))

            self.assertEqual(in_threads(*[lambda number=number: use(number) for number in range(8)]), [])

    def test_eight_threads_on_two_platforms_over_one_memory(self):
        """Nobody sees a part of what a call writes."""
        memory = bytearray(SIZE)
        platforms = [Platform.over(memory) for _ in range(2)]

        def use(number, platform):
            for _ in range(200):
                platform.dma_write_all(DID, DATA, bytes([number]) * 0x4000)
                self.assertEqual(len(set(memory[DATA - RAM : DATA - RAM + 0x4000])), 1)
                memory[DATA - RAM : DATA - RAM + 0x4000] = bytes([number + 8]) * 0x4000
                self.assertEqual(len(set(platform.dma_read_all(DID, DATA, 0x4000))), 1)

        for platform in platforms:
            platform.reg_write(DDTP, 1)
        self.assertEqual(in_threads(*[lambda number=number: use(number, platforms[number % 2]) for number in range(8)]), [])

    def test_closed_by_another_thread(self):
        for _ in range(50):
            platform = Platform()
            thread = threading.Thread(target=platform.close)
            thread.start()
            try:
                for _ in range(100):
                    platform.load(RAM)
            except ValueError:
                pass
            thread.join()
            with self.assertRaises(ValueError):
                platform.load(RAM)


class Values(unittest.TestCase):
    def test_shown(self):
        platform = mapped(pscid=9)
        platform.dma_read(DID, IOVA, 1)
        self.assertEqual(repr(platform.pages()[0]), f"Page(page={IOVA >> 12:#x}, frame={DATA >> 12:#x}, did=5, pscid=9, level=0, "
                         "has_pscid=True, has_gscid=False, is_write=False, is_global=False, is_napot=False)")
        self.assertIn("pscid=9", repr(platform.contexts()[0]))
        self.assertIn(f"iova={IOVA:#x}, ", repr(platform.why()))
        self.assertIn("kind=WALK, is_write=False, is_stale=False, address=0x80010000)", repr(platform.why()))
        self.assertEqual(repr(platform.why(0)), "Why(number=1, kind=NO_ACCESS)")
        ddtp, _, entry, *_ = platform.walk(DID, IOVA)
        self.assertEqual(repr(ddtp), "Part(word=0x80001, kind=DDTP, mode=2, has_word=True)")
        self.assertEqual(repr(entry), f"Part(place={entry.place:#x}, read_at={entry.place:#x}, word=0x20000c01, kind=FIRST, level=2, ruling=POINTER, "
                         "has_word=True, has_read_at=True, is_napot=False)")
        self.assertEqual(repr(platform.way_now(6, IOVA)[0]), "Way(iotval2=0x0, kind=NOWHERE, cause=258, is_reported=True)")
        for value in (entry.kind, entry.ruling, ddtp.kind, platform.way_now(6, IOVA)[0].kind, platform.why().kind):
            self.assertIsInstance(value, enum.IntEnum)
        self.assertEqual(repr(platform), "<Platform of 0x100000 bytes of memory at 0x80000000>")
        platform.close()
        self.assertEqual(repr(platform), "<Platform, closed>")

    def test_equal(self):
        platform = mapped(pscid=9)
        self.assertEqual(platform.walk(DID, IOVA), platform.copy().walk(DID, IOVA))
        self.assertNotEqual(platform.walk(DID, IOVA)[2], platform.walk(DID, IOVA)[3])
        self.assertNotEqual(platform.walk(DID, IOVA)[0], 0)

    def test_errors_are_pickled(self):
        platform = mapped()
        steps = (lambda: platform.dma_read(6, IOVA, 1), lambda: platform.load(0), lambda: platform.reg_read(1, 4), lambda: platform.dev_read(0, 0),
                 lambda: platform.load(RAM + 1, 2), lambda: platform.send(Iodir()), lambda: platform.memory(0, 1), lambda: Platform(b""),
                 lambda: assemble("no"), lambda: platform.disk(0))
        for step in steps:
            with self.assertRaises(Exception) as raised:
                step()
            error = raised.exception
            again = pickle.loads(pickle.dumps(error))
            self.assertEqual((type(again), str(again), vars(again)), (type(error), str(error), vars(error)))
            self.assertTrue(str(error))
        self.assertEqual((str(Denied(13)), Denied(13).args), ("denied 13, read page fault", (13,)))
        self.assertEqual(str(BusError("load")), "load: a byte is outside memory")
        self.assertEqual(str(AssemblyError("bad line", 2)), "line 2: bad line")

    def test_errors_say_where(self):
        platform = mapped()
        wanted = (
            (lambda: platform.dma_read(6, IOVA, 1), "dma_read of device 6 at 0x40201000: denied 258, DDT entry not valid"),
            (lambda: platform.translate(DID, 0x40209000, True), "translate of device 5 at 0x40209000: denied 15, write page fault"),
            (lambda: platform.dma_read_all(DID, IOVA + 0xFF0, 0x1000), "dma_read_all of device 5 at 0x40202000: denied 13, read page fault"),
            (lambda: platform.load(RAM + 1, 2), "load at 0x80000001: no step has this size, alignment, device id, length or value"),
            (lambda: platform.load(0), "load at 0x0: a byte is outside memory"),
            (lambda: platform.reg_read(1, 4), "reg_read at 0x1: not an access that the registers take"),
            (lambda: platform.dev_read(3, 4), "dev_read of device 3 at 0x4: no such block device"),
            (lambda: platform.dev_step(3), "dev_step of device 3: no such block device"),
        )
        for step, text in wanted:
            with self.assertRaises(rviommu.Refusal) as raised:
                step()
            self.assertEqual((str(raised.exception), repr(raised.exception)), (text, f"{type(raised.exception).__name__}({text})"))
        self.assertEqual((raised.exception.step, raised.exception.address, raised.exception.device), ("dev_step", None, 3))

    def test_annotations(self):
        self.assertTrue(os.path.exists(os.path.join(os.path.dirname(rviommu.__file__), "py.typed")))
        for name, method in vars(Platform).items():
            call = method.fget if isinstance(method, property) else method
            if callable(call) and not name.startswith("_"):
                with self.subTest(name=name):
                    hints = typing.get_type_hints(call)
                    wanted = call.__code__.co_varnames[1 : call.__code__.co_argcount]
                    self.assertLessEqual({*wanted, "return"}, set(hints))


    def test_strict_annotations(self):
        if subprocess.run([sys.executable, "-c", "import mypy"], capture_output=True).returncode:
            self.skipTest("mypy isn't there")
        with tempfile.TemporaryDirectory() as cache:
            words = [sys.executable, "-m", "mypy", "--strict", "--cache-dir", cache, os.path.dirname(rviommu.__file__)]
            done = subprocess.run(words, capture_output=True, text=True)
        self.assertEqual(done.returncode, 0, done.stdout)

    def test_readme(self):
        module = os.path.dirname(os.path.dirname(rviommu.__file__))
        with open(os.path.join(os.path.dirname(__file__), os.pardir, "README.md"), encoding="utf-8") as file:
            examples = re.findall(r"```python\n(.*?)```", file.read(), re.DOTALL)
        self.assertEqual(len(examples), 3)
        for example in examples:
            done = subprocess.run([sys.executable, "-B", "-c", example], env={**os.environ, "PYTHONPATH": module}, capture_output=True, text=True)
            self.assertEqual(done.returncode, 0, done.stderr)


class Reasons(unittest.TestCase):
    def test_walk(self):
        ddtp, context, *entries, end = mapped(pscid=9).walk(DID, IOVA + 5)
        self.assertEqual((ddtp.kind, ddtp.mode, ddtp.word), (PartKind.DDTP, 2, 0x80001))
        self.assertEqual((context.kind, context.place, context.word), (PartKind.CONTEXT, 0x80001000 + 32 * DID, 1))
        self.assertEqual((context.iohgatp, context.ta, context.fsc), (0, 9 << 12, forms.SV39 << 60 | ROOT >> 12))
        places = [(it.kind, it.place, it.read_at, it.level, it.ruling) for it in entries]
        self.assertEqual(places, [(PartKind.FIRST, ROOT + 8, ROOT + 8, 2, Ruling.POINTER), (PartKind.FIRST, 0x80003008, 0x80003008, 1, Ruling.POINTER),
                                  (PartKind.FIRST, 0x80004008, 0x80004008, 0, Ruling.LEAF)])
        self.assertEqual(entries[2].word, DATA >> 2 | 0xD7)
        self.assertEqual((end.kind, end.way.kind, end.way.frame, end.way.context.pscid, end.way.context.did), (PartKind.END, WayKind.WALK, DATA >> 12, 9, DID))

    def test_walk_of_both_stages(self):
        platform = mapped(gmode=forms.SV39, gppn=0x80008)
        *_, first, end = platform.walk(DID, IOVA)
        self.assertEqual((first.kind, first.place, first.has_read_at, first.ruling), (PartKind.FIRST, ROOT + 8, False, Ruling.GUEST))
        self.assertEqual((end.way.kind, end.way.cause, end.way.iotval2 & ~3), (WayKind.NOWHERE, 21, ROOT + 8))
        second = platform.walk(DID, IOVA)[2]
        self.assertEqual((second.kind, second.guest, second.place, second.ruling), (PartKind.SECOND, ROOT + 8, 0x80008000 + 8 * 2, Ruling.INVALID))

    def test_walk_of_what_is_too_wide(self):
        *_, wide, end = mapped().walk(DID, 1 << 39)
        self.assertEqual((wide.kind, wide.word, end.way.cause), (PartKind.WIDE_IOVA, 1 << 39, 13))
        *_, wide, end = mapped().walk(0x80, IOVA)
        self.assertEqual((wide.kind, wide.word, end.way.cause), (PartKind.WIDE_DEVICE, 0x80, 260))
        platform = mapped()
        platform.put(0x80001000 + 32 * DID, Context(mode=forms.SV39, ppn=1 << 29, gmode=forms.SV39, gppn=0x80008))
        *_, wide, first, end = platform.walk(DID, IOVA)
        self.assertEqual((wide.kind, wide.word, first.ruling, end.way.cause), (PartKind.WIDE_GUEST, 1 << 41 | 8, Ruling.GUEST, 21))

    def test_no_walk(self):
        platform = Platform()
        ddtp, end = platform.walk(DID, IOVA)
        self.assertEqual((ddtp.mode, end.way.kind, end.way.cause, end.way.is_reported), (0, WayKind.NOWHERE, 256, True))
        for did in (-1, 1 << 24):
            with self.assertRaises(ValueError):
                platform.walk(did, IOVA)

    def test_stale(self):
        platform = mapped(pscid=9)
        platform.dma_read(DID, IOVA, 1)
        self.assertEqual((platform.stale(DID, IOVA), platform.stale_page(0), platform.stale_context(0)), (None, None, None))
        platform.put(0x80004008, Pte(0x80020, "vrwuad"))
        way = platform.stale(DID, IOVA)
        self.assertEqual((way.kind, way.frame, way.context.ppn), (WayKind.WALK, 0x80020, ROOT >> 12))
        self.assertEqual(platform.stale_page(0).frame, 0x80020)
        self.assertIsNone(platform.stale(DID, IOVA, is_write=True))
        platform.store(0x80001000 + 32 * DID, 0)
        self.assertEqual((platform.stale(DID, IOVA).kind, platform.stale(DID, IOVA).cause), (WayKind.NOWHERE, 258))
        located = platform.stale_context(0)
        self.assertEqual((located.kind, located.cause), (LocatedKind.NO_CONTEXT, 258))
        self.assertIsNone(platform.stale_context(1))
        platform.reg_write(DDTP, 1)
        self.assertEqual((platform.stale_context(0).kind, platform.stale_page(0).kind), (LocatedKind.NO_DIRECTORY, WayKind.REGISTER))


class Settled(unittest.TestCase):
    def test_page(self):
        platform = Platform()
        platform.keep_holdings()
        with_queues(mapped(platform, pscid=9))
        platform.dma_read(DID, IOVA + 5, 1)
        read = platform.steps
        self.assertEqual((platform.settled(DID, IOVA), platform.owed()), (None, []))
        platform.put(0x80004008, Pte(0x80020, "vrwuad"))
        unsettled = platform.settled(DID, IOVA)
        self.assertEqual((unsettled.elsewhere.frame, unsettled.tables.frame), (DATA >> 12, 0x80020))
        self.assertEqual((unsettled.elsewhere.kind, unsettled.elsewhere.context.pscid), (WayKind.WALK, 9))
        self.assertEqual((unsettled.has_number, unsettled.number), (True, read))
        (owed,) = platform.owed()
        self.assertEqual((owed.did, owed.iova, owed.is_write, owed.number, owed.unsettled), (DID, IOVA, False, read, unsettled))
        self.assertIn("is_write=False", repr(owed))
        self.assertIsNotNone(platform.settled(DID, IOVA, is_write=True))
        self.assertFalse(unsettled.is_unfenced)
        platform.send(Vma(page=IOVA >> 12, pscid=9))
        unfenced = platform.settled(DID, IOVA)
        # The last step finds the queue empty.
        self.assertEqual((unfenced.is_unfenced, unfenced.unfenced), (True, platform.steps - 1))
        platform.send(Vma(page=IOVA >> 12, pscid=9), Fence())
        self.assertEqual((platform.settled(DID, IOVA), platform.owed()), (None, []))

    def test_many(self):
        platform = Platform()
        platform.keep_holdings(True)
        mapped(platform)
        for page in range(1, 41):
            platform.put(0x80004000 + 8 * page, Pte(0x80010 + page, "vrwuad"))
            platform.translate(DID, 0x40200000 + 4096 * page)
        for page in range(1, 41):
            platform.store(0x80004000 + 8 * page, 0)
        owed = platform.owed()
        self.assertEqual(sorted(it.iova for it in owed), [0x40200000 + 4096 * page for page in range(1, 41)])
        self.assertEqual({it.unsettled.tables.cause for it in owed}, {13})
        self.assertTrue(all(it.unsettled.elsewhere.frame == 0x80010 + (it.iova >> 12) % 512 for it in owed))
        platform.reset()
        self.assertEqual(platform.owed(), [])

    def test_naming(self):
        platform = Platform()
        platform.keep_holdings()
        with_queues(mapped(platform, pscid=9))
        platform.put(0x80004010, Pte(0x80011, "vruad"))
        self.assertIsNone(platform.naming(RAM, SIZE))
        with self.assertRaises(Denied):
            platform.dma_write(DID, IOVA + 4096, b"a")
        self.assertEqual(repr(platform.naming(DATA + 4096, 1)), f"Naming(count=1, number={platform.steps}, page=0x40202, kind=FIRST, level=0, pscid=9, "
                         "is_unfenced=False, has_pscid=True, has_gscid=False, is_leaf=True, is_global=False)")
        platform.dma_read(DID, IOVA + 5, 1)
        read = platform.steps
        self.assertEqual(repr(platform.naming(0x80004FFF, 1)), f"Naming(count=1, number={read}, page=0x40200, kind=FIRST, level=1, pscid=9, "
                         "is_unfenced=False, has_pscid=True, has_gscid=False, is_leaf=False, is_global=False)")
        self.assertEqual(repr(platform.naming(ROOT, 4096)), f"Naming(count=1, number={read}, kind=CONTEXT, did=5, is_unfenced=False)")
        self.assertEqual((platform.naming(DATA, 8).count, platform.naming(DATA, 8192).count, platform.naming(ROOT, 1).kind), (2, 3, HeldKind.CONTEXT))
        self.assertEqual((platform.naming(DATA + 8192, 4096), platform.naming(DATA, 0)), (None, None))
        platform.dma_write(DID, IOVA, b"a")
        written = platform.steps
        self.assertEqual(repr(platform.naming(DATA, 8)), f"Naming(count=3, number={read}, page=0x40201, kind=TRANSLATION, level=0, did=5, pscid=9, "
                         "is_unfenced=False, has_pscid=True, has_gscid=False, is_global=False, is_write=False)")
        self.assertEqual(platform.naming(0, (1 << 64) - 1).count, 7)
        for address, length in ((-1, 1), (1 << 64, 1), (0, -1), (0, 1 << 64)):
            self.assertRaises(ValueError, platform.naming, address, length)
        platform.store(0x80003008, 0)
        platform.send(Vma(pscid=9))
        naming = platform.naming(0x80004000, 4096)
        # The last step finds the queue empty.
        self.assertEqual((naming.is_unfenced, naming.unfenced, naming.number), (True, platform.steps - 1, written))
        platform.send(Fence())
        self.assertEqual((platform.naming(0x80004000, 4096), platform.naming(DATA, 4096)), (None, None))
        self.assertIsNotNone(platform.naming(ROOT, 4096))

    def test_naming_of_guests(self):
        platform = Platform()
        platform.keep_holdings()
        platform.reg_write(DDTP, 0x80001 << 10 | 3)
        platform.store(0x80001018, 0x80005 << 10 | 1)
        platform.put(0x800050C0, Context(gmode=forms.SV39, gscid=3, gppn=0x80008))
        platform.put(0x80008008, Pte(0xC0000, "vrwuad"))
        self.assertEqual(platform.translate(0x186, IOVA), 0xC0201000)
        read = platform.steps
        self.assertEqual(repr(platform.naming(0x80005000, 1)), f"Naming(count=1, number={read}, kind=DIRECTORY, level=1, did=384, is_unfenced=False)")
        self.assertEqual(repr(platform.naming(0xFFFFFFFF, 1)), f"Naming(count=1, number={read}, page=0x40000, kind=SECOND, level=2, gscid=3, "
                         "is_unfenced=False, has_gscid=True, is_leaf=True)")

    def test_not_kept(self):
        platform = mapped()
        for ask in (platform.owed, lambda: platform.settled(DID, IOVA), lambda: platform.naming(DATA, 4096)):
            self.assertRaisesRegex(ValueError, "keep_holdings", ask)
        platform.keep_holdings()
        self.assertEqual(platform.owed(), [])
        for other in (platform.copy(), Platform.restore(platform.save())):
            self.assertRaises(ValueError, other.owed)
        platform.keep_holdings(False)
        self.assertRaises(ValueError, platform.owed)
        self.assertRaises(ValueError, platform.settled, 1 << 24, IOVA)
        platform.dma_read(DID, IOVA, 1)
        self.assertRaisesRegex(ValueError, "cached", platform.keep_holdings)
        self.assertRaises(ValueError, platform.owed)
        platform.reset()
        platform.keep_holdings()
        self.assertEqual(platform.owed(), [])

    def test_lent(self):
        memory = bytearray(SIZE)
        platform = Platform.over(memory)
        platform.keep_holdings()
        mapped(platform)
        platform.dma_read(DID, IOVA, 1)
        memory[0x4008:0x4010] = bytes(8)
        self.assertEqual((platform.settled(DID, IOVA).tables.cause, [it.number for it in platform.owed()]), (13, [platform.steps]))
        self.assertEqual(platform.naming(DATA, 4096).number, platform.steps)
        memory[0x4008:0x4010] = Pte(DATA >> 12, "vrwuad").bytes()
        self.assertEqual((platform.settled(DID, IOVA), platform.owed()), (None, []))


class Judged(unittest.TestCase):
    READ = f"dma read {DID} {IOVA:#x} 4"

    def test_outcomes(self):
        platform = mapped(pscid=9)
        platform.store(DATA, 0x44332211)
        steps = platform.steps
        with Judge(platform) as judge:
            self.assertEqual(judge.line(f"{self.READ} # => 11223344 at {DATA:#x}"), (Outcome.ALLOWED, ""))
            refused = judge.line(f"{self.READ} # => 11223345")
            self.assertEqual(refused.outcome, Outcome.REFUSED)
            self.assertEqual(refused.report, f"line 2: {self.READ}: seen 11223345, allowed: 11223344 at {DATA:#x}")
            self.assertEqual(judge.line(b"store 0x80004008 8 0"), (Outcome.ALLOWED, ""))
            # Without an invalidation the IOMMU may use what it keeps, or read the table again.
            for seen, outcome in (("11223344", Outcome.ALLOWED), ("denied 13", Outcome.ALLOWED), ("granted", Outcome.BAD_LINE)):
                self.assertEqual(judge.line(f"{self.READ} # => {seen}").outcome, outcome)
            self.assertEqual(judge.line("dma read 5").outcome, Outcome.BAD_LINE)
            self.assertEqual(platform.steps, steps)
        judge.close()
        with self.assertRaises(ValueError):
            judge.line(self.READ)

    def test_begins_at_its_platform(self):
        platform = mapped(pscid=9)
        platform.dma_read(DID, IOVA, 4)
        platform.store(0x80004008, 0)
        judge = Judge(platform)
        self.assertEqual(judge.line(f"{self.READ} # => 00000000").outcome, Outcome.REFUSED)
        self.assertEqual(platform.dma_read(DID, IOVA, 4), bytes(4))
        platform.close()
        self.assertEqual(judge.line(f"{self.READ} # => denied 13").outcome, Outcome.ALLOWED)
        for closed in (platform, Platform.over(bytearray(4096))):
            with self.assertRaises(ValueError):
                Judge(closed)

    def test_hidden_commands(self):
        for hides, outcome in ((False, Outcome.REFUSED), (True, Outcome.ALLOWED)):
            judge = Judge(with_queues(Platform()), hides)
            for line in ("put 0x80020000 cmd fence", "reg write cqt 1"):
                self.assertEqual(judge.line(line).outcome, Outcome.ALLOWED)
            self.assertEqual(judge.line("reg read cqh # => 0x1").outcome, outcome)

    def test_undecided(self):
        judge = Judge(mapped(pscid=9))
        # Each second write may go to one of two pages.
        lines = [line for page in range(40) for frame in (0x80020, 0x80060)
                 for line in (f"store {0x80004000 + 8 * page:#x} 8 {frame + page << 10 | 0xD7:#x}", f"dma write {DID} {0x40200000 + 4096 * page:#x} 01")]
        outcomes = [judge.line(line).outcome for line in lines]
        at = outcomes.index(Outcome.UNDECIDED)
        self.assertEqual(set(outcomes[:at]), {Outcome.ALLOWED})
        self.assertEqual(set(outcomes[at + 1 :]), {Outcome.UNDECIDED_BEFORE})


class Accounts(unittest.TestCase):
    """Steps are counted from 1 on: `mapped` takes 8, ddtp, four words of the context and three entries."""

    def test_why(self):
        platform = Platform()
        self.assertIsNone(platform.why())
        platform = mapped(pscid=9)
        self.assertEqual((platform.why().number, platform.why().kind, platform.why(0).number, platform.why(8)), (8, WhyKind.NO_ACCESS, 1, None))
        platform.dma_read(DID, IOVA, 1)
        platform.dma_read(DID, IOVA + 5, 1)
        why = platform.why()
        self.assertEqual((why.number, why.kind, why.context, why.walk, why.current), (10, WhyKind.WALK, 9, 9, 9))
        self.assertEqual((why.did, why.iova, why.is_write, why.is_stale), (DID, IOVA + 5, False, False))
        platform.put(0x80004008, Pte(0x80020, "vrwuad"))
        platform.dma_read(DID, IOVA, 1)
        why = platform.why()
        self.assertEqual((why.number, why.walk, why.is_stale, why.way.kind, why.way.frame), (12, 9, True, WayKind.WALK, 0x80020))
        with self.assertRaises(Denied):
            platform.dma_write(6, IOVA, b"a")
        why = platform.why()
        self.assertEqual((why.number, why.kind, why.did, why.iova, why.is_write), (13, WhyKind.DENIED, 6, IOVA, True))
        self.assertEqual([platform.why(step).number for step in range(13)], list(range(1, 14)))

    def test_last_steps(self):
        platform = mapped()
        for _ in range(40):
            platform.dma_write(DID, IOVA, b"a")
        self.assertEqual((platform.why().number, platform.why(0).number, platform.why(31).number, platform.why(32)), (48, 17, 48, None))

    def test_origins(self):
        platform = with_queues(mapped(pscid=9))
        self.assertEqual((platform.context_origin(0), platform.page_origin(0)), (None, None))
        platform.dma_read(DID, IOVA, 1)
        platform.dma_write(DID, IOVA, b"a")
        self.assertEqual((platform.context_origin(0), platform.page_origin(0), platform.page_origin(1)), (13, (13, 13), (13, 14)))
        platform.send(Iodir(did=DID))
        platform.dma_read(DID, IOVA, 1)
        why = platform.why()
        self.assertEqual((platform.contexts()[0], why.context, why.walk, why.current), (None, 13, 13, why.number))
        self.assertEqual((platform.context_origin(0), platform.context_origin(1), platform.context_origin(2)), (13, why.number, None))

    def test_copy_counts_on(self):
        platform = mapped()
        platform.dma_read(DID, IOVA, 1)
        other = platform.copy()
        platform.close()
        self.assertEqual((other.why(), other.page_origin(0)), (None, (9, 9)))
        other.dma_read(DID, IOVA, 1)
        self.assertEqual((other.why().number, other.why().walk, other.why(0).number, other.why(1)), (10, 9, 10, None))
        self.assertEqual((other.line("trace 0")[:8], other.line("trace 1")), ("dma read", "none"))

    def test_kept_reasons(self):
        platform = mapped()
        platform.keep_reasons(3, accesses_only=True)
        self.assertIsNone(platform.why())
        for step in range(5):
            platform.dma_write(DID, IOVA, b"a")
            platform.load(RAM)
        self.assertEqual([platform.why(step).number for step in range(3)], [13, 15, 17])
        self.assertEqual((platform.why().number, platform.why(3)), (17, None))
        platform.keep_reasons(1 << 16)
        for _ in range(1000):
            platform.load(RAM)
        self.assertEqual((platform.why(0).number, platform.why().number, platform.copy().why()), (19, 1018, None))
        with self.assertRaises(MemoryError):
            platform.keep_reasons((1 << 64) - 1)

    def test_interrupt(self):
        platform = with_queues(mapped())
        platform.reg_write(FQCSR, 3, 4)
        before = platform.why().number
        self.assertEqual(platform.interrupt, 0)
        with self.assertRaises(Denied):
            platform.dma_read(6, IOVA, 1)
        self.assertEqual((platform.interrupt, platform.reg_look(0x54, 4), platform.why().number), (2, 2, before + 1))
        with self.assertRaises(BadAccess):
            platform.reg_look(1, 4)

    def test_raised(self):
        platform, raised = with_queues(mapped()), []
        platform.reg_write(FQCSR, 3, 4)
        platform.on_interrupt = raised.append
        platform.dma_read(5, IOVA, 1)
        self.assertEqual(raised, [])
        for _ in range(2):
            with self.assertRaises(Denied):
                platform.dma_read(6, IOVA, 1)
        self.assertEqual(raised, [2])
        platform.reg_write(0x54, 2, 4)
        self.assertTrue(platform.line("dma read 6 0x40201abc 1").startswith("denied "))
        self.assertEqual((raised, platform.copy().on_interrupt), ([2, 2], None))


class Starts(unittest.TestCase):
    def test_image(self):
        image = assemble("ram 0x90000000 0x2000\nat 0x90000000\nbytes 0102\n")
        with Platform(image) as platform:
            self.assertEqual(platform.memory_place, (0x90000000, 0x2000))
            self.assertEqual(platform.memory(0x90000000, 3), b"\1\2\0")
            with self.assertRaises(Outside):
                platform.memory(0x90001FFF, 2)
            with self.assertRaises(NoDevice):
                platform.disk(0)

    def test_disk(self):
        with Platform(assemble("ram 0x80000000 0x1000\ndisk 3 1 aabb\n")) as platform:
            self.assertEqual(platform.disk(0), b"\xaa\xbb" + bytes(510))
            self.assertEqual(platform.disk(0, 1, 2), b"\xbb\0")
            self.assertEqual(platform.disk(0, 512, 0), b"")
            with self.assertRaises(Outside):
                platform.disk(0, 511, 2)
            self.assertEqual(platform.dev_read(0, 0), 0x74726976)
            self.assertFalse(platform.dev_step(0))

    def test_refusals(self):
        for image, why in ((b"", "truncated"), (b"RVIOMMU9" + bytes(24), "bad magic"), (assemble("ram 0x80000000 0x1000") + b"x", "trailing bytes")):
            with self.assertRaisesRegex(ImageError, why):
                Platform(image)
        for text, line, why in (("ram 0x80000000 0x1000\nno\n", 2, "bad line"), ("ram 0x80000000 0x1000\nat 0\nbytes 00\n", 3, "outside memory"), ("", 0, "bad line")):
            with self.assertRaisesRegex(AssemblyError, why) as error:
                assemble(text)
            self.assertEqual(error.exception.line, line)

    def test_long_image(self):
        text = "ram 0x80000000 0x10000\n" + "".join(f"at {RAM + 128 * i:#x}\nbytes {'ff' * 64}\n" for i in range(200))
        with Platform(assemble(text)) as platform:
            self.assertEqual(platform.memory(RAM + 128 * 199, 65), b"\xff" * 64 + b"\0")

    def test_copy(self):
        platform = mapped()
        other = platform.copy()
        other.store(DATA, 5)
        self.assertEqual((platform.load(DATA), other.load(DATA)), (0, 5))
        self.assertEqual((platform.line("trace 0")[:9], other.line("trace 0")[:5]), ("reg write", "store"))

    def test_copy_module(self):
        platform = mapped()
        for made in (copy.copy(platform), copy.deepcopy(platform), copy.deepcopy([platform, platform])[0]):
            made.store(DATA, 5)
            self.assertEqual((platform.load(DATA), made.load(DATA)), (0, 5))
            platform.store(DATA, 0)
            made.close()
        self.assertEqual(platform.load(DATA), 0)

    def test_saved(self):
        platform = with_queues(mapped(Platform(assemble("ram 0x80000000 0x100000\ndisk 5 1 aabb\n")), pscid=9))
        platform.dma_read(DID, IOVA, 1)
        saved = platform.save()
        again = Platform.restore(saved)
        self.assertEqual((again.save(), again.steps, again.why()), (saved, platform.steps, None))
        numbers = random.Random(7)
        for step in range(500):
            kind, at, value = numbers.randrange(5), numbers.randrange(0x40), numbers.randrange(256)
            told = []
            for it in (platform, again):
                try:
                    told.append((it.line(f"load {RAM + 8 * at:#x} 8"), it.store(0x80004000, (0x80010 + value) << 10 | 0xD7), it.dma_write(DID, IOVA + at, bytes([value])),
                                 it.send(Vma(pscid=9)), it.dev_step(0))[kind:])
                except (Denied, BusError) as error:
                    told.append(str(error))
            self.assertEqual(told[0], told[1], step)
        self.assertEqual(again.save(), platform.save())
        self.assertEqual((again.why(), again.line("trace 0")), (platform.why(), platform.line("trace 0")))
        self.assertEqual((again.page_origin(0), again.context_origin(0)), (platform.page_origin(0), platform.context_origin(0)))

    def test_pickled(self):
        platform = mapped()
        platform.dma_read(DID, IOVA, 1)
        again, other = pickle.loads(pickle.dumps([platform, platform.copy()]))
        self.assertEqual((again.save(), again.pages(), other.save()), (platform.save(), platform.pages(), platform.save()))
        again.store(DATA, 5)
        self.assertEqual((again.load(DATA), platform.load(DATA)), (5, 0))

    def test_saved_over_a_buffer(self):
        memory = bytearray(SIZE)
        platform = mapped(Platform.over(memory))
        platform.dma_write(DID, IOVA, b"abc")
        saved = platform.save()
        again = Platform.restore(saved, memory)
        self.assertLess(len(saved), 4096)
        self.assertEqual((again.dma_read(DID, IOVA, 3), again.steps), (b"abc", platform.steps + 1))
        other = pickle.loads(pickle.dumps(platform))
        other.dma_write(DID, IOVA, b"x")
        self.assertEqual((other.memory(DATA, 3), bytes(memory[DATA - RAM : DATA - RAM + 3])), (b"xbc", b"abc"))
        for wrong in (None, bytearray(SIZE // 2)):
            with self.assertRaises(ValueError):
                Platform.restore(saved, wrong)
        with self.assertRaises(ValueError):
            Platform.restore(Platform().save(), memory)

    def test_refused_saves(self):
        saved = Platform().save()
        for bytes_, why in ((b"", "not a saved platform"), (saved[:-8], "not a saved platform"), (saved + bytes(8), "not a saved platform"),
                            (saved[:8] + b"\1" + saved[9:], "other version"),
                            (saved[:-1] + b"\xff", "not a saved platform"), (saved[:28] + b"\1" + saved[29:], "not a saved platform")):
            with self.assertRaisesRegex(SaveError, why) as raised:
                Platform.restore(bytes_)
            self.assertEqual(str(pickle.loads(pickle.dumps(raised.exception))), why)
        platform = Platform()
        platform.close()
        with self.assertRaises(ValueError):
            platform.save()

    def test_line_of_bytes(self):
        platform = Platform()
        self.assertEqual((platform.line(b"reg read 0 8"), platform.line(bytearray(b"load 0x80000000 1")), platform.line(b"\xff")), ("0x3810060610", "0x0", "bad"))

    def test_closed(self):
        platform = Platform()
        platform.close()
        platform.close()
        with self.assertRaises(ValueError):
            platform.load(RAM)


class Forms(unittest.TestCase):
    """Each form is told by the program's own lines, which have their own way to the words."""

    def told(self, kind, form):
        platform = Platform(assemble(f"ram {RAM:#x} 0x1000\ncapabilities nl=1 s=1\n"))
        platform.put(RAM, form)
        return platform.line(f"show {kind} {RAM:#x}")

    def test_commands(self):
        for form in (Vma(), Vma(page=0x40201, pscid=9, gscid=3), Gvma(gscid=3), Gvma(page=1, gscid=2), Vma(page=3, nl=True, s=True), Fence(), Fence(addr=0x80000004, data=0x1234), Iodir(), Iodir(did=7)):
            with self.subTest(form=form):
                told = self.told("cmd", form)
                self.assertFalse(told.startswith("u64"), told)
                with Platform(assemble(f"ram {RAM:#x} 0x1000\ncapabilities nl=1 s=1\n{told}\n")) as platform:
                    self.assertEqual(platform.memory(RAM, 16), form.bytes())
                for name, value in vars(form).items():
                    if value and not isinstance(value, bool):
                        self.assertIn(f"{value:#x}", told)

    def test_context(self):
        told = self.told("context", Context(mode=forms.SV48, ppn=5, pscid=6, gmode=forms.SV39, gppn=8, gscid=9, dtf=True))
        for part in ("mode=0x9", "ppn=0x5", "pscid=0x6", "gmode=0x8", "gppn=0x8", "gscid=0x9", "dtf=0x1"):
            self.assertIn(part, told)

    def test_limits(self):
        for form in (Pte(1 << 44), Pte(0, "z"), Context(pscid=1 << 20), Vma(gscid=1 << 16), Iodir(did=1 << 24), Fence(addr=2), Fence(data=1 << 32)):
            with self.subTest(form=form), self.assertRaises(ValueError):
                form.bytes()

    def test_pte(self):
        self.assertEqual(Pte(0x80010, "vrwuad").words(), (0x200040D7,))
        self.assertEqual(rviommu.Pte(0x80003, "v").words(), (0x20000C01,))


if __name__ == "__main__":
    unittest.main()
