#!/usr/bin/env -S python3 -B
"""peer.py PROGRAM [CASES] [SEED]    Runs the program beside QEMU's riscv-iommu-pci device.

First come the directed cases, one or more for each class of difference of the table in README.md, then random ones:
CASES of them, 5,000 if it isn't given, from SEED, else 1. Each program is compared with its model, step by step; if the
models part, the case must have met a class. QEMU's answers are also given to `judge`, as a trace: what it refuses must
have met a class that no caching policy explains (traces.py). Prints how often each class was met, and each difference
that isn't explained; the status is 1 if there is one.
"""
import itertools
import os
import re
import shutil
import struct
import subprocess
import sys
import tempfile
import time
from collections import Counter
from pathlib import Path

from model import BASE, COMPARED, CQB, CQCSR, CQT, FEATURES, SIZE, Model, OtherDevice, capabilities_of
import directed
from cases import BUSES, random_case, random_case_of_contexts, random_case_of_messages
from qemu import DEVICE, IOMMU, PLACE, QEMU, Qemu
from traces import Trace

WHOLE_EVERY = 50
# How many differences of a case are told.
MOST_TOLD = 3
# What the access of a device is in lines: an MSI is a write of four bytes.
WORDS = {"read": "read", "write": "write", "msi": "write"}


def table():
    """The classes: the names in the first column of the table, and those of their directed cases."""
    rows = re.findall(r"(?m)^\| (`[^|]*)\|", Path(__file__).with_name("README.md").read_text())
    return [name for row in rows for name in re.findall(r"`([^`]+)`", row)]


def chunks_of(case):
    """What memory begins with, by addresses."""
    return {address: struct.pack("<Q", word) for address, word in case.words.items()} | case.bytes


class Walk:
    """One model carried through a case: its answers for each step, and at the end the words that it changed."""

    def __init__(self, case, others):
        self.model, self.ids = Model(others, case.features), case.ids
        for address, data in chunks_of(case).items():
            self.model.put(address, data)
        self.model.touched.clear()

    def step(self, kind, *rest):
        """What a step is answered, how many commands it carried out and the addresses of new records."""
        model, answer, count, before = self.model, None, 0, len(self.model.records)
        if kind == "reg":
            model.write(*rest)
        elif kind == "look":
            answer = model.read(*rest)
        elif kind == "store":
            model.put(rest[0], struct.pack("<Q", rest[1]))
        elif kind == "tail":
            model.write(CQT, 4, *rest)
            while model.command():
                count += 1
        else:
            device, iova, length, data = rest
            answer = model.access(self.ids[device], iova, length, None if kind == "read" else data, kind == "msi")
        return answer, count, model.records[before:]

    def registers(self):
        return [self.model.read(*register) for register in COMPARED]

    def resolved(self, step):
        """A list of commands as stores into the queue and a write of its tail, by where this model's tail is."""
        if step[:2] == ("reg", CQT):
            return [("tail", step[3])]
        if step[0] != "commands":
            return [step]
        model, steps = self.model, []
        base = model.queue(CQB, CQCSR)
        entries, tail = model.entries(base), model.registers[CQT]
        for at in range(0, len(step[1]), 2):
            address = (base >> 10 << 12) + 16 * tail
            tail = (tail + 1) % entries
            if BASE <= address <= BASE + SIZE - 16:
                steps += [("store", address, step[1][at]), ("store", address + 8, step[1][at + 1])]
        return steps + [("tail", tail)]


def cut(case, names):
    """The steps of a case, with commands resolved, up to one that reaches another device of QEMU's machine."""
    own, peer, steps = Walk(case, ()), Walk(case, names), []
    try:
        for step in case.steps:
            some = own.resolved(step)
            for one in some:
                own.step(*one)
                peer.step(*one)
            steps += some
    except OtherDevice:
        pass
    return steps


class Side:
    """A case as one side is asked it, step by step, with the answers that its model gives."""

    def add(self, number, step, walk, answer, count, records):
        self.number, (kind, *rest) = number, step
        if kind in ("reg", "tail"):
            self.write(*(rest if kind == "reg" else (CQT, 4, *rest)))
        elif kind == "look":
            self.read(*rest, answer)
        elif kind == "store":
            self.store(*rest)
        else:
            self.access(kind, walk.ids, *rest, answer)
        if kind == "tail":
            self.commands(count)
        for register, value in zip(COMPARED, walk.registers()):
            self.read(*register, value)
        for record in records:
            self.memory(walk.model, record, 32)

    def end(self, walk, touched):
        """The words that either side changed."""
        self.number = "the end"
        for address in touched:
            self.memory(walk.model, address, 8)

    def differences(self, rows):
        """Of the rows those whose answer isn't the wanted one; a row has its step, what was asked, the answer and the
        wanted one."""
        others = itertools.islice((row for row in rows if row[2] != row[3]), MOST_TOLD)
        return [f"step {number}: {asked!r} is {answer}, wanted {wanted}" for number, asked, answer, wanted in others]


def program_answers(program, image, lines, word):
    """What the program answers to these lines on an image."""
    with tempfile.NamedTemporaryFile() as file:
        file.write(image)
        file.flush()
        script = "".join(f"{line}\n" for line in lines).encode()
        out = subprocess.run([program, word, file.name], input=script, stdout=subprocess.PIPE).stdout
        return out.decode().splitlines()


def head_of(features):
    """How an image begins whose machine has these features: with none of them it is of version 1, with MSI_FLAT or interrupts by
    message of version 4. Bit 56, or bit 0 of the second word, says that it has no Svnapot, bit 2 that there are four vectors."""
    word, others = sum(FEATURES.get(name, 0) for name in features), "svnapot" not in features
    if features & {"messages", "msi_flat"}:
        choices = others | ("messages" in features) << 2
        return b"RVIOMMU4" + struct.pack("<QQ", capabilities_of(features), choices)
    return b"RVIOMMU3" + struct.pack("<Q", word | others << 56) if features else b"RVIOMMU1"


class Script(Side):
    """A case as a script of rviommu."""

    def __init__(self, case):
        chunks = chunks_of(case)
        self.image = head_of(case.features) + struct.pack("<QQII", BASE, case.size, len(chunks), 0)
        self.image += b"".join(struct.pack("<QI", it, len(chunks[it])) + chunks[it] for it in sorted(chunks))
        self.rows = []

    def line(self, line, answer="done"):
        self.rows.append((self.number, line, answer))

    def write(self, offset, size, value):
        self.line(f"reg write {offset} {size} {value:#x}")

    def commands(self, count):
        for answer in ["done"] * count + ["idle"]:
            self.line("cmd", answer)

    def read(self, offset, size, value):
        self.line(f"reg read {offset} {size}", "bad access" if value is None else hex(value))

    def store(self, address, word):
        self.line(f"store {address:#x} 8 {word:#x}")

    def access(self, kind, ids, device, iova, length, data, answer):
        rest = length if kind == "read" else data.hex()
        self.line(f"dma {WORDS[kind]} {ids[device]:#x} {iova:#x} {rest}", answer[0])

    def memory(self, model, address, length):
        for at in range(address, address + length, 8):
            self.line(f"load {at:#x} 8", hex(model.load(at)))

    def played(self, program, more=(), word="run"):
        """What isn't as wanted, and the answers to more lines."""
        answers = program_answers(program, self.image, [*(line for _, line, _ in self.rows), *more], word)
        if len(answers) != len(self.rows) + len(more):
            return [f"{len(answers)} answers, wanted {len(self.rows) + len(more)}"], []
        found = self.differences((*asked, answer, wanted) for (*asked, wanted), answer in zip(self.rows, answers))
        return found, answers[len(self.rows) :]

    def whole(self, program, memory):
        answers = self.played(program, [f"load {BASE + at:#x} 8" for at in range(0, SIZE, 8)])[1]
        words = zip(struct.unpack(f"<{SIZE // 8}Q", memory), answers)
        return [hex(BASE + 8 * at) for at, (word, answer) in enumerate(words) if hex(word) != answer][:MOST_TOLD]


class Session(Side):
    """A case as commands of qtest."""

    def __init__(self, qemu, case):
        self.qemu, self.rows, self.asked, self.reads, self.places = qemu, [], [], [], Counter()
        qemu.ask([f"write {at:#x} {len(data)} 0x{data.hex()}" for at, data in chunks_of(case).items()])

    def ask(self, command, wanted=None):
        self.asked.append((self.number, command, wanted))

    def flush(self):
        answers = self.qemu.ask([command for _, command, _ in self.asked])
        self.rows += [(*asked, answer, wanted) for (*asked, wanted), answer in zip(self.asked, answers) if wanted]
        self.asked = []

    def write(self, offset, size, value):
        self.ask(f"write{'l' if size == 4 else 'q'} {IOMMU + offset:#x} {value:#x}")

    def commands(self, count):
        """QEMU has carried them out by itself."""

    def read(self, offset, size, value):
        self.ask(f"read{'l' if size == 4 else 'q'} {IOMMU + offset:#x}", f"{value:#018x}")

    def store(self, address, word):
        self.ask(f"writeq {address:#x} {word:#x}")

    def access(self, kind, _, device, iova, length, data, answer):
        self.flush()
        if kind == "msi":
            return self.qemu.send(device, iova, data)
        place = self.places[kind, device]
        self.places[kind, device] += 1
        self.qemu.access(device, iova, length, place, kind == "write")
        self.reads += [(self.number, device, place, answer[1])] if kind == "read" else []

    def memory(self, model, address, length):
        wanted = model.memory[address - BASE : address - BASE + length]
        self.ask(f"read {address:#x} {length}", f"0x{wanted.hex()}")

    def played(self):
        """What isn't as wanted."""
        self.flush()
        buffers = self.qemu.buffers(sorted({device for _, device, _, _ in self.reads}))
        for number, device, place, wanted in self.reads:
            seen = buffers[device][place * PLACE : place * PLACE + len(wanted)]
            self.rows.append((number, f"a read of device {device}", seen.hex(), wanted.hex()))
        return self.differences(self.rows)

    def whole(self, memory):
        seen = bytes.fromhex(self.qemu.ask([f"read {BASE:#x} {SIZE:#x}"])[0][2:])
        return [hex(BASE + at) for at in range(0, SIZE, 8) if seen[at : at + 8] != memory[at : at + 8]][:MOST_TOLD]


def seen(walk, step, answer, count, records):
    """What of a step both models are compared in."""
    data = answer[1] if step[0] == "read" else answer if step[0] == "look" else None
    words = [bytes(walk.model.memory[it - BASE : it - BASE + 32]) for it in records]
    return data, words, walk.registers()


def compare(program, device, case, names, is_whole, judged):
    """Plays a case on the program and on a QEMU; returns what isn't explained, and the classes that were met. Counts what
    is judged of QEMU's answers."""
    own, peer, trace = Walk(case, ()), Walk(case, names), Trace()
    script, qemu, found = Script(case), Session(device, case), []
    for number, step in enumerate(cut(case, names)):
        told = [walk.step(*step) for walk in (own, peer)]
        if seen(own, step, *told[0]) != seen(peer, step, *told[1]) and not own.model.met | peer.model.met:
            found.append(f"step {number}, {step}: the models part and no class was met")
        script.add(number, step, own, *told[0])
        qemu.add(number, step, peer, *told[1])
        trace.add(step, own, peer)
    touched = sorted(own.model.touched | peer.model.touched)
    script.end(own, touched)
    qemu.end(peer, touched)
    found += [f"rviommu, {what}" for what in script.played(program)[0]]
    others = qemu.played()
    if not others and "messages" not in case.features:
        found += trace.unexplained(program, script.image, judged)
    if is_whole:
        found += [f"rviommu, whole memory at {it}" for it in script.whole(program, own.model.memory)]
        others += [f"whole memory at {it}" for it in qemu.whole(peer.model.memory)]
    pages = {address >> 12 for address in [*touched, *chunks_of(case)]}
    device.settle([(BASE, SIZE)] if is_whole or others else [(page << 12, 4096) for page in pages])
    return found + [f"QEMU, {what}" for what in others], own.model.met | peer.model.met


def wants():
    """What is missing here, or None."""
    if shutil.which(QEMU) is None:
        return f"{QEMU} is not on the path (on Debian 12: package qemu-system-riscv of bookworm-backports)"
    told = (subprocess.run([QEMU, "-device", it], capture_output=True) for it in ("help", f"{DEVICE},help"))
    known, options = (it.stdout.decode() for it in told)
    missing = [f"device {it}" for it in (DEVICE, "edu") if f'"{it}"' not in known]
    missing += [f"option {it} of {DEVICE}" for it in ("intremap", "ats", "hpm-counters") if f"{it}=" not in options]
    return f"{QEMU} has no {missing[0]}: version 10 or later is wanted" if missing else None


def course(case, others):
    """What a model says of each step of a case, and the memory at its end. After one that reaches another device it
    says None."""
    own, walk, said = Walk(case, ()), Walk(case, others), []
    try:
        for step in case.steps:
            for one in own.resolved(step):
                own.step(*one)
                said.append(seen(walk, one, *walk.step(*one)))
    except OtherDevice:
        said.append(None)
    return said, bytes(walk.model.memory)


def shows(case, names, name):
    """Whether a directed case shows its class, to its end: QEMU's model without it ends otherwise."""
    whole = course(case, names)
    return None not in whole[0] and whole != course(case, [it for it in names if it != name])


def made(seed, number):
    """A random case: of three the first has extended contexts, the last interrupts by message."""
    return (random_case_of_contexts, random_case, random_case_of_messages)[number % 3](seed, number)


def main(path, count="5000", seed="1"):
    if missing := wants():
        sys.exit(f"peer.py: {missing}")
    program, names, began = os.path.abspath(path), table(), time.monotonic()
    qemus = {(at, has_files): Qemu(bus, has_files) for at, bus in enumerate(BUSES) for has_files in (False, True)}
    directed_cases = [(name, at, case) for name in directed.CASES for at, case in enumerate(directed.CASES[name], 1)]
    bad = [f"{name}: there is no directed case" for name in names if name not in directed.CASES]
    for name, at, case in directed_cases:
        bad += [] if shows(case, names, name) else [f"{name}, case {at}: it doesn't show the class"]
    print(*bad, sep="\n")
    todo = [(f"{name}, directed case {at}", case, False) for name, at, case in directed_cases]
    random_cases = ((f"case {it}", made(seed, it), it % WHOLE_EVERY == 0) for it in range(int(count)))
    met, judged, accesses, unexplained = Counter(), Counter(), 0, len(bad)
    try:
        for title, case, is_whole in itertools.chain(todo, random_cases):
            found, classes = compare(program, qemus[case.bus, "msi_flat" in case.features], case, names, is_whole, judged)
            met.update(classes)
            accesses += sum(step[0] in WORDS for step in case.steps)
            unexplained += bool(found)
            for what in found:
                print(f"{title}: {what}", flush=True)
    finally:
        for qemu in qemus.values():
            qemu.end()
    for name in dict.fromkeys([*names, *met]):
        print(f"{met[name]:6} cases met {name}" + ("" if name in names else ", which stands in no row of the table"))
    unexplained += len(met.keys() - set(names))
    print("judge: {traces} traces, {answers} answers, {refused} refused; {others} unlike rviommu's and allowed, {free} of them "
          "where no class but free ones was met; {undecided} traces undecided".format_map(judged))
    cases, seconds = len(todo) + int(count), time.monotonic() - began
    print(f"peer: {cases} cases, {accesses} accesses, {unexplained} unexplained, {seconds:.0f} seconds")
    return 1 if unexplained else 0


if __name__ == "__main__":
    if len(sys.argv) not in (2, 3, 4):
        sys.exit(__doc__)
    sys.exit(main(*sys.argv[1:]))
