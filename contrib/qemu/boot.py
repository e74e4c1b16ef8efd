#!/usr/bin/env python3
"""boot.py [FOLDER [RVIOMMU]]    Boots Debian's riscv64 kernel on rviommu-sys, and checks the boots.

FOLDER (contrib/qemu/out) has the program that build.py made, and keeps Debian's packages. RVIOMMU is the program that
plays the record (crates/rviommu/out/rviommu). Prints a line for each check, the counts, and the times beside those of
QEMU's own device. Ends with status 1 if a check failed, 2 if something is missing.
"""
import hashlib
import os
import re
import signal
import subprocess
import sys
import tempfile
import threading
import time
from functools import partial
from pathlib import Path

from debian import Missing
from kernel import Kernel

HERE = Path(__file__).resolve().parent
TOP = HERE.parents[1]
MACHINE = "virt,aia=aplic-imsic,iommu-sys=on"
DISK = 32 << 20
WRITTEN = 2 << 20
MOST_SECONDS = int(os.environ.get("MOST_SECONDS", "900"))
MOST_TIMES = 1.5
# With the memory of a recorded boot the kernel's tables and queues lie in 64 MiB.
MEMORY, RECORDED_MEMORY = "256M", "112M"
TESTS = ("map", "unmap", "read-only", "remap", "superpage", "gigapage", "64-KiB", "rounds", "no-flush", "second-domain",
         "identity-again")
MESSAGE_TESTS = ("message", "no-file", "file", "message-again")
# With these the machine's interrupt files take messages of the IOMMU, too.
WINDOW = ",window=0x28000000 0x4000000"
FIRST_IOVA = 0x10000000
NO_FLUSH = FIRST_IOVA + 0x600


class Checks:
    """Counts checks, and prints each."""

    def __init__(self):
        self.failed = self.passed = 0

    def check(self, name, holds, why=""):
        self.passed += bool(holds)
        self.failed += not holds
        print(f"{'ok    ' if holds else 'FAILED'} {name}{'' if holds or not why else f': {why}'}", flush=True)


class Boot:
    """One boot: the lines of the guest and of QEMU, and the time that it took."""

    def __init__(self, program, kernel, archive, device="", memory=MEMORY, words="", harts=1, kill_after=None):
        with tempfile.TemporaryDirectory(prefix="rviommu-boot-") as folder:
            self.disks = [Path(folder) / it for it in ("blk", "nvme")]
            for disk in self.disks:
                disk.write_bytes(b"")
                os.truncate(disk, DISK)
            path, modules = archive
            command = [program, "-M", MACHINE, "-smp", str(harts), "-m", memory, "-nodefaults", "-nographic", "-no-reboot", "-serial", "stdio"]
            command += ["-bios", kernel.firmware, "-kernel", kernel.image, "-initrd", path]
            command += ["-append", f"console=ttyS0 quiet cma=0 modules={','.join(modules)} {words}"]
            command += ["-device", device] * bool(device)
            for disk in self.disks:
                command += ["-drive", f"if=none,id={disk.name},file={disk},format=raw"]
            command += ["-device", "virtio-blk-pci,drive=blk,iommu_platform=on,disable-legacy=on"]
            command += ["-device", "nvme,drive=nvme,serial=rviommu", "-netdev", "user,id=net"]
            command += ["-device", "virtio-net-pci,netdev=net,iommu_platform=on,disable-legacy=on,romfile="]
            command += ["-device", f"edu,dma_mask={(1 << 64) - 1:#x}"]
            self.run([str(it) for it in command], kill_after)
            self.sums = [hashlib.sha256(it.read_bytes()[:WRITTEN]).hexdigest() for it in self.disks]

    def run(self, command, kill_after):
        begin = time.monotonic()
        with tempfile.TemporaryFile("w+") as faults:
            with subprocess.Popen(command, stdin=subprocess.DEVNULL, stdout=subprocess.PIPE, stderr=faults) as process:
                timer = threading.Timer(kill_after or MOST_SECONDS, process.kill)
                timer.start()
                text = process.stdout.read()
                _, status, used = os.wait4(process.pid, 0)
                process.returncode = os.waitstatus_to_exitcode(status)
                timer.cancel()
            faults.seek(0)
            self.faults = faults.read().splitlines()
        self.seconds = time.monotonic() - begin
        self.processor = used.ru_utime + used.ru_stime
        self.lines = [it.rstrip("\r") for it in text.decode(errors="replace").split("\n")]
        if process.returncode < 0:
            name = signal.Signals(-process.returncode).name
            late = "" if kill_after else f" (after {MOST_SECONDS} s)"
            raise Missing(f"QEMU was killed by {name}{late}; the guest's last line: {self.last()}")
        if process.returncode > 0:
            raise Missing(f"QEMU ended with status {process.returncode}: {self.faults[-1] if self.faults else 'no reason given'}")
        if "guest: end" not in self.lines:
            raise Missing(f"the guest didn't reach its end; its last line: {self.last()}")

    def last(self):
        return next((it for it in reversed(self.lines) if it.strip()), "none")

    def found(self, pattern):
        """The matches of a pattern in the lines of the guest."""
        return [it for line in self.lines for it in re.findall(pattern, line)]

    def counts(self):
        """The counts that the device printed at the end."""
        return next((it.partition(": ")[2] for it in self.faults if " accesses, " in it), "")

    def told(self, kind):
        """The device's reports of a kind: stale, unsettled or owed. Prints them."""
        lines = [it.partition("rviommu-sys: ")[2] for it in self.faults if f"rviommu-sys: {kind}:" in it]
        for line in lines:
            print(f"       {line}")
        return lines


def check_guest(checks, boot, name):
    """The guest's own checks, and its disks, seen from outside."""
    for check, verdict in boot.found(r"^check: (\S+) (ok|failed)"):
        checks.check(f"{name}: {check}", verdict == "ok")
    for line in boot.found(r"^ping, turn .*"):
        print(f"       {line}")
    written = dict(boot.found(r"^written: (\S+) (\S+)"))
    checks.check(f"{name}: both disks have the guest's bytes", list(written.values()) == boot.sums)
    checks.check(f"{name}: no warning of the kernel", not boot.found(r"dmesg: .*(?:BUG|WARNING|Oops)"))


def check_tests(checks, boot, name, tests):
    """Tests of the module."""
    results = dict(boot.found(r"paging: (\S+) (ok|failed.*)"))
    for test in tests:
        checks.check(f"{name}: {test}", results.get(test) == "ok", results.get(test, "not run"))


def check_paging(checks, boot, name):
    """The tests of the module that each boot with it has, and their faults."""
    check_tests(checks, boot, name, TESTS)
    causes = {int(it) for it in boot.found(r"[Ff]ault (\d+) devid")}
    checks.check(f"{name}: faults 13 and 15 in the kernel's log", {13, 15} <= causes, f"found {sorted(causes)}")


def check_left_out(checks, boot, name, kind, led, read, write):
    """Reported are the two accesses, at these IOVAs, that need the flush that was left out, and no other."""
    lines = boot.told(kind)
    pattern = rf" (read|write) (0x\w+)(?:, as in \w+ \d+)?: {led} .*; the tables now say denied (\d+)$"
    found = [(way, int(iova, 16), int(cause)) for it in lines for way, iova, cause in re.findall(pattern, it)]
    checks.check(f"{name}: the flush that was left out is reported as {kind}, and nothing else",
                 found == [("read", read, 13), ("write", write, 15)] and len(lines) == 2, f"{len(lines)} lines")


def check_stale(checks, boot, name):
    check_left_out(checks, boot, name, "stale", "led to", NO_FLUSH, NO_FLUSH + 4)


def check_unsettled(checks, boot, name):
    check_left_out(checks, boot, name, "unsettled", "may still go to", NO_FLUSH, NO_FLUSH + 4)
    check_nothing_owed(checks, boot, name)


def check_owed(checks, boot, name):
    check_left_out(checks, boot, name, "owed", "may still go to", FIRST_IOVA, FIRST_IOVA)
    checks.check(f"{name}: counted", ", 0 unsettled, 2 owed;" in boot.counts(), boot.counts())


def check_nothing_owed(checks, boot, name):
    lines = boot.told("owed")
    checks.check(f"{name}: nothing is owed", not lines and ", 0 owed;" in boot.counts(), boot.counts())


def check_settled(checks, boot, name):
    """Of the kernel's own drivers each access is settled, and nothing is owed."""
    lines = boot.told("unsettled")
    checks.check(f"{name}: each access is settled", not lines and ", 0 unsettled, " in boot.counts(), f"{len(lines)} lines")
    check_nothing_owed(checks, boot, name)


def check_boots_with_module(checks, start, archive):
    for options, check in (("", None), (",stale=on", check_stale), (",settled=on", check_unsettled)):
        name = f"paging{options.replace(',', ', ')}"
        boot = start(f"rviommu-sys{options}", archive)
        check_guest(checks, boot, name)
        check_paging(checks, boot, name)
        print(f"       {boot.counts()}")
        for line in boot.found(r"paging: (\d+ passed.*)"):
            print(f"       module: {line}")
        if check:
            check(checks, boot, name)
    name = "paging, settled=on, a page that isn't used again"
    boot = start("rviommu-sys,settled=on", archive, words="paging=owes=1")
    check_guest(checks, boot, name)
    check_owed(checks, boot, name)


def interrupts(boot, when, chip):
    """The interrupts of these chips before or after the module: the name of each, and how often it came to each hart."""
    found = boot.found(rf"^interrupts {when}: \d+:((?: +\d+)+) +{chip}\S* .* (\S+)$")
    return [(name, [int(it) for it in numbers.split()]) for numbers, name in found]


def check_messages(checks, boot, name):
    """The interrupts of the IOMMU and of its devices are messages, and all arrive; those of the IOMMU at the last hart."""
    check_tests(checks, boot, name, MESSAGE_TESTS)
    checks.check(f"{name}: probe", boot.found(r"dmesg: .*riscv,iommu .*using MSIs"), f"{boot.found('dmesg: (.*riscv,iommu.*)')}")
    before, after = ([sum(it) for it in zip(*(counts for _, counts in interrupts(boot, when, "pMSI-")))] for when in ("before", "after"))
    sent = int(re.search(r"; (\d+) messages", boot.counts())[1])
    checks.check(f"{name}: interrupts of the IOMMU, by harts: before faults {before}, after them {after}; {sent} messages",
                 after and after[-1] == sent > sum(before) and not any(after[:-1]))
    came = {it: sum(counts) for it, counts in interrupts(boot, "after", "PCI-MSIX-") if any(counts)}
    checks.check(f"{name}: messages of devices: {', '.join(f'{it} {number}' for it, number in came.items())}",
                 {re.match(r"[a-z]+\d", it)[0] for it in came} == {"virtio0", "virtio1", "nvme0"})
    checks.check(f"{name}: one message by an invalid entry: {boot.counts()}", re.search(r"[(,] ?262: 1\b", boot.counts()))


def check_boots_with_messages(checks, start):
    """The kernel prefers messages. It moves them to another hart, whose interrupt file is another page. With one vector both queues share it."""
    for options, more in ((",capabilities=msi_flat=1 igs=2 vectors=4,stale=on,settled=on", {"harts": 2, "words": "hart=1"}),
                          (",capabilities=msi_flat=1 igs=0", {})):
        name = f"messages{options.replace(',', ', ')}"
        boot = start(f"rviommu-sys{options}{WINDOW}", **more)
        check_guest(checks, boot, name)
        check_paging(checks, boot, name)
        check_messages(checks, boot, name)
        if "settled" in options:
            check_stale(checks, boot, name)
            check_unsettled(checks, boot, name)


def check_recorded_messages(checks, start, folder, rviommu):
    """The record has extended contexts, MSI page tables and messages."""
    record = folder / "messages.script"
    boot = check_record(checks, start, "recorded messages", record, rviommu, f",capabilities=msi_flat=1 igs=2 vectors=2{WINDOW}", 200)
    check_messages(checks, boot, "recorded messages")
    lines = len(re.findall(r"(?m)^message ", record.read_text()))
    checks.check(f"recorded messages: {lines} lines of messages", f"; {lines} messages" in boot.counts(), boot.counts())


def played(record, rviommu, *words):
    """The lines that the program writes of a record, or its error."""
    with open(record, "rb") as script:
        run = subprocess.run([rviommu, *words, f"{record}.image"], stdin=script, capture_output=True, text=True, check=False)
    return run.stdout.splitlines() or [run.stderr.strip()]


def check_record(checks, start, name, record, rviommu, options="", rounds=2000):
    """Records a boot. The record plays with the same answers, `explain` has the device's counts, and the two unsettled accesses are found again."""
    boot = start(f"rviommu-sys,stale=on,settled=on,record={record}{options}", memory=RECORDED_MEMORY, words=f"paging=rounds={rounds}")
    check_guest(checks, boot, name)
    check_paging(checks, boot, name)
    check_stale(checks, boot, name)
    check_unsettled(checks, boot, name)
    last = played(record, rviommu, "check")[-1]
    checks.check(f"{name}: check: {last}", last.endswith(" 0 failed"))
    *told, last = played(record, rviommu, "check", "--settled")
    checks.check(f"{name}: check --settled: {last}", len(told) == 2 and all(", unsettled: " in it for it in told))
    check_explained(checks, name, record, boot.counts(), rviommu)
    return boot


def check_explained(checks, name, record, counts, rviommu):
    explained = "\n".join(played(record, rviommu, "explain"))
    summary = dict(re.findall(r"(?m)^(accesses|granted|denied \d+|stale): (\d+)", explained))
    denied = dict(re.findall(r"(?:\(|, )(\d+): (\d+)", counts))
    wanted = {f"denied {cause}": number for cause, number in denied.items()}
    wanted["accesses"] = counts.partition(" ")[0]
    found = {key: value for key, value in summary.items() if key == "accesses" or key.startswith("denied")}
    checks.check(f"{name}: explain counts {', '.join(f'{key} {value}' for key, value in wanted.items())}", found == wanted, f"{found}")


def check_delays(checks, start, folder, rviommu):
    """A guest that sees busy registers boots, and the record says when each settled."""
    record = folder / "delays.script"
    check_record(checks, start, "delays", record, rviommu, ",capabilities=delays=1", 200)
    settled = re.findall(r"(?m)^settle (\w+) # => done$", record.read_text())
    checks.check(f"delays: {len(settled)} settled", set(settled) == {"ddtp", "cq", "fq"}, f"{settled}")


def one_line(checks, name, action, wanted):
    """A run that must fail with one clear line."""
    try:
        action()
    except Missing as fault:
        checks.check(f"{name}: {fault}", re.search(wanted, str(fault)))
    else:
        checks.check(name, False, "it didn't fail")


def check_faults(checks, start, folder):
    """Errors give one clear line."""
    one_line(checks, "an unknown property", lambda: start("rviommu-sys,stael=on"), r"Property 'rviommu-sys\.stael' not found$")
    one_line(checks, "QEMU is killed", lambda: start("rviommu-sys", kill_after=5), "^QEMU was killed by SIGKILL")
    full = folder / "full"
    full.unlink(missing_ok=True)
    full.symlink_to("/dev/full")
    boot = start(f"rviommu-sys,record={full}")
    lines = [it for it in boot.faults if "record=" in it]
    checks.check(f"a full disk: {' | '.join(lines)}", len(lines) == 1 and "No space left on device" in lines[0])


def main():
    folder = Path(sys.argv[1] if len(sys.argv) > 1 else HERE / "out").resolve()
    rviommu = Path(sys.argv[2] if len(sys.argv) > 2 else TOP / "crates/rviommu/out/rviommu").resolve()
    program = folder / "qemu-system-riscv64"
    if not program.exists():
        raise Missing(f"{program} is not built: contrib/qemu/build.py")
    if not rviommu.exists():
        raise Missing(f"{rviommu} is not built: make build")
    kernel = Kernel(folder)
    plain, paging = kernel.archive("plain.cpio", False), kernel.archive("paging.cpio", True)
    print(f"Linux {kernel.version}", flush=True)
    checks = Checks()

    def start(device, archive=plain, **more):
        return Boot(program, kernel, archive, device, **more)

    # Each twice, in turn: the faster one counts.
    boots = {}
    for name, device in 2 * (("QEMU's own", ""), ("rviommu-sys", "rviommu-sys")):
        boot = start(device)
        check_guest(checks, boot, name)
        boots[name] = min(boots.get(name, boot), boot, key=lambda it: it.seconds)
    own, ours = boots.values()
    checks.check("rviommu-sys: probe", ours.found(r"dmesg: .*riscv,iommu .*wire"), f"{ours.found('dmesg: (.*riscv,iommu.*)')}")
    print(f"       {ours.counts()}")
    boot = start("rviommu-sys,settled=on")
    check_guest(checks, boot, "settled=on")
    print(f"       {boot.counts()}; {boot.seconds:.1f} s")
    check_settled(checks, boot, "settled=on")
    check_boots_with_module(checks, start, paging)
    check_record(checks, partial(start, archive=paging), "record", folder / "boot.script", rviommu)
    check_delays(checks, partial(start, archive=paging), folder, rviommu)
    check_boots_with_messages(checks, partial(start, archive=paging))
    check_recorded_messages(checks, partial(start, archive=paging), folder, rviommu)
    check_faults(checks, start, folder)
    times = [f"{name} {it.seconds:.1f} s ({it.processor:.1f} s of processor)" for name, it in boots.items()]
    checks.check(f"boot to power-off: {', '.join(times)}: {ours.seconds / own.seconds:.2f} times",
                 ours.seconds <= MOST_TIMES * own.seconds)
    print(f"{checks.passed} passed, {checks.failed} failed")
    return checks.failed > 0


if __name__ == "__main__":
    try:
        sys.exit(main())
    except Missing as fault:
        print(f"boot.py: {fault}", file=sys.stderr)
        sys.exit(2)
