"""A QEMU with its RISC-V IOMMU and five devices behind it, driven over qtest."""
import functools
import socket
import subprocess

from model import BASE, SIZE, VECTORS

QEMU = "qemu-system-riscv64"
DEVICE = "riscv-iommu-pci"
# Slots of the devices on the bus; a device's function number is eight times its slot.
SLOTS = [2, 5, 16, 30, 31]
CONFIGURATION, WINDOW = 0x30000000, 0x40000000
IOMMU = WINDOW
# Registers of an edu device: the source, the target and the length of a transfer, and its command.
SOURCE, TARGET, LENGTH, COMMAND = 0x80, 0x88, 0x90, 0x98
FROM_MEMORY, TO_MEMORY = 1, 3
# In its configuration its MSI capability: the control word at 2, the address at 4, the number of 16 bits at 12; and the register
# whose write sends it.
MSI, RAISE = 0x40, 0x60
# In the IOMMU's configuration its MSI-X capability: the control word at 2. Its vectors are those of msi_cfg_tbl.
MSI_X = 0x7C
# An edu's buffer: what it writes in the first half, what it reads in the second, 64 bytes a place.
BUFFER, HALF, PLACE = 0x40000, 2048, 64
PLACES = HALF // PLACE
# Two pages that no case uses: a command queue, and room for a buffer.
QUEUE, ROOM = BASE + SIZE - 0x2000, BASE + SIZE - 0x1000


def ids_of(bus):
    """The ids of the devices on a bus: it is bits 8 and above of each."""
    return [bus << 8 | slot << 3 for slot in SLOTS]


@functools.cache
def pattern(device):
    """What a device writes, place after place: no two bytes of a place are as others at hand."""
    return bytes((at * 37 + at // 64 * 11 + device * 53 + 1) & 255 for at in range(HALF))


class Qtest:
    """A QEMU of a RISC-V machine, driven over qtest."""

    def __init__(self, *words):
        ours, its = socket.socketpair()
        at = ["-chardev", f"socket,id=q,fd={its.fileno()}", "-qtest", "chardev:q", "-qtest-log", "none"]
        plain = ["-M", "virt", "-accel", "tcg", "-nodefaults", "-display", "none", "-bios", "none"]
        words = [QEMU, *plain, *at, *words]
        quiet = {"stdin": subprocess.DEVNULL, "stderr": subprocess.DEVNULL}
        self.process = subprocess.Popen(words, pass_fds=[its.fileno()], **quiet)
        its.close()
        self.socket, self.lines = ours, ours.makefile("rb")

    def end(self):
        self.process.terminate()
        self.process.wait()

    def ask(self, commands):
        """Sends commands of qtest, and returns what each answers."""
        self.socket.sendall("".join(command + "\n" for command in commands).encode())
        answers = []
        while len(answers) < len(commands):
            line = self.lines.readline().decode().split()
            if not line:
                raise OSError("QEMU ended")
            if line[0] == "OK":
                answers.append(line[1] if len(line) > 1 else "")
            elif line[0] != "IRQ":
                raise OSError("qtest: " + " ".join(line))
        return answers


class Qemu(Qtest):
    """A QEMU whose devices' ids are those of a bus, and whose contexts are extended or not."""

    def __init__(self, bus, is_extended=False):
        # The hart sleeps, so the delay of an edu's transfer passes at once.
        words = ["-m", str(SIZE >> 20), "-icount", "shift=0,sleep=off", "-global", "riscv-cpu.start-powered-off=on"]
        words += ["-global", f"riscv-iommu.bus={bus:#x}"]
        words += ["-device", f"{DEVICE},intremap={'on' if is_extended else 'off'},ats=off,hpm-counters=0,addr=1"]
        for slot in SLOTS:
            words += ["-device", f"edu,addr={slot:#x},dma_mask={(1 << 64) - 1}"]
        super().__init__(*words)
        self.set_up()

    def set_up(self):
        for at, slot in enumerate([1, *SLOTS]):
            place, window = CONFIGURATION + (slot << 15), WINDOW + (at << 20)
            self.ask([f"writel {place + 0x10:#x} {window:#x}", f"writel {place + 4:#x} 6"])
        self.ask([f"writew {CONFIGURATION + (slot << 15) + MSI + 2:#x} 1" for slot in SLOTS])
        self.ask([f"writew {CONFIGURATION + (1 << 15) + MSI_X + 2:#x} 0x8000"])
        self.settle([(BASE, SIZE)])
        self.write("q", (16, 1))
        for device in range(len(SLOTS)):
            self.ask([f"write {ROOM:#x} {HALF:#x} 0x{pattern(device).hex()}"])
            self.transfer(device, ROOM, BUFFER, HALF, FROM_MEMORY)
        self.settle([(ROOM, HALF)])

    def transfer(self, device, source, target, length, command):
        registers = WINDOW + (device + 1 << 20)
        words = [(SOURCE, source), (TARGET, target), (LENGTH, length), (COMMAND, command)]
        self.ask([f"writeq {registers + offset:#x} {value:#x}" for offset, value in words])
        while int(self.ask([f"readq {registers + COMMAND:#x}"])[0], 0) & 1:
            pass

    def write(self, size, *values):
        """Writes registers of the IOMMU, of 4 bytes for l and 8 for q."""
        self.ask([f"write{size} {IOMMU + offset:#x} {value:#x}" for offset, value in values])

    def access(self, device, iova, length, place, is_write):
        if is_write:
            self.transfer(device, BUFFER + place * PLACE, iova, length, TO_MEMORY)
        else:
            self.transfer(device, iova, BUFFER + HALF + place * PLACE, length, FROM_MEMORY)

    def send(self, device, address, data):
        """Lets a device send an MSI: four bytes, of which the last two are 0."""
        place = CONFIGURATION + (SLOTS[device] << 15) + MSI
        words = [("l", place + 4, address & 0xFFFFFFFF), ("l", place + 8, address >> 32), ("w", place + 12, int.from_bytes(data, "little"))]
        words.append(("l", WINDOW + (device + 1 << 20) + RAISE, 1))
        self.ask([f"write{size} {at:#x} {value:#x}" for size, at, value in words])

    def empty_caches(self):
        words = [0x3, 0, 0x1, 0, 0x81, 0]
        stores = [f"writeq {QUEUE + 8 * at:#x} {word:#x}" for at, word in enumerate(words)]
        queue = QUEUE >> 12 << 10 | 3
        self.ask(stores)
        self.write("q", (24, queue))
        self.write("l", (72, 1), (36, 3), (72, 0), (72, 1), (72, 0))
        self.write("q", (24, 0))

    def settle(self, ranges):
        """Brings all to the state of a reset, with nothing cached, and memory to 0 in these ranges."""
        self.write("l", (72, 0), (76, 0))
        self.empty_caches()
        self.write("q", (16, 0), (40, 0))
        self.write("l", (76, 1), (76, 0), (84, 3), (8, 0))
        self.write("q", (56, 0), (0x2F8, 0))
        for at in VECTORS:
            # what is still owed goes into the queue's page
            self.write("l", (at, QUEUE), (at + 4, 0), (at + 12, 0), (at + 8, 0), (at, 0))
        self.ask([f"memset {address:#x} {length:#x} 0" for address, length in [*ranges, (QUEUE, 64)]])

    def buffers(self, devices):
        """What the devices have read, place after place, for each of these."""
        self.write("l", (72, 0), (76, 0))
        self.empty_caches()
        self.write("q", (16, 0), (16, 1))
        found = {}
        for device in devices:
            self.transfer(device, BUFFER + HALF, ROOM, HALF, TO_MEMORY)
            found[device] = bytes.fromhex(self.ask([f"read {ROOM:#x} {HALF:#x}"])[0][2:])
        self.ask([f"memset {ROOM:#x} {HALF:#x} 0", f"memset {QUEUE:#x} 64 0"])
        return found
