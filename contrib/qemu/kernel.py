"""Debian's riscv64 kernel with a small initial file system: packages, modules, our own module, and the archive."""
import lzma
import re
import shutil
from pathlib import Path

from debian import Missing, Packages, output

HERE = Path(__file__).resolve().parent
SUITE = "sid"
COMPILER = "riscv64-linux-gnu-gcc"
WANTED = ("virtio_blk", "nvme", "virtio_net")
# How Linux's Makefiles compile a module for riscv64, as far as this one needs it.
FLAGS = """-D__KERNEL__ -DMODULE -nostdinc -std=gnu11 -fms-extensions -fshort-wchar -fno-common -fno-strict-aliasing -fno-PIE
-ffreestanding -mabi=lp64 -march=rv64imac_zicsr_zifencei -mcmodel=medany -mno-relax -msmall-data-limit=0
-fno-asynchronous-unwind-tables -fno-omit-frame-pointer -fno-stack-protector -O2 -w""".split()
# kbuild adds this to a module, so that it goes with the kernel of these headers.
ADDED = """#define INCLUDE_VERMAGIC
#include <linux/module.h>
#include <linux/vermagic.h>
MODULE_INFO(name, KBUILD_MODNAME);
MODULE_INFO(vermagic, VERMAGIC_STRING);
MODULE_INFO(depends, "");
__visible struct module __this_module __section(".gnu.linkonce.this_module") = {
    .name = KBUILD_MODNAME, .init = init_module, .exit = cleanup_module, .arch = MODULE_ARCH_INIT,
};
"""


def entry(name, mode, data=b"", device=(0, 0), number=0):
    """A file of an archive in the format newc (cpio(5))."""
    text = name.encode() + b"\0"
    fields = (number, mode, 0, 0, 1, 0, len(data), 0, 0, *device, len(text), 0)
    head = b"070701" + "".join(f"{it:08X}" for it in fields).encode() + text
    return head + bytes(-len(head) % 4) + data + bytes(-len(data) % 4)


class Kernel:
    """The kernel that is booted. `folder` keeps its packages, and the files made of them."""

    def __init__(self, folder):
        self.folder = Path(folder)
        packages = Packages(self.folder / "debian", "riscv64", [("deb", "arch=riscv64 ", SUITE)])
        image = next(it for it in packages.depends("linux-image-riscv64") if it.startswith("linux-image-"))
        self.version = image.removeprefix("linux-image-")
        parts = [it for it in packages.depends(image) if it.startswith(("linux-binary-", "linux-modules-"))]
        root = packages.unpacked([image, *parts, "busybox-static", "opensbi"], self.folder / "root")
        common = self.version.removesuffix("-riscv64") + "-common"
        headers = [f"linux-headers-{it}" for it in (common, self.version)]
        self.headers = [packages.unpacked(headers, self.folder / "headers") / "usr/src" / it for it in headers]
        self.busybox = next(it for it in (root / "usr/bin/busybox", root / "bin/busybox") if it.exists())
        self.firmware = root / "usr/lib/riscv64-linux-gnu/opensbi/generic/fw_dynamic.bin"
        self.modules = next(it for it in (root / "usr/lib/modules", root / "lib/modules") if it.exists()) / self.version
        self.image = next(it for it in (self.modules / "vmlinuz", root / f"boot/vmlinux-{self.version}") if it.exists())
        if self.image.read_bytes()[0x38:0x3C] != b"RSC\x05":
            raise Missing(f"{self.image} is no plain image of a riscv64 kernel")

    def in_order(self, wanted):
        """The modules of these names and those that they need, each after those that it needs, with their bytes."""
        paths = {it.name.partition(".")[0].replace("-", "_"): it for it in self.modules.rglob("*.ko*")}
        found = {}

        def add(name):
            name = name.replace("-", "_")
            if name in found or name not in paths:
                return
            data = paths[name].read_bytes()
            data = lzma.decompress(data) if paths[name].suffix == ".xz" else data
            depends = re.search(rb"\0depends=([^\0]*)\0", data)
            for other in depends[1].decode().split(",") if depends and depends[1] else []:
                add(other)
            found[name] = data

        for name in wanted:
            add(name)
        return found

    def paging(self):
        """Our own module, compiled against the headers."""
        common, own = self.headers
        if shutil.which(COMPILER) is None:
            raise Missing(f"needed: apt-get install --no-install-recommends gcc-{COMPILER.removesuffix('-gcc')}")
        target = self.folder / "module"
        target.mkdir(exist_ok=True)
        (target / "added.mod.c").write_text(ADDED)
        folders = [f"{it}/{part}" for part in ("arch/riscv/include", "include") for it in (common, own)]
        folders.insert(2, f"{own}/arch/riscv/include/generated")
        folders += [f"{common}/arch/riscv/include/uapi", f"{own}/arch/riscv/include/generated/uapi"]
        folders += [f"{common}/include/uapi", f"{own}/include/generated/uapi"]
        first = [f"{common}/include/linux/{it}.h" for it in ("compiler-version", "kconfig", "compiler_types")]
        places = [word for it in folders for word in ("-I", it)] + [word for it in first for word in ("-include", it)]
        objects = []
        for source in (HERE / "paging.c", target / "added.mod.c"):
            name = source.name.removesuffix(".c")
            names = [f'-DKBUILD_{it}="{value}"' for it, value in (("BASENAME", name), ("MODNAME", "paging"), ("MODFILE", "paging"))]
            objects.append(str(target / f"{name}.o"))
            output([COMPILER, *places, *FLAGS, *names, "-D__KBUILD_MODNAME=paging", "-c", str(source), "-o", objects[-1]])
        output([COMPILER.replace("gcc", "ld"), "-r", "-o", str(target / "paging.ko"), *objects])
        return (target / "paging.ko").read_bytes()

    def archive(self, name, has_paging):
        """The initial file system, and the names of its modules in order."""
        modules = self.in_order(WANTED)
        files = [("dev/console", 0o20600, b"", (5, 1)), ("init", 0o100755, (HERE / "guest.sh").read_bytes(), (0, 0))]
        folders = [entry(it, 0o40755, number=at) for at, it in enumerate(("dev", "proc", "sys", "tmp", "bin", "modules"), 1)]
        files.append(("bin/busybox", 0o100755, self.busybox.read_bytes(), (0, 0)))
        files += [(f"modules/{it}.ko", 0o100644, data, (0, 0)) for it, data in modules.items()]
        if has_paging:
            files.append(("modules/paging.ko", 0o100644, self.paging(), (0, 0)))
        written = folders + [entry(it, mode, data, device, at) for at, (it, mode, data, device) in enumerate(files, 100)]
        path = self.folder / name
        path.write_bytes(b"".join(written) + entry("TRAILER!!!", 0))
        return path, list(modules)
