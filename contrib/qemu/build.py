#!/usr/bin/env python3
"""build.py [FOLDER [VERSION]]    Builds qemu-system-riscv64 with the device rviommu-sys.

Takes the source of Debian's package qemu by apt-get (VERSION is 10.0 or the start of another version), adds the files
of this folder and the one patch, and builds only qemu-system-riscv64, in FOLDER (contrib/qemu/out). Needs the C library
(make library). Prints the program's path.
"""
import os
import re
import shutil
import subprocess
import sys
import time
from pathlib import Path

from debian import Missing, Packages, output

HERE = Path(__file__).resolve().parent
TOP = HERE.parents[1]
SUITES = ("bookworm-backports", "trixie", "sid")
# The programs and libraries that a build needs, each with its package.
NEEDED = {
    "gcc": "gcc", "make": "make", "ninja": "ninja-build", "pkg-config": "pkg-config", "flex": "flex", "bison": "bison",
    "patch": "patch", "dpkg-source": "dpkg-dev",
}
LIBRARIES = {"glib-2.0": "libglib2.0-dev", "slirp": "libslirp-dev", "libfdt": "libfdt-dev", "pixman-1": "libpixman-1-dev"}
OPTIONS = """--target-list=riscv64-softmmu --without-default-features --enable-tcg --enable-slirp --enable-fdt=system
--enable-pixman --disable-docs --disable-tools --disable-guest-agent --disable-werror --disable-download
--disable-install-blobs""".split()
FILES = ("rviommu-sys.c", "rviommu-record.c", "rviommu-words.c", "rviommu-record.h", "rviommu-qemu.h")
MESON = (1, 5)


def has_library(name):
    # libfdt has no .pc file in each version of Debian.
    if subprocess.run(["pkg-config", "--exists", name], check=False).returncode == 0:
        return True
    return name == "libfdt" and any(Path("/usr/include").glob("libfdt.h"))


def look():
    """Names in one line the packages that are missing."""
    missing = [package for program, package in NEEDED.items() if shutil.which(program) is None]
    if "pkg-config" not in missing:
        missing += [package for name, package in LIBRARIES.items() if not has_library(name)]
    if missing:
        raise Missing(f"needed: apt-get install --no-install-recommends {' '.join(missing)}")
    if not (TOP / "c/out/lib/pkgconfig/rviommu.pc").exists() and "RVIOMMU_LIBRARY" not in os.environ:
        raise Missing("the C library is not built: make library")


def python_path(packages):
    """The folder of meson 1.5 or later, for PYTHONPATH; nothing if the system's is new enough."""
    have = re.match(r"(\d+)\.(\d+)", output(["meson", "--version"])) if shutil.which("meson") else None
    if have and tuple(map(int, have.groups())) >= MESON:
        return ""
    folder = packages.unpacked(["meson"], packages.folder / "meson")
    return str(folder / "usr/lib/python3/dist-packages")


def prepared(source):
    """Adds our files to the source, and the patch if it isn't there yet."""
    for name in FILES:
        shutil.copy2(HERE / name, source / "hw/riscv" / name)
    if "rviommu-words.c" not in (source / "hw/riscv/meson.build").read_text():
        output(["patch", "-p1", "--no-backup-if-mismatch", "-i", str(HERE / "qemu.patch")], cwd=source)


def configured(source, folder, environment):
    """Configures the build, once for each C library."""
    library = os.environ.get("RVIOMMU_LIBRARY", str(TOP / "c/out/lib"))
    mark = folder / ".configured"
    if mark.exists() and mark.read_text() == library:
        return
    shutil.rmtree(folder, ignore_errors=True)
    folder.mkdir(parents=True)
    environment["PKG_CONFIG_PATH"] = f"{library}/pkgconfig"
    output([str(source / "configure"), "--python=/usr/bin/python3", *OPTIONS], cwd=folder, env=environment)
    mark.write_text(library)


def main():
    folder = Path(sys.argv[1] if len(sys.argv) > 1 else HERE / "out").resolve()
    wanted = sys.argv[2] if len(sys.argv) > 2 else "10.0"
    begin = time.monotonic()
    look()
    lines = [("deb", "", "bookworm-backports"), *(("deb-src", "", suite) for suite in SUITES)]
    packages = Packages(folder / "source", output(["dpkg", "--print-architecture"]).strip(), lines)
    source, version = packages.source("qemu", wanted)
    print(f"QEMU {version}: about 1,500 steps, 8 processor minutes and 1.5 GB in {folder}", file=sys.stderr)
    environment = dict(os.environ)
    path = python_path(packages)
    if path:
        environment["PYTHONPATH"] = path
    prepared(source)
    build = folder / f"build-{wanted}"
    configured(source, build, environment)
    output(["ninja", "-j", os.environ.get("JOBS", str(os.cpu_count())), "qemu-system-riscv64"], cwd=build, env=environment)
    print(f"built in {time.monotonic() - begin:.0f} s", file=sys.stderr)
    program = folder / "qemu-system-riscv64"
    program.unlink(missing_ok=True)
    program.symlink_to(build / "qemu-system-riscv64")
    print(program)


if __name__ == "__main__":
    try:
        main()
    except Missing as fault:
        sys.exit(f"build.py: {fault}")
