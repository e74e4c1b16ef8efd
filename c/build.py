#!/usr/bin/env -S python3 -B
"""build.py [PREFIX]    Builds the C library into PREFIX, c/out if none is named.

It makes PREFIX/lib/librviommu.a, librviommu.so and pkgconfig/rviommu.pc, and in PREFIX/include the headers; they may be
moved together. What librviommu.so leads to has the number of the binary interface in its name, RVIOMMU_ABI of the
header, and a program that is linked to it asks for that name. The crate iom_c and those that it stands on are proved as
they are built, and what is current costs a few seconds. Its archive is joined with c/guard.c and with the kit's few
lines of C over malloc, realloc and free. Needs rt, ar, objcopy and gcc on the path. Progress goes to standard error;
PREFIX is printed.
"""
import os
import re
import shutil
import subprocess
import sys
import tempfile
from pathlib import Path

sys.path.insert(0, str(Path(__file__).resolve().parent.parent / "packaging"))
import crates
from crates import TOP

ARCHIVE = TOP / "crates/iom_c/out/libiom_c.a"
INCLUDE = TOP / "include"
HEADER = INCLUDE / "rviommu.h"
GUARD = TOP / "c/guard.c"
COMPILED = ["-std=c11", "-O2", "-fPIC", "-pedantic", "-Wall", "-Wextra", "-Werror"]


def is_current():
    """Whether the archive is no older than the sources of all crates."""
    return ARCHIVE.exists() and all(crates.is_older(name, ARCHIVE) for name in crates.listed())


def build_crate():
    """Proves and builds the crate, and all that it stands on."""
    subprocess.run([TOP / "packaging/build.py", "iom_c"], stdout=sys.stderr, check=True)
    os.utime(ARCHIVE)


def defined(pattern):
    """What the header defines."""
    return re.search(f"(?m)^#define {pattern}$", HEADER.read_text(encoding="utf-8"))[1]


def exported():
    """The names of the header's functions."""
    return sorted(set(re.findall(r"(?m)^(?:enum )?\w+ (rviommu_\w+)\(", HEADER.read_text(encoding="utf-8"))))


def guarded():
    """The names of the functions that c/guard.c calls."""
    return sorted(set(re.findall(r"\biom_c_(\w+)\(", GUARD.read_text(encoding="utf-8"))))


def join(made):
    """The archive: the objects of the crate, of c/guard.c, which calls some of its functions, and of the kit."""
    made.unlink(missing_ok=True)
    with tempfile.TemporaryDirectory() as folder:
        crate, guard, names = (Path(folder, it) for it in ("crate.a", "guard.o", "names"))
        names.write_text("".join(f"rviommu_{it} iom_c_{it}\n" for it in guarded()))
        subprocess.run(["objcopy", f"--redefine-syms={names}", ARCHIVE, crate], check=True)
        subprocess.run(["gcc", *COMPILED, f"-I{INCLUDE}", "-c", GUARD, "-o", guard], check=True)
        script = f"CREATE {made}\nADDLIB {crate}\nADDMOD {guard}\nADDLIB {crates.kit()}/c/liblibc_c.a\nSAVE\nEND\n"
        subprocess.run(["ar", "-M"], input=script.encode(), check=True)


def share(archive, lib):
    """The shared object: the archive whole, with the header's functions in sight."""
    for old in lib.glob("librviommu.so*"):
        old.unlink()
    name = "librviommu.so." + defined(r"RVIOMMU_ABI (\d+)")
    with tempfile.NamedTemporaryFile("w", suffix=".map") as names:
        names.write("{ global: " + "".join(f"{it}; " for it in exported()) + "local: *; };\n")
        names.flush()
        whole = ["-Wl,--whole-archive", archive, "-Wl,--no-whole-archive", f"-Wl,--version-script={names.name}"]
        subprocess.run(["gcc", "-shared", "-o", lib / name, f"-Wl,-soname,{name}", *whole], check=True)
    (lib / "librviommu.so").symlink_to(name)


def main():
    if len(sys.argv) > 2 or sys.argv[1:2] in (["-h"], ["--help"]):
        sys.exit(__doc__)
    out = Path(sys.argv[1]).absolute() if len(sys.argv) == 2 else TOP / "c/out"
    if not is_current():
        build_crate()
    lib, include = out / "lib", out / "include"
    for folder in (lib / "pkgconfig", include):
        folder.mkdir(parents=True, exist_ok=True)
    join(lib / "librviommu.a")
    share(lib / "librviommu.a", lib)
    for header in INCLUDE.glob("*.h"):
        shutil.copyfile(header, include / header.name)
    flags = (TOP / "c/rviommu.pc.in").read_text(encoding="utf-8")
    flags = flags.replace("@VERSION@", defined('RVIOMMU_VERSION "(.*)"'))
    (lib / "pkgconfig/rviommu.pc").write_text(flags, encoding="utf-8")
    print(out)


if __name__ == "__main__":
    main()
