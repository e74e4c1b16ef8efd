"""Builds the wheel: the module and the C library, which c/build.py makes. It stands on Python alone, so pip needs no network for it."""
import base64
import hashlib
import os
import re
import sys
import tomllib
import zipfile

HERE = os.path.dirname(os.path.abspath(__file__))
MODULE = os.path.join(HERE, "rviommu")
LIBRARY = os.path.join(HERE, os.pardir, "c", "out", "lib", "librviommu.so")
TAG = "py3-none-linux_x86_64"


def read(path):
    with open(path, "rb") as file:
        return file.read()


def project():
    """What pyproject.toml says, and the module's own version."""
    told = tomllib.loads(read(os.path.join(HERE, "pyproject.toml")).decode())["project"]
    module = read(os.path.join(MODULE, "__init__.py")).decode()
    return told | {"version": re.search(r'(?m)^__version__ = "(.*)"$', module)[1]}


def contents():
    library = os.environ.get("RVIOMMU_LIBRARY", LIBRARY)
    if not os.path.exists(library):
        sys.exit("there is no librviommu.so: build it with c/build.py first, or name it in RVIOMMU_LIBRARY")
    names = sorted(it for it in os.listdir(MODULE) if it.endswith((".py", ".typed")))
    return {f"rviommu/{it}": read(os.path.join(MODULE, it)) for it in names} | {"rviommu/librviommu.so": read(library)}


def metadata(it):
    lines = ["Metadata-Version: 2.1", f"Name: {it['name']}", f"Version: {it['version']}", f"Summary: {it['description']}"]
    return "\n".join(lines + [f"Requires-Python: {it['requires-python']}", ""]).encode()


def write_wheel(wheel_directory, files):
    """Writes a wheel of these files; its name. Two of the same files are equal byte for byte."""
    it = project()
    name = f"{it['name']}-{it['version']}"
    info = f"{name}.dist-info"
    files = files | {
        f"{info}/METADATA": metadata(it),
        f"{info}/WHEEL": f"Wheel-Version: 1.0\nGenerator: backend\nRoot-Is-Purelib: false\nTag: {TAG}\n".encode(),
    }
    record = ""
    for path, data in files.items():
        digest = base64.urlsafe_b64encode(hashlib.sha256(data).digest()).rstrip(b"=").decode()
        record += f"{path},sha256={digest},{len(data)}\n"
    files[f"{info}/RECORD"] = (record + f"{info}/RECORD,,\n").encode()
    wheel = f"{name}-{TAG}.whl"
    with zipfile.ZipFile(os.path.join(wheel_directory, wheel), "w", zipfile.ZIP_DEFLATED) as archive:
        for path, data in files.items():
            archive.writestr(zipfile.ZipInfo(path), data, zipfile.ZIP_DEFLATED)
    return wheel


def build_wheel(wheel_directory, config_settings=None, metadata_directory=None):
    return write_wheel(wheel_directory, contents())


def build_editable(wheel_directory, config_settings=None, metadata_directory=None):
    """A wheel that leads to the module where it stands; that takes the library which c/build.py made there."""
    return write_wheel(wheel_directory, {"rviommu.pth": (HERE + "\n").encode()})


def build_sdist(sdist_directory, config_settings=None):
    raise NotImplementedError("a source package has no library in it")
