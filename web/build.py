#!/usr/bin/env -S python3 -B
"""Builds the page that shows the model into web/out, where index.html can be opened from a file or served.

The model runs in the page as a WebAssembly module with a memory of 64 bits. The toolchain has no heap for that target,
so the crates are copied, and in the copy their allocator, std::alloc::Global, is page_heap::Global: std's own code and
proofs over three functions that the page supplies. There each crate is proved anew, and then the crate web/iom_page,
whose exports the page calls. What is assumed of the page's three functions is what std assumes of malloc, realloc and
free.

The merge gate knows nothing of this, and refuses sources that are of none of its crates. So the files of web/iom_page
have the ending .page, and the copy stands outside the repository: in the folder that PAGE_COPY names in the
environment, else in one of the user's cache. Needs rt on the path. Progress goes to standard error.
"""
import argparse
import base64
import hashlib
import json
import os
import re
import shutil
import subprocess
import sys
from pathlib import Path

WEB = Path(__file__).resolve().parent
sys.path.insert(0, str(WEB.parent / "packaging"))
import build
import crates
from crates import TOP, texts

OWN, OUT, EXAMPLES = WEB / "iom_page", WEB / "out", TOP / "examples"
CACHE = Path(os.environ.get("XDG_CACHE_HOME") or Path.home() / ".cache")
NAME = f"page-{hashlib.sha256(str(TOP).encode()).hexdigest()[:12]}"
COPY = Path(os.environ.get("PAGE_COPY") or CACHE / "rviommu" / NAME)
# What the page's crate names of the repository's; the copy has these and all that they stand on.
USES = ["iom_debug", "iom_asm", "iom_tool", "iom_core", "iom_image", "iom_account"]
# The page's own files.
ENDINGS = (".html", ".css", ".js")
# The only crate of the copy with functions that are no Rattle.
FOREIGN = "page_libc"

# Types with an allocator, and how a file of a crate names them.
TYPES = {"Vec": r"\bVec(<|::)", "Box": r"\bBox(<|::)", "String": r"\bString(::new|>|,|\))"}
# Others, and the library that a file takes each of.
HEAPED = [("std::collections", "BTreeMap"), ("circular_buffer", "HeapCircularBuffer"), ("indexmap", "IndexMap")]

ALIASES = """
pub type Vec<T, A = Global> = std_alloc::vec::Vec<T, A>;

pub type Box<T, A = Global> = std_alloc::boxed::Box<T, A>;

pub type String<A = Global> = std_alloc::string::String<A>;

pub type BTreeMap<K, V, A = Global> = std_collections::btree_map::BTreeMap<K, V, A>;

pub type HeapCircularBuffer<T, A = Global> = circular_buffer::HeapCircularBuffer<T, A>;

pub type IndexMap<K, V, A = Global> = indexmap::IndexMap<K, V, core::hash::BuildHasherDefault<core::hash::FoldHasher>, A>;
"""


def stop(text):
    sys.exit(f"web/build.py: {text}")


def replaced(text, old, new, file):
    if old not in text:
        stop(f"the toolchain's {file} has no '{old}'")
    return text.replace(old, new)


def with_heap(text):
    """A source file of a crate: what it takes of Global it takes of page_heap."""
    names = []
    if re.search(r"^use std::alloc::(Global|\{.*\bGlobal\b.*\});$", text, re.M):
        names.append("Global")
        text = re.sub(r"^use std::alloc::Global;\n", "", text, flags=re.M)
        text = re.sub(r"^(use std::alloc::)\{AllocError, Global\};$", r"\1AllocError;", text, flags=re.M)
    for place, name in HEAPED:
        line = f"use {place}::{name};\n"
        if line in text:
            names.append(name)
            text = text.replace(line, "")
    code = re.sub(r"^\s*(//.*|(ghost|requires|ensures)\b.*)$", "", text, flags=re.M)
    names += [name for name, found in TYPES.items() if re.search(found, code)]
    if not names:
        return text
    line = f"use page_heap::{{{', '.join(sorted(names))}}};\n" if len(names) > 1 else f"use page_heap::{names[0]};\n"
    first = re.search(r"^(pub )?(use|mod|const|struct|enum|fn|impl|#\[derive)\b", text, re.M)
    return text[: first.start()] + line + text[first.start() :]


def by_heap(text):
    """A file of definitions or proofs: what it takes of std's Global it takes of page_heap's."""
    text = text.replace("Rattle.std.specs.Global.{Global}", "Rattle.page_heap.specs.declared.Global.{Global}")
    return text.replace("Rattle.std.specs.Global.", "Rattle.page_heap.specs.Global.")


def copied(name):
    """A crate of the repository over the page's heap."""
    files = texts(TOP / "crates" / name)
    return {path: with_heap(text) if path.endswith(".rt") else by_heap(text) for path, text in files.items()}


def page_libc(rattle):
    """The three functions of the heap as the page's, with std's contracts of them."""
    file = "libc/src/heap.rt"
    text = (rattle / file).read_text(encoding="utf-8")
    block = 'unsafe extern "C" {'
    text = replaced(text, block, f'#[link(wasm_import_module = "heap")]\n{block}', file)
    text = replaced(text, "crate::types::Tried", "libc::types::Tried", file)
    return {"src/heap.rt": text, "src/lib.rt": "//! The page's heap.\n#![tactic(auto)]\n\npub mod heap;\n"}


def of_page(text):
    """A text of std_heap as one of page_heap."""
    text = text.replace("std_heap", "page_heap").replace("libc::heap::", "page_libc::heap::")
    return re.sub(r"Rattle\.libc\.(proofs|specs\.contracts)\.heap\b", r"Rattle.page_libc.\1.heap", text)


def page_heap(rattle):
    """std's allocator over those functions: its code and its proofs, without the impls that are only std's."""
    files = {path: of_page(text) for path, text in texts(rattle / "std_heap").items() if not path.startswith("specs/")}
    del files["src/impls.rt"]
    file = "std_heap/src/lib.rt"
    top = replaced(files["src/lib.rt"], "ghost use", "#![tactic(auto)]\n\nghost use", file)
    files["src/lib.rt"] = replaced(top, "pub mod impls;\n", "", file) + ALIASES
    files["specs/Lib.antt"] = "pub mod Global\n"
    files["specs/Global.antt"] = of_page((rattle / "std/specs/Global.antt").read_text(encoding="utf-8"))
    return files


def make_copy():
    """Writes the copy: its crates and their list."""
    rattle, stands_on, listed = crates.kit() / "rattle", crates.stands_on(), crates.listed()
    wanted = {name for it in USES for name in crates.below(stands_on, it)}
    own = [it for it in listed if it in wanted]
    files = {FOREIGN: page_libc(rattle), "page_heap": page_heap(rattle), **{name: copied(name) for name in own}}
    files["iom_page"] = texts(OWN, ".page")
    lines = [f"{FOREIGN}: core libc", f"page_heap: core libc std_alloc std_collections circular_buffer indexmap {FOREIGN}"]
    for name in own:
        over_heap = any("page_heap" in text for text in files[name].values())
        lines.append(f"{name}: {' '.join([*listed[name][1], *['page_heap'] * over_heap])}")
    lines.append(f"iom_page wasm64: {' '.join(own)} page_heap")
    every = {COPY / "crates" / name / path: text for name, some in files.items() for path, text in some.items()}
    write_tree({**every, COPY / "crates.txt": "\n".join(lines) + "\n"})
    # rt takes declarations of functions that are no Rattle only of a crate with such a folder.
    (COPY / "crates" / FOREIGN / "c").mkdir(exist_ok=True)


def write_tree(files):
    """Writes the files of the copy that aren't so already, since rt sees by a file's time whether it changed, and
    removes all others."""
    for path in (COPY / "crates").glob("*/*/**/*"):
        if path.is_file() and path not in files and path.relative_to(COPY).parts[2] != "out":
            path.unlink()
    for path, text in files.items():
        path.parent.mkdir(parents=True, exist_ok=True)
        if not path.exists() or path.read_text(encoding="utf-8") != text:
            path.write_text(text, encoding="utf-8")


def formatted():
    """The texts of the page's crate as `rt fmt` lays them out, by their paths."""
    make_copy()
    folder = COPY / "crates/iom_page"
    subprocess.run(["rt", "fmt"], cwd=folder, stdout=subprocess.DEVNULL, check=True)
    return texts(folder)


def prove():
    """Proves and builds the copy's crates, side by side, as packaging/build.py does those of the repository."""
    os.environ["RT_ALLOW_C"] = FOREIGN
    crates.FOLDER, crates.LIST = COPY / "crates", COPY / "crates.txt"
    if build.Build("iom_page").run():
        stop("the model could not be built")


def examples():
    """Each example with its image's text and its script."""
    found = []
    for script in sorted(EXAMPLES.glob("*.script")):
        image = script.with_suffix(".asm")
        text = image.read_text(encoding="utf-8") if image.exists() else ""
        found.append({"name": script.stem, "image": text, "script": script.read_text(encoding="utf-8")})
    return found


def write_page():
    """The page with its model and its examples, each in a file of its own."""
    model = COPY / "crates/iom_page/out/iom_page.wasm"
    if not model.exists():
        stop("the model isn't built: run it without --page")
    OUT.mkdir(exist_ok=True)
    for file in WEB.iterdir():
        if file.suffix in ENDINGS:
            shutil.copy(file, OUT)
    for name, value in (("module", base64.b64encode(model.read_bytes()).decode()), ("examples", examples())):
        text = f'"use strict";\nconst {name.upper()} = {json.dumps(value, indent=1)};\n'
        (OUT / f"{name}.js").write_text(text, encoding="utf-8")


def main():
    words = argparse.ArgumentParser(description=__doc__, formatter_class=argparse.RawDescriptionHelpFormatter)
    only = words.add_mutually_exclusive_group()
    only.add_argument("--copy", action="store_true", help="writes the copy, prints its folder, and proves nothing")
    only.add_argument("--page", action="store_true", help="puts the page together around the model that was built last")
    only.add_argument("--format", action="store_true", help="lays out the files of web/iom_page as `rt fmt` does")
    given = words.parse_args()
    if given.format:
        for path, text in formatted().items():
            (OWN / f"{path}.page").write_text(text, encoding="utf-8")
        return
    if not given.page:
        make_copy()
    if not (given.page or given.copy):
        prove()
    if not given.copy:
        write_page()
    print(COPY if given.copy else OUT)


if __name__ == "__main__":
    main()
