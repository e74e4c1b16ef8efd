"""The repository's place, the crates of crates.txt, and the kit.

`rt` takes no library that `rt ci` left, since that one holds its statements and no proofs. For one more crate above
such libraries the kit's compiler and prover serve (`words`), as `rattle --help` says.
"""
import os
import subprocess
from pathlib import Path

TOP = Path(__file__).resolve().parent.parent
FOLDER = TOP / "crates"
LIST = TOP / "crates.txt"
PARTS = ("src", "specs", "proofs")


def listed():
    """The crates, lowest first, each with the words after its name and the libraries that it uses."""
    found = {}
    for line in LIST.read_text(encoding="utf-8").splitlines():
        names, colon, uses = line.partition("#")[0].partition(":")
        if colon:
            name, *words = names.split()
            found[name] = (words, uses.split())
    return found


def stands_on():
    """The crates, each with those of them that it stands on."""
    found = listed()
    return {name: [it for it in uses if it in found] for name, (_, uses) in found.items()}


def below(crates, top):
    """The crate and all that it stands on, in the list's order."""
    wanted, to_do = set(), [top]
    while to_do:
        name = to_do.pop()
        if name not in wanted:
            wanted.add(name)
            to_do += crates[name]
    return {name: crates[name] for name in crates if name in wanted}


def is_program(name):
    return (FOLDER / name / "src/main.rt").is_file()


def texts(folder, ending=""):
    """The code, definitions and proofs of a crate, by their paths in its folder without this ending."""
    paths = [path for part in PARTS for path in sorted((folder / part).rglob("*"))]
    kinds = (f".rt{ending}", f".antt{ending}")
    found = [path for path in paths if path.name.endswith(kinds)]
    return {str(it.relative_to(folder)).removesuffix(ending): it.read_text(encoding="utf-8") for it in found}


def library(name):
    """The place of a crate's library."""
    return FOLDER / name / "out/rlib" / f"{name}.rlib"


def is_older(name, made):
    """Whether the sources of a crate are no newer than a file."""
    paths = [path for part in PARTS for path in (FOLDER / name / part).rglob("*")]
    return all(path.stat().st_mtime <= made.stat().st_mtime for path in paths if path.is_file())


def is_current(name):
    """Whether a crate's library is there, and no older than the crate's sources."""
    return library(name).exists() and is_older(name, library(name))


def kit():
    """The folder of the kit, by its manual's first page."""
    page = subprocess.run(["rt", "doc"], stdout=subprocess.PIPE, encoding="utf-8", check=True).stdout.split()[-1]
    return Path(page).resolve().parent


def words(verb, name, of_kit):
    """The words by which rattle checks or builds a crate in its folder, over the libraries as they are."""
    kinds, uses = listed()[name]
    lower = [it for it in below(stands_on(), name) if it != name]
    root = "main" if is_program(name) else "lib"
    found = [of_kit / "bin/rattle", verb, "--crate-name", name, f"src/{root}.rt"]
    for it in ["std", *(it for it in uses if it not in lower)]:
        found += ["--extern", f"{it}={of_kit}/rlibs/{it}.rlib"]
    for it in lower:
        found += ["--extern", f"{it}={library(it)}"] if it in uses else []
        found += ["-L", f"dependency={library(it).parent}"]
    found += ["-L", f"dependency={of_kit}/rlibs", "--antt-project", f"{of_kit}/rattle/logic/antt-project.json"]
    found += ["--logic-built", f"{of_kit}/logic_built"]
    found += ["--crate-type", "staticlib"] if "staticlib" in kinds else []
    return list(map(os.fspath, found))
