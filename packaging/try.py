#!/usr/bin/env -S python3 -B
"""try.py [WORD ..] [-- FILE ..]    Runs the program before any proof, by `rt try`: rviommu with these words and files.

Without words and files it runs iom_player, which answers sooner: the script on standard input, on the built-in image.
Standard output has the program's output alone, and the status is the program's. Standard error has what the program
writes there, and one line that says that nothing was proved. A FILE is named as it is given if it lies below the
current folder, else by its last name; files that a script includes, or names as its image, are found too. What the
program writes into files is lost.
"""
import os
import re
import subprocess
import sys
from pathlib import Path

import crates

PLAYER, PROGRAM = "iom_player", "rviommu"
PROVES = {PLAYER: "make run", PROGRAM: "make build"}
INCLUDED = re.compile(rb"(?m)^[ \t]*(?:include|image)[ \t]+([^\s#]+)[ \t]*(?:#.*)?\r?$")
# What rt writes of the run, beside what the program writes; and why there is no answer.
OF_RT = re.compile(r"(?:checked|interpreter|run)(?:=|: ).*\n|the end of the program's standard output:\n(?:\| .*\n)*")
NO_ANSWER = re.compile(r"(?m)^checked: no-answer: (.*)$")


def is_below(name):
    return not os.path.isabs(name) and not os.path.normpath(name).startswith("..")


def name_of(path):
    """The name under which the program finds a file."""
    return os.path.normpath(path) if is_below(path) else os.path.basename(path)


def with_included(name, path, found):
    """Adds a file, and the files that it names, to those found: the paths by their names."""
    if name in found or not is_below(name) or not path.is_file():
        return
    found[name] = path
    for it in INCLUDED.findall(path.read_bytes()):
        file = os.fsdecode(it)
        with_included(os.path.normpath(os.path.join(os.path.dirname(name), file)), path.parent / file, found)


def say(text):
    print(f"try: {text}", file=sys.stderr)


def tried(crate, words, files):
    """A run of the crate's program by `rt try`, with these words, and these files by their names."""
    data = [it for name, path in files.items() for it in ("--data", f"{name}={path.resolve()}")]
    # Files are read, not standard input, if there are any.
    given = subprocess.DEVNULL if files and sys.stdin.isatty() else None
    command = ["rt", "try", *data, "--", *words]
    return subprocess.run(command, cwd=crates.FOLDER / crate, stdin=given, capture_output=True)


def main():
    words = sys.argv[1:]
    at = words.index("--") if "--" in words else len(words)
    named, words = words[at + 1 :], words[:at]
    files = {}
    for it in named:
        if not os.path.isfile(it):
            sys.exit(f"try: there is no file {it}")
        with_included(name_of(it), Path(it), files)
    crate = PROGRAM if words or named else PLAYER
    done = tried(crate, [*words, *map(name_of, named)], files)
    errors = done.stderr.decode(errors="replace")
    sys.stdout.buffer.write(done.stdout)
    sys.stdout.flush()
    if "\nrun=ended " in "\n" + errors:
        sys.stderr.write(OF_RT.sub("", errors))
        say(f"nothing was proved; `{PROVES[crate]}` proves and builds this program")
    elif why := NO_ANSWER.search(errors):
        say(f"{why[1]}; a program built by `{PROVES[crate]}` has no such limit")
    else:
        sys.stderr.write(errors)
    sys.exit(done.returncode)


if __name__ == "__main__":
    main()
