#!/usr/bin/env -S python3 -B
"""package.py PROGRAM    Packs the built program and the C library, installs each package and uses it.

What is done stands in tests/package, and what it is to print. If the page is built, it is looked for in both packages.
Prints each test. The status is 1 if one failed.
"""
import frame

Transcripts = frame.transcripts("package")

if __name__ == "__main__":
    frame.main(__doc__, "package.py")
