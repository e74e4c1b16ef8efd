#!/usr/bin/env -S python3 -B
"""program.py PROGRAM [WORDS]    Carries out the tests of program_*.py: what the built program writes and how it ends.

They compare the documents with it too. Prints each test; further words are those of unittest, as `-k stale`. The status
is 1 if a test failed.
"""
import frame

if __name__ == "__main__":
    frame.main(__doc__, "program_*.py")
