"""The transcripts of tests/shell: what a shell prints and how it ends, command by command."""
from frame import transcripts

Transcripts = transcripts("shell")
