#!/bin/sh
# calls.sh [PREFIX]    Calls a second of the C library that c/build.py made in PREFIX, c/out where none is named, beside the same calls
# of plain C functions that do nothing. Needs gcc, or the compiler that CC names.
set -e
here=$(cd "$(dirname "$0")" && pwd)
prefix=${1:-$here/../c/out}
made=$(mktemp -d)
trap 'rm -r "$made"' EXIT
"${CC:-gcc}" -std=c11 -O2 -Wall -Wextra -I"$prefix/include" -o "$made/calls" "$here/calls.c" "$here/nothing.c" "$prefix/lib/librviommu.a"
"$made/calls"
