#!/bin/sh
# steps.sh    Times the steps of a block device on a disk of one sector and on one of 32 MiB. The program, steps.program, is
# proved and built in a place of its own, beside copies of the crates that it stands on, so that it is no part of the gate.
top=$(cd "$(dirname "$0")/.." && pwd) || exit 1
command -v rt >/dev/null || { echo "rt, the command of the Rattle kit, is not on the path" >&2; exit 1; }
place=$(mktemp -d) || exit 1
trap 'rm -rf "$place"' EXIT
mkdir -p "$place/crates/steps/src"
for name in iom_bits iom_mem iom_virtq iom_blk; do
    cp -r "$top/crates/$name" "$place/crates/$name"
done
cp "$top/bench/steps.program" "$place/crates/steps/src/main.rt"
{
    grep -E '^iom_(bits|mem|virtq|blk):' "$top/crates.txt"
    echo "steps: iom_mem iom_virtq iom_blk anyhow"
} > "$place/crates.txt"
cd "$place/crates/steps" && rt run
