#!/bin/sh
# memory.sh COMMIT    Times reads and writes of memory as it was at COMMIT and as it is, in one run. The program,
# memory.program, is proved and built in a place of its own, beside copies of both, so that it is no part of the gate.
[ $# -eq 1 ] || { echo "usage: memory.sh COMMIT" >&2; exit 1; }
top=$(cd "$(dirname "$0")/.." && pwd) || exit 1
command -v rt >/dev/null || { echo "rt, the command of the Rattle kit, is not on the path" >&2; exit 1; }
place=$(mktemp -d) || exit 1
trap 'rm -rf "$place"' EXIT
mkdir -p "$place/crates/memory/src"
(cd "$top" && git archive "$1" crates/iom_mem) | tar -x -C "$place" || exit 1
grep -rl iom_mem "$place/crates/iom_mem" | xargs sed -i 's/iom_mem/old_mem/g'
mv "$place/crates/iom_mem" "$place/crates/old_mem"
for name in iom_bits iom_mem; do
    cp -r "$top/crates/$name" "$place/crates/$name"
done
cp "$top/bench/memory.program" "$place/crates/memory/src/main.rt"
{
    grep -E '^iom_(bits|mem):' "$top/crates.txt"
    grep -E '^iom_mem:' "$top/crates.txt" | sed 's/^iom_mem/old_mem/'
    echo "memory: iom_mem old_mem anyhow"
} > "$place/crates.txt"
cd "$place/crates/memory" && rt run
