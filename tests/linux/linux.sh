#!/bin/sh
# linux.sh LIBRARY [OPERATIONS [SEED]]    Plays lives of the IOMMU driver of Linux over the C library, LIBRARY being librviommu.a.
#
# README.md says what is needed, and what is compared. The driver's source is looked for in the folder LINUX_SOURCE, or in
# /usr/src/linux-source-*.tar.xz, which Debian's packages put there. Prints a line for each life, and ends with status 1 if one
# failed, 2 if there is no source.
[ $# -ge 1 ] || { echo "usage: linux.sh LIBRARY [OPERATIONS [SEED]]" >&2; exit 1; }
here=$(cd "$(dirname "$0")" && pwd)
library=$1 operations=${2:-3000} seed=${3:-1} failed=0
made=$(mktemp -d) || exit 1
trap 'rm -rf "$made"' EXIT
source=$made/source
drivers=drivers/iommu
parts="$drivers/riscv $drivers/generic_pt $drivers/iommu-pages.h include/linux/generic_pt"
# The headers of the kernel that these include; each stands for stubs.h.
headers="acpi acpi_rimt args atomic bitfield bitops bits bug build_bug cacheflush cleanup compiler container_of crash_dump dma-mapping
    errno export init iommu iopoll irqchip/riscv-imsic kconfig kernel limits log2 mm_types msi of_irq of_platform pci platform_device
    sizes spinlock stringify types"

stop() {
    echo "linux.sh: $2" >&2
    exit "$1"
}

# Only these parts: other headers of the kernel would be found in place of the C library's.
packed=$(ls /usr/src/linux-source-*.tar.xz 2> /dev/null | tail -n 1)
mkdir -p "$source" "$made/headers/linux/irqchip" "$made/headers/asm" "$made/changed/riscv"
if [ -n "$LINUX_SOURCE" ]; then
    tar -C "$LINUX_SOURCE" -c $parts | tar -C "$source" -x
elif [ -n "$packed" ]; then
    tar -C "$source" --strip-components=1 --wildcards -xf "$packed" $(printf '*/%s ' $parts)
else
    stop 2 "there is no source of Linux: install Debian's linux-source-7.2 or later, or name a folder by LINUX_SOURCE"
fi
for name in $headers; do
    # The C library's own headers include these three.
    case $name in errno | limits | types) echo "#include_next <linux/$name.h>" ;; esac > "$made/headers/linux/$name.h"
    echo '#include "stubs.h"' >> "$made/headers/linux/$name.h"
done
echo '#include "stubs.h"' > "$made/headers/asm/page.h"

# replaced OLD NEW: changes a text of the driver, which has to be there.
replaced() {
    grep -qF "$1" "$made/changed/riscv/iommu.c" || stop 1 "the driver's source has no '$1'"
    sed -i "s/$1/$2/" "$made/changed/riscv/iommu.c"
}

# compiled PROGRAM SMALL PLAIN: makes a program that plays lives, with queues of few entries, and without the driver's Svnapot, if
# these are asked.
compiled() {
    sed "s|\"../iommu-pages.h\"|\"$source/$drivers/iommu-pages.h\"|" "$source/$drivers/riscv/iommu.c" > "$made/changed/riscv/iommu.c"
    [ "$2" = 0 ] || { replaced 'DEF_CQ_COUNT	8192' 'DEF_CQ_COUNT	64'; replaced 'DEF_FQ_COUNT	4096' 'DEF_FQ_COUNT	32'; }
    [ "$3" = 0 ] || replaced 'BIT(PT_FEAT_RISCV_SVNAPOT_64K) |' ''
    "${CC:-cc}" -std=gnu11 -O2 -g -fno-strict-aliasing -w -I"$made/headers" -I"$here" -I"$source/include" -I"$here/../../include" \
        -I"$made/changed/riscv" -I"$source/$drivers/riscv" "$here/hypervisor.c" "$source/$drivers/riscv/iommu-platform.c" \
        "$source/$drivers/generic_pt/fmt/iommu_riscv64.c" "$here/kernel.c" "$here/interrupts.c" "$here/guests.c" "$here/lives.c" "$library" -o "$1" || exit 1
}

# number VALUE: eight bytes, the lowest first.
number() {
    for low in 0 8 16 24 32 40 48 56; do printf "\\$(printf %03o $(($1 >> low & 255)))"; done
}

# lives COUNT NAME [WORD [WORD [BASE [OPTION]]]]: plays lives on the machine of 64 MiB that the words of an image of version 3 or 4 state, with a
# window of sixteen pages from BASE on; or on one of version 1. Of that the driver's Svnapot is taken out. lives.c has the options.
lives() {
    {
        printf 'RVIOMMU%d' $(($# > 4 ? 4 : $# > 2 ? $# : 1))
        [ -z "$3" ] || number "$3"
        [ -z "$4" ] || number $(($4 | ($# > 4) << 8))
        [ -z "$5" ] || { number "$5"; number $((1 << 16)); }
        number $((1 << 31)); number $((1 << 26)); number 0
    } > "$made/image"
    for life in $(seq 0 $(($1 - 1))); do
        small=$((life % 2)) plain=$(($# < 3))
        program=$made/lives$small$plain
        [ -e "$program" ] || compiled "$program" $small $plain
        said=$("$program" "$made/image" $((seed + life)) "$operations" quiet $6)
        status=$?
        few=
        [ $small = 0 ] || few=", few entries"
        echo "$2, seed $((seed + life))$few: ${said:-status $status}"
        [ $status = 0 ] || failed=$((failed + 1))
    done
}

svpbmt=$((1 << 15)) sv57=$((1 << 11)) sv57x4=$((1 << 19)) nl=$((1 << 42)) s=$((1 << 43))
lives 6 "everything but Svpbmt" $((sv57 | sv57x4 | nl | s | 2 << 57))
lives 6 "Svnapot alone" 0
lives 1 "Sv57" $sv57
lives 1 "NL" $nl
lives 1 "S" $s
lives 1 "two vectors" $((1 << 57))
lives 1 "Svpbmt" $svpbmt
lives 2 "version 1"
wires=$((0x3810060610)) messages=$((0x3800060610)) either=$((0x3820060610)) all=$((sv57 | sv57x4 | nl | s)) files=$((0x28000000))
lives 6 "delays" $((wires | all)) $((1 << 3))
lives 4 "messages" $((messages | all)) $((1 << 2)) $files
lives 4 "messages or wires, one vector" $either 0 $files
lives 4 "messages or wires, two vectors, delays" $((either | all)) $((1 << 3 | 1 << 1)) $files
lives 1 "messages or wires, no interrupt file" $either 0
lives 1 "messages or wires, Bare at the start" $either 0 $files bare
flat=$((1 << 22))
lives 4 "guests" $((wires | flat)) 0 $files
lives 4 "guests, messages or wires, two vectors" $((either | flat | all)) $((1 << 1)) $files
lives 1 "guests, delays" $((either | flat | all)) $((1 << 3)) $files
lives 1 "guests, no interrupt file" $((wires | flat)) 0
lives 2 "guests, every IOMMU" $((either | flat | all)) 0 $files every
[ $failed = 0 ] && echo "no life failed" || stop 1 "$failed lives failed"
