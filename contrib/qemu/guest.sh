#!/bin/busybox sh
# The first process of the guest that boot.py boots. Each check prints one line, `check: NAME ok` or `check: NAME failed`.
# Of the kernel's command line: modules=A,B,.. are loaded in this order, paging=A,B,.. are the parameters of our own, which is loaded at the end, and
# hart=N moves the IOMMU's messages to hart N before that.

/bin/busybox --install -s /bin
export PATH=/bin
mount -t proc proc /proc
mount -t sysfs sysfs /sys
mount -t devtmpfs devices /dev
mount -t tmpfs none /tmp
dmesg -n 1

argument() {
    tr ' ' '\n' < /proc/cmdline | sed -n "s/^$1=//p"
}

check() {
    if [ "$2" = 0 ]; then echo "check: $1 ok"; else echo "check: $1 failed"; fi
}

# How often interrupts came so far, each line with this word before it.
interrupts() {
    sed "s/^ */interrupts $1: /" /proc/interrupts
}

# Writes random bytes to a disk, drops the kernel's caches, and compares.
disk() {
    dd if=/tmp/bytes of="$2" bs=64k 2>/dev/null && sync && echo 3 > /proc/sys/vm/drop_caches
    dd if="$2" bs=64k count=32 2>/dev/null | cmp -s - /tmp/bytes
    check "$1" $?
    echo "written: $1 $(sha256sum < /tmp/bytes | cut -d' ' -f1)"
}

for name in $(argument modules | tr ',' ' '); do
    insmod "/modules/$name.ko"
done
for turn in 1 2 3 4 5 6 7 8 9 10; do
    if [ -b /dev/vda ] && [ -b /dev/nvme0n1 ]; then break; fi
    sleep 1
done

groups=0
for group in /sys/kernel/iommu_groups/*; do
    groups=$((groups + 1))
done
devices=0
for device in /sys/bus/pci/devices/*; do
    [ -e "$device/iommu_group" ] && devices=$((devices + 1))
done
[ "$groups" = "$devices" ] && [ "$groups" -ge 5 ]
check "$groups-groups" $?

dd if=/dev/urandom of=/tmp/bytes bs=64k count=32 2>/dev/null
disk virtio-blk /dev/vda
disk nvme /dev/nvme0n1

ip link set eth0 up
ip address add 10.0.2.15/24 dev eth0
# On a busy machine the guest may sleep for longer than ping waits.
for turn in 1 2 3; do
    ping -c 5 -i 0.2 -W 10 10.0.2.2 > /tmp/ping
    if grep -q '5 packets received' /tmp/ping; then break; fi
    sed "s/^/ping, turn $turn: /" /tmp/ping
done
grep -q '5 packets received' /tmp/ping
check ping $?

interrupts before
hart=$(argument hart)
for number in $(sed -n 's/^ *\([0-9]*\):.* pMSI-[0-9a-f]*\.iommu .*\.iommu$/\1/p' /proc/interrupts); do
    [ -z "$hart" ] || echo "$hart" > "/proc/irq/$number/smp_affinity_list"
done
if [ -e /modules/paging.ko ]; then
    insmod /modules/paging.ko $(argument paging | tr ',' ' ')
    check paging-module $?
fi
interrupts after
dmesg | grep -E 'iommu|paging:|BUG|WARN|Oops' | sed 's/^/dmesg: /'
echo "guest: end"
poweroff -f
