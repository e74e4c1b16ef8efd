ram 0x80000000 0x100000
at 0x800010a0
context mode=8 ppn=0x80002 # device 5: a first stage, Sv39, the root at page 0x80002
at 0x80002008
pte ppn=0x80003 flags=1    # level 2: a pointer to page 0x80003
at 0x80003008
pte ppn=0x80004 flags=1    # level 1: a pointer to page 0x80004
at 0x80004008
pte ppn=0x80010 flags=0xd7 # level 0: page 0x80010, with V, R, W, U, A and D
at 0x80010abc
bytes 1122334455667788     # what the device is to read
disk 5 1                   # a block device with id 5 and one sector
at 0x80010000
u64 0x40201300 0x0001000100000010 0x40201f00 0x0002000100000200 0x40201310 0x0000000200000001
at 0x80010100
u64 0x10000                # the available ring: one chain, its head 0
at 0x80010300
u64 1
at 0x80010f00
bytes 5a
