ram 0x80000000 0x100000
disk 5 2
at 0x80040000   # descriptors: the header in two parts, and the status
u64 0x80050000 0x0001000100000008 0x80050008 0x0003000100000008 0 0 0x80050010 0x0000000200000001
at 0x80041000
u64 0x10000     # the available ring: one chain, its head 0
at 0x80050010
bytes ff        # the byte for the status
