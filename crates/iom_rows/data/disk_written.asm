ram 0x80000000 0x100000
disk 5 2 c0ffee # a block device with id 5 and two sectors
at 0x80040000
u64 0x80050000 0x0001000100000008 0x80050008 0x0002000100000008 0x80051000 0x0003000100000200 0x80050010 0x0000000200000001
at 0x80041000
u64 0x10000     # the available ring: one chain, its head 0
at 0x80050010
bytes ff        # the byte for the status
at 0x80051000
bytes 1122334455667788 # the data of the sector begin and end so
at 0x800511f8
bytes 99aabbccddeeff01
