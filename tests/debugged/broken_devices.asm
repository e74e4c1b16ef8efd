# debug: what broke a block device, until it is reset
ram 0x80000000 0x100000           # 1 MiB of memory
disk 5 2 c0ffee                   # a block device with id 5, two sectors, and the first bytes of its disk
at 0x80040000                     # the descriptors
u64 0x80050000 0x0001000100000010 # 0: the header, 16 bytes to read
u64 0x80051000 0x0002000300000200 # 1: the data, a sector to write
u64 0x80050010 0x0000000200000001 # 2: the status, a byte to write
at 0x80041000                     # the available ring
u64 0x400010000                   # one request, whose chain begins at entry 4 of 4: there is none
at 0x80050010                     # the status
bytes ff                          # not answered yet
