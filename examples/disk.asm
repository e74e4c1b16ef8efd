# A block device behind the IOMMU: its rings, its requests and its data are at addresses of page tables.
ram 0x80000000 0x100000            # 1 MiB of memory
disk 5 2                           # a block device with id 5 and a disk of two sectors, all 0
at 0x800010a0                      # the context of device 5, in a directory of one level
context pscid=3 mode=8 ppn=0x80002 # its first stage is Sv39, the root at page 0x80002; no second stage
at 0x80002008                      # level 2, addresses from 0x40000000
pte ppn=0x80003 flags=1            # a pointer
at 0x80003008                      # level 1, addresses from 0x40200000
pte ppn=0x80004 flags=1            # a pointer
at 0x80004008                      # level 0, page 0x40201000
pte ppn=0x80010 flags=0xd7         # V, R, W, U, A and D
pte ppn=0x80011 flags=0xd7         # the page after it
at 0x80010000                      # at IOVA 0x40201000: the descriptors, address, then length, flags and next
u64 0x40201300 0x0001000100000010  # 0: the header of the first request, 16 bytes to read
u64 0x40201f00 0x0002000100000200  # 1: its data, a sector to read, over the end of a page
u64 0x40201310 0x0000000200000001  # 2: its status, a byte to write
u64 0x40201320 0x0004000100000010  # 3: the header of the second request
u64 0x40202800 0x0005000300000200  # 4: its data, a sector to write
u64 0x40201330 0x0000000200000001  # 5: its status
at 0x80010100                      # at IOVA 0x40201100: the available ring
u64 0x0003000000020000             # two requests, whose chains begin at 0 and at 3
at 0x80010300                      # the header of the first request
u64 1 1                            # OUT, a write, of sector 1
at 0x80010310                      # the status of the first request
bytes ff                           # not answered yet
at 0x80010320                      # the header of the second request
u64 0 1                            # IN, a read, of sector 1
at 0x80010330                      # the status of the second request
bytes ff                           # not answered yet
at 0x80010f00                      # the first bytes of the data
u64 0x6f77206f6c6c6568 0x646c72    # hello world
