# Device 5 has page tables, and no page is mapped but one.
ram 0x80000000 0x100000            # 1 MiB of memory
at 0x800010a0                      # the context of device 5, in a directory of one level
context pscid=3 mode=8 ppn=0x80002 # its first stage is Sv39, the root at page 0x80002; no second stage
at 0x80002008                      # level 2, addresses from 0x40000000
pte ppn=0x80003 flags=1            # a pointer
at 0x80003008                      # level 1, addresses from 0x40200000
pte ppn=0x80004 flags=1            # a pointer
at 0x80004008                      # level 0, page 0x40201000
pte ppn=0x80010 flags=0xd7         # V, R, W, U, A and D
