# Device 5, its page tables, and two full invalidations: the first in the wrong order.
ram 0x80000000 0x100000            # 1 MiB of memory
at 0x800010a0                      # the context of device 5, in a directory of one level
context pscid=3 mode=8 ppn=0x80002 # its first stage is Sv39, the root at page 0x80002; no second stage
at 0x80002008                      # level 2, addresses from 0x40000000
pte ppn=0x80003 flags=1            # a pointer
at 0x80003008                      # level 1, addresses from 0x40200000
pte ppn=0x80004 flags=1            # a pointer
at 0x80004008                      # level 0, page 0x40201000
pte ppn=0x80010 flags=0xd7         # V, R, W, U, A and D
at 0x80010abc                      # in the page
bytes 11                           # what the device is to read
at 0x80090000                      # the command queue
cmd vma                            # translations of the host first ..
cmd gvma                           # .. then those of guests ..
cmd iodir                          # .. and the contexts last: the wrong order
cmd iodir                          # the contexts first ..
cmd vma                            # .. then the translations of the host ..
cmd gvma                           # .. and those of guests: the right order
