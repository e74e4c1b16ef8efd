# Device 5 is moved from one root table to another under the same PSCID. The command queue has both invalidations under one fence, and then the
# second one again with a fence of its own.
ram 0x80000000 0x100000                  # 1 MiB of memory
at 0x800010a0                            # the context of device 5, in a directory of one level
context pscid=3 mode=8 ppn=0x80002       # Sv39 as the first stage, the root at page 0x80002
at 0x80002008                            # level 2, addresses from 0x40000000
pte ppn=0x80003 flags=1                  # a pointer
at 0x80003008                            # level 1, from 0x40200000
pte ppn=0x80004 flags=1                  # a pointer
at 0x80004008                            # level 0 ..
pte ppn=0x80010 flags=0xd7               # .. page 0x40201
at 0x80005008                            # the other root, at page 0x80005
pte ppn=0x80006 flags=1                  # a pointer
at 0x80006008
pte ppn=0x80007 flags=1                  # a pointer
at 0x80007008
pte ppn=0x80011 flags=0xd7               # page 0x40201 again
at 0x80010000                            # in the frames
bytes 11111111
at 0x80011000
bytes 22222222
at 0x80090000                            # the command queue
cmd iodir dv=1 did=5                     # an invalidation of the context
cmd vma pscv=1 pscid=3                   # one of all that has its PSCID
cmd fence                                # one IOFENCE.C for both
cmd vma pscv=1 pscid=3                   # the second one again
cmd fence
