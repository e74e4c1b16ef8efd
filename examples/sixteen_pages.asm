# Device 5 has a first stage that maps 64 KiB by a leaf with N set ("Svnapot"). The command queue has an invalidation of its first page, a fence,
# then the invalidations of all of its pages, and a fence.
ram 0x80000000 0x100000                  # 1 MiB of memory
capabilities                             # what states its capabilities has Svnapot
at 0x800010a0                            # the context of device 5, in a directory of one level
context pscid=3 mode=8 ppn=0x80002       # Sv39 as the first stage, the root at page 0x80002
at 0x80002008                            # level 2, addresses from 0x40000000
pte ppn=0x80003 flags=1                  # a pointer
at 0x80003008                            # level 1, from 0x40200000
pte ppn=0x80004 flags=1                  # a pointer
at 0x80004000                            # level 0: the same entry for each of the sixteen pages from 0x40200 on, to the frames from 0x80010 on
u64 0x80000000200060d7 0x80000000200060d7 0x80000000200060d7 0x80000000200060d7 0x80000000200060d7 0x80000000200060d7 0x80000000200060d7 0x80000000200060d7
u64 0x80000000200060d7 0x80000000200060d7 0x80000000200060d7 0x80000000200060d7 0x80000000200060d7 0x80000000200060d7 0x80000000200060d7 0x80000000200060d7
at 0x80090000                            # the command queue: first one page alone
cmd vma av=1 pscv=1 pscid=3 page=0x40200
cmd fence
cmd vma av=1 pscv=1 pscid=3 page=0x40200 # then each of the sixteen
cmd vma av=1 pscv=1 pscid=3 page=0x40201
cmd vma av=1 pscv=1 pscid=3 page=0x40202
cmd vma av=1 pscv=1 pscid=3 page=0x40203
cmd vma av=1 pscv=1 pscid=3 page=0x40204
cmd vma av=1 pscv=1 pscid=3 page=0x40205
cmd vma av=1 pscv=1 pscid=3 page=0x40206
cmd vma av=1 pscv=1 pscid=3 page=0x40207
cmd vma av=1 pscv=1 pscid=3 page=0x40208
cmd vma av=1 pscv=1 pscid=3 page=0x40209
cmd vma av=1 pscv=1 pscid=3 page=0x4020a
cmd vma av=1 pscv=1 pscid=3 page=0x4020b
cmd vma av=1 pscv=1 pscid=3 page=0x4020c
cmd vma av=1 pscv=1 pscid=3 page=0x4020d
cmd vma av=1 pscv=1 pscid=3 page=0x4020e
cmd vma av=1 pscv=1 pscid=3 page=0x4020f
cmd fence
