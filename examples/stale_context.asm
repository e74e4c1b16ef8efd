# Device 5 may have one of two first stages: its context names the tables at page 0x80002, and those at page 0x80005 stand ready.
ram 0x80000000 0x100000                  # 1 MiB of memory
at 0x800010a0                            # the context of device 5, in a directory of one level
context pscid=3 mode=8 ppn=0x80002       # Sv39 as the first stage, the root at page 0x80002
at 0x80002008                            # level 2 of the first tables, addresses from 0x40000000
pte ppn=0x80003 flags=1                  # a pointer
at 0x80003008                            # level 1, from 0x40200000
pte ppn=0x80004 flags=1                  # a pointer
at 0x80004008                            # level 0 ..
pte ppn=0x80010 flags=0xd7               # .. page 0x40201
pte ppn=0x80011 flags=0xd7               # .. page 0x40202
at 0x80005008                            # level 2 of the second tables
pte ppn=0x80006 flags=1                  # a pointer
at 0x80006008                            # level 1
pte ppn=0x80007 flags=1                  # a pointer
at 0x80007018                            # level 0 ..
pte ppn=0x80012 flags=0xd7               # .. page 0x40203
at 0x80010abc                            # in the first page
bytes 11223344
at 0x80011abc                            # in the second
bytes 55667788
at 0x80012abc                            # in the third
bytes 99aabbcc
at 0x80090000                            # the command queue
cmd iodir dv=1 did=5                     # an invalidation of the context of device 5
