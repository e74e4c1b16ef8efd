ram 0x80000000 0x100000
capabilities                                         # Svnapot, which each machine has that states what it offers
at 0x800010a0
context mode=8 ppn=0x80002                           # device 5: a first stage
context gmode=8 gppn=0x80020                         # device 6: a second stage
at 0x80020008                                        # its level 2
pte ppn=0x80003 flags=1
at 0x80002008                                        # level 2, and below it level 1
pte ppn=0x80003 flags=1
at 0x80003008
pte ppn=0x80004 flags=1
at 0x80004080                                        # level 0 of both: N and PPN[3:0] = 8 at each of sixteen pages
u64 0x80000000200060d7 0x80000000200060d7 0x80000000200060d7 0x80000000200060d7 0x80000000200060d7 0x80000000200060d7 0x80000000200060d7 0x80000000200060d7
u64 0x80000000200060d7 0x80000000200060d7 0x80000000200060d7 0x80000000200060d7 0x80000000200060d7 0x80000000200060d7 0x80000000200060d7 0x80000000200060d7
at 0x80010abc
bytes 11
at 0x8001fabc
bytes 22
