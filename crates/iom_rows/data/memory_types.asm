ram 0x80000000 0x100000
capabilities svpbmt=1
at 0x800010a0
context mode=8 ppn=0x80002                           # device 5: a first stage
at 0x80002008                                        # level 2, and below it level 1
pte ppn=0x80003 flags=1
at 0x80003008
pte ppn=0x80004 flags=1
at 0x80004080                                        # level 0: PBMT 1, 2 and 3; 1 with N; bit 60
u64 0x20000000200040d7 0x40000000200040d7 0x60000000200040d7 0xa0000000200060d7 0x10000000200040d7
at 0x80010abc
bytes 11
at 0x80013abc
bytes 33
