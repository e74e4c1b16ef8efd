ram 0x80000000 0x100000
at 0x800010a0
context mode=8 ppn=0x80002 # device 5: a first stage, Sv39, the root at page 0x80002
at 0x80002008
pte ppn=0x80003 flags=1    # level 2: a pointer to page 0x80003
at 0x80003008
pte ppn=0x80004 flags=1    # level 1: a pointer to page 0x80004
at 0x80010abc
bytes 11
