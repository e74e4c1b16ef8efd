ram 0x80000000 0x100000
at 0x800010a0
context mode=8 ppn=0x80002           # device 5, of the host: a first stage, Sv39, the root at page 0x80002
context gmode=8 gppn=0x80020 gscid=7 # device 6 of guest 7: a second stage
at 0x80002008
pte ppn=0x80003 flags=1              # level 2: a pointer to page 0x80003
at 0x80003008
pte ppn=0x80004 flags=1              # level 1: a pointer to page 0x80004
at 0x80004008
pte ppn=0x80010 flags=0xd7           # level 0: page 0x80010, with V, R, W, U, A and D
at 0x80020010
pte ppn=0x80000 flags=0xd7           # the second stage: a leaf of 1 GiB
at 0x80010abc
bytes 11
at 0x80090000
cmd gvma
cmd gvma gv=1 gscid=8
