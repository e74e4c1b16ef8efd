ram 0x80000000 0x100000
window 0x28000000 0x10000
at 0x800010a0
context pscid=3 mode=8 ppn=0x80002             # device 5, behind a first stage
context                                        # device 6, behind none
context mode=8 ppn=0x28001                     # device 7, with its tables in the window
at 0x80002008
pte ppn=0x80003 flags=1
at 0x80003008
pte ppn=0x80004 flags=1
at 0x80004008
pte ppn=0x28001 flags=0xd7                     # a page of the window
pte ppn=0x2800f flags=0xd7                     # its last one
pte ppn=0x28010 flags=0xd7                     # the page behind it
at 0x80090000
cmd fence av=1 data=0x33 addr=0x28001040
cmd fence av=1 data=0x44 addr=0x28010000       # behind the window
