ram 0x80000000 0x100000
capabilities
at 0x80002018
pte ppn=0x80003 flags=1
at 0x80003028
pte ppn=0x80004 flags=1
at 0x80010abc
bytes 11
at 0x80017abc
bytes 11
at 0x80030000
context mode=8 ppn=0x80002
context mode=8 ppn=0x80002
context mode=8 ppn=0x80002
