# explain: an access that is stale, but led alike by another context or page; a named register and a put
ram 0x80000000 0x100000
disk 5 2 c0ffee
at 0x800010a0
context pscid=3 mode=8 ppn=0x80002
at 0x80002008
pte ppn=0x80003 flags=1
at 0x80003008
pte ppn=0x80004 flags=1
at 0x80004008
pte ppn=0x80010 flags=0xd7
pte ppn=0x80011 flags=0xd7
at 0x80010002
bytes 0100
at 0x80010abc
bytes 11223344
at 0x80090000
cmd vma
cmd iodir
