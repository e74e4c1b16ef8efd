# debug: where a step's translation came from, and what the caches hold beside the tables
ram 0x80000000 0x100000
at 0x800010a0
context pscid=3 mode=8 ppn=0x80002
context
at 0x80002008
pte ppn=0x80003 flags=1
at 0x80003008
pte ppn=0x80004 flags=1
at 0x80004008
pte ppn=0x80010 flags=0xd7
