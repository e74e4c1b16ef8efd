ram 0x80000000 0x100000
capabilities
at 0x800010a0
context mode=8 ppn=0x80010
at 0x80010008
pte ppn=0x80011 flags=1
# level 1: a table, and a pointer with a memory type
at 0x80011008
pte ppn=0x80012 flags=1
u64 0x2000000020004801
# level 0: memory types 0 to 3, of the page at 0x80040000
at 0x80012080
u64 0x200100d7 0x20000000200100d7 0x40000000200100d7 0x60000000200100d7
# types 1 and 3 of a page of 64 KiB
u64 0xa0000000200120d7 0xe0000000200120d7
at 0x80040abc
bytes a1a2a3a4
at 0x80044000
bytes 0102
