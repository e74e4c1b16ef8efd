ram 0x80000000 0x400000
at 0x80000018
pte ppn=0x80001 flags=1                        # level 2, entry 3: a pointer to page 0x80001
at 0x80001028
pte ppn=0x80002 flags=1                        # level 1, entry 5: a pointer to page 0x80002
at 0x80002038
pte ppn=0x80010 flags=0xd7                     # level 0, entry 7: page 0x80010, with V, R, W, U, A and D
at 0x80010abc
bytes 11
at 0x80030000                                  # eleven devices with a first stage, whose root is page 0x80000
context mode=8 ppn=0x80000
context mode=8 ppn=0x80000
context mode=8 ppn=0x80000
context mode=8 ppn=0x80000
context mode=8 ppn=0x80000
context mode=8 ppn=0x80000
context mode=8 ppn=0x80000
context mode=8 ppn=0x80000
context mode=8 ppn=0x80000
context mode=8 ppn=0x80000
context mode=8 ppn=0x80000
context mode=8 ppn=0x90000                     # device 11: its root is outside memory
context gmode=8 gppn=0x80000                   # device 12: a second stage over the same tables
context gmode=8 gppn=0x90000                   # device 13: one whose root is outside memory
