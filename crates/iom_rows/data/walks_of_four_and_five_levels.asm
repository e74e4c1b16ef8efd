ram 0x80000000 0x400000
capabilities sv57=1 sv57x4=1
at 0x80000018
pte ppn=0x80001 flags=1                        # entry 3 of the root: a pointer to page 0x80001
at 0x80001028
pte ppn=0x80002 flags=1                        # entry 5 there: a pointer to page 0x80002
at 0x80002038
pte ppn=0x80010 flags=0xd7                     # entry 7 there: page 0x80010
at 0x80010abc
bytes 11
at 0x802a5000
bytes 11
at 0x80030000
context mode=9 ppn=0x80000                     # devices 0 and 1: a first stage of four levels
context mode=9 ppn=0x80000
context gmode=9 gppn=0x80000                   # devices 2 and 3: a second stage of four levels
context gmode=9 gppn=0x80000
context mode=9 ppn=0x90000                     # device 4: four levels, the root outside memory
context gmode=9 gppn=0x90000                   # device 5: the same in the second stage
context mode=10 ppn=0x80000                    # devices 6 to 8: a first stage of five levels
context mode=10 ppn=0x80000
context mode=10 ppn=0x80000
context gmode=10 gppn=0x80000                  # devices 9 and 10: a second stage of five levels
context gmode=10 gppn=0x80000
context mode=10 ppn=0x90000                    # device 11: five levels, the root outside memory
context gmode=10 gppn=0x90000                  # device 12: the same in the second stage
