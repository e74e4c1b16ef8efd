ram 0x80000000 0x400000
at 0x80040abc
bytes 11
at 0x80050abc
bytes 11
at 0x80256abc
bytes 11
at 0x80100000
context mode=8 ppn=0x30                        # device 0: a first stage, its root outside memory
context gmode=8 gppn=0x4000 gscid=7 mode=8 ppn=0x30 # device 1: the root of its second stage outside memory
context mode=8 ppn=0x80030                     # device 2: a first stage
context gmode=8 gppn=0x80020 gscid=7           # device 3: a second stage
context gmode=8 gppn=0x80020 gscid=7 mode=8 ppn=0x30 # devices 4 to 7: both stages
context gmode=8 gppn=0x80020 gscid=7 mode=8 ppn=0x30
context gmode=8 gppn=0x80020 gscid=7 mode=8 ppn=0x30
context gmode=8 gppn=0x80020 gscid=7 mode=8 ppn=0x30
