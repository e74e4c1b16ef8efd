ram 0x80000000 0x100000
at 0x80001000                                        # contexts: device 0 has no stage
context
context mode=8 ppn=0x80030                           # device 1: a first stage of three levels
context mode=9 ppn=0x80034                           # device 2: one of four
context gmode=8 gppn=0x80020 gscid=7                 # device 3: a second stage of three levels
context gmode=8 gppn=0x80020 gscid=7 mode=8 ppn=0x80030
context gmode=8 gppn=0x80020 gscid=7 mode=9 ppn=0x80034
context gmode=9 gppn=0x80028 gscid=7                 # device 6: a second stage of four levels
context gmode=9 gppn=0x80028 gscid=7 mode=8 ppn=0x80030
context gmode=9 gppn=0x80028 gscid=7 mode=9 ppn=0x80034
at 0x80020010                                        # second stage of three levels, level 2
pte ppn=0x80000 flags=0xd7                           # a leaf of 1 GiB: from 0x80000000 on each address is itself
at 0x80028000                                        # second stage of four levels, level 3
pte ppn=0x8002c flags=1                              # a pointer
at 0x8002a010                                        # level 3, entry 0x402
pte ppn=0 flags=0xd7                                 # a leaf of 512 GiB
at 0x8002c010                                        # level 2
pte ppn=0x80000 flags=0xd7                           # the same leaf of 1 GiB
at 0x80030008                                        # first stage
pte ppn=0x80031 flags=1                              # level 2: a pointer
at 0x80031008
pte ppn=0x80032 flags=1                              # level 1: a pointer
at 0x80032008
pte ppn=0x80010 flags=0xd7                           # level 0: page 0x80010, with V, R, W, U, A and D
at 0x80034008                                        # first stage of four levels
pte ppn=0x80030 flags=1                              # level 3: a pointer to the root of three
at 0x80010abc
bytes 1122334455667788                               # what each device is to read
