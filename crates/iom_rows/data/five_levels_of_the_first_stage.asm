ram 0x80000000 0x100000
capabilities sv57=1
at 0x80001000
context mode=10 ppn=0x80033                          # device 0: a first stage of five levels
u64 1 0xa000700000080028 0 0                         # device 1: a second stage of five levels
u64 1 0xa000700000080028 0 0xa000000000080033
at 0x80028000                                        # second stage, level 4
pte ppn=0x8002c flags=1
at 0x8002a018                                        # entry 0x403
pte ppn=0x8002c flags=1
at 0x8002c000                                        # level 3
pte ppn=0x8002d flags=1
at 0x8002d010                                        # level 2
pte ppn=0x80000 flags=0xd7                           # a leaf of 1 GiB: from 0x80000000 on each address is itself
at 0x80033008                                        # first stage, level 4
pte ppn=0x80034 flags=1
pte ppn=0 flags=0xd7                                 # a leaf of 256 TiB
at 0x80034008                                        # level 3
pte ppn=0x80030 flags=1
at 0x80030008                                        # level 2
pte ppn=0x80031 flags=1
at 0x80031008                                        # level 1
pte ppn=0x80032 flags=1
at 0x80032008                                        # level 0
pte ppn=0x80010 flags=0xd7
at 0x80010abc
bytes 1122334455667788
