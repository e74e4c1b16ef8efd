# Device 5 was given to guest 7: four levels in the guest's own stage and in the hypervisor's.
ram 0x80000000 0x100000                              # 1 MiB of memory
at 0x800010a0                                        # the context of device 5, in a directory of one level
context gmode=9 gppn=0x80020 gscid=7 mode=9 ppn=0x30 # Sv48x4 and Sv48; the root of the first stage is page 0x30 of the guest
at 0x80020000                                        # second stage, level 3, of 16 KiB: guest-physical addresses from 0
pte ppn=0x80024 flags=1                              # a pointer
at 0x80022010                                        # level 3, entry 0x402, from 0x2010000000000
pte ppn=0 flags=0xd7                                 # a page of 512 GiB, V, R, W, U, A and D: physical addresses from 0
at 0x80024000                                        # level 2, from 0
pte ppn=0x80025 flags=1                              # a pointer
at 0x80025000                                        # level 1, from 0
pte ppn=0x80026 flags=1                              # a pointer
at 0x80026180                                        # level 0, the guest's page 0x30 ..
pte ppn=0x80030 flags=0xd7                           # it may be read and written
pte ppn=0x80031 flags=0xd7                           # .. page 0x31
pte ppn=0x80032 flags=0xd7                           # .. page 0x32
pte ppn=0x80033 flags=0xd7                           # .. page 0x33
at 0x80026200                                        # .. page 0x40
pte ppn=0x80040 flags=0xd7                           # the page with the guest's data
at 0x80030008                                        # first stage, level 3, addresses from 0x8000000000
pte ppn=0x31 flags=1                                 # a pointer to the guest's page 0x31
at 0x80030800                                        # level 3, entry 0x100: the upper half, from 0xffff800000000000
pte ppn=0x2010000000 flags=0xd7                      # a page of 512 GiB, at the guest's 0x2010000000000
at 0x80031008                                        # level 2, from 0x8040000000
pte ppn=0x32 flags=1                                 # a pointer to the guest's page 0x32
at 0x80032008                                        # level 1, from 0x8040200000
pte ppn=0x33 flags=1                                 # a pointer to the guest's page 0x33
at 0x80033008                                        # level 0, page 0x8040201000
pte ppn=0x40 flags=0xd7                              # the guest's page 0x40
at 0x80040abc                                        # in that page
bytes a1a2a3a4                                       # what the device is to read
at 0x80090000                                        # the command queue
cmd vma av=1 page=0xffff800000000 gv=1 gscid=7       # the first page of the upper half, of guest 7
