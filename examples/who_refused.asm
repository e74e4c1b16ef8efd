# Device 5 was given to guest 7: the first stage is the guest's, the second the hypervisor's, and each of them refuses one address.
ram 0x80000000 0x100000                              # 1 MiB of memory
at 0x800010a0                                        # the context of device 5, in a directory of one level
context gmode=8 gppn=0x80020 gscid=7 mode=8 ppn=0x30 # both stages; the root of the first is page 0x30 of the guest
at 0x80020000                                        # second stage, level 2, guest-physical addresses from 0
pte ppn=0x80024 flags=1                              # a pointer
at 0x80024000                                        # level 1, from 0
pte ppn=0x80025 flags=1                              # a pointer
at 0x80025180                                        # level 0, the guest's page 0x30 ..
pte ppn=0x80030 flags=0xd7                           # it may be read and written
pte ppn=0x80031 flags=0xd7                           # .. page 0x31
pte ppn=0x80032 flags=0xd7                           # .. page 0x32
at 0x80025200                                        # .. page 0x40
pte ppn=0x80040 flags=0x53                           # it may only be read
at 0x80030008                                        # first stage, level 2, addresses from 0x40000000
pte ppn=0x31 flags=1                                 # a pointer to the guest's page 0x31
at 0x80031008                                        # level 1, from 0x40200000
pte ppn=0x32 flags=1                                 # a pointer to the guest's page 0x32
at 0x80032008                                        # level 0, page 0x40201000 ..
pte ppn=0x40 flags=0xd7                              # the guest lets it be read and written
pte ppn=0x41 flags=0xd7                              # .. page 0x40202000, a page that the guest wasn't given
at 0x80040abc                                        # in the guest's page 0x40
bytes a1a2a3a4                                       # what the device is to read
