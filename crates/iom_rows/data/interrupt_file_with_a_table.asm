ram 0x80000000 0x100000
window 0x28000000 0x10000
capabilities msi_flat=1
at 0x80001140
context gmode=8 gppn=0x80020 gscid=7 mode=8 ppn=0x30 msimode=1 msippn=0x80050 msimask=3 msipattern=0x30 # device 5 of guest 7: both stages
at 0x80020000
pte ppn=0x80000 flags=0xd7 # second stage: a superpage of 1 GiB
at 0x80030008
pte ppn=0x31 flags=1       # first stage, level 2: a pointer to the guest's page 0x31
at 0x80031008
pte ppn=0x32 flags=1       # level 1: a pointer to the guest's page 0x32
at 0x80032008
pte ppn=0x40 flags=0xd7    # level 0: the guest's page 0x40
pte ppn=0x33 flags=0xd7    # the guest's page 0x33, an interrupt file
at 0x80040abc
bytes a1a2a3a4             # what the device is to read
