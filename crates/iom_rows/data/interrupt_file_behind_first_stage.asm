ram 0x80000000 0x100000
window 0x28000000 0x10000
capabilities msi_flat=1
at 0x80001140
context gmode=8 gppn=0x80020 gscid=7 msimode=1 msippn=0x80050 msimask=3 msipattern=0x24000 # device 5 of guest 7: four interrupt files, from the guest's page 0x24000 on
at 0x80020000
pte ppn=0x80000 flags=0xd7 # second stage: a superpage of 1 GiB
at 0x80050010
u64 0xa000407 0xff         # file 1: basic, to page 0x28001 of the window; the second word is ignored
at 0x80010ab8
u64 0x4433221100000000     # what the device is to read
at 0x80002008
pte ppn=0x80003 flags=1    # first stage, level 2: a pointer to page 0x80003
at 0x80003008
pte ppn=0x80004 flags=1    # level 1: a pointer to page 0x80004
at 0x80004008
pte ppn=0x80010 flags=0xd7 # level 0: page 0x80010
