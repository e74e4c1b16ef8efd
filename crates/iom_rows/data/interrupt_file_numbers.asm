ram 0x80000000 0x100000
window 0x28000000 0x10000
capabilities msi_flat=1
at 0x80001140
context gmode=8 gppn=0x80020 gscid=7 msimode=1 msippn=0x80050 msimask=0x11 msipattern=0x24000 # device 5 of guest 7: four interrupt files
at 0x80020000
pte ppn=0x80000 flags=0xd7 # second stage: a superpage of 1 GiB
at 0x80050000
u64 0xa000007 0            # file 0: to page 0x28000
u64 0xa000407 0            # file 1: to page 0x28001
u64 0xa000807 0            # file 2: to page 0x28002
u64 0xa000c07 0            # file 3: to page 0x28003
