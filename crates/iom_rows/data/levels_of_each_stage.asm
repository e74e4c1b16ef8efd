ram 0x80000000 0x400000
capabilities sv57=1 sv57x4=1
at 0x80020000
u64 0x20009001
at 0x80024000
u64 0x200000d7
at 0x80030008
u64 0xc401
at 0x80031008
u64 0xc801
at 0x80032008
u64 0xcc01
at 0x80033008
u64 0x100d7
at 0x80040abc
bytes 11
at 0x80200abc
bytes 11
at 0x80100000
context gmode=9 gppn=0x80020 gscid=7 mode=9 ppn=0x30 # device 0
context gmode=8 gppn=0x80020 gscid=7 mode=9 ppn=0x30 # device 1
context gmode=9 gppn=0x80020 gscid=7           # device 2
context gmode=9 gppn=0x80020 gscid=7 mode=8 ppn=0x30 # device 3
context gmode=8 gppn=0x80020 gscid=7           # device 4
context gmode=10 gppn=0x80020 gscid=7 mode=10 ppn=0x30 # device 5
context gmode=10 gppn=0x80020 gscid=7          # device 6
context gmode=10 gppn=0x80020 gscid=7 mode=9 ppn=0x30 # device 7
