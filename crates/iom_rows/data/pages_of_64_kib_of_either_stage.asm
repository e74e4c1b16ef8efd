ram 0x80000000 0x100000
capabilities
at 0x80043abc
bytes 11
at 0x80040abc
bytes 11
at 0x80056abc
bytes 11
at 0x80090000
context gmode=8 gppn=0x80020 gscid=7 mode=8 ppn=0x30
context gmode=8 gppn=0x80020 gscid=7 mode=8 ppn=0x30
