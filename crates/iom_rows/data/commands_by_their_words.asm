ram 0x80000000 0x1000
capabilities nl=1 s=1
