ram 0x80000000 0x100000
capabilities delays=1
