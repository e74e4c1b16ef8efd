ram 0x80000000 0x1000
capabilities s=1 vectors=2
