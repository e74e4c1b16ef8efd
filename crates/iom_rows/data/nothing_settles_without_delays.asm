ram 0x80000000 0x1000
capabilities vectors=1
