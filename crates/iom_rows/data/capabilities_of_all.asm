ram 0x80000000 0x1000
capabilities sv57=1 sv57x4=1 svpbmt=1 msi_flat=1 nl=1 s=1 vectors=4
