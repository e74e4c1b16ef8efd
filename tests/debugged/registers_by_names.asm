# debug: a register is written by its name
ram 0x80000000 0x1000
bytes 0102030405060708
disk 5 2 c0ffee
