# debug: of 33 steps the last 32 are told, each step of a line by its number
ram 0x80000000 0x1000
bytes 0102030405060708
disk 5 2 c0ffee
