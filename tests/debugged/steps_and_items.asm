# debug: steps again and again while they are done, items stored, and what a device does next
ram 0x80000000 0x1000
bytes 0102030405060708
disk 5 2 c0ffee
