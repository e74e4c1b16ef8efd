# debug: queues, bytes of memory and of a disk, at both ends
ram 0x80000000 0x1000
bytes 0102030405060708
disk 5 2 c0ffee
