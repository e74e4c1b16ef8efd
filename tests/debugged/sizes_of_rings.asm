# debug: a queue of a block device has up to 64 entries
ram 0x80000000 0x80000
disk 5 1
