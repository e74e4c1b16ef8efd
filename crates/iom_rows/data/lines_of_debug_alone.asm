# a page of memory and a block device
ram 0x80000000 0x1000
disk 5 1
