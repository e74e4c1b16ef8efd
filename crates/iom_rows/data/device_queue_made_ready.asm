ram 0x80000000 0x1000
disk 5 2 # a block device with id 5 and two sectors
