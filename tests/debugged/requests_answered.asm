# debug: the status and the used length of each type of request, with its feature and without, at the ends of the disk
ram 0x80000000 0x100000
disk 5 2 c0ffee
disk 6 24
