# debug: a sector is moved from and to three parts, one of them over the end of a page, and the driver reads of it behind the last access
ram 0x80000000 0x100000
disk 5 2 c0ffee
disk 6 24
