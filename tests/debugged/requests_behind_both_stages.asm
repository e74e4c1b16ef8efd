# debug: requests of one page and of three behind both stages, whose second page is unmapped midway or not
ram 0x80000000 0x100000
disk 5 2 c0ffee
disk 6 24
