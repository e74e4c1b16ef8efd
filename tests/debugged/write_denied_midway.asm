# debug: why each access of a request was granted or denied, and that what was moved before a denial stays on the disk
ram 0x80000000 0x100000
disk 5 2 c0ffee
disk 6 24
