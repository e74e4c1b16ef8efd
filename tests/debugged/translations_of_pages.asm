# debug: the address that a device's access would lead to: in mode Off, through a directory of one level, and in mode Bare
ram 0x80000000 0x100000
disk 5 2 c0ffee
disk 6 24
