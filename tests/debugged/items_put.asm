# debug: which items are taken, and the words of some
ram 0x80000000 0x100000
disk 5 2 c0ffee
disk 6 24
