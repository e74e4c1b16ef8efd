# debug: a refused ring or chain raises an interrupt that only its own bit acknowledges, and gives nothing back
ram 0x80000000 0x100000
disk 5 2 c0ffee
disk 6 24
