# debug: where a read's translation came from: a walk under a context that changed since, a context, the register
ram 0x80000000 0x100000
disk 5 2 c0ffee
disk 6 24
