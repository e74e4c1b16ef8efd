# debug: what the command unit fetches: nothing while it is off, stopped or at the tail, each command in memory, and none beyond it
ram 0x80000000 0x100000
disk 5 2 c0ffee
disk 6 24
