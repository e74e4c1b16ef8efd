# debug: words with mode 10 on a machine with five levels in the first stage
ram 0x80000000 0x100000
capabilities sv57=1
at 0x80001000
u64 1 0 0 0xa000000000080033                         # device 0: mode 10
u64 1 0xa000000000080028 0 0                         # device 1: gmode 10
