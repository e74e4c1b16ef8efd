ram 0x80000000 0x100000
capabilities sv57x4=1
at 0x80001000
u64 1 0 0 0xa000000000000000                   # device 0: mode 10
u64 1 0x9000000000000000 0 0xa000000000000000  # device 1: both, gmode 9
context gmode=10 mode=9                        # device 2: gmode 10, mode 9
context gmode=9 mode=9                         # device 3: four levels
