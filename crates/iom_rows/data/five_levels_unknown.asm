ram 0x80000000 0x100000
at 0x80001000
u64 1 0 0 0xa000000000080033                         # mode 10: device 0, on a machine without Sv57
