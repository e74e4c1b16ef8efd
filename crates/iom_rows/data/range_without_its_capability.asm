ram 0x80000000 0x100000
capabilities nl=1
at 0x80090000
cmd vma nl=1
u64 0x401 0x200                                      # cmd vma av=1 s=1
