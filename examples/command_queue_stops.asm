# A command queue with a command that there is not, and a fence that has to store outside memory.
ram 0x80000000 0x100000                          # 1 MiB of memory
at 0x80090000                                    # the command queue
cmd vma                                          # every translation of the host
u64 0x7f 0                                       # no command
cmd fence av=1 data=0xcafe addr=0x80100000       # a fence that stores beyond the end of memory
cmd fence av=1 wsi=1 data=0xbeef addr=0x80000100 # a fence that stores and raises an interrupt
