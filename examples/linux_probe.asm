# 64 MiB of memory, as the machine has on which Linux's driver was recorded: its tables and queues are above 0x83000000.
ram 0x80000000 0x4000000
