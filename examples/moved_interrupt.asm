# A machine whose interrupts are messages, and two interrupt files. Device 5 has no context, so each of its accesses is denied.
ram 0x80000000 0x100000                  # 1 MiB of memory
capabilities igs=0                       # messages alone, with one vector
window 0x28000000 0x2000                 # a page for the file of each hart
