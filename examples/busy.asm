# A machine whose registers take their time. Device 5 has a first stage that maps one page.
ram 0x80000000 0x100000                  # 1 MiB of memory
capabilities delays=1                    # writes of ddtp, cqcsr and fqcsr act when they settle
at 0x800010a0                            # the context of device 5, in a directory of one level
context pscid=3 mode=8 ppn=0x80002       # Sv39 as the first stage, the root at page 0x80002
at 0x80002008                            # level 2, addresses from 0x40000000
pte ppn=0x80003 flags=1                  # a pointer
at 0x80003008                            # level 1, from 0x40200000
pte ppn=0x80004 flags=1                  # a pointer
at 0x80004008                            # level 0 ..
pte ppn=0x80010 flags=0xd7               # .. page 0x40201
at 0x80010000                            # in its frame
bytes 11223344
at 0x80090000                            # the command queue
cmd fence                                # IOFENCE.C
cmd fence                                # and another
