ram 0x80000000 0x100000
capabilities nl=1 s=1 sv57=1
at 0x80090000
cmd iodir did=5 dv=1 # operands in any order
cmd vma page=0xabc gv=1 gscid=7
context mode=8 ppn=0x80002
dir ppn=0x80003
pte flags=0xd7 ppn=0x80010
u64 0x10
at 0x80090100
cmd vma s=1 page=3 av=1
cmd gvma nl=1
context mode=10 ppn=0x80002
u64 1 0xa000000000000004 0 0
at 0x80090210
u64 1 2

 # several numbers on a line, blank lines and comments between
u64 3	4
at 0x80090208
u64 0
at 0x80090230
pte ppn=1

dir ppn=2
at 0x80090200
u64 0xff
