ram 0x80000000 0x100000
at 0x80001000
context
context
context
context
context
context
context
context
context
context
context
context
context
context
context
context
context
at 0x80090000
cmd vma
cmd iodir dv=1 did=2
cmd iodir
