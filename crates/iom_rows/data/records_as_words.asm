ram 0x80000000 0x100000
at 0x80090000
fault cause=0x104 pid=0x0 pv=0x0 priv=0x0 ttyp=0x2 did=0x80 iotval=0x1000 iotval2=0x0
fault cause=0xfff pid=0xfffff pv=0x1 priv=0x1 ttyp=0x3f did=0xffffff iotval=0x1 iotval2=0x2
u64 0x800800000104 0 0x1000 0
u64 0xffffffffffffffff 0 1 2
u64 0x800800000104 1 0x1000 0
u64 0x800800000104 0x8000000000000000 0x1000 0
at 0x80001000                                  # contexts with DTF: device 0 with a first stage, whose table is empty
context dtf=1 mode=8 ppn=0x80002
context dtf=1 mode=8 ppn=0x90000               # device 1: whose root is outside memory
context dtf=1 gmode=8 gppn=0x80004             # device 2: a second stage
u64 0x10 0 0 0                                 # device 3: V = 0
u64 0x31 0 0 0                                 # device 4: a reserved bit
