ram 0x80000000 0x100000
capabilities nl=1 s=1
at 0x80001000
context mode=8 pscid=3 ppn=0x80010             # device 0: pages
context mode=8 pscid=3 ppn=0x80020             # device 1: global pages
context mode=8 pscid=3 ppn=0x80030             # device 2: superpages of 512 pages
context mode=9 pscid=3 ppn=0x80040             # device 3: of 2^27 pages
context mode=8 pscid=3 ppn=0x80050             # device 4: pages of 64 KiB
context gmode=8 gscid=7 gppn=0x80060           # device 5: a second stage, of guest 7
at 0x80010008
pte ppn=0x80011 flags=0x1
at 0x80011000
pte ppn=0x80012 flags=0x1
pte ppn=0x80013 flags=0x1
at 0x80012ff8
pte ppn=0x80080 flags=0xd7
at 0x80013008
pte ppn=0x80080 flags=0xd7
at 0x80013038
pte ppn=0x80080 flags=0xd7
pte ppn=0x80080 flags=0xd7
at 0x80020008
pte ppn=0x80021 flags=0x1
at 0x80021008
pte ppn=0x80022 flags=0x1
at 0x80022008
pte ppn=0x80080 flags=0xf7
at 0x80030008
pte ppn=0x80031 flags=0x1
at 0x80031008
pte ppn=0x80000 flags=0xd7
at 0x80040000
pte ppn=0x0 flags=0xd7
at 0x80050008
pte ppn=0x80051 flags=0x1
at 0x80051008
pte ppn=0x80052 flags=0x1
at 0x80052008
u64 0x80000000200220d7
at 0x80060008
pte ppn=0x80064 flags=0x1
at 0x80064008
pte ppn=0x80065 flags=0x1
at 0x80065008
pte ppn=0x80080 flags=0xd7
at 0x80090000
cmd vma
cmd vma
cmd gvma
cmd vma pscv=1 pscid=3
cmd vma
cmd gvma
cmd vma pscv=1 pscid=3
cmd vma
cmd gvma
cmd vma
cmd vma
cmd gvma
cmd vma av=1 page=0x403ff
cmd vma
cmd gvma
cmd vma av=1 page=0x403ff
cmd vma
cmd gvma
cmd vma av=1 page=0x40400
cmd vma
cmd gvma
cmd vma av=1 page=0x7ffffff
cmd vma
cmd gvma
cmd vma av=1 page=0x8000000
cmd vma
cmd gvma
cmd vma av=1 page=0x4020f
cmd vma
cmd gvma
cmd vma av=1 page=0x40210
cmd vma
cmd gvma
cmd vma av=1 page=0x4020c nl=1 s=1
cmd vma
cmd gvma
cmd vma av=1 page=0x4020f nl=1 s=1
cmd vma
cmd gvma
cmd vma av=1 page=0x40217 nl=1 s=1
cmd vma
cmd gvma
cmd vma av=1 page=0x40203 nl=1 s=1
cmd vma
cmd gvma
cmd vma av=1 page=0x40203 nl=1 s=1
cmd vma
cmd gvma
cmd vma av=1 page=0x40203 nl=1 s=1
cmd vma
cmd gvma
cmd vma av=1 page=0x40203 nl=1 s=1
cmd vma
cmd gvma
cmd vma av=1 page=0x40200 nl=1 s=1
cmd vma
cmd gvma
cmd vma av=1 page=0x40202 nl=1 s=1
cmd vma
cmd gvma
cmd vma av=1 page=0x40203 nl=1 s=1
cmd vma
cmd gvma
cmd vma av=1 page=0x40403 nl=1 s=1
cmd vma
cmd gvma
cmd vma av=1 page=0x401ff nl=1 s=1
cmd vma
cmd gvma
cmd vma av=1 page=0xfffffffffffff nl=1 s=1
cmd vma
cmd gvma
cmd gvma
cmd vma
cmd gvma
cmd gvma
cmd vma
cmd gvma
cmd gvma gv=1 gscid=6
cmd vma
cmd gvma
cmd gvma gv=1 gscid=7
cmd vma
cmd gvma
cmd iodir
cmd vma
cmd gvma
