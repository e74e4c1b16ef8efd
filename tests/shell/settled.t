With --settled a line fails, too, if an access of it wasn't settled just before: then some IOMMU
could lead it elsewhere than the tables do, whatever it keeps and forgets. At the end each request fails that was made and
isn't settled then, unless a line failed for its page.

  $ rviommu asm "$TESTDIR/../mapped.asm" image
  $ begin="reg write ddtp 0x20000402
  > reg write cqb 0x20024001
  > reg write cqcsr 1
  > dma read 5 0x40201abc 4 # => 11223344"
  $ settled() { rviommu check --settled "$@" image; }

A driver that invalidates before the frame is used by others is right, also if it gathers invalidations before one fence.

  $ echo "$begin
  > dma read 5 0x40202abc 4 # => 00000000
  > store 0x80004008 8 0
  > store 0x80004010 8 0
  > put 0x80090000 cmd vma av=1 pscv=1 pscid=3 page=0x40201
  > put 0x80090010 cmd vma av=1 pscv=1 pscid=3 page=0x40202
  > put 0x80090020 cmd fence
  > reg write cqt 3
  > cmd run 9 # => 0x4 idle
  > dma read 5 0x40201abc 4 # => denied 13
  > dma read 5 0x40202abc 4 # => denied 13" | settled
  5 passed, 0 failed

Until a fence has completed an invalidation, what it names may still serve.

  $ echo "$begin
  > store 0x80004008 8 0
  > put 0x80090000 cmd vma av=1 pscv=1 pscid=3 page=0x40201
  > reg write cqt 1
  > cmd # => done
  > dma read 5 0x40201abc 4 # => denied 13" | settled
  line 9: dma read 5 0x40201abc 4 -> denied 13, unsettled: read 0x40201abc may still go to addr=0x80010abc, read in line 4, the tables now say denied 13, the invalidation of line 8 isn't fenced yet
  2 passed, 1 failed
  [1]

Without an invalidation an access isn't settled. It is told, also if the cache of this platform still serves it. A page that
isn't used again is told at the end.

  $ echo "$begin
  > store 0x80004008 8 0
  > dma read 5 0x40201abc 4 # => 11223344" | settled
  line 6: dma read 5 0x40201abc 4 -> 11223344, unsettled: read 0x40201abc may still go to addr=0x80010abc, read in line 4, the tables now say denied 13
  1 passed, 1 failed
  [1]
  $ echo "$begin
  > store 0x80004008 8 0
  > dma read 5 0x40201abc 4 # => 11223344" | settled --stale
  line 6: dma read 5 0x40201abc 4 -> 11223344, stale: read 0x40201abc served by line 4, the tables now say denied 13, unsettled: read 0x40201abc may still go to addr=0x80010abc, read in line 4, the tables now say denied 13
  1 passed, 1 failed
  [1]
  $ echo "$begin
  > store 0x80004008 8 0" | settled
  line 5: read 0x40201000 of device 5, as in line 4, may still go to addr=0x80010000, read in line 4, the tables now say denied 13
  1 passed, 1 failed
  [1]
  $ echo "$begin
  > store 0x80004008 8 0" | settled --tap
  TAP version 13
  ok 1 - line 4: dma read 5 0x40201abc 4
  not ok 2 - line 5: read 0x40201000 of device 5
    ---
    message: "line 5: read 0x40201000 of device 5, as in line 4, may still go to addr=0x80010000, read in line 4, the tables now say denied 13"
    ...
  1..2
  [1]
  $ echo "$begin
  > store 0x80004008 8 0" | rviommu check image
  1 passed, 0 failed

Seventy other pages push the translation out of the cache of this platform, but not of every one.

  $ { cat "$TESTDIR/../mapped.asm"
  > echo 'at 0x80004018'
  > for i in $(seq 70); do echo 'pte ppn=0x80010 flags=0xd7'; done; } > seventy.asm
  $ rviommu asm seventy.asm seventy
  $ { echo "$begin"
  > for i in $(seq 70); do printf 'dma read 5 0x%x 4\n' $((0x40202abc + 4096 * i)); done
  > echo 'store 0x80004008 8 0'
  > echo 'dma read 5 0x40201abc 4 # => denied 13'; } > seventy_pages
  $ rviommu check --stale seventy < seventy_pages
  2 passed, 0 failed
  $ rviommu check --settled seventy < seventy_pages
  line 76: dma read 5 0x40201abc 4 -> denied 13, unsettled: read 0x40201abc may still go to addr=0x80010abc, read in line 4, the tables now say denied 13
  1 passed, 1 failed
  [1]

A table is freed, and its page used for other things, behind invalidations of the pages under it: they leave its pointer.

  $ freed="$begin
  > store 0x80003008 8 0
  > put 0x80090000 cmd vma av=1 pscv=1 pscid=3 page=0x40201
  > put 0x80090010 cmd fence
  > reg write cqt 2
  > cmd run 9 # => 0x3 idle
  > store 0x80004008 8 0x200050d7
  > dma read 5 0x40201abc 4 # => denied 13"
  $ echo "$freed" > freed_table
  $ echo "$freed" | rviommu check --stale image
  3 passed, 0 failed
  $ echo "$freed" | settled
  line 11: dma read 5 0x40201abc 4 -> denied 13, unsettled: read 0x40201abc may still go to addr=0x80014abc, read in line 4, the tables now say denied 13, cmd vma av=0x1 page=0x40201 pscv=0x1 pscid=0x3 gv=0x0 gscid=0x0 of line 9 misses the entry: a pointer of the first stage, level=1 page=0x40200 pscid=0x3 global=0x0
  2 passed, 1 failed
  [1]

An invalidation that comes may miss the entry: it names another process, another page, the other stage or another device. Then
the last one is told, with the entry that it misses. None is told if none came behind the access that read the entry.

  $ behind="$begin
  > store 0x80004008 8 0"
  $ sent() {
  >   echo "put 0x80090000 cmd $*
  > put 0x80090010 cmd fence
  > reg write cqt 2
  > cmd run 9 # => 0x3 idle"
  > }
  $ { echo "$behind"; sent vma av=1 pscv=1 pscid=3 page=0x40201; } | settled
  2 passed, 0 failed
  $ { echo "$behind"; sent vma av=1 pscv=1 pscid=4 page=0x40201; } | settled
  line 9: read 0x40201000 of device 5, as in line 4, may still go to addr=0x80010000, read in line 4, the tables now say denied 13, cmd vma av=0x1 page=0x40201 pscv=0x1 pscid=0x4 gv=0x0 gscid=0x0 of line 9 misses the entry: a leaf of the first stage, level=0 page=0x40201 pscid=0x3 global=0x0
  2 passed, 1 failed
  [1]
  $ { echo "$behind"; sent vma av=1 pscv=1 pscid=3 page=0x40202; } | settled
  line 9: read 0x40201000 of device 5, as in line 4, may still go to addr=0x80010000, read in line 4, the tables now say denied 13, cmd vma av=0x1 page=0x40202 pscv=0x1 pscid=0x3 gv=0x0 gscid=0x0 of line 9 misses the entry: a leaf of the first stage, level=0 page=0x40201 pscid=0x3 global=0x0
  2 passed, 1 failed
  [1]
  $ { echo "reg write ddtp 0x20000402
  > reg write cqb 0x20024001
  > reg write cqcsr 1"; sent vma; echo "dma read 5 0x40201abc 4
  > store 0x80004008 8 0"; } | settled
  line 9: read 0x40201000 of device 5, as in line 8, may still go to addr=0x80010000, read in line 8, the tables now say denied 13
  1 passed, 1 failed
  [1]
  $ { echo "$begin
  > put 0x800010a0 context pscid=4 mode=8 ppn=0x80005"; sent iodir dv=1 did=6; } | settled
  line 9: read 0x40201000 of device 5, as in line 4, may still go to addr=0x80010000, read in line 4, the tables now say denied 13, cmd iodir dv=0x1 did=0x6 of line 9 misses the entry: a context, did=0x5
  2 passed, 1 failed
  [1]
  $ echo "ram 0x80000000 0x100000
  > at 0x800010a0
  > context gscid=7 gmode=8 gppn=0x80020
  > at 0x80020008
  > pte ppn=0x80024 flags=1
  > at 0x80024008
  > pte ppn=0x80025 flags=1
  > at 0x80025008
  > pte ppn=0x80010 flags=0xd7
  > at 0x80010abc
  > bytes 11223344" > guest.asm
  $ rviommu asm guest.asm guest
  $ { echo "$begin
  > store 0x80025008 8 0"; sent vma gv=1 gscid=7; } > guest.script
  $ rviommu check --settled guest < guest.script
  line 9: read 0x40201000 of device 5, as in line 4, may still go to addr=0x80010000, read in line 4, the tables now say denied 21, cmd vma av=0x0 page=0x0 pscv=0x0 pscid=0x0 gv=0x1 gscid=0x7 of line 9 misses the entry: a leaf of the second stage, level=0 page=0x40201 gscid=0x7
  2 passed, 1 failed
  [1]

The answer to owed, the report of an access and explain tell it too.

  $ { echo "$behind"; sent vma av=1 pscv=1 pscid=4 page=0x40201; echo "owed # => none
  > dma read 5 0x40201abc 4 # => any"; } > missed
  $ settled < missed
  line 10: owed -> 1, the first read 0x40201000 of device 5, as in line 4, may still go to addr=0x80010000, read in line 4, the tables now say denied 13, cmd vma av=0x1 page=0x40201 pscv=0x1 pscid=0x4 gv=0x0 gscid=0x0 of line 9 misses the entry: a leaf of the first stage, level=0 page=0x40201 pscid=0x3 global=0x0, wanted none
  line 11: dma read 5 0x40201abc 4 -> 11223344, wanted any, unsettled: read 0x40201abc may still go to addr=0x80010abc, read in line 4, the tables now say denied 13, cmd vma av=0x1 page=0x40201 pscv=0x1 pscid=0x4 gv=0x0 gscid=0x0 of line 9 misses the entry: a leaf of the first stage, level=0 page=0x40201 pscid=0x3 global=0x0
  2 passed, 2 failed
  [1]
  $ rviommu explain --only unsettled image < missed | grep unsettled:
      unsettled: may still go to addr=0x80010abc, read in line 4, the tables now say denied 13, cmd vma av=0x1 page=0x40201 pscv=0x1 pscid=0x4 gv=0x0 gscid=0x0 of line 9 misses the entry: a leaf of the first stage, level=0 page=0x40201 pscid=0x3 global=0x0
  unsettled: 1 (line 11)

What a device can't see is no failure: an access that may go by another way to the same address is noted, and fails with
--strict. A denial that leaves no record is another one.

  $ another="$begin
  > put 0x800010a0 context dtf=1 pscid=3 mode=8 ppn=0x80002
  > dma read 5 0x40201abc 4 # => 11223344
  > owed # => none"
  $ echo "$another" | settled
  line 6: note: read 0x40201abc may still go to addr=0x80010abc, read in line 4, same address, another context: dtf=0x1
  3 passed, 0 failed
  $ echo "$another" | settled --strict
  line 6: read 0x40201abc may still go to addr=0x80010abc, read in line 4, same address, another context: dtf=0x1
  3 passed, 1 failed
  [1]
  $ echo "$another
  > dma read 5 0x40203abc 4 # => denied 13" | settled
  line 6: note: read 0x40201abc may still go to addr=0x80010abc, read in line 4, same address, another context: dtf=0x1
  line 8: dma read 5 0x40203abc 4 -> denied 13, unsettled: read 0x40203abc may still be denied 13, read in line 4, same cause, another record: dtf=0x1
  3 passed, 1 failed
  [1]
  $ echo "$another" | rviommu check image
  line 7: owed -> unknown, it needs --settled, wanted none
  2 passed, 1 failed
  [1]

The line owed asks what is owed anywhere: a test says it behind its flush. Where it isn't kept, the answer says what is missing.

  $ owing="$begin
  > owed # => none
  > store 0x80004008 8 0
  > owed
  > put 0x80090000 cmd vma av=1 pscv=1 pscid=3 page=0x40201
  > put 0x80090010 cmd fence
  > reg write cqt 2
  > cmd # => done
  > owed
  > cmd # => done
  > owed # => none"
  $ echo "$owing" | settled
  5 passed, 0 failed
  $ echo "$owing" | rviommu debug image
  done
  done
  done
  11223344
  none
  done
  1, the first read 0x40201000 of device 5, as in line 4, may still go to addr=0x80010000, read in line 4, the tables now say denied 13
  done
  done
  done
  done
  1, the first read 0x40201000 of device 5, as in line 4, may still go to addr=0x80010000, read in line 4, the tables now say denied 13, the invalidation of line 11 isn't fenced yet
  done
  none
  $ echo "$owing" | rviommu check image
  line 5: owed -> unknown, it needs --settled, wanted none
  line 14: owed -> unknown, it needs --settled, wanted none
  3 passed, 2 failed
  [1]
A line owed that fails names the first request, whose page isn't told again; the others are told at the end. So is the first,
where the line passes.

  $ echo "$begin
  > dma read 5 0x40202abc 4 # => 00000000
  > store 0x80004008 8 0
  > store 0x80004010 8 0
  > owed # => none" | settled
  line 8: owed -> 2, the first read 0x40201000 of device 5, as in line 4, may still go to addr=0x80010000, read in line 4, the tables now say denied 13, wanted none
  line 8: read 0x40202000 of device 5, as in line 5, may still go to addr=0x80011000, read in line 5, the tables now say denied 13
  2 passed, 2 failed
  [1]
  $ first="1, the first read 0x40201000 of device 5, as in line 4, may still go to addr=0x80010000, read in line 4, the tables now say denied 13"
  $ echo "$begin
  > store 0x80004008 8 0
  > owed # => $first" | settled
  line 6: read 0x40201000 of device 5, as in line 4, may still go to addr=0x80010000, read in line 4, the tables now say denied 13
  2 passed, 1 failed
  [1]
  $ echo "$begin
  > store 0x80004008 8 0
  > owed # => 1, the first read 0x40201000 of device 5, *" | settled
  line 6: read 0x40201000 of device 5, as in line 4, may still go to addr=0x80010000, read in line 4, the tables now say denied 13
  2 passed, 1 failed
  [1]
  $ echo "owed now" | rviommu debug image
  bad
  $ echo owed | rviommu run image
  bad

The line free asks which entries that an IOMMU may hold name a byte of some memory: a test says it before it gives that to others.

  $ freeing="$begin
  > free 0x80004000 0x1000
  > free 0x80011000 0x1000 # => none
  > store 0x80003008 8 0
  > put 0x80090000 cmd vma pscv=1 pscid=3
  > put 0x80090010 cmd fence
  > reg write cqt 2
  > cmd # => done
  > free 0x80004000 0x1000
  > cmd # => done
  > free 0x80004000 0x1000 # => none"
  $ echo "$freeing" | settled
  5 passed, 0 failed
  $ echo "$freeing" | rviommu debug image
  done
  done
  done
  11223344
  1, the first read in line 4: a pointer of the first stage, level=1 page=0x40200 pscid=0x3 global=0x0
  none
  done
  done
  done
  done
  done
  1, the first read in line 4: a pointer of the first stage, level=1 page=0x40200 pscid=0x3 global=0x0, the invalidation of line 11 isn't fenced yet
  done
  none
  $ echo "$freeing" | rviommu check image
  line 6: free 0x80011000 0x1000 -> unknown, it needs --settled, wanted none
  line 14: free 0x80004000 0x1000 -> unknown, it needs --settled, wanted none
  3 passed, 2 failed
  [1]
  $ echo "free 0x80002000" | rviommu debug image
  bad
  $ echo "free 0x80002000 1" | rviommu run image
  bad

The line ahead says what an IOMMU may read ahead, for check --ahead, and changes nothing.

  $ echo "ahead 5 0x40201000 0x1000" | rviommu debug image
  ok
  $ echo "ahead 5 0x40201000 0x1001 # => ok" | rviommu check image
  1 passed, 0 failed
  $ echo "ahead 5 0x40201000 0x1000001" | rviommu check image
  line 1: ahead 5 0x40201000 0x1000001 -> bad: LEN "0x1000001" isn't 1 to 2^24
  line 1: note: no line has a wish
  0 passed, 1 failed
  [1]
  $ echo "ahead 5 0x40201000 0x1000" | rviommu run image
  bad

With --settled explain tells it below an access, and counts such accesses.

  $ echo "$begin
  > store 0x80004008 8 0
  > dma read 5 0x40201abc 4" > used
  $ rviommu explain --settled --only stale,unsettled image < used
  6: dma read 0x5 0x40201abc 0x4 -> 11223344
      caches: context of line 4, page of line 4, addr=0x80010abc
      warrant: walked context=4 walk=4 current=4
      stale: read 0x40201abc served by line 4, the tables now say denied 13
      unsettled: may still go to addr=0x80010abc, read in line 4, the tables now say denied 13
  accesses: 2
  granted: 2
  from the caches: 1
  stale: 1 (line 6)
  unsettled: 1 (line 6)
  $ rviommu explain --only unsettled image < freed_table
  11: dma read 0x5 0x40201abc 0x4 -> denied 13
      caches: context of line 4, no page
      walk: ddtp mode=0x2 root=0x80001
      walk: context at=0x800010a0 context dtf=0x0 custom=0x0 gmode=0x0 gppn=0x0 gscid=0x0 tav=0x0 pscid=0x3 mode=0x8 ppn=0x80002
      walk: first level=0x2 at=0x80002008 in=0x80002008 pte ppn=0x80003 flags=0x1 pointer
      walk: first level=0x1 at=0x80003008 in=0x80003008 pte ppn=0x0 flags=0x0 V=0
      walk: denied 13 iotval2=0x0
      warrant: none, it is denied
      unsettled: may still go to addr=0x80014abc, read in line 4, the tables now say denied 13, cmd vma av=0x1 page=0x40201 pscv=0x1 pscid=0x3 gv=0x0 gscid=0x0 of line 9 misses the entry: a pointer of the first stage, level=1 page=0x40200 pscid=0x3 global=0x0
  accesses: 2
  granted: 1
  denied 13: 1
  from the caches: 0
  stale: 0
  unsettled: 1 (line 11)
  $ rviommu explain --only stale image < used
  6: dma read 0x5 0x40201abc 0x4 -> 11223344
      caches: context of line 4, page of line 4, addr=0x80010abc
      warrant: walked context=4 walk=4 current=4
      stale: read 0x40201abc served by line 4, the tables now say denied 13
  accesses: 2
  granted: 2
  from the caches: 1
  stale: 1 (line 6)

An access in flight, between a store and its invalidation, may be wanted, with one answer or with each. Then the line fails
if its access is settled, and what is owed is told at the end. A stale access that goes elsewhere isn't settled.

  $ read="dma read 5 0x40201abc 4"
  $ flight="$begin
  > store 0x80004008 8 0"
  $ fenced="put 0x80090000 cmd vma av=1 pscv=1 pscid=3 page=0x40201
  > put 0x80090010 cmd fence
  > reg write cqt 2
  > cmd run 9 # => 0x3 idle
  > $read # => denied 13"
  $ for wish in '11223344 unsettled' '1122* unsettled' 'any unsettled'; do
  >   for option in --tap --stale --at-fences; do
  >     echo "$flight
  > $read # => $wish
  > $fenced" | settled $option | tail -n 1
  >   done
  > done
  1..4
  4 passed, 0 failed
  4 passed, 0 failed
  1..4
  4 passed, 0 failed
  4 passed, 0 failed
  1..4
  4 passed, 0 failed
  4 passed, 0 failed
  $ echo "$flight
  > $read # => denied 13 unsettled
  > $read # => any
  > $read # => any stale
  > $fenced" | settled
  line 6: dma read 5 0x40201abc 4 -> 11223344, wanted denied 13 unsettled, unsettled: read 0x40201abc may still go to addr=0x80010abc, read in line 4, the tables now say denied 13
  line 7: dma read 5 0x40201abc 4 -> 11223344, wanted any, unsettled: read 0x40201abc may still go to addr=0x80010abc, read in line 4, the tables now say denied 13
  line 8: dma read 5 0x40201abc 4 -> 11223344, wanted any stale, unsettled: read 0x40201abc may still go to addr=0x80010abc, read in line 4, the tables now say denied 13
  3 passed, 3 failed
  [1]
  $ echo "$begin unsettled
  > $read # => any unsettled
  > cmd # => any unsettled" | settled
  line 4: dma read 5 0x40201abc 4 -> 11223344, wanted 11223344 unsettled
  line 5: dma read 5 0x40201abc 4 -> 11223344, wanted any unsettled
  line 6: cmd -> idle, wanted any unsettled
  0 passed, 3 failed
  [1]
  $ echo "$flight
  > $read # => any unsettled" | settled
  line 6: read 0x40201000 of device 5, as in line 6, may still go to addr=0x80010000, read in line 4, the tables now say denied 13
  2 passed, 1 failed
  [1]

An access between an invalidation and its fence may keep anew what it read by an old entry. Behind the fence that isn't settled.

  $ echo "$flight
  > put 0x80090000 cmd vma av=1 pscv=1 pscid=3 page=0x40201
  > put 0x80090010 cmd fence
  > reg write cqt 2
  > cmd # => done
  > $read # => denied 13 unsettled
  > cmd # => done
  > $read # => denied 13" | settled
  line 12: dma read 5 0x40201abc 4 -> denied 13, unsettled: read 0x40201abc may still go to addr=0x80010abc, made in line 10, the tables now say denied 13
  4 passed, 1 failed
  [1]

Without --settled the answer is judged, and the last word isn't.

  $ echo "$begin unsettled
  > store 0x80004008 8 0
  > $read # => any unsettled
  > $read # => denied 13 unsettled" | rviommu check image
  line 7: dma read 5 0x40201abc 4 -> 11223344, wanted denied 13 unsettled
  2 passed, 1 failed
  [1]

A wish for a stale access is about --stale alone.

  $ echo "$begin
  > store 0x80004008 8 0
  > dma read 5 0x40201abc 4 # => 11223344 stale" | settled --stale
  line 6: dma read 5 0x40201abc 4 -> 11223344, stale: read 0x40201abc served by line 4, the tables now say denied 13, unsettled: read 0x40201abc may still go to addr=0x80010abc, read in line 4, the tables now say denied 13
  1 passed, 1 failed
  [1]

Where an allocation for it is refused, it ends with that fault, never with other answers. Before its words are read the status is 1.

  $ command -v cc > none || exit 80
  $ cc -shared -fPIC -o refusing.so "$TESTDIR/../c/refusing.c"
  $ echo "$freed" > freed
  $ rviommu check --settled image < freed > ample
  [1]
  $ number=0; seen=nothing
  $ while number=$((number + 1)); do
  >   rm -f counted
  >   env LD_PRELOAD=./refusing.so REFUSED=$number COUNTED=counted "$RVIOMMU_PROGRAM" check --settled image < freed > out 2> errors
  >   ended=$?
  >   test -e counted || break
  >   case $ended in
  >     1) cmp -s out ample || grep -qx 'rviommu: out of memory' errors || echo "allocation $number: other answers";;
  >     3) grep -q '^rviommu: .*out of memory$' errors && seen='out of memory';;
  >     *) test "$ended" = 2 || echo "allocation $number: $ended";;
  >   esac
  > done
  $ echo "$seen"
  out of memory
