With --stale a line fails, too, if an access of it used what is cached and the tables no longer say, and so does each
place of a cache that is stale at the script's end, unless a line failed for its page. Without it these lines pass.

  $ rviommu asm "$TESTDIR/../mapped.asm" image
  $ read='dma read 5 0x40201abc 4'
  $ mapped="reg write ddtp 0x20000402
  > $read"
  $ unmapped="$mapped
  > store 0x80004008 8 0"
  $ plain() { rviommu check image; }
  $ stale() { rviommu check --stale image; }
  $ echo "$unmapped
  > $read" > unmapped
  $ plain < unmapped
  line 4: note: no line has a wish
  0 passed, 0 failed
  $ stale < unmapped
  line 4: dma read 5 0x40201abc 4 -> 11223344, stale: read 0x40201abc served by line 2, the tables now say denied 13
  line 4: note: no line has a wish
  0 passed, 1 failed
  [1]
  $ rviommu check image --stale < unmapped
  line 4: dma read 5 0x40201abc 4 -> 11223344, stale: read 0x40201abc served by line 2, the tables now say denied 13
  line 4: note: no line has a wish
  0 passed, 1 failed
  [1]

What is cached and the tables are one; the answer is stale, and the wanted one, or not.

  $ echo "$mapped
  > $read # => 11223344" | stale
  1 passed, 0 failed
  $ echo "$unmapped
  > $read # => 11223344" | stale
  line 4: dma read 5 0x40201abc 4 -> 11223344, stale: read 0x40201abc served by line 2, the tables now say denied 13
  0 passed, 1 failed
  [1]
  $ echo "$unmapped
  > $read # => 0" | stale
  line 4: dma read 5 0x40201abc 4 -> 11223344, wanted 0, stale: read 0x40201abc served by line 2, the tables now say denied 13
  0 passed, 1 failed
  [1]

A stale access may be wanted: then the line fails if none is.

  $ echo "$unmapped
  > $read # => 11223344 stale" | stale
  line 4: place page 0 is stale: the tables now say denied 13
  1 passed, 1 failed
  [1]
  $ echo "$unmapped
  > $read # => 0 stale" | stale
  line 4: dma read 5 0x40201abc 4 -> 11223344, wanted 0 stale, stale: read 0x40201abc served by line 2, the tables now say denied 13
  0 passed, 1 failed
  [1]
  $ echo "$mapped # => 11223344 stale" | stale
  line 2: dma read 5 0x40201abc 4 -> 11223344, wanted 11223344 stale
  0 passed, 1 failed
  [1]
  $ echo "$mapped # => 11223344 stale" | plain
  1 passed, 0 failed

So with an answer that only begins so.

  $ echo "$unmapped
  > $read # => 1122* stale" | stale
  line 4: place page 0 is stale: the tables now say denied 13
  1 passed, 1 failed
  [1]
  $ echo "$unmapped
  > $read # => denied * stale" | stale
  line 4: dma read 5 0x40201abc 4 -> 11223344, wanted denied * stale, stale: read 0x40201abc served by line 2, the tables now say denied 13
  0 passed, 1 failed
  [1]
  $ echo "$mapped # => 1122* stale" | stale
  line 2: dma read 5 0x40201abc 4 -> 11223344, wanted 1122* stale
  0 passed, 1 failed
  [1]

A wish for an access that isn't settled allows a stale one.

  $ echo "$unmapped
  > $read # => 11223344 unsettled" | stale
  line 4: place page 0 is stale: the tables now say denied 13
  1 passed, 1 failed
  [1]
  $ echo "$mapped # => any unsettled" | stale
  1 passed, 0 failed

The page is mapped to another frame, with the same bytes; the context is no longer valid.

  $ echo "$mapped
  > store 0x80011abc 4 0x44332211
  > store 0x80004008 8 0x200044d7
  > $read" | stale
  line 5: dma read 5 0x40201abc 4 -> 11223344, stale: read 0x40201abc served by line 2, the tables now say addr=0x80011abc
  line 5: note: no line has a wish
  0 passed, 1 failed
  [1]
  $ echo "$mapped
  > store 0x800010a0 8 0
  > $read" | stale
  line 4: dma read 5 0x40201abc 4 -> 11223344, stale: read 0x40201abc served by line 2, the tables now say denied 258
  line 4: place context 0 is stale: the tables now say denied 258
  line 4: note: no line has a wish
  0 passed, 2 failed
  [1]

The tables lead it alike, but by another context or page: the context is given DTF, the page is made global. Another
context leads it elsewhere. A context that is cached denies an access that the tables grant.

  $ echo "$mapped
  > store 0x800010a0 8 0x11
  > $read" | stale
  line 4: dma read 5 0x40201abc 4 -> 11223344, stale: read 0x40201abc served by line 2, same address, another context: dtf=0x1
  line 4: place context 0 is stale: the tables now say context dtf=0x1 custom=0x0 gmode=0x0 gppn=0x0 gscid=0x0 tav=0x0 pscid=0x3 mode=0x8 ppn=0x80002
  line 4: note: no line has a wish
  0 passed, 2 failed
  [1]
  $ echo "$mapped
  > store 0x80004008 8 0x200040f7
  > $read" | stale
  line 4: dma read 5 0x40201abc 4 -> 11223344, stale: read 0x40201abc served by line 2, same address, another page: global=0x1
  line 4: note: no line has a wish
  0 passed, 1 failed
  [1]
  $ echo "$mapped
  > put 0x800010b8 u64 0
  > dma read 5 0x40201abc 4
  > dma write 5 0x40202000 00" | stale
  line 4: dma read 5 0x40201abc 4 -> 11223344, stale: read 0x40201abc served by line 2, the tables now say addr=0x40201abc
  line 5: dma write 5 0x40202000 00 -> done, stale: write 0x40202000 served by line 2, the tables now say addr=0x40202000
  line 5: place context 0 is stale: the tables now say context dtf=0x0 custom=0x0 gmode=0x0 gppn=0x0 gscid=0x0 tav=0x0 pscid=0x3 mode=0x0 ppn=0x0
  line 5: note: no line has a wish
  0 passed, 3 failed
  [1]
  $ echo "$mapped
  > put 0x800010b8 u64 0
  > dma read 5 0x40203000 4" | stale
  line 4: dma read 5 0x40203000 4 -> denied 13, stale: read 0x40203000 denied by line 2, the tables now say addr=0x40203000
  line 4: place context 0 is stale: the tables now say context dtf=0x0 custom=0x0 gmode=0x0 gppn=0x0 gscid=0x0 tav=0x0 pscid=0x3 mode=0x0 ppn=0x0
  line 4: place page 0 is stale: the tables now say context
  line 4: note: no line has a wish
  0 passed, 3 failed
  [1]
  $ echo "$mapped
  > store 0x800010a0 8 0x11
  > dma read 5 0x40203000 4" | stale
  line 4: dma read 5 0x40203000 4 -> denied 13, stale: read 0x40203000 denied by line 2, same cause, another record: dtf=0x1
  line 4: place context 0 is stale: the tables now say context dtf=0x1 custom=0x0 gmode=0x0 gppn=0x0 gscid=0x0 tav=0x0 pscid=0x3 mode=0x8 ppn=0x80002
  line 4: note: no line has a wish
  0 passed, 2 failed
  [1]

The invalidation comes in time; the kind of access isn't cached; lines make no access.

  $ echo "$unmapped
  > reg write cqb 0x20024000
  > reg write cqcsr 1
  > reg write cqt 1
  > cmd run 9
  > $read # => denied 13" | stale
  1 passed, 0 failed
  $ echo "$unmapped
  > dma write 5 0x40201abc 00 # => denied 15
  > trace 0
  > cmd # => idle
  > load 0x80010abc 4
  > place page 0
  > dma read 5 0 0 # => misuse" | stale
  line 9: place page 0 is stale: the tables now say denied 13
  3 passed, 1 failed
  [1]

A block device's access is stale: one by itself, or one of a line of many.

  $ device="reg write ddtp 0x20000402
  > dev write 0 Status 3
  > dev write 0 DriverFeaturesSel 1
  > dev write 0 DriverFeatures 3
  > dev write 0 Status 0xb
  > dev write 0 QueueNum 4
  > dev write 0 QueueDescLow 0x40202000
  > dev write 0 QueueDriverLow 0x40201000
  > dev write 0 QueueDeviceLow 0x40202800
  > dev write 0 QueueReady 1
  > dev write 0 Status 0xf
  > dev write 0 QueueNotify 0
  > dev step 0 # => done
  > store 0x80004008 8 0"
  $ echo "$device
  > dev step 0" | stale
  line 15: dev step 0 -> done, stale: read 0x40201004 served by line 13, the tables now say denied 13
  1 passed, 1 failed
  [1]
  $ echo "$device
  > dev run 0 99" | stale
  line 15: dev run 0 99 -> 0x3 idle, stale: read 0x40201004 served by line 13, the tables now say denied 13
  1 passed, 1 failed
  [1]

So are two reads of the example stale_translation.

  $ rviommu check --stale < "$TESTDIR/../../examples/stale_translation.script"
  line 18: dma read 5 0x40201abc 1 -> 11, stale: read 0x40201abc served by line 14, the tables now say denied 13
  line 30: dma read 5 0x40201abc 1 -> 11, stale: read 0x40201abc served by line 14, the tables now say denied 13
  line 33: note: no line has a wish
  0 passed, 2 failed
  [1]
