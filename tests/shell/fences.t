With --at-fences the places of the caches are looked at behind each line that carried out an IOFENCE.C, too. Here a driver
unmaps a page and forgets the invalidation. It maps the page again before the end, so that the place is right there.

  $ rviommu asm "$TESTDIR/../mapped.asm" image
  $ begin="reg write ddtp 0x20000402
  > reg write cqb 0x20024001
  > reg write cqcsr 1
  > dma read 5 0x40201abc 4 # => 11223344"
  $ again="store 0x80004008 8 0x200040d7
  > dma read 5 0x40201abc 4 # => 11223344"
  $ at_fences() { rviommu check --at-fences "$@" image; }
  $ forgotten="$begin
  > store 0x80004008 8 0
  > put 0x80090000 cmd fence
  > reg write cqt 1
  > cmd # => done
  > $again"
  $ echo "$forgotten" | rviommu check --stale image
  3 passed, 0 failed
  $ echo "$forgotten" | at_fences
  line 8: place page 0 is stale: the tables now say denied 13
  3 passed, 1 failed
  [1]
  $ echo "$forgotten" | at_fences --stale --tap
  TAP version 13
  ok 1 - line 4: dma read 5 0x40201abc 4
  ok 2 - line 8: cmd
  not ok 3 - line 8: place page 0
    ---
    message: "line 8: place page 0 is stale: the tables now say denied 13"
    ...
  ok 4 - line 10: dma read 5 0x40201abc 4
  1..4
  [1]

A driver that invalidates in time passes, also where one line carries out both commands.

  $ echo "$begin
  > store 0x80004008 8 0
  > put 0x80090010 cmd fence
  > reg write cqt 2
  > cmd # => done
  > cmd # => done
  > $again" | at_fences
  4 passed, 0 failed
  $ echo "$begin
  > store 0x80004008 8 0
  > put 0x80090010 cmd fence
  > reg write cqt 2
  > cmd run 9 # => 0x3 idle
  > $again" | at_fences
  3 passed, 0 failed

Nothing is looked at behind other commands, nor behind a fence that can't be carried out, since its store is outside memory.

  $ echo "$begin
  > store 0x80004008 8 0
  > put 0x80090000 cmd iodir dv=1 did=6
  > reg write cqt 1
  > cmd # => done
  > put 0x80090010 cmd fence av=1 addr=0x90000000
  > reg write cqt 2
  > cmd # => done
  > reg read cqcsr # => 0x10101
  > $again" | at_fences
  5 passed, 0 failed

It implies --stale; a page that stays stale fails at the first fence, and where it is used.

  $ echo "$begin
  > store 0x80004008 8 0
  > put 0x80090000 cmd fence
  > put 0x80090010 cmd fence
  > reg write cqt 1
  > cmd # => done
  > dma read 5 0x40201abc 4 # => 11223344
  > reg write cqt 2
  > cmd # => done" | at_fences
  line 9: place page 0 is stale: the tables now say denied 13
  line 10: dma read 5 0x40201abc 4 -> 11223344, stale: read 0x40201abc served by line 4, the tables now say denied 13
  3 passed, 2 failed
  [1]
