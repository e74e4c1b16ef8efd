With --ahead an IOMMU may also read ahead, by memory alone and between any two steps, each page that the script names for a
device, to read it and to write it. The line that is told is the last one in or behind which it could be read; line 0 is before
the first.

  $ rviommu asm "$TESTDIR/../mapped.asm" image
  $ begin="reg write ddtp 0x20000402
  > reg write cqb 0x20024001
  > reg write cqcsr 1
  > put 0x80090000 cmd vma av=1 pscv=1 pscid=3 page=0x40201
  > put 0x80090010 cmd fence
  > dma read 5 0x40201abc 4 # => 11223344"
  $ ahead() { rviommu check --ahead "$@" image; }

An invalidation before its store drops nothing that is read again before the store.

  $ early="$begin
  > reg write cqt 2
  > cmd run 9 # => 0x3 idle
  > store 0x80004008 8 0
  > dma read 5 0x40201abc 4 # => denied 13"
  $ echo "$early" | rviommu check --settled image
  3 passed, 0 failed
  $ echo "$early" | ahead
  line 10: dma read 5 0x40201abc 4 -> denied 13, unsettled: read 0x40201abc may still go to addr=0x80010abc, read in line 8, the tables now say denied 13
  2 passed, 1 failed
  [1]

Behind the store it does.

  $ echo "$begin
  > store 0x80004008 8 0
  > reg write cqt 2
  > cmd run 9 # => 0x3 idle
  > dma read 5 0x40201abc 4 # => denied 13" | ahead
  3 passed, 0 failed

A page that no access names is named by a line ahead. It is owed if it is unmapped without an invalidation.

  $ echo "$begin
  > store 0x80004010 8 0" | ahead
  1 passed, 0 failed
  $ echo "$begin
  > ahead 5 0x40202000 1 # => ok
  > store 0x80004010 8 0" | ahead
  line 8: read 0x40202000 of device 5, as in line 0, may still go to addr=0x80011000, read in line 6, the tables now say denied 13
  line 8: write 0x40202000 of device 5, as in line 0, may still go to addr=0x80011000, read in line 6, the tables now say denied 15
  2 passed, 2 failed
  [1]

A page that was only read may be read ahead to be written: W can't be taken away without an invalidation.

  $ echo "$begin
  > put 0x80004008 pte ppn=0x80010 flags=0x53" | ahead
  line 7: write 0x40201000 of device 5, as in line 0, may still go to addr=0x80010000, read in line 6, the tables now say denied 15
  1 passed, 1 failed
  [1]
  $ echo "$begin
  > put 0x80004008 pte ppn=0x80010 flags=0x53" | rviommu check --settled image
  1 passed, 0 failed

What is read ahead between an invalidation and its store stays behind the fence, also if that comes last.

  $ echo "$begin
  > reg write cqt 1
  > cmd # => done
  > store 0x80004008 8 0
  > reg write cqt 2
  > cmd # => done
  > dma read 5 0x40201abc 4 # => denied 13" | ahead
  line 12: dma read 5 0x40201abc 4 -> denied 13, unsettled: read 0x40201abc may still go to addr=0x80010abc, read in line 8, the tables now say denied 13
  3 passed, 1 failed
  [1]

The script is read from its file, with those that it includes, and with other styles.

  $ echo "$begin" > begin.script
  $ echo "include begin.script
  > store 0x80004008 8 0" > late.script
  $ rviommu check --ahead --image image late.script
  late.script:2: read 0x40201000 of device 5, as in begin.script:6, may still go to addr=0x80010000, read in begin.script:6, the tables now say denied 13
  late.script:2: write 0x40201000 of device 5, as in line 0, may still go to addr=0x80010000, read in begin.script:6, the tables now say denied 15
  late.script: 1 passed, 2 failed
  1 file: 1 passed, 2 failed
  [1]
  $ rviommu check --ahead --tap --image image late.script
  TAP version 13
  ok 1 - begin.script:6: dma read 5 0x40201abc 4
  not ok 2 - late.script:2: read 0x40201000 of device 5
    ---
    message: "late.script:2: read 0x40201000 of device 5, as in begin.script:6, may still go to addr=0x80010000, read in begin.script:6, the tables now say denied 13"
    ...
  not ok 3 - late.script:2: write 0x40201000 of device 5
    ---
    message: "late.script:2: write 0x40201000 of device 5, as in line 0, may still go to addr=0x80010000, read in begin.script:6, the tables now say denied 15"
    ...
  1..3
  [1]
  $ rviommu check --ahead --junit out.xml --image image late.script > told; grep -c failure out.xml
  3

