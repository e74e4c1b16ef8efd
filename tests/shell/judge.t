A trace of another IOMMU, whose comments say what was seen: the page of IOVA 0x40201000 leads to 0x80010000.

  $ rviommu asm "$TESTDIR/../mapped.asm" image
  $ begin="reg write ddtp 0x20000402
  > reg write cqb 0x20024001
  > reg write cqcsr 1"
  $ judge() { rviommu judge --image image "$@"; }
  $ echo "$begin
  > dma read 5 0x40201abc 4 # => 11223344
  > dma read 5 0x40201abc 4 # => 11223344 at 0x80010abc
  > dma read 5 0x40201abc 4 # => at 0x80010abc
  > dma read 5 0x40201abc 4 # => 11223345
  > dma read 5 0x40201abc 4 # => at 0x80010abd
  > dma read 5 0x40203abc 4 # => denied 13" | judge
  line 7: dma read 5 0x40201abc 4: seen 11223345, allowed: 11223344 at 0x80010abc
  line 8: dma read 5 0x40201abc 4: seen at 0x80010abd, allowed: 11223344 at 0x80010abc
  4 passed, 2 failed
  [1]

After a store, and until an invalidation is fenced, the IOMMU may use the old entry or read the new one. Behind the fence
the old one is gone, whether or not it was used before.

  $ unmapped="$begin
  > dma read 5 0x40201abc 4 # => 11223344
  > store 0x80004008 8 0
  > dma read 5 0x40201abc 4 # => EARLY
  > put 0x80090000 cmd vma
  > put 0x80090010 cmd fence
  > reg write cqt 2
  > cmd
  > cmd
  > dma read 5 0x40201abc 4 # => LATE"
  $ for early in 11223344 "denied 13"; do
  >   for late in 11223344 "denied 13"; do
  >     echo "$unmapped" | sed "s/EARLY/$early/; s/LATE/$late/" | judge
  >   done
  > done
  line 12: dma read 5 0x40201abc 4: seen 11223344, allowed: denied 13
  2 passed, 1 failed
  3 passed, 0 failed
  line 12: dma read 5 0x40201abc 4: seen 11223344, allowed: denied 13
  2 passed, 1 failed
  3 passed, 0 failed

Between the invalidation and its fence the old entry may serve too; a translation that is made of it there goes with it.

  $ for late in 11223344 "denied 13"; do
  >   echo "$unmapped" | sed "/EARLY/d; 0,/^cmd$/s//&\ndma read 5 0x40201abc 4 # => 11223344/; s/LATE/$late/" | judge
  > done
  line 12: dma read 5 0x40201abc 4: seen 11223344, allowed: denied 13
  2 passed, 1 failed
  3 passed, 0 failed

Commands that the trace doesn't show are allowed for by --hidden: here none of them need be carried out yet.

  $ echo "$unmapped" | sed '/^cmd/d; s/EARLY/11223344/; s/LATE/11223344/' > hidden.trace
  $ sed '$i reg read cqh # => 0x2' hidden.trace > behind.trace
  $ judge --hidden hidden.trace behind.trace
  hidden.trace: 3 passed, 0 failed
  behind.trace:11: dma read 5 0x40201abc 4: seen 11223344, allowed: denied 13
  behind.trace: 3 passed, 1 failed
  2 files: 6 passed, 1 failed
  [1]
  $ judge hidden.trace behind.trace
  hidden.trace: 3 passed, 0 failed
  behind.trace:10: reg read cqh: seen 0x2, allowed: 0x0
  behind.trace: 3 passed, 1 failed
  2 files: 6 passed, 1 failed
  [1]

What can't be read is told, and what is seen of a line that isn't one step is noted.

  $ echo "$begin
  > dma read 5 0x40201abc 4 # => granted
  > dma read 5 0x40201abc # => 11223344
  > show pte 0x80004008 # => pte
  > cmd run 9 # => 0x0 idle" | judge
  line 4: dma read 5 0x40201abc 4: seen granted, which is no answer
  line 5: dma read 5 0x40201abc -> bad: LEN is missing
  line 6: note: what was seen is on a line that isn't one step
  line 7: note: what was seen is on a line that isn't one step
  0 passed, 2 failed
  [1]
  $ echo "$begin" | judge
  line 3: note: no line has a wish
  0 passed, 0 failed
  $ echo "$begin
  > dma read 5 0x40201abc 4 # => denied 13" | judge --tap
  TAP version 13
  not ok 1 - line 4: dma read 5 0x40201abc 4
    ---
    message: "line 4: dma read 5 0x40201abc 4: seen denied 13, allowed: 11223344 at 0x80010abc"
    ...
  1..1
  [1]

Lines of a text that a trace includes are judged in their place, and a report names their file.

  $ echo "$begin" > begin.trace; mkdir parts
  $ echo 'dma read 5 0x40201abc 4 # => 11223345' > parts/read.trace
  $ echo 'include begin.trace
  > include parts/read.trace
  > dma read 5 0x40203abc 4 # => denied 15' > both.trace
  $ judge both.trace
  parts/read.trace:1: dma read 5 0x40201abc 4: seen 11223345, allowed: 11223344 at 0x80010abc
  both.trace:3: dma read 5 0x40203abc 4: seen denied 15, allowed: denied 13
  both.trace: 0 passed, 2 failed
  1 file: 0 passed, 2 failed
  [1]

Of several traces each begins anew, and their sum is printed.

  $ echo "$unmapped" | sed 's/EARLY/11223344/; s/LATE/denied 13/' > right.trace
  $ judge right.trace both.trace begin.trace
  right.trace: 3 passed, 0 failed
  parts/read.trace:1: dma read 5 0x40201abc 4: seen 11223345, allowed: 11223344 at 0x80010abc
  both.trace:3: dma read 5 0x40203abc 4: seen denied 15, allowed: denied 13
  both.trace: 0 passed, 2 failed
  begin.trace:3: note: no line has a wish
  begin.trace: 0 passed, 0 failed
  3 files: 3 passed, 2 failed
  [1]
  $ judge --strict right.trace begin.trace
  right.trace: 3 passed, 0 failed
  begin.trace:3: no line has a wish
  begin.trace: 0 passed, 1 failed
  2 files: 3 passed, 1 failed
  [1]
  $ judge --tap --junit out.xml right.trace both.trace | grep -v '^ok'
  TAP version 13
  not ok 4 - parts/read.trace:1: dma read 5 0x40201abc 4
    ---
    message: "parts/read.trace:1: dma read 5 0x40201abc 4: seen 11223345, allowed: 11223344 at 0x80010abc"
    ...
  not ok 5 - both.trace:3: dma read 5 0x40203abc 4
    ---
    message: "both.trace:3: dma read 5 0x40203abc 4: seen denied 15, allowed: denied 13"
    ...
  1..5
  $ grep -e '<testsuite ' -e '<failure' out.xml
  <testsuite name="right.trace" tests="3" failures="0" errors="0">
  <testsuite name="both.trace" tests="2" failures="2" errors="0">
  <testcase classname="both.trace" name="parts/read.trace:1: dma read 5 0x40201abc 4"><failure message="dma read 5 0x40201abc 4: seen 11223345, allowed: 11223344 at 0x80010abc"/></testcase>
  <testcase classname="both.trace" name="line 3: dma read 5 0x40203abc 4"><failure message="dma read 5 0x40203abc 4: seen denied 15, allowed: denied 13"/></testcase>

Where more states are possible than are followed, a line isn't decided, and no line behind it is judged.

  $ { echo "$begin"; echo 'dma read 5 0x40201abc 4'
  > echo 'put 0x80004008 pte ppn=0x80011 flags=0xd7'
  > for at in $(seq 16 79); do printf 'dma write 5 0x402010%x aa # => done\n' $at; done
  > echo 'load 0x80000000 8 # => 0x1'; } > undecided.trace
  $ judge undecided.trace > out; echo $?
  1
  $ sed 's/.*: undecided, .*/undecided/; s/: [0-9]* passed/: some passed/' out
  undecided
  undecided.trace: some passed, 1 failed
  1 file: some passed, 1 failed

What can't be read or judged to its end ends with status 3, and the others are judged all the same.

  $ judge none.trace right.trace
  rviommu: cannot read none.trace: there is no such file
  right.trace: 3 passed, 0 failed
  2 files: 3 passed, 0 failed, 1 not read
  [3]
  $ rviommu judge --image none right.trace
  rviommu: cannot read none: there is no such file
  [3]
  $ rviommu judge --image right.trace right.trace
  rviommu: right.trace: bad magic
  [3]
  $ rviommu judge image < right.trace
  3 passed, 0 failed
  $ { cat right.trace; yes '' | head -n 1048576; } > long.trace
  $ judge long.trace right.trace
  rviommu: long.trace: script too long
  right.trace: 3 passed, 0 failed
  2 files: 6 passed, 0 failed, 1 not read
  [3]
  $ judge < long.trace
  rviommu: script too long
  [3]
  $ judge right.trace > /dev/full
  rviommu: write failed
  [3]
  $ judge --junit none/out.xml right.trace
  right.trace: 3 passed, 0 failed
  1 file: 3 passed, 0 failed
  rviommu: cannot write none/out.xml
  [3]
