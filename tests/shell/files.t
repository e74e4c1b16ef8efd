Each example has answers; those of its words are written, run where it names none. One is a check that fails.

  $ cd "$TOP/examples"; made=$(dirname "$(command -v rviommu)")
  $ for script in *.script; do
  >   image=; words=
  >   if test -e "${script%.script}.asm"; then
  >     rviommu asm "${script%.script}.asm" "$made/image"; image=$made/image
  >     words=$(sed -n '1s/^# rviommu \(.*\) image < examples.*/\1/p' "$script")
  >   fi
  >   rviommu ${image:+${words:-run}} $image < "$script" > "$made/out"; status=$?
  >   cmp "$made/out" "${script%.script}.answers"
  >   test $status = 0 || echo "$script: $status, $(tail -n 1 "$made/out")"
  > done
  before_the_store.script: 1, 9 passed, 3 failed
  freed_table.script: 1, 9 passed, 3 failed
  missing_invalidation.script: 1, 13 passed, 1 failed
  no_fence.script: 1, 10 passed, 2 failed
  owed.script: 1, 10 passed, 1 failed
  seventy_pages.script: 1, 3 passed, 1 failed
  sixteen_pages.script: 1, 12 passed, 1 failed
  stopped_queue.script: 1, 17 passed, 1 failed
  two_fences.script: 1, 14 passed, 1 failed
  $ ls *.script | wc -l > "$made/scripts"; ls *.answers | wc -l | cmp - "$made/scripts"

What explain writes of scripts stands in files beside them.

  $ cd "$TOP"
  $ for wanted in examples/*.explained tests/explained/*.explained; do
  >   rviommu asm "${wanted%.explained}.asm" "$made/image"
  >   rviommu explain "$made/image" < "${wanted%.explained}.script" | cmp - "$wanted"
  > done

Each line of a script of tests/debugged is answered by debug as its comment says, and check passes.

  $ for script in tests/debugged/*.script; do
  >   rviommu asm "${script%.script}.asm" "$made/image"
  >   sed -n 's/.*# => //p' "$script" > "$made/wanted"
  >   rviommu debug "$made/image" < "$script" | cmp - "$made/wanted"
  >   echo "$(wc -l < "$made/wanted") passed, 0 failed" > "$made/passed"
  >   rviommu check "$made/image" < "$script" | cmp - "$made/passed"
  > done

The program that `make run` builds answers as rviommu without a word does, and takes no word.

  $ player=$TOP/crates/iom_player/out/iom_player; test -x "$player" || echo "packaging/build.py iom_player builds it"
  $ cd "$made"; printf 'jump\n' > bad; yes '' | head -n 1048577 > long; printf 'reg read 8 4' > ask; : > empty
  $ for script in "$TOP"/examples/*.script bad long ask empty; do
  >   for place in out /dev/full; do
  >     rviommu < "$script" > $place 2> errors; echo $? >> errors; mv out wanted
  >     "$player" < "$script" > $place 2> errors_of_player; echo $? >> errors_of_player; : >> out
  >     cmp out wanted; sed 's/^iom_player: /rviommu: /' errors_of_player | cmp - errors; : > out
  >   done
  > done
  $ shown=examples/stale_translation.script
  $ make -s -C "$TOP" -o "$player" run player="$player" < "$TOP/$shown" | cmp - "$TOP/${shown%.script}.answers"
  $ "$player" run < ask
  iom_player: no word is taken; rviommu takes words
  [2]

debug and explain take a script by its name, as check does: on the built-in image, or on that of --image. A file that is an image alone
is that of standard input.

  $ printf 'ram 0x80000000 0x1000\nu64 7\n' > text; rviommu asm text image
  $ mkdir folder; echo 'load 0x80000000 8' > folder/lines; echo 'include lines' > folder/a.script
  $ rviommu debug folder/a.script
  0x0
  $ rviommu debug --image image folder/a.script
  0x7
  $ rviommu debug image < folder/lines
  0x7
  $ rviommu debug --image image - < folder/lines
  0x7
  $ rviommu debug - < folder/lines
  0x0
  $ rviommu explain --image image folder/a.script | head -n 1
  folder/lines:1: load 0x80000000 0x8 -> 0x7
  $ rviommu explain folder/lines | head -n 1
  1: load 0x80000000 0x8 -> 0x0

A fault names its file and why that can't be read, but of run, whose texts are as they were.

  $ printf 'RVIOMMU1' > cut; echo 'include none' > folder/b.script; printf 'ram 0x80000000 0x1000\njump\n' > bad
  $ for words in "debug --image cut folder/lines" "explain cut" "list cut u64 0 1" "upgrade cut new" "run cut" "asm bad new"; do rviommu $words < empty; done
  rviommu: cut: truncated
  rviommu: cut: truncated
  rviommu: cut: truncated
  rviommu: cut: truncated
  rviommu: truncated
  rviommu: bad: line 2: bad line: "jump" is no statement
  [1]
  $ for words in "debug none" "explain folder" "debug folder/b.script" "check folder/b.script" "upgrade none new" "asm none new" "run none"; do rviommu $words; done
  rviommu: cannot read none: there is no such file
  rviommu: cannot read folder: is a directory
  rviommu: folder/b.script:1: cannot read folder/none: there is no such file
  rviommu: folder/b.script:1: cannot read folder/none: there is no such file
  1 file: 0 passed, 0 failed, 1 not read
  rviommu: cannot read none: there is no such file
  rviommu: cannot read none: there is no such file
  rviommu: cannot read none
  [1]

check, judge, debug and explain take the text of an image, a file whose name ends in .asm, by --image or alone.

  $ cd "$TOP/examples"
  $ rviommu check --settled --image one_fence.asm one_fence.script
  one_fence.script: 13 passed, 0 failed
  1 file: 13 passed, 0 failed
  $ rviommu check --settled one_fence.asm < one_fence.script
  13 passed, 0 failed
  $ for text in *.asm; do
  >   script=${text%.asm}.script; rviommu asm $text "$made/image"
  >   for words in "check --ahead" judge debug "explain --settled"; do
  >     rviommu $words "$made/image" < $script > "$made/wanted"; echo $? >> "$made/wanted"
  >     { rviommu $words $text < $script; echo $?; } | cmp - "$made/wanted"
  >     { rviommu $words --image $text < $script; echo $?; } | cmp - "$made/wanted"
  >   done
  > done
  $ cd "$made"; printf 'ram 0x80000000 0x1000\nu64 7\n' > seven.asm; echo 'load 0x80000000 8' > asks
  $ rviommu debug seven.asm < asks
  0x7
  $ rviommu debug --image seven.asm asks
  0x7
  $ rviommu explain --image seven.asm - < asks | head -n 1
  1: load 0x80000000 0x8 -> 0x7

A text that the assembler refuses is told as by asm, once; nothing is judged.

  $ mkdir texts; cp bad texts/bad.asm; printf 'ram 0x80000000 0x1000\nu64 1\nat 0x80000004\nbytes 00\n' > overlap.asm
  $ for words in "asm texts/bad.asm new" "debug texts/bad.asm" "explain --image texts/bad.asm asks" "check texts/bad.asm" "judge --image texts/bad.asm asks"; do
  >   rviommu $words < asks; echo $?
  > done
  rviommu: texts/bad.asm: line 2: bad line: "jump" is no statement
  1
  rviommu: texts/bad.asm: line 2: bad line: "jump" is no statement
  1
  rviommu: texts/bad.asm: line 2: bad line: "jump" is no statement
  1
  rviommu: texts/bad.asm: line 2: bad line: "jump" is no statement
  3
  rviommu: texts/bad.asm: line 2: bad line: "jump" is no statement
  3
  $ : > empty.asm
  $ for name in overlap.asm empty.asm none.asm; do
  >   rviommu asm $name new 2> wanted; cat wanted
  >   for words in debug explain check judge; do rviommu $words $name < asks 2>&1 | cmp - wanted; done
  > done
  rviommu: overlap.asm: line 4: overlap
  rviommu: empty.asm: line 0: bad line
  rviommu: cannot read none.asm: there is no such file
  $ rviommu check --tap --junit out.xml --image overlap.asm asks; grep -o 'testsuite name.*\|message=.*"' out.xml
  TAP version 13
  rviommu: overlap.asm: line 4: overlap
  not ok 1 - overlap.asm: line 4: overlap
  1..1
  testsuite name="overlap.asm" tests="1" failures="0" errors="1">
  message="overlap.asm: line 4: overlap"

No other word takes a text, and no file of another name is one. Beside an image, and of several files, a text is a script.

  $ for words in "run seven.asm" "list seven.asm u64 0x80000000 1" "upgrade seven.asm new" "debug --image text asks" "check --image text asks"; do
  >   rviommu $words < asks; echo $?
  > done
  rviommu: bad magic
  1
  rviommu: seven.asm: bad magic
  1
  rviommu: seven.asm: bad magic
  1
  rviommu: text: bad magic
  1
  rviommu: text: bad magic
  3
  $ rviommu debug text; rviommu debug --image image seven.asm; rviommu check asks seven.asm | tail -n 1
  bad
  bad
  bad
  bad
  2 files: 0 passed, 2 failed

If nobody reads the output any more, nothing is printed of that.

  $ yes 'cmd # => done' | head -n 100000 > long
  $ for words in "run image" debug explain check judge; do { rviommu $words < long; echo "$words: $?" >&2; } | head -n 1; done
  idle
  run image: 1
  idle
  debug: 1
  1: cmd -> idle
  explain: 1
  line 1: cmd -> idle, wanted done
  check: 3
  line 1: cmd: seen done, allowed: idle
  judge: 3
