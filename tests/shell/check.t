A line whose answer is the wanted one passes; of another one both are printed. Lines that want nothing don't count. What
would go unnoticed is noted: a wish without an answer, a comment that looks like a wish, a script without one.

  $ rviommu check <<'end'
  > reg write 16 8 1 # => done
  > store 0x80000000 2 7 # => done
  > dma read 5 0x80000000 2 # => 0800
  > cmd # => idle
  > cmd # => done
  > cmd # as it says
  > # cmd # => done
  > # => done
  > end
  line 3: dma read 5 0x80000000 2 -> 0700, wanted 0800
  line 5: cmd -> idle, wanted done
  line 7: note: the comment isn't a wish, which is # => ANSWER
  line 8: note: the wish is on a line without an answer
  3 passed, 2 failed
  [1]
  $ rviommu check < /dev/null
  line 0: note: no line has a wish
  0 passed, 0 failed
  $ printf ' \t\n# a comment\nreg read 8 4\n' | rviommu check
  line 3: note: no line has a wish
  0 passed, 0 failed
  $ printf 'store 0x80000000 1 9\nload 0x80000000 1 # => 0x9\n' | rviommu check
  1 passed, 0 failed

A bad line fails, unless bad is wanted.

  $ rviommu check <<'end'
  > frobnicate
  > frobnicate # => bad
  > frobnicate now # => done
  > cmd # => bad
  > end
  line 1: frobnicate -> bad: no line begins with "frobnicate"
  line 3: frobnicate now -> bad: no line begins with "frobnicate", wanted done
  line 4: cmd -> idle, wanted bad
  1 passed, 3 failed
  [1]

The wanted answer stands without the blanks around it, and whole. The comment begins at the first #.

  $ rviommu check <<'end'
  > load 0 8 # => bus error
  > load 0 8 #=>bus error
  > load 0 8 # => bus  error
  > load 0 8 # => bus
  > load 0 8 # =>
  > load 0 8 # why # => done
  > load 0 8 # -> done
  > load 0 8 # = > done
  > load 0 8 # wanted => done
  > end
  line 3: load 0 8 -> bus error, wanted bus  error
  line 4: load 0 8 -> bus error, wanted bus
  line 5: load 0 8 -> bus error, wanted 
  line 6: note: the comment isn't a wish, which is # => ANSWER
  line 7: note: the comment isn't a wish, which is # => ANSWER
  line 8: note: the comment isn't a wish, which is # => ANSWER
  line 9: note: the answer is bus error, and no wish expects it
  2 passed, 3 failed
  [1]
  $ printf 'load 0 8 #  \t=> \t bus error \t\r\n' | rviommu check
  1 passed, 0 failed

An answer that ends with * stands for each that begins with what precedes it. Another * is compared as it is.

  $ rviommu check <<'end'
  > load 0 8 # => bus *
  > load 0 8 # => bus err*
  > load 0 8 # => bus error*
  > load 0 8 #=>*
  > load 0 8 # =>  b*
  > jump # => *
  > load 0 8 # => bus error *
  > load 0 8 # => bus error!*
  > load 0 8 # => us*
  > load 0 8 # => *error
  > load 0 8 # => b*r
  > load 0 8 # => b**
  > # => *
  > end
  line 7: load 0 8 -> bus error, wanted bus error *
  line 8: load 0 8 -> bus error, wanted bus error!*
  line 9: load 0 8 -> bus error, wanted us*
  line 10: load 0 8 -> bus error, wanted *error
  line 11: load 0 8 -> bus error, wanted b*r
  line 12: load 0 8 -> bus error, wanted b**
  line 13: note: the wish is on a line without an answer
  6 passed, 6 failed
  [1]

A last line without a line end is judged.

  $ printf 'reg read 8 4 # => 0x2\nreg read 8 4 # => 0x3' | rviommu check
  line 2: reg read 8 4 -> 0x2, wanted 0x3
  1 passed, 1 failed
  [1]
  $ printf 'reg read 8 4 # => 0x2' | rviommu check
  1 passed, 0 failed
  $ printf jump | rviommu check
  line 1: jump -> bad: no line begins with "jump"
  line 1: note: no line has a wish
  0 passed, 1 failed
  [1]
  $ printf 'reg read 8 4 # => 0x2\n \t' | rviommu check
  1 passed, 0 failed

A report is one line of printable characters.

  $ printf '\t a\tb\000\033\377  \r# x\ncmd # => a\007b\n' | rviommu check
  line 1: a\tb\x00\x1b\xff -> bad: no line begins with "a"
  line 2: cmd -> idle, wanted a\x07b
  0 passed, 2 failed
  [1]

A form feed is no blank: words part at spaces, tabs and CRs.

  $ printf '\fcmd # => bad\ncmd\f # => idle\n\r cmd\t # => idle\n' | rviommu check
  line 2: cmd\x0c -> bad: no line begins with "cmd\x0c", wanted idle
  2 passed, 1 failed
  [1]

Without --stale a last word stale of a wish is left out of account. It is one if something stands before it.

  $ printf 'load 0 8 # => bus error stale\nload 0 8 # => bus error  stale\ncmd # => stale\n' | rviommu check
  line 3: cmd -> idle, wanted stale
  2 passed, 1 failed
  [1]

So is a last word unsettled without --settled. Before it any takes each answer but bad.

  $ rviommu check <<'end'
  > load 0 8 # => bus error unsettled
  > load 0 8 # => any  unsettled
  > load 0 8 # => bus unsettled
  > load 0 8 # => any
  > load 0 8 # => bus error unsettled stale
  > cmd # => unsettled
  > jump # => any unsettled
  > end
  line 3: load 0 8 -> bus error, wanted bus unsettled
  line 4: load 0 8 -> bus error, wanted any
  line 5: load 0 8 -> bus error, wanted bus error unsettled stale
  line 6: cmd -> idle, wanted unsettled
  line 7: jump -> bad: no line begins with "jump", wanted any unsettled
  2 passed, 5 failed
  [1]
  $ printf 'load 0 8 # => bus error \t unsettled\r\n' | rviommu check
  1 passed, 0 failed

A * stands before such a word. With it any is no word for each answer.

  $ rviommu check <<'end'
  > load 0 8 # => bus * stale
  > load 0 8 # => bus*  unsettled
  > jump # => * unsettled
  > load 0 8 # => bus stale*
  > load 0 8 # => bus *stale
  > load 0 8 # => any* unsettled
  > end
  line 4: load 0 8 -> bus error, wanted bus stale*
  line 5: load 0 8 -> bus error, wanted bus *stale
  line 6: load 0 8 -> bus error, wanted any* unsettled
  3 passed, 3 failed
  [1]

A line of 512 bytes is judged, and a longer one is bad.

  $ printf '%-512s\n%-513s\n%s' 'reg read 8 4 # => 0x2' 'reg read 8 4 # => 0x2' 'reg read 8 4 # => 0x2' | rviommu check
  line 2: reg read 8 4 -> bad: a line has at most 512 bytes, wanted 0x2
  2 passed, 1 failed
  [1]
  $ printf '%-513s\n' 'reg read 8 4 # => bad' | rviommu check
  1 passed, 0 failed
  $ for length in 513 4096 1000000; do
  >   line="reg read 8 4 #$(head -c $((length - 14)) /dev/zero | tr '\0' x)"
  >   printf 'cmd # => idle\n%s' "$line" | rviommu check; echo $?
  >   printf 'cmd # => idle\n%s\n\ncmd # => idle\n' "$line" | rviommu check; echo $?
  > done
  line 2: reg read 8 4 -> bad: a line has at most 512 bytes
  1 passed, 1 failed
  1
  line 2: reg read 8 4 -> bad: a line has at most 512 bytes
  2 passed, 1 failed
  1
  line 2: reg read 8 4 -> bad: a line has at most 512 bytes
  1 passed, 1 failed
  1
  line 2: reg read 8 4 -> bad: a line has at most 512 bytes
  2 passed, 1 failed
  1
  line 2: reg read 8 4 -> bad: a line has at most 512 bytes
  1 passed, 1 failed
  1
  line 2: reg read 8 4 -> bad: a line has at most 512 bytes
  2 passed, 1 failed
  1

The limits of a script are those of a run: 2^20 lines and 2^26 bytes. What was judged before is printed.

  $ many() { printf 'jump\n'; yes '' | head -n 1048574; echo 'cmd # => idle'; }
  $ many | rviommu check
  line 1: jump -> bad: no line begins with "jump"
  1 passed, 1 failed
  [1]
  $ for more in 'cmd # => idle' '' ' ' jump; do { many; printf '%s\n' "$more"; } | rviommu check; echo $?; done
  line 1: jump -> bad: no line begins with "jump"
  rviommu: script too long
  3
  line 1: jump -> bad: no line begins with "jump"
  rviommu: script too long
  3
  line 1: jump -> bad: no line begins with "jump"
  rviommu: script too long
  3
  line 1: jump -> bad: no line begins with "jump"
  rviommu: script too long
  3
  $ { many; printf ' '; } | rviommu check
  line 1: jump -> bad: no line begins with "jump"
  rviommu: script too long
  [3]
  $ full() { yes "#$(printf '%510s')" | head -c 67108864; }
  $ full | rviommu check
  line 131072: note: no line has a wish
  0 passed, 0 failed
  $ { full; echo; } | rviommu check
  rviommu: script too long
  [3]
  $ head -c 67108863 /dev/zero | tr '\0' ' ' | rviommu check
  line 1:  -> bad: a line has at most 512 bytes
  line 1: note: no line has a wish
  0 passed, 1 failed
  [1]
  $ head -c 67108864 /dev/zero | tr '\0' ' ' | rviommu check
  rviommu: script too long
  [3]

It goes on an image, and has the lines of debug.

  $ printf 'ram 0x80000000 0x1000\nrodisk 5 1 aa\n' > text && rviommu asm text image
  $ rviommu check image <<'end'
  > dev read 0 0x10 4 # => 0x220
  > reg write ddtp 1 # => done
  > disk 0 0 2 # => aa00
  > queue fault # => none
  > end
  line 4: queue fault -> on=0x0 base=0x0 entries=0x2 head=0x0 tail=0x0 stop=none, wanted none
  3 passed, 1 failed
  [1]
  $ echo 'dev read 0 0x10 4 # => no device' | rviommu check
  1 passed, 0 failed

So is the comment of a line that includes a file: it has no answer. It stands behind the file's lines, whose last may lack its end.

  $ printf 'cmd # => idle' > idle.script
  $ printf 'include idle.script # => idle\ninclude idle.script # = > idle\ninclude idle.script # the same\n' > includes.script
  $ rviommu check includes.script
  includes.script:1: note: the wish is on a line without an answer
  includes.script:2: note: the comment isn't a wish, which is # => ANSWER
  includes.script: 3 passed, 0 failed
  1 file: 3 passed, 0 failed
  $ rviommu check --strict includes.script | head -n 1
  includes.script:1: the wish is on a line without an answer
  $ printf 'include idle.script # => idle\ncmd # => done' > within.script
  $ printf 'include within.script # => idle\ncmd # => done\n' | rviommu check
  within.script:1: note: the wish is on a line without an answer
  within.script:2: cmd -> idle, wanted done
  line 1: note: the wish is on a line without an answer
  line 2: cmd -> idle, wanted done
  1 passed, 2 failed
  [1]

A step that was refused, and whose line expects no answer, is noted.

  $ refused='put 0x80000001 cmd iodir
  > store 0 8 1
  > reg write 1 4 0
  > dev read 0 0 4
  > load 0 8 # => bus error'
  $ echo "$refused" | rviommu check
  line 1: note: the answer is misuse, and no wish expects it
  line 2: note: the answer is bus error, and no wish expects it
  line 3: note: the answer is bad access, and no wish expects it
  line 4: note: the answer is no device, and no wish expects it
  1 passed, 0 failed
  $ echo "$refused" | rviommu check --strict
  line 1: the answer is misuse, and no wish expects it
  line 2: the answer is bus error, and no wish expects it
  line 3: the answer is bad access, and no wish expects it
  line 4: the answer is no device, and no wish expects it
  1 passed, 4 failed
  [1]
