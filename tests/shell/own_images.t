A script's first line may name its image: `image FILE`, from the script's folder. check, judge, debug and explain play it on that.

  $ mkdir suite; printf 'ram 0x80000000 0x1000\nu64 7\n' > suite/seven.asm; rviommu asm suite/seven.asm suite/seven.image
  $ printf 'image seven.asm # an image by its text\nload 0x80000000 8 # => 0x7\nload 0x80000000 8 # => 0x8\n' > suite/text.script
  $ printf '\timage  seven.image\r\nload 0x80000000 8 # => 0x7\n' > suite/image.script; echo 'load 0x80000000 8 # => 0x0' > plain.script
  $ rviommu check suite/text.script suite/image.script plain.script
  suite/text.script:3: load 0x80000000 8 -> 0x7, wanted 0x8
  suite/text.script: 1 passed, 1 failed
  suite/image.script: 1 passed, 0 failed
  plain.script: 1 passed, 0 failed
  3 files: 3 passed, 1 failed
  [1]
  $ rviommu judge suite/text.script
  suite/text.script:3: load 0x80000000 8: seen 0x8, allowed: 0x7
  suite/text.script: 1 passed, 1 failed
  1 file: 1 passed, 1 failed
  [1]
  $ rviommu debug suite/image.script; rviommu explain suite/text.script | head -n 2
  0x7
  2: load 0x80000000 0x8 -> 0x7
  3: load 0x80000000 0x8 -> 0x7
  $ printf "image $PWD/suite/seven.image\nload 0x80000000 8" > absolute.script; rviommu debug absolute.script
  0x7

On standard input it is named from the working folder. The script may be played twice, and its last line lack its end.

  $ for words in check judge debug explain; do rviommu $words < absolute.script | tail -n 1; done
  0 passed, 0 failed
  0 passed, 0 failed
  0x7
  stale: 0
  $ cd suite; rviommu check --settled < text.script
  line 3: load 0x80000000 8 -> 0x7, wanted 0x8
  1 passed, 1 failed
  [1]
  $ rviommu check --ahead --tap --junit out.xml image.script - < text.script; grep -c '<failure' out.xml
  TAP version 13
  ok 1 - image.script:2: load 0x80000000 8
  ok 2 - -:2: load 0x80000000 8
  not ok 3 - -:3: load 0x80000000 8
    ---
    message: "-:3: load 0x80000000 8 -> 0x7, wanted 0x8"
    ...
  1..3
  1
  $ printf 'image seven.asm' | rviommu debug; echo 'load 0x80000000 8' | rviommu debug
  0x0

The line keeps its number and its comment.

  $ printf 'image seven.asm # => 0x7\nload 0x80000000 8 # => 0x7\n' > wish.script; rviommu check --strict wish.script
  wish.script:1: the wish is on a line without an answer
  wish.script: 1 passed, 1 failed
  1 file: 1 passed, 1 failed
  [1]

An image that the words name too is a fault, which the words of debug and explain answer for.

  $ for words in "debug --image seven.image text.script" "explain --image seven.asm - < text.script" "debug seven.asm < text.script" "check seven.image < text.script"; do
  >   eval "rviommu $words"; echo $?
  > done
  rviommu: text.script:1: the command line names an image too
  2
  rviommu: line 1: the command line names an image too
  2
  rviommu: line 1: the command line names an image too
  2
  rviommu: line 1: the command line names an image too
  3
  $ rviommu check --image seven.image text.script ../plain.script
  rviommu: text.script:1: the command line names an image too
  ../plain.script:1: load 0x80000000 8 -> 0x7, wanted 0x0
  ../plain.script: 0 passed, 1 failed
  2 files: 0 passed, 1 failed, 1 not read
  [3]

An image that can't be had is told with the line's place, once.

  $ echo jump > bad.asm; printf 'RVIOMMU1' > cut; printf 'image none.asm\n' > none.script; printf 'image \377\n' > name.script
  $ for name in bad.asm cut .; do echo "image $name" > "$name of"; rviommu debug "$name of"; rviommu judge - < "$name of"; done
  rviommu: bad.asm of:1: bad.asm: line 1: bad line: the first statement is ram, not "jump"
  rviommu: -:1: bad.asm: line 1: bad line: the first statement is ram, not "jump"
  1 file: 0 passed, 0 failed, 1 not read
  rviommu: cut of:1: cut: truncated
  rviommu: -:1: cut: truncated
  1 file: 0 passed, 0 failed, 1 not read
  rviommu: . of:1: cannot read .: is a directory
  rviommu: -:1: cannot read .: is a directory
  1 file: 0 passed, 0 failed, 1 not read
  [3]
  $ cd ..; rviommu explain suite/none.script; rviommu explain < suite/name.script; rviommu check --tap --junit out.xml suite/none.script absolute.script; grep -o 'message=.*"' out.xml
  rviommu: suite/none.script:1: cannot read suite/none.asm: there is no such file
  rviommu: line 1: cannot read ?
  TAP version 13
  rviommu: suite/none.script:1: cannot read suite/none.asm: there is no such file
  not ok 1 - suite/none.script:1: cannot read suite/none.asm: there is no such file
  # absolute.script:2: note: no line has a wish
  1..1
  message="suite/none.script:1: cannot read suite/none.asm: there is no such file"

No other line names one, nor an included file's first, and to run it is bad.

  $ printf 'cmd\nimage suite/seven.asm\n' > second; printf '#\nimage suite/seven.asm\n' > third; printf 'image\nimage a b\nimages a\n' > fourth
  $ printf 'include suite/image.script\n' > fifth; printf "image suite/seven.asm %0600d" 0 | tr 0 ' ' > sixth
  $ for script in second third fourth fifth sixth; do rviommu check $script | grep bad; done
  second:2: image suite/seven.asm -> bad: no line begins with "image"
  third:2: image suite/seven.asm -> bad: no line begins with "image"
  fourth:1: image -> bad: no line begins with "image"
  fourth:2: image a b -> bad: no line begins with "image"
  fourth:3: images a -> bad: no line begins with "images"
  suite/image.script:1: image  seven.image -> bad: no line begins with "image"
  sixth:1: image suite/seven.asm -> bad: a line has at most 512 bytes
  $ rviommu < suite/image.script; rviommu run suite/seven.image < suite/image.script
  bad
  0x0
  bad
  0x7
