An empty input, and a last line without its end.

  $ rviommu < /dev/null
  $ printf 'cmd\nreg read 8 4' | rviommu
  idle
  0x2
  $ printf 'reg read 8 4 # said' | rviommu
  0x2
  $ printf 'cmd\n# nothing' | rviommu
  idle
  $ printf 'cmd\n \t\r' | rviommu
  idle
  $ printf '\n\ncmd\n\njump' | rviommu
  idle
  bad

A byte that is no blank belongs to a word.

  $ for byte in 000 013 014 200 377; do printf "cmd\\$byte\\n\\$byte\\n#\\$byte\\ncmd" | rviommu; done
  bad
  bad
  idle
  bad
  bad
  idle
  bad
  bad
  idle
  bad
  bad
  idle
  bad
  bad
  idle
  $ printf '\357\273\277cmd\ncmd\r\ncmd#\ncmd\t# cmd\nCMD' | rviommu
  bad
  idle
  idle
  idle
  bad

A line of 512 bytes is read and one of 513 is bad, a command or a comment, and whatever fills it. A line is as long as
its bytes: the byte before the line end may be CR.

  $ line() { printf '%s' "$1"; head -c $(($3 - ${#1})) /dev/zero | tr '\0' "$2"; }
  $ for start in 'reg read 8 4' '' '#' 'reg read 8 4 #'; do
  >   case $start in *'#') filler=x;; *) filler=' ';; esac
  >   { line "$start" "$filler" 512; echo; line "$start" "$filler" 513; echo; echo cmd; } | rviommu
  >   { line "$start" "$filler" 512 | rviommu; line "$start" "$filler" 513 | rviommu; }
  >   { line "$start" "$filler" 511; printf '\r\n'; line "$start" "$filler" 512; printf '\r\n'; } | rviommu
  >   for length in 4096 8192 100000 1000000; do { line "$start" "$filler" $length; printf '\ncmd'; } | rviommu; done
  > done
  0x2
  bad
  idle
  0x2
  bad
  0x2
  bad
  bad
  idle
  bad
  idle
  bad
  idle
  bad
  idle
  bad
  idle
  bad
  bad
  bad
  idle
  bad
  idle
  bad
  idle
  bad
  idle
  bad
  idle
  bad
  bad
  bad
  idle
  bad
  idle
  bad
  idle
  bad
  idle
  0x2
  bad
  idle
  0x2
  bad
  0x2
  bad
  bad
  idle
  bad
  idle
  bad
  idle
  bad
  idle

2^20 lines are read. One line more is too long, and the answers before it stand.

  $ many() { echo 'reg read 8 4'; yes '' | head -n 1048574; printf 'reg read 8 4'; }
  $ many | rviommu
  0x2
  0x2
  $ { many; echo; } | rviommu
  0x2
  0x2
  $ yes '' | head -n 1048576 | rviommu
  $ for more in 'reg read 8 4\n' 'reg read 8 4' '\n' ' ' '#'; do { many; printf "\\n$more"; } | rviommu; echo $?; done
  0x2
  0x2
  rviommu: script too long
  1
  0x2
  0x2
  rviommu: script too long
  1
  0x2
  0x2
  rviommu: script too long
  1
  0x2
  0x2
  rviommu: script too long
  1
  0x2
  0x2
  rviommu: script too long
  1
  $ { yes '' | head -n 1048576; echo 'reg read 8 4'; } | rviommu
  rviommu: script too long
  [1]

2^26 bytes are read. One byte more is too long, and the answers before it stand; the last line's end may be that byte.

  $ full() {
  >   printf '%-511s\n' 'reg read 8 4'
  >   yes "#$(printf '%510s')" | head -c 67107840
  >   printf '%-511s' 'reg read 8 4'
  > }
  $ full | wc -c
  67108863
  $ { full; echo; } | rviommu
  0x2
  0x2
  $ { full; printf ' '; } | rviommu
  0x2
  0x2
  $ { full; echo; echo; } | rviommu
  0x2
  0x2
  rviommu: script too long
  [1]
  $ { full; printf ' \n'; } | rviommu
  0x2
  rviommu: script too long
  [1]

Debug has the same ends and limits.

  $ rviommu debug < /dev/null
  $ printf '\n# a comment\nreg read 8 4 # => 0x3\n\njump' | rviommu debug
  0x2
  bad
  $ printf 'cmd\n \t\r' | rviommu debug
  idle
  $ { printf '%-513s\ncmd\n' 'reg read 8 4'; line x x 1000000; printf '\ncmd'; } | rviommu debug
  bad
  idle
  bad
  idle
  $ many | rviommu debug
  0x2
  0x2
  $ { many; printf '\n '; } | rviommu debug
  0x2
  0x2
  rviommu: script too long
  [1]

So has explain, which writes blank and bad lines as it writes others.

  $ rviommu explain < /dev/null
  accesses: 0
  granted: 0
  from the caches: 0
  stale: 0
  $ printf '\n \t\n# a comment\nreg read 8 4\n  load 0x80000000 1 # as it says\njump\tnow\007\ntrace 0\ncmd' | rviommu explain
  4: reg read 0x8 0x4 -> 0x2
  5: load 0x80000000 0x1 -> 0x0
  6: jump\tnow\x07 -> bad: no line begins with "jump"
  7: trace 0 -> reg read 0x8 0x4 -> 0x2
  8: cmd -> idle
  accesses: 0
  granted: 0
  from the caches: 0
  stale: 0
  $ printf '%-513s\ncmd\n' 'reg read 8 4' | rviommu explain
  1: reg read 8 4 -> bad: a line has at most 512 bytes
  2: cmd -> idle
  accesses: 0
  granted: 0
  from the caches: 0
  stale: 0
  $ many | rviommu explain
  1: reg read 0x8 0x4 -> 0x2
  1048576: reg read 0x8 0x4 -> 0x2
  accesses: 0
  granted: 0
  from the caches: 0
  stale: 0
  $ { many; echo; echo cmd; } | rviommu explain
  1: reg read 0x8 0x4 -> 0x2
  1048576: reg read 0x8 0x4 -> 0x2
  rviommu: script too long
  [1]

A long script gives the same from a file and through a pipe.

  $ awk 'BEGIN { for (at = 0; at < 20000; at++) {
  >   place = 2147483648 + at * 40 % 1048576
  >   printf "store %.0f 8 %d\nload %.0f 8%*s\n", place, at, place, at % 97, "" > "script"
  >   printf "done\n0x%x\n", at > "wanted" } }'
  $ rviommu < script | cmp - wanted
  $ cat script | rviommu | cmp - wanted
