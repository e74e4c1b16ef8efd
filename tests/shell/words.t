Words that there are not, operands that are missing or too many, and words that aren't UTF-8 are refused: status 2, a text
on standard error, and nothing on standard output.

  $ image=$(printf 'image\377')
  $ refused() { echo 'reg read 8 4' | rviommu "$@" > out 2> faults; echo $? $(wc -c < out) $(head -c 1 faults | wc -c); }
  $ while read -r words; do echo "$words: $(refused $words)"; done <<'end'
  > jump
  > --jump
  > -j
  > asm
  > asm source
  > asm source image more
  > run
  > run image more
  > check - -
  > check - one -
  > check --junit
  > check --image
  > check --tap=1
  > debug image more
  > explain image more
  > check --jump
  > debug --stale
  > explain --stale
  > explain --only
  > explain --only jump
  > explain --only denied,
  > explain --only denied,jump
  > judge - -
  > judge --jump
  > judge --stale
  > judge --hidden=1
  > judge --junit
  > list image u64 0
  > list image word 0 1
  > list image u64 0X1 1
  > list image u64 0 18446744073709551616
  > list image u64 +1 1
  > end
  jump: 2 0 1
  --jump: 2 0 1
  -j: 2 0 1
  asm: 2 0 1
  asm source: 2 0 1
  asm source image more: 2 0 1
  run: 2 0 1
  run image more: 2 0 1
  check - -: 2 0 1
  check - one -: 2 0 1
  check --junit: 2 0 1
  check --image: 2 0 1
  check --tap=1: 2 0 1
  debug image more: 2 0 1
  explain image more: 2 0 1
  check --jump: 2 0 1
  debug --stale: 2 0 1
  explain --stale: 2 0 1
  explain --only: 2 0 1
  explain --only jump: 2 0 1
  explain --only denied,: 2 0 1
  explain --only denied,jump: 2 0 1
  judge - -: 2 0 1
  judge --jump: 2 0 1
  judge --stale: 2 0 1
  judge --hidden=1: 2 0 1
  judge --junit: 2 0 1
  list image u64 0: 2 0 1
  list image word 0 1: 2 0 1
  list image u64 0X1 1: 2 0 1
  list image u64 0 18446744073709551616: 2 0 1
  list image u64 +1 1: 2 0 1
  $ refused "$(printf '\377')"; refused "$(printf -- '--\377')"; refused jump "$(printf '\303')"
  2 0 1
  2 0 1
  2 0 1
  $ refused run "$image"; refused asm source "$(printf '\377')"
  2 0 1
  2 0 1

So they are with standard error closed.

  $ for word in jump --jump "$(printf '\377')"; do rviommu "$word" 2>&-; echo $?; done
  2
  2
  2

Each word that carries out a script has the same faults: of its image, of its input and of its output. Of check and judge
the status is 3, since 1 says that a line failed.

  $ printf 'ram 0x80000000 0x1000\nrodisk 5 1 aa\n' > text && rviommu asm text image
  $ head -c 31 image > bad
  $ echo 'reg read 8 4 # => 0x2' > short; yes jump | head -n 100000 > long
  $ tell() { rviommu "$@"; echo "$1: $?" >&2; }
  $ for word in run check debug explain judge; do
  >   tell $word none < short; tell $word bad < short; tell $word image < /
  >   for script in short long; do tell $word image < $script > /dev/full; done
  > done
  rviommu: cannot read none
  run: 1
  rviommu: truncated
  run: 1
  rviommu: read failed
  run: 1
  rviommu: write failed
  run: 1
  rviommu: write failed
  run: 1
  rviommu: cannot read none: there is no such file
  1 file: 0 passed, 0 failed, 1 not read
  check: 3
  rviommu: bad: truncated
  check: 3
  rviommu: read failed
  check: 3
  rviommu: write failed
  check: 3
  rviommu: write failed
  check: 3
  rviommu: cannot read none: there is no such file
  debug: 1
  rviommu: bad: truncated
  debug: 1
  rviommu: read failed
  debug: 1
  rviommu: write failed
  debug: 1
  rviommu: write failed
  debug: 1
  rviommu: cannot read none: there is no such file
  explain: 1
  rviommu: bad: truncated
  explain: 1
  rviommu: read failed
  explain: 1
  rviommu: write failed
  explain: 1
  rviommu: write failed
  explain: 1
  rviommu: cannot read none: there is no such file
  1 file: 0 passed, 0 failed, 1 not read
  judge: 3
  rviommu: bad: truncated
  judge: 3
  rviommu: read failed
  judge: 3
  rviommu: write failed
  judge: 3
  rviommu: write failed
  judge: 3
  $ for word in check debug explain judge ''; do
  >   tell $word < /
  >   for script in short long; do tell $word < $script > /dev/full; done
  > done
  rviommu: read failed
  check: 3
  rviommu: write failed
  check: 3
  rviommu: write failed
  check: 3
  rviommu: read failed
  debug: 1
  rviommu: write failed
  debug: 1
  rviommu: write failed
  debug: 1
  rviommu: read failed
  explain: 1
  rviommu: write failed
  explain: 1
  rviommu: write failed
  explain: 1
  rviommu: read failed
  judge: 3
  rviommu: write failed
  judge: 3
  rviommu: write failed
  judge: 3
  rviommu: read failed
  : 1
  rviommu: write failed
  : 1
  rviommu: write failed
  : 1
  $ rviommu check < /dev/null > /dev/full
  rviommu: write failed
  [3]
  $ rviommu check --help > /dev/full
  rviommu: write failed
  [3]
