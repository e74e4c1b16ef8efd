bash offers the words that may follow at the end of a line, and no other.

  $ command -v bash > /dev/null || exit 80
  $ offered() {
  >   bash -c '. "$TOP/completions/rviommu.bash"; COMP_WORDS=(rviommu "$@") COMP_CWORD=$#; _rviommu; echo "[${COMPREPLY[*]}]"' - "$@"
  > }
  $ offered a
  [asm]
  $ offered u; offered c; offered d; offered e; offered j
  [upgrade]
  [check]
  [debug]
  [explain]
  [judge]
  $ offered -
  [--help --version]
  $ offered list image ''
  [cmd fault context dir pte msi u64]
  $ offered list image c
  [cmd context]
  $ offered list image cmd 0 ''
  []
  $ offered check -; offered debug -; offered explain -; offered judge -; offered run -
  [--stale --at-fences --settled --ahead --strict --tap --junit --image --help]
  [--image --help]
  [--settled --only --image --help]
  [--hidden --strict --tap --junit --image --help]
  [--help]
  $ offered explain --only ''
  [denied stale unsettled denied,stale denied,unsettled stale,unsettled denied,stale,unsettled]
  $ offered help ''
  [asm run check debug explain judge list upgrade]

Both completions know every word, every kind and every option.

  $ words=$(rviommu --help | sed -n '/^Commands:/,/^$/s/^  \([a-z]*\).*/\1/p')
  $ options=$(for word in $words; do test $word = help || rviommu $word --help; done | sed -n 's/^ *\(-., \)*\(--[a-z-]*\).*/\2/p')
  $ for name in rviommu.bash _rviommu; do
  >   for word in $words $options --help --version cmd fault context dir pte msi u64; do
  >     grep -qw -e "$word" "$TOP/completions/$name" || echo "$name lacks $word"
  >   done
  > done
