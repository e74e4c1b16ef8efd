Each allocation of a run is refused in turn: then the program says so and writes nothing, or it does without that
allocation; `clap` may refuse the words. Of check and judge the status is 3, once their words are known.

  $ command -v cc > none || exit 80
  $ cc -shared -fPIC -o refusing.so "$TESTDIR/../c/refusing.c"
  $ printf 'ram 0x80000000 0x1000\nu64 1 2 3\ndisk 5 2 c0ffee\n' > source; rviommu asm source image; cp source text.asm
  $ printf 'reg read 8 4' > ask
  $ run() { env "$@" < ask > out 2> errors; ended="$? $(cat out errors new | cksum)"; }
  $ refusal="$(printf 'rviommu: out of memory\nbefore\n' | cksum)"
  $ named="$(printf '1 file: 0 passed, 0 failed, 1 not read\nrviommu: image: out of memory\nbefore\n' | cksum)"
  $ assembled="$(printf 'rviommu: text.asm: out of memory\nbefore\n' | cksum)"
  $ refused() {
  >   echo before > new; run "$RVIOMMU_PROGRAM" "$@"; ample=$ended
  >   number=0; seen=nothing
  >   while number=$((number + 1)); do
  >     rm -f counted; echo before > new
  >     run LD_PRELOAD=./refusing.so REFUSED=$number COUNTED=counted "$RVIOMMU_PROGRAM" "$@"
  >     test -e counted || break
  >     case $ended in
  >       "1 $refusal") seen='out of memory';;
  >       "3 $refusal" | "3 $named" | "3 $assembled") case $1 in check | judge) seen='out of memory';; *) echo "allocation $number: $ended";; esac;;
  >       "$ample") ;;
  >       *) test "$late$(cat errors)" = "lrviommu: out of memory" || test "${ended%% *}$(cat new)" = 2before || echo "allocation $number: $(cat errors)";;
  >     esac
  >   done
  >   echo "$*: $seen"
  > }
  $ refused
  : out of memory
  $ refused asm source new
  asm source new: out of memory
  $ refused run image
  run image: out of memory
  $ refused check
  check: out of memory
  $ refused check --stale image
  check --stale image: out of memory
  $ refused debug image
  debug image: out of memory
  $ refused explain image
  explain image: out of memory
  $ refused check text.asm
  check text.asm: out of memory
  $ refused debug text.asm
  debug text.asm: out of memory

If it isn't known where an included line stands, or what is possible behind a line, the output may be written before the
program says so.

  $ late=l; cp ask prelude; printf 'include prelude\n' > ask
  $ refused check
  check: out of memory
  $ refused debug image
  debug image: out of memory
  $ printf 'reg write ddtp 1\ndma write 5 0x80000000 0a # => done\nload 0x80000000 1 # => 0x0\n' > ask
  $ refused judge
  judge: out of memory
  $ refused judge --hidden image
  judge --hidden image: out of memory
  $ late=; cp prelude ask
  $ refused list image u64 0x80000000 100
  list image u64 0x80000000 100: out of memory
  $ refused upgrade image new
  upgrade image new: out of memory

Of scripts that are named each that lacks memory is told, and the others are judged.

  $ cp ask again; echo before > new; run "$RVIOMMU_PROGRAM" check --junit new ask again; ample=$ended; number=0
  $ while number=$((number + 1)); do
  >   rm -f counted
  >   run LD_PRELOAD=./refusing.so REFUSED=$number COUNTED=counted "$RVIOMMU_PROGRAM" check --junit new ask again
  >   test -e counted || break
  >   case ${ended%% *} in
  >     0) test "$ended" = "$ample" || echo "allocation $number: other answers";;
  >     1 | 3) grep -q '^rviommu: .*out of memory$' errors || echo "allocation $number: $(cat errors)";;
  >     *) test "${ended%% *}" = 2 || echo "allocation $number: $ended";;
  >   esac
  > done

With enough memory to begin with, and too little for the built-in image, a limit says so too.

  $ for kib in $(seq 512 128 65536); do
  >   sh -c "ulimit -v $kib; exec '$RVIOMMU_PROGRAM' < ask > out" 2> errors; status=$?
  >   if grep -q '^rviommu: out of memory$' errors; then echo "$status $(wc -c < out)"; break; fi
  >   if test $status = 0; then echo "it runs well from $kib KiB on"; break; fi
  > done
  1 0
