The program and the shared object run with the glibc that README and the packages name.

  $ . "$TESTDIR/used.sh"; needs readelf
  $ oldest=$(sed -n 's/^glibc=//p' "$TOP/packaging/package.sh")
  $ grep -c "glibc $oldest" "$TOP/README.md"
  1
  $ for file in "$RVIOMMU_PROGRAM" "$TOP/c/out/lib/librviommu.so"; do
  >   newest=$( (echo "$oldest"; readelf --version-info --wide "$file" | grep -o 'GLIBC_[0-9.]*' | cut -c7-) | sort -V | tail -n 1)
  >   test "$newest" = "$oldest" || echo "$file needs glibc $newest"
  > done
