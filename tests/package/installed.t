What `make install` puts into a folder is used.

  $ . "$TESTDIR/used.sh"; needs make gcc pkg-config
  $ built="-o $RVIOMMU_PROGRAM -o c/out/lib/librviommu.so program=$RVIOMMU_PROGRAM"
  $ make -s -C "$TOP" $built install DESTDIR="$PWD/root" PREFIX=/opt/rviommu
  $ top=$PWD/root/opt/rviommu
  $ completed $top site-functions
  $ used $top/bin/rviommu $top/share/man/man1/rviommu.1 "$TOP/examples" $top
  rviommu - a proved platform model
  passed
  passed
