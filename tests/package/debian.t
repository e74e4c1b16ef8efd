The Debian packages are packed alike twice, and have the names that the header's number gives.

  $ . "$TESTDIR/used.sh"; needs dpkg dpkg-deb gcc pkg-config
  $ names() { for it; do basename "$it" | sed 's/_.*//'; done; }
  $ packages=$(packed deb | sed "s|^|$TOP/|"); mkdir first; cp $packages first
  $ packed deb > again; for it in $packages; do cmp "$it" "first/$(basename "$it")"; done
  $ abi=$(sed -n 's/^#define RVIOMMU_ABI //p' "$TOP/include/rviommu.h")
  $ names $packages | sed "s/librviommu$abi$/librviommu ABI/"
  rviommu
  librviommu ABI
  librviommu-dev

They are installed into an empty root, used, and removed again with all their files.

  $ root=$PWD/root; mkdir -p $root/var/lib/dpkg/info $root/var/lib/dpkg/updates $root/var/lib/dpkg/triggers
  $ : > $root/var/lib/dpkg/status; : > $root/var/lib/dpkg/available
  $ dpkg="dpkg --root=$root --log=$root/dpkg.log --force-not-root --force-depends"
  $ $dpkg --install $packages > said 2>&1 || cat said
  $ completed $root/usr vendor-completions
  $ used $root/usr/bin/rviommu $root/usr/share/man/man1/rviommu.1.gz $root/usr/share/doc/rviommu/examples $root
  rviommu - a proved platform model
  passed
  passed
  $ page=$TOP/web/out; test ! -f "$page/index.html" || diff -r -x '*.png' "$page" $root/usr/share/rviommu/page
  $ $dpkg --purge $(names $packages) > said 2>&1 || cat said
  $ (cd $root; find . ! -type d ! -path './var/*' ! -name 'dpkg.log*')

If there is a lintian, it finds no error and warns of nothing, and no package has it look away.

  $ if command -v lintian > /dev/null; then lintian --allow-root --fail-on error,warning $packages; fi
  $ for it in $packages; do dpkg-deb --contents "$it" | grep lintian; done; true
