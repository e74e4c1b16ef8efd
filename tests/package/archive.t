The archive is packed alike twice, has the documents, and is used.

  $ . "$TESTDIR/used.sh"; needs gcc pkg-config
  $ archive=$TOP/$(packed dist); cp "$archive" first; packed dist > again; cmp first "$archive"
  $ tar -xf "$archive"; top=$(echo "$PWD"/rviommu-*)
  $ for name in README.md CHANGELOG.md completions/_rviommu completions/rviommu.bash; do cmp "$TOP/$name" "$top/$name"; done
  $ used "$top/rviommu" "$top/rviommu.1" "$top/examples" "$top"
  rviommu - a proved platform model
  passed
  passed

The page is in it as it was built, if it is built.

  $ page=$TOP/web/out; test ! -f "$page/index.html" || diff -r -x '*.png' "$page" "$top/page"
