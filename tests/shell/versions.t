The program, the man page, the header and the Python module have the newest version of CHANGELOG.md, and its date.

  $ cd "$TOP"; newest=$(sed -n 's/^## //p' CHANGELOG.md | head -n 1); echo "$newest" | sed 's/[0-9]/N/g'
  N.N.N (NNNN-NN-NN)
  $ version=${newest% *} date=$(echo "$newest" | sed 's/.*(\(.*\))/\1/')
  $ named() { sed -e "s/$version/VERSION/" -e "s/$date/DATE/"; }
  $ rviommu --version | named
  rviommu VERSION
  $ head -n 1 man/rviommu.1 | named
  .TH RVIOMMU 1 "DATE" "rviommu VERSION" "User Commands"
  $ grep '^#define RVIOMMU_VERSION ' include/rviommu.h | named
  #define RVIOMMU_VERSION "VERSION"
  $ grep '^__version__ = ' python/rviommu/__init__.py | named
  __version__ = "VERSION"

README names the kit that is on the path.

  $ if command -v rt > /dev/null; then grep -qF "\`$(rt --version)\`" README.md || rt --version; fi

groff and mandoc, if they are there, have no warning of the man page.

  $ if command -v groff > /dev/null; then groff -man -ww -Tutf8 -z man/rviommu.1; fi
  $ if command -v mandoc > /dev/null; then mandoc -T lint -W warning man/rviommu.1; fi
