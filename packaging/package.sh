#!/bin/sh
# package.sh dist|deb [PROGRAM [PREFIX]]    Packs the program and the C library into dist/, as an archive or as Debian packages:
# rviommu, the program; librviommuN, the shared object, N being the number in its name; and librviommu-dev, what builds against it.
# If the page is built (web/out), it is packed too.
#
# Two packings of one commit with one program and library are equal byte for byte: each file has the date of the version in
# CHANGELOG.md, one owner and fixed rights, and the order is by name. Prints each file that was written. PROGRAM is the built program,
# crates/rviommu/out/rviommu if it is not given; PREFIX is where c/build.py made the library, else c/out.
set -e
umask 022
export LC_ALL=C
cd "$(dirname "$0")/.."
program=${2:-crates/rviommu/out/rviommu} lib=${3:-c/out}/lib
glibc=2.36
maintainer="rviommu maintainers <maintainers@users.noreply.lacingprune.example>"
multiarch=lib/x86_64-linux-gnu

stop() {
    echo "package: $1" >&2
    exit 1
}

[ -f "$program" ] || stop "there is no program $program: 'make build' builds it"
[ -f "$lib/librviommu.so" ] || stop "there is no C library in ${lib%/lib}: 'make library' builds it"
head=$(sed -n 's/^## \([0-9.]*\) (\([0-9-]*\))$/\1 \2/p' CHANGELOG.md | head -n 1)
version=${head% *} day=${head#* }
SOURCE_DATE_EPOCH=$(date -u -d "$day" +%s)
export SOURCE_DATE_EPOCH
# The name of the shared object's file, as librviommu.so.1.
soname=$(readlink "$lib/librviommu.so")
room=$(mktemp -d)
trap 'rm -rf "$room"' EXIT
mkdir -p dist

# put FOLDER FILE..: copies files into a folder below the room.
put() {
    folder=$room/$1
    shift
    install -D -m 644 -t "$folder" "$@"
}

# stripped FILE TARGET [WORD..]: a program or a library without its symbols, if there is a strip; else as it is.
stripped() {
    target=$room/$2
    install -D -m 644 "$1" "$target"
    shift 2
    ! command -v strip > /dev/null || strip "$@" --remove-section=.comment --remove-section=.note "$target"
}

# page FOLDER: the files of the page, if it is built.
page() {
    [ ! -f web/out/index.html ] || put "$1" web/out/*.html web/out/*.css web/out/*.js
}

# examples FOLDER: the files of examples/, without those for C.
examples() {
    find examples -maxdepth 1 -type f -exec install -D -m 644 -t "$room/$1" {} +
}

# shared FOLDER
shared() {
    stripped "$lib/$soname" "$1/$soname" --strip-unneeded
}

# developed TOP LIB: what builds against the library, the headers in TOP/include and the rest in TOP/LIB.
developed() {
    put "$1/include" include/*.h
    stripped "$lib/librviommu.a" "$1/$2/librviommu.a" --strip-debug --enable-deterministic-archives
    ln -s "$soname" "$room/$1/$2/librviommu.so"
    put "$1/$2/pkgconfig" "$lib/pkgconfig/rviommu.pc"
    up=$(echo "$2/pkgconfig" | sed 's|[^/]*|..|g')
    sed -i -e "s|{pcfiledir}/../..$|{pcfiledir}/$up|" -e "s|{prefix}/lib$|{prefix}/$2|" "$room/$1/$2/pkgconfig/rviommu.pc"
}

dist() {
    name=rviommu-$version-linux-x86_64
    stripped "$program" "$name/rviommu"
    chmod 755 "$room/$name/rviommu"
    put "$name" man/rviommu.1 README.md CHANGELOG.md
    put "$name/completions" completions/rviommu.bash completions/_rviommu
    put "$name/c" c/README.md
    examples "$name/examples"
    put "$name/examples/c" examples/c/*
    page "$name/page"
    developed "$name" lib
    shared "$name/lib"
    set -- --sort=name --format=ustar --owner=root:0 --group=root:0 "--mtime=@$SOURCE_DATE_EPOCH"
    tar "$@" -C "$room" -c "$name" | gzip -9n > "dist/$name.tar.gz"
    echo "dist/$name.tar.gz"
}

# filled FILE: a text of packaging/debian with the version, its date and the maintainer in it.
filled() {
    date=$(date -u -d "$day" '+%a, %d %b %Y %H:%M:%S +0000')
    sed -e "s/@VERSION@/$version/" -e "s/@DATE@/$date/" -e "s/@YEAR@/${day%%-*}/" \
        -e "s/@MAINTAINER@/$maintainer/" "packaging/debian/$1"
}

# built NAME SECTION DEPENDS ABOUT: makes the Debian package of the files that stand below its name in the room.
built() {
    root=$room/$1
    mkdir -p "$root/DEBIAN" "$root/usr/share/doc/$1"
    filled changelog | gzip -9n > "$root/usr/share/doc/$1/changelog.gz"
    filled copyright > "$root/usr/share/doc/$1/copyright"
    size=$(find "$root" -type f -printf '%s\n' | awk '{ size += int(($1 + 1023) / 1024) } END { print size }')
    filled control |
        sed -e "s/@NAME@/$1/" -e "s/@SECTION@/$2/" -e "s/@DEPENDS@/$3/" -e "s/@SIZE@/$size/" |
        sed -e "/@ABOUT@/r packaging/debian/$4.about" -e "/@ABOUT@/d" > "$root/DEBIAN/control"
    (cd "$root" && find usr -type f | sort | xargs md5sum) > "$root/DEBIAN/md5sums"
    chmod -R u+rwX,go+rX "$room"
    dpkg-deb --root-owner-group -Zxz --build "$root" "dist/$1_${version}_amd64.deb" > /dev/null
    echo "dist/$1_${version}_amd64.deb"
}

deb() {
    command -v dpkg-deb > /dev/null || stop "there is no dpkg-deb on the path (Debian's package dpkg has it)"
    number=${soname##*.} shared_name=librviommu${soname##*.} doc=rviommu/usr/share/doc/rviommu
    stripped "$program" rviommu/usr/bin/rviommu
    chmod 755 "$room/rviommu/usr/bin/rviommu"
    put rviommu/usr/share/man/man1 man/rviommu.1
    gzip -9n "$room/rviommu/usr/share/man/man1/rviommu.1"
    install -D -m 644 completions/rviommu.bash "$room/rviommu/usr/share/bash-completion/completions/rviommu"
    put rviommu/usr/share/zsh/vendor-completions completions/_rviommu
    put "$doc" README.md CHANGELOG.md
    examples "$doc/examples"
    page rviommu/usr/share/rviommu/page
    built rviommu electronics "libc6 (>= $glibc)" rviommu
    shared "$shared_name/usr/$multiarch"
    mkdir "$room/$shared_name/DEBIAN"
    echo "activate-noawait ldconfig" > "$room/$shared_name/DEBIAN/triggers"
    echo "librviommu $number $shared_name (>= $version)" > "$room/$shared_name/DEBIAN/shlibs"
    built "$shared_name" libs "libc6 (>= $glibc)" librviommu
    developed librviommu-dev/usr "$multiarch"
    put librviommu-dev/usr/share/doc/librviommu-dev c/README.md
    put librviommu-dev/usr/share/doc/librviommu-dev/examples/c examples/c/*
    built librviommu-dev libdevel "$shared_name (= $version)" librviommu-dev
}

case $1 in
    dist | deb) "$1" ;;
    *) stop "usage: package.sh dist|deb [PROGRAM [PREFIX]]" ;;
esac
