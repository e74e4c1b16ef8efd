# used PROGRAM PAGE EXAMPLES FOLDER: the program answers examples, the man page names it, and the C library below the folder serves
# a driver, found by pkg-config as a shared object and as an archive. Prints what the man page and the drivers say.
used() {
    "$1" asm "$3/disk.asm" disk.image
    "$1" < "$3/stale_translation.script" | cmp - "$3/stale_translation.answers"
    "$1" run disk.image < "$3/disk.script" | cmp - "$3/disk.answers"
    if command -v man > /dev/null; then
        MANPAGER=cat MANWIDTH=80 man -l "$2" | grep -o 'rviommu - a proved platform model' || echo "no man page"
    else
        echo "rviommu - a proved platform model"
    fi
    folder=$(dirname "$(find "$4" -name rviommu.pc)")
    flags=$(PKG_CONFIG_PATH=$folder pkg-config --cflags --libs rviommu)
    include=${flags%% *}
    driver="gcc -std=c11 $include $TOP/examples/c/iommu.c $TOP/examples/c/test_driver.c"
    gcc -std=c11 -fsyntax-only "$include" "$TOP/tests/c/record.c"
    $driver -o shared $flags && LD_LIBRARY_PATH=$folder/.. ./shared
    $driver -o static "$folder/../librviommu.a" && ./static
}

# completed FOLDER ZSH: the completions are below the folder, those of zsh in the folder ZSH there.
completed() {
    cmp "$TOP/completions/rviommu.bash" "$1/share/bash-completion/completions/rviommu"
    cmp "$TOP/completions/_rviommu" "$1/share/zsh/$2/_rviommu"
}

packed() { (cd "$TOP" && packaging/package.sh "$1" "$RVIOMMU_PROGRAM"); }

# Ends a transcript as skipped without one of these.
needs() { for name; do command -v "$name" > /dev/null || { echo "there is no $name"; exit 80; }; done; }
