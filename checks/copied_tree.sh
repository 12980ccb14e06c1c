# Read by scripts that try crates in a copy of the tree.

# Copies the crates into a folder, each with the library that `rt` has built of it in this tree, if it has.
copy_tree() {
    local to=$1 crate name part
    mkdir "$to/crates" "$to/.git"
    cp crates.txt HANDLES "$to/"
    for crate in crates/*/; do
        name=$(basename "$crate")
        mkdir "$to/crates/$name"
        for part in src specs proofs must-fail planted; do
            [ -d "$crate$part" ] && cp -R "$crate$part" "$to/crates/$name/"
        done
        if [ -f "${crate}out/rlib/stamp" ]; then mkdir "$to/crates/$name/out" && cp -R "${crate}out/rlib" "$to/crates/$name/out/"; fi
    done
}
