# A temporary folder with copies of crates and a program beside them, which is proved, built and run there; to be sourced.
# It sets `top`, the repository, and `work`, the folder, which goes when the script ends.
top=$(cd "$(dirname "$0")/.." && pwd)
work=$(mktemp -d)
trap 'rm -rf "$work"' EXIT

# make_workspace 'NAME: DEPENDENCIES' 'CRATES': the program's line of crates.txt, and all crates that it stands on
make_workspace() {
    for crate in $2; do
        mkdir -p "$work/crates/$crate"
        for part in src specs proofs; do
            cp -R "$top/crates/$crate/$part" "$work/crates/$crate/$part"
        done
        grep "^$crate:" "$top/crates.txt" >>"$work/crates.txt"
    done
    echo "$1" >>"$work/crates.txt"
    program=$work/crates/${1%%:*}
    mkdir -p "$program/src" "$program/specs" "$program/proofs"
    : >"$program/specs/Lib.antt"
    : >"$program/proofs/Lib.antt"
}
