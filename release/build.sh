# Proves and builds the program from the sources in the top folder `top`; sourced by choose.sh. What is being done is told
# on standard error. The proofs take an hour or two the first time.

# The libraries of the repository that a crate stands on, lowest first, and then the crate, added to `ordered`.
order_of() {
    local dep
    case " $ordered " in *" $1 "*) return ;; esac
    for dep in $(sed -n "s/^$1[^:]*: *//p" "$top/crates.txt"); do
        [ -d "$top/crates/$dep" ] && order_of "$dep"
    done
    ordered="$ordered $1"
}

# build_by LOG: proves each crate that the program stands on, and then builds it
build_by() {
    local ordered="" crate count=0
    order_of rtlsyn
    set -- "$1" $ordered
    for crate in "${@:2}"; do
        count=$((count + 1))
        say "proving $crate ($count of $(($# - 1)))"
        (cd "$top/crates/$crate" && rt check </dev/null >"$1" 2>&1) || { grep -v ": proved$" "$1" >&2; return 1; }
    done
    say "building the program"
    (cd "$top/crates/rtlsyn" && rt run </dev/null >"$1" 2>&1)
    touch "$built" 2>/dev/null
    [ -x "$built" ] || { cat "$1" >&2; return 1; }
}

# Builds, and records from which sources. Where they changed meanwhile, the program is of neither, and is not taken.
build() {
    local log status sources
    command -v rt >/dev/null || { say "the command rt of the Rattle kit is not on the PATH"; return 1; }
    sources=$(sources_sum)
    log=$(mktemp) || return 1
    build_by "$log"
    status=$?
    rm -f "$log"
    [ "$status" = 0 ] || return 1
    if [ "$(sources_sum)" != "$sources" ]; then
        touch -d @0 "$built"
        say "the sources changed while the program was built"
        return 1
    fi
    write_record "$sources" || true
}
