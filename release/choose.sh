# Which program ./rtlsyn starts; sourced by ./rtlsyn and .ci/release, with the top folder in `top`. It is
#
#   1. the one that was built here, where it was built from these sources;
#   2. the one of release/, where its stamp names these sources. One that does not fit its sha256 is refused;
#   3. one that is proved and built now (build.sh). A line on standard error says so.
#
# What is kept in the user's cache folder, `cache` (nothing is, where that is empty): programs/SHA256, the released program
# unpacked, and choices/TOP/choice, the choice that ./rtlsyn recalls, which `choice` names. `times_of` is of ./rtlsyn.
. "$top/release/sources"
. "$top/release/build.sh"
built=$top/crates/rtlsyn/out/rtlsyn
record=$built.record
stamp=$top/release/STAMP
packed=$top/release/rtlsyn.gz
[ -f "$packed" ] || packed=$top/release/rtlsyn.xz
: "${cache=}" "${choice=}"

say() { echo "rtlsyn: $1" >&2; }

# field KEY FILE: the value in the line `KEY: value`
field() { sed -n "s/^$1: //p" "$2" 2>/dev/null; }

sum_of() {
    local sum
    sum=$(sha256sum <"$1") && echo "${sum%% *}"
}

# write_record SOURCES: notes beside the program that was built here from which sources it was
write_record() {
    {
        echo "sources: $1"
        echo "kit: $(rt version 2>/dev/null </dev/null | head -n 1)"
        echo "program: $(sum_of "$built")"
    } 2>/dev/null >"$record.$$" && mv -f "$record.$$" "$record"
}

# Whether the record is one of the program that is there now: rt ci writes a program and no record.
is_recorded() {
    [ -f "$record" ] && ! [ "$built" -nt "$record" ] && [ "$(field program "$record")" = "$(sum_of "$built")" ]
}

# Whether no source is newer than the program that was built here.
is_newest() { [ -z "$(source_names | (cd "$top" && xargs -0 bash -c 'find "$@" -newer "$0"' "$built"))" ]; }

# is_built SOURCES: whether the program that was built here is one of the sources with this checksum. Where no record
# says from which it was built, it is where no source is newer.
is_built() {
    [ -x "$built" ] || return 1
    if is_recorded; then
        [ "$(field sources "$record")" = "$1" ]
    else
        is_newest && { write_record "$1" || true; }
    fi
}

# The bytes of the released program.
unpacked() {
    case $packed in
    *.gz) gzip -dc <"$packed" ;;
    *.xz) xz -dc <"$packed" ;;
    esac
}

# Whether the release holds the program that the stamp names.
fits() {
    local sum
    sum=$(set -o pipefail && unpacked 2>/dev/null | sha256sum) && [ "$sum" = "$(field program "$stamp")  -" ]
}

# unpack_to FILE: unpacks the released program to this file, whole or not at all
unpack_to() {
    unpacked >"$1" && [ "$(sum_of "$1")" = "$(field program "$stamp")" ] && chmod 755 "$1" && return
    rm -f "$1"
    say "${packed#"$top/"} could not be unpacked"
    return 1
}

# keep FILE: leaves the released program in this file, unless it is there
keep() {
    local fresh
    [ -x "$1" ] && [ "$(sum_of "$1")" = "$(field program "$stamp")" ] && return
    fresh=$(mktemp "$1.XXXXXX") && unpack_to "$fresh" && mv -f "$fresh" "$1"
}

# Leaves the released program in `program`. Where there is no folder to keep it, it is in a file that is gone when the
# program has ended.
unpack() {
    local fresh
    if ! fits; then
        say "${packed#"$top/"} does not hold the program whose sha256 is in release/STAMP; it is refused"
        return 1
    fi
    program=$cache/programs/$(field program "$stamp")
    if [ -n "$cache" ] && mkdir -p "$cache/programs" 2>/dev/null && keep "$program" 2>/dev/null; then
        return
    fi
    fresh=$(mktemp) && unpack_to "$fresh" && exec 9<"$fresh" && rm -f "$fresh" && program=/proc/self/fd/9
}

# The names of all that a choice rests on: the sources with their folders, the release, and what was built here.
rests_on() (
    cd "$top" || exit
    find crates crates.txt HANDLES release -type d -name out -prune -o -print0
    find crates/rtlsyn/out -maxdepth 1 \( -type d -o -name 'rtlsyn*' \) -print0 2>/dev/null
)

# remember FOLDER BEGUN: keeps the choice, by the names and times that were noted in the folder when it began. Where a file
# changed then or just before, its time may not show that it was read before the change: nothing is kept that time.
remember() {
    local last
    last=$(LC_ALL=C sort -n "$1/times" | tail -n 1)
    last=${last%% *}
    [ "${last/./}" -lt "$(($2 - 100000000))" ] || return
    printf '%s\0' "$program" >>"$1/names"
    printf '%s\0' "$program" | times_of >>"$1/times"
    { echo "$program" && sha256sum <"$1/times" && cat "$1/names"; } >"$1/choice" && mv -f "$1/choice" "$choice"
}

# Leaves in `program` the one that fits these sources; the status is not 0 where there is none.
choose_by() {
    local sources
    sources=$(sources_sum)
    if is_built "$sources"; then
        program=$built
    elif [ "$(field sources "$stamp")" = "$sources" ]; then
        unpack
    else
        say "the sources are newer than the release$(field version "$stamp" | sed 's/^/ /'): the program is proved and built"
        build && program=$built
    fi
}

# Chooses the program, and remembers it where there is a place for it.
choose() {
    local folder begun status
    [ "${RTLSYN_BUILD-}" = 1 ] && { build && program=$built; return; }
    begun=$(date +%s%N)
    [ -n "$choice" ] && mkdir -p "${choice%/*}" 2>/dev/null && folder=$(mktemp -d "$choice.XXXXXX" 2>/dev/null) ||
        { choose_by; return; }
    trap 'rm -rf "$folder"' EXIT
    rests_on >"$folder/names"
    (cd "$top" && times_of) <"$folder/names" >"$folder/times"
    choose_by
    status=$?
    [ "$status" = 0 ] && [ "$program" != /proc/self/fd/9 ] && remember "$folder" "$begun"
    rm -rf "$folder"
    trap - EXIT
    return "$status"
}

# What --version prints: the program's line, and of which kit and sources it is.
tell_version() {
    local from=$stamp
    [ "$program" = "$built" ] && from=$record
    "$program" --version || return
    echo "kit: $(field kit "$from")"
    echo "sources: $(field sources "$from")"
}
