#!/bin/sh
# Gates, registers, time and memory over each design of examples/designs: of the default script, of one with the further
# passes, and where Yosys is installed of its passes beside either.
# usage: bench/designs.sh
set -eu
top=$(cd "$(dirname "$0")/.." && pwd)
program=$top/crates/rtlsyn/out/rtlsyn
further='proc opt opt_muxtree opt_reduce opt_dff opt fsm opt memory opt opt_dff techmap opt'
work=$(mktemp -d)
trap 'rm -rf "$work"' EXIT

# The gates and the registers of a netlist.
counts() {
    awk '$1 == "cell" && $2 ~ /^\$_(A?L?S?DFF|FF|DLATCH|SR)/ { registers++; next }
        $1 == "cell" { gates++ }
        END { printf "%d gates, %d registers", gates, registers }' "$1"
}

# Runs a command that writes a netlist: LABEL NETLIST COMMAND..
measured() {
    label=$1
    netlist=$2
    shift 2
    /usr/bin/time -o "$work/time" -f "%U s user, %e s, %M KB at most" "$@"
    echo "$label: $(counts "$netlist"), $(cat "$work/time")"
}

# Yosys: LABEL TEXT PASSES
beside() {
    measured "$1" "$work/yosys" yosys -q -p "read_rtlil $2; $3; write_rtlil $work/yosys"
}

"$top/rtlsyn" </dev/null
for text in "$top"/examples/designs/*.il; do
    name=$(basename "$text" .il)
    measured "$name" "$work/out" sh -c "'$program' <'$text' >'$work/out'"
    measured "$name, further passes" "$work/out" sh -c "'$program' --script '$further' <'$text' >'$work/out'"
    if command -v yosys >/dev/null; then
        beside "$name, Yosys" "$text" "proc; opt; fsm -encoding one-hot; opt; memory; opt; techmap; opt"
        beside "$name, Yosys with -full" "$text" \
            "proc; opt -full; fsm -encoding one-hot; opt -full; memory; opt -full; techmap; opt -full"
    fi
done
