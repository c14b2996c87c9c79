#!/bin/sh
# Time and memory of `proc opt fsm opt memory opt techmap opt`, the whole program, beside the passes of Yosys for such texts where that
# is installed: over a text of modules of `$and` and `$xor` cells, and over one module of gates.
# usage: bench/opt.sh [BYTES [GATES]]      60,000,000 bytes and 100,000 gates without numbers
set -eu
bytes=${1:-60000000}
gates=${2:-100000}
top=$(cd "$(dirname "$0")/.." && pwd)
work=$(mktemp -d)
trap 'rm -rf "$work"' EXIT
"$top/bench/gates_of_cells.py" "$bytes" 8 >"$work/cells.il"
"$top/bench/gate_chain.py" "$gates" >"$work/chain.il"
"$top/rtlsyn" </dev/null
for text in cells chain; do
    /usr/bin/time -f "$text: %U s user, %e s, %M KB at most" "$top/rtlsyn" <"$work/$text.il" >"$work/$text.out"
    if command -v yosys >/dev/null; then
        /usr/bin/time -f "$text, Yosys: %U s user, %e s, %M KB at most" \
            yosys -q -p "read_rtlil $work/$text.il; opt; techmap; opt; write_rtlil $work/$text.yosys"
    fi
done
