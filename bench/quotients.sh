#!/bin/sh
# Time and memory of quotients that become gates, in the whole program, beside `proc; techmap; opt_clean` of Yosys where
# that is installed: one module of `$div` cells, each an output.
# usage: bench/quotients.sh [CELLS [WIDTH]]      four cells of 128 bits without numbers
set -eu
cells=${1:-4}
width=${2:-128}
top=$(cd "$(dirname "$0")/.." && pwd)
work=$(mktemp -d)
trap 'rm -rf "$work"' EXIT
"$top/bench/quotients.py" "$cells" "$width" >"$work/quotients.il"
"$top/rtlsyn" </dev/null
/usr/bin/time -f "quotients: %U s user, %e s, %M KB at most" "$top/rtlsyn" <"$work/quotients.il" >"$work/quotients.out"
grep -c '^  cell ' "$work/quotients.out" | sed 's/$/ gates/'
if command -v yosys >/dev/null; then
    /usr/bin/time -f "quotients, Yosys: %U s user, %e s, %M KB at most" \
        yosys -q -p "read_rtlil $work/quotients.il; proc; techmap; opt_clean; write_rtlil $work/quotients.yosys"
fi
