#!/bin/sh
# Time and memory of reading a canonical text and writing it again, with equal bytes; and of the same by `yosys` where that is installed.
# usage: bench/write.sh [BYTES]      60,000,000 without a number
set -eu
bytes=${1:-60000000}
top=$(cd "$(dirname "$0")/.." && pwd)
work=$(mktemp -d)
trap 'rm -rf "$work"' EXIT
"$top/bench/wires.py" "$bytes" >"$work/text.il"
"$top/rtlsyn" </dev/null
/usr/bin/time -f 'read and written: %U s user, %e s, %M KB at most' "$top/rtlsyn" <"$work/text.il" >"$work/again.il"
cmp "$work/text.il" "$work/again.il"
if command -v yosys >/dev/null; then
    /usr/bin/time -f 'yosys, read: %U s user, %e s, %M KB at most' yosys -q -p "read_rtlil $work/text.il"
    /usr/bin/time -f 'yosys, read and written: %U s user, %e s, %M KB at most' yosys -q -p "read_rtlil $work/text.il; write_rtlil $work/yosys.il"
fi
