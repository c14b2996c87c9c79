#!/bin/sh
# Time of `run` in a session by 1, 2 and 4 workers, beside a program that builds without threads where one is named.
# usage: bench/workers.sh [MODULES [PROGRAM WITHOUT THREADS]]      64 modules without a number
set -eu
top=$(cd "$(dirname "$0")/.." && pwd)
"$top/rtlsyn" </dev/null
exec "$top/bench/workers.py" ${2:+--before "$2"} "${1:-64}"
