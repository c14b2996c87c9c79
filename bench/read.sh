#!/bin/sh
# Time and memory of reading a text of ordinary modules, and of the same text in `yosys` where that is installed.
# It writes a program into a temporary folder beside copies of the crates, has it proved and built, and runs it there.
# usage: bench/read.sh [BYTES]      60,000,000 without a number
set -eu
bytes=${1:-60000000}
. "$(dirname "$0")/workspace.sh"
make_workspace 'reading: rtl_read rtl_ir rtl_bits anyhow' 'rtl_bits cell_types cell_gate cell_word rtl_sig rtl_ir rtl_lex rtl_grammar rtl_read'
cat >"$work/crates/reading/src/main.rt" <<'END'
//! Reads a text from standard input, and says how long that took.
#![tactic(auto)]

use rtl_read::read;
use std::alloc::Global;
use std::io::Read;
use std::time::Instant;

/// What the text is answered.
fn answer(alloc: Global, text: &[u8]) -> Result<String, anyhow::Error> {
    match read(alloc, text) {
        Ok(design) => Ok(format!(in alloc; "{} modules", design.modules.as_slice().len())?),
        Err(fault) => Ok(format!(in alloc; "{fault}")?),
    }
}

fn main(rt: HostRuntime) -> anyhow::Result<()> {
    let mut text = Vec::new(rt.alloc());
    rt.reader().read_to_end(&mut text)?;
    let start = Instant::now(&rt)?;
    let words = answer(rt.alloc(), text.as_slice())?;
    let taken = start.elapsed(&rt)?;
    println!(rt; "{} bytes, {words}, read in {} ms", text.len(), taken.as_millis())?;
    Ok(())
}
END
"$top/bench/modules.py" "$bytes" >"$work/text.il"
cd "$work/crates/reading"
rt run </dev/null >"$work/log" 2>&1 || { cat "$work/log"; exit 1; }
/usr/bin/time -f '%U s user, %e s, %M KB at most' ./out/reading <"$work/text.il"
if command -v yosys >/dev/null; then
    /usr/bin/time -f '%U s user, %e s, %M KB at most' yosys -q -p "read_rtlil $work/text.il"
fi
