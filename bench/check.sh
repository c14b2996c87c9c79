#!/bin/sh
# Time and memory of a module of gates that is read, checked and written, beside reading and writing it alone.
# It writes a program into a temporary folder beside copies of the crates, has it proved and built, and runs it there.
# usage: bench/check.sh [GATES]      500,000 without a number
set -eu
gates=${1:-500000}
. "$(dirname "$0")/workspace.sh"
make_workspace 'passing: rtl_read rtl_write synth_io rtl_ir rtl_bits' 'rtl_bits cell_types cell_gate cell_word rtl_sig rtl_ir rtl_lex rtl_grammar rtl_read rtl_write synth_io'
cat >"$work/crates/passing/src/main.rt" <<'END'
//! Reads a text from standard input, and writes it to standard output.
#![tactic(auto)]

use rtl_read::read;
use rtl_write::write;
use std::alloc::Global;
use std::io;
use std::process::ExitCode;
use synth_io::{Source, StdSink, StdSource, read_input, write_reply};

/// The canonical text of the design of a text.
fn passed<S: Source>(alloc: Global, source: &mut S) -> Option<rtl_bits::Text> {
    let text = read_input(alloc, source).ok()?;
    let design = read(alloc, text.as_slice()).ok()?;
    write(alloc, &design).ok()
}

fn main(rt: HostRuntime) -> ExitCode {
    let Some(text) = passed(rt.alloc(), &mut StdSource::make(rt.reader())) else {
        return ExitCode::FAILURE;
    };
    match write_reply(&mut StdSink::make(io::writer(&rt)), text.as_slice()) {
        Ok(()) => ExitCode::SUCCESS,
        Err(_) => ExitCode::FAILURE,
    }
}
END
"$top/bench/gate_chain.py" "$gates" >"$work/gates.il"
"$top/rtlsyn" </dev/null
cd "$work/crates/passing"
rt run </dev/null >"$work/log" 2>&1 || { cat "$work/log"; exit 1; }
/usr/bin/time -f 'read and written: %U s user, %e s, %M KB at most' ./out/passing <"$work/gates.il" >"$work/again.il"
cmp "$work/gates.il" "$work/again.il"
/usr/bin/time -f 'read, checked and written: %U s user, %e s, %M KB at most' "$top/rtlsyn" <"$work/gates.il" >"$work/netlist.il"
cmp "$work/gates.il" "$work/netlist.il"
