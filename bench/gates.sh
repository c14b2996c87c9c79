#!/bin/sh
# Memory, time and, where valgrind is installed, allocations of a module of gates, each with three pins of one bit and a
# name of its own: made, and made and copied.
# It writes a program into a temporary folder beside copies of the crates, has it proved and built, and runs it there.
# usage: bench/gates.sh [GATES]      a million without a number
set -eu
gates=${1:-1000000}
. "$(dirname "$0")/workspace.sh"
make_workspace 'gates: rtl_ir rtl_sig rtl_bits anyhow' 'rtl_bits cell_types cell_gate cell_word rtl_sig rtl_ir'
cat >"$work/crates/gates/src/main.rt" <<END
//! A module of gates, made and copied.
#![tactic(auto)]

use rtl_bits::{Copied, Memory, Seq, Text};
use rtl_ir::{Cell, Module, Pin};
use rtl_sig::{SigBit, SigSpec, WireBit};
use std::alloc::Global;
use std::env;
use std::time::Instant;

const GATES: u32 = $gates;

fn pin(alloc: Global, name: &[u8], at: u32) -> Result<Pin, Memory> {
    let bit = SigBit::Wire(WireBit { wire: 0, at });
    Ok(Pin {
        name: Text::from_slice(alloc, name)?,
        sig: SigSpec::from_slice(alloc, [bit].as_slice())?,
    })
}

fn gate(alloc: Global, number: u32) -> Result<Cell, Memory> {
    let name = format!(in alloc; "\$auto\$gate.cc:1:run\${number}")?;
    let mut pins = Vec::with_capacity(alloc, 3)?;
    pins.push(pin(alloc, b"\\\\A".as_slice(), number)?)?;
    pins.push(pin(alloc, b"\\\\B".as_slice(), number)?)?;
    pins.push(pin(alloc, b"\\\\Y".as_slice(), number)?)?;
    Ok(Cell {
        kind_name: Text::from_slice(alloc, b"\$_AND_".as_slice())?,
        name: Text::from_slice(alloc, name.as_bytes())?,
        params: Seq::make(alloc),
        pins: Seq::from_vec(pins),
        attributes: Seq::make(alloc),
    })
}

fn netlist(alloc: Global) -> Result<Module, Memory> {
    let mut module = Module::empty(alloc, b"\\\\top".as_slice())?;
    for number in 0..GATES {
        module.cells.push(gate(alloc, number)?)?;
    }
    Ok(module)
}

fn main(rt: HostRuntime) -> anyhow::Result<()> {
    let start = Instant::now(&rt)?;
    let module = netlist(rt.alloc())?;
    let made = start.elapsed(&rt)?;
    println!(rt; "{GATES} gates made in {} ms", made.as_millis())?;
    if env::args(&rt)?.count() > 1 {
        let start = Instant::now(&rt)?;
        let copy = module.copy()?;
        let copied = start.elapsed(&rt)?;
        println!(rt; "{} gates copied in {} ms", copy.cells.as_slice().len(), copied.as_millis())?;
    }
    Ok(())
}
END
cd "$work/crates/gates"
rt run >"$work/log" 2>&1 || { cat "$work/log"; exit 1; }
for copy in '' copy; do
    /usr/bin/time -f '%U s user, %S s system, %e s, %M KB at most' ./out/gates $copy
    if command -v valgrind >/dev/null; then
        valgrind ./out/gates $copy 2>&1 | sed -n 's/.*total heap usage: //p'
    fi
done
