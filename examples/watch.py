#!/usr/bin/env python3
"""Makes the netlist anew after every edit: what `rtlsyn watch` of the package in `python` does.

    examples/watch.py cpu.v bus.v                       watches the files; writes netlist.il after every edit
    examples/watch.py --once --netlist gates.il cpu.v   once, for scripts
    examples/watch.py --simulate steps.txt cpu.v        also runs a stimulus through source and netlist
"""
import os
import sys

sys.path.insert(0, os.path.join(os.path.dirname(os.path.dirname(os.path.abspath(__file__))), 'python'))
from rtlsyn.__main__ import main

main(['watch', *sys.argv[1:]])
