"""An independent model of what designs do over time, in both orders of time, and its comparisons with the program and with
Verilog. `python3 bench/order --help` lists them."""
