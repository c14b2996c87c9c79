"""`python3 bench/order`: the comparisons."""
import os
import sys

# The folder above is where the package stands.
sys.path[0] = os.path.dirname(os.path.dirname(os.path.abspath(__file__)))
from order.commands import main  # noqa: E402

main(prog_name='bench/order')
