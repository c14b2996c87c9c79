"""What the scripts that print long texts share."""
import sys


def wanted_bytes():
    """How many bytes are wanted: the first word, or 60,000,000 without one."""
    return int(sys.argv[1]) if len(sys.argv) > 1 else 60_000_000


def print_modules(module):
    """Prints modules, each by its number from 0, until there are as many bytes as are wanted."""
    size = number = 0
    while size < wanted_bytes():
        text = ''.join(module(number))
        sys.stdout.write(text)
        size += len(text)
        number += 1
    print('%d modules, %d bytes' % (number, size), file=sys.stderr)
