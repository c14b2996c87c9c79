"""The program of this machine, as a worker runs it, and what tells it from others."""
import functools
import hashlib
import os
import subprocess
from pathlib import Path
from typing import List, Optional, Tuple

from rtlsyn.program import find

# Exit statuses of the program that judge the input; all others are troubles of the machine.
DONE, REFUSED, USAGE = 0, 1, 2
# Where the program is built in a clone, beside the script that runs it.
BUILT = os.path.join('crates', 'rtlsyn', 'out', 'rtlsyn')


class Trouble(Exception):
    """The program did not come to an answer, or is another one: nothing that the design is to blame for."""


@functools.lru_cache(maxsize=8)
def _digest_of(path: str, size: int, changed: int) -> bytes:
    """The sha256 of a file, once for each size and time of change."""
    return hashlib.sha256(Path(path).read_bytes()).digest()


def _digest(path: str) -> bytes:
    """The sha256 of a file, or nothing where there is none."""
    if not os.path.isfile(path):
        return b''
    stat = os.stat(path)
    return _digest_of(path, stat.st_size, stat.st_mtime_ns)


def _version(command: List[str]) -> bytes:
    """What a script that chooses the program says of the one that it would take; nothing where it does not."""
    done = subprocess.run(command + ['--version'], stdin=subprocess.DEVNULL, stdout=subprocess.PIPE,
                          stderr=subprocess.DEVNULL, check=False)
    return done.stdout if done.returncode == DONE else b''


def identity() -> str:
    """What tells the program of this machine from others: its sha256, or of a clone's script the version and the checksum
    of the sources that it names, which say which program it runs."""
    command = find()
    file = command[-1]
    with open(file, 'rb') as opened:
        is_script = opened.read(2) == b'#!'
    said = _version(command) if is_script else b''
    beside = os.path.join(os.path.dirname(file), BUILT)
    return hashlib.sha256(said or _digest(file) + _digest(beside)).hexdigest()


def run(text: bytes, script: Optional[str], program: str) -> Tuple[int, bytes]:
    """The exit status of the program over a text, and what it wrote. Raises Trouble where it gave no answer."""
    here = identity()
    if here != program:
        raise Trouble('a worker has another program: %s, not %s' % (here[:12], program[:12]))
    words = ['--workers', '1'] + ([] if script is None else ['--script', script])
    done = subprocess.run(find() + words, input=text, stdout=subprocess.PIPE, stderr=subprocess.DEVNULL, check=False)
    if done.returncode not in (DONE, REFUSED, USAGE):
        raise Trouble('the program ended with status %d' % done.returncode)
    return done.returncode, done.stdout
