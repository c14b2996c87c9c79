"""Calls of the program over bytes."""
import os
import socket
import subprocess
import threading
from typing import List, Optional, Tuple

from program import PROGRAM

PATIENCE = 600
Answer = Tuple[bytes, int]


def held(text: bytes) -> int:
    """A file in memory with these bytes, at its begin."""
    file = os.memfd_create('row')
    left = memoryview(text)
    while left:
        left = left[os.write(file, left):]
    os.lseek(file, 0, os.SEEK_SET)
    return file


def whole(file: int) -> bytes:
    """The bytes of a file in memory."""
    with os.fdopen(file, 'rb') as reader:
        reader.seek(0)
        return reader.read()


def send(end: socket.socket, text: bytes, most: int) -> None:
    """Sends messages of so many bytes, of which a read takes one, and ends; or stops where nobody reads any more."""
    with end:
        try:
            for at in range(0, len(text), most):
                end.send(text[at:at + most])
        except OSError:
            pass


def source_of(text: bytes, most: Optional[int]) -> int:
    """A file that gives these bytes, so many at a read at most where that is told."""
    if most is None:
        return held(text)
    ours, theirs = socket.socketpair(socket.AF_UNIX, socket.SOCK_SEQPACKET)
    threading.Thread(target=send, args=(ours, text, most), daemon=True).start()
    return theirs.detach()


def call(words: List[bytes], text: bytes, most: Optional[int] = None) -> Answer:
    """What the program writes, and its exit status."""
    source, sink = source_of(text, most), os.memfd_create('answer')
    try:
        status = subprocess.run([PROGRAM.encode(), *words], stdin=source, stdout=sink, stderr=subprocess.DEVNULL,
                                timeout=PATIENCE, check=False).returncode
    finally:
        os.close(source)
    return whole(sink), status
