"""Where netlists are kept by key: a folder that all machines see, or the memory of the scheduler.

An entry that is torn, changed or missing is never taken: it is done again. Where there is no room, it is not kept.
"""
import hashlib
import os
import tempfile
from pathlib import Path
from typing import Any, Dict, Iterable, Optional

HEADER = b'rtlsyn netlist 1 '
# Bytes of netlists in the memory of a scheduler; past them the oldest go.
MOST_MEMORY = 1 << 30


class Folder:
    """A folder of entries, one a key. Any number of machines may read and write it at once."""

    def __init__(self, path: str) -> None:
        self.path = Path(path)

    def _file(self, key: str) -> Path:
        return self.path / key[:2] / key[2:]

    def read(self, key: str) -> Optional[bytes]:
        """What is kept under a key, if it is whole."""
        try:
            entry = self._file(key).read_bytes()
        except OSError:
            return None
        first, _, kept = entry.partition(b'\n')
        return kept if first == self._first_line(key, kept) else None

    def write(self, key: str, kept: bytes) -> bool:
        """Keeps an entry: written beside its place and moved there, so that no one sees a part of it. False where the
        folder does not take it."""
        file = self._file(key)
        try:
            file.parent.mkdir(parents=True, exist_ok=True)
            handle, beside = tempfile.mkstemp(dir=str(file.parent), prefix='.new-')
        except OSError:
            return False
        try:
            with os.fdopen(handle, 'wb') as out:
                out.write(self._first_line(key, kept) + b'\n' + kept)
            os.chmod(beside, 0o644)
            os.replace(beside, str(file))
            return True
        except OSError:
            _forget(beside)
            return False

    @staticmethod
    def _first_line(key: str, kept: bytes) -> bytes:
        return HEADER + hashlib.sha256(key.encode() + kept).hexdigest().encode()

    def get(self, keys: Iterable[str]) -> Dict[str, bytes]:
        """What is kept of some keys."""
        found = {key: self.read(key) for key in keys}
        return {key: kept for key, kept in found.items() if kept is not None}

    def put(self, entries: Dict[str, bytes]) -> int:
        """How many of some entries are kept now."""
        return sum(self.write(key, kept) for key, kept in entries.items())


def _forget(beside: str) -> None:
    try:
        os.unlink(beside)
    except OSError:
        pass


class SchedulerMemory:
    """Entries in the memory of a Dask scheduler; they last as long as it does."""

    def __init__(self, client: Any) -> None:
        self.client = client

    def get(self, keys: Iterable[str]) -> Dict[str, bytes]:
        """What is kept of some keys; nothing where the scheduler does not answer."""
        try:
            return dict(self.client.run_on_scheduler(memory_get, list(keys)))
        except OSError:
            return {}

    def put(self, entries: Dict[str, bytes]) -> int:
        """How many of some entries are kept now."""
        try:
            self.client.run_on_scheduler(memory_put, entries)
            return len(entries)
        except OSError:
            return 0


class Memory:
    """Entries and how many bytes they have; the oldest go where there are too many."""

    def __init__(self) -> None:
        self.entries: Dict[str, bytes] = {}
        self.bytes = 0

    def put(self, key: str, kept: bytes) -> None:
        """Keeps an entry."""
        self.bytes += len(kept) - len(self.entries.pop(key, b''))
        self.entries[key] = kept
        while self.bytes > MOST_MEMORY:
            self.bytes -= len(self.entries.pop(next(iter(self.entries))))


def _memory(scheduler: Any) -> Memory:
    if not hasattr(scheduler, 'rtlsyn_memory'):
        scheduler.rtlsyn_memory = Memory()
    memory: Memory = scheduler.rtlsyn_memory
    return memory


def memory_get(keys: Iterable[str], dask_scheduler: Any = None) -> Dict[str, bytes]:
    """On the scheduler: what is kept of some keys."""
    entries = _memory(dask_scheduler).entries
    return {key: entries[key] for key in keys if key in entries}


def memory_put(entries: Dict[str, bytes], dask_scheduler: Any = None) -> None:
    """On the scheduler: keeps entries."""
    memory = _memory(dask_scheduler)
    for key, kept in entries.items():
        memory.put(key, kept)
