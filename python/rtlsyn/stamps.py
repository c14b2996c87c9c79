"""Waiting until files change: told by the system through `watchdog` where that package is there, else by looking."""
from __future__ import annotations

import os
import threading
import time
from contextlib import contextmanager
from typing import Callable, Iterable, Iterator, Mapping, Optional

# Seconds between two looks at the files: where nobody tells of a change, and where somebody does.
INTERVAL = 0.2
HEARTBEAT = 5.0

Stamp = Optional[tuple[int, int, int]]


def stamp_of(path: str) -> Stamp:
    """What changes when the file changes; None where there is no file."""
    try:
        stat = os.stat(path)
    except OSError:
        return None
    return stat.st_mtime_ns, stat.st_size, stat.st_ino


def stamps_of(paths: Iterable[str]) -> dict[str, Stamp]:
    """The stamp of each path."""
    return {path: stamp_of(path) for path in paths}


def wait_for_change(seen: Mapping[str, Stamp]) -> None:
    """Waits until a file has another stamp than in `seen`, and then until no file changes any more."""
    with alarm(seen) as wait:
        while stamps_of(seen) == seen:
            wait()
    before, now = None, stamps_of(seen)
    while now != before:
        time.sleep(INTERVAL)
        before, now = now, stamps_of(seen)


@contextmanager
def alarm(paths: Iterable[str]) -> Iterator[Callable[[], object]]:
    """A call that returns when something may have changed beside the paths."""
    observer, changed = observer_of(paths)
    try:
        if observer is None:
            yield lambda: time.sleep(INTERVAL)
        else:
            yield lambda: changed.wait(HEARTBEAT) and changed.clear()
    finally:
        if observer is not None:
            observer.stop()


def observer_of(paths: Iterable[str]):
    """What watches the folders of the paths, and the event that it sets; None where that cannot be had."""
    changed = threading.Event()
    try:
        from watchdog.events import FileSystemEventHandler
        from watchdog.observers import Observer
    except ImportError:
        return None, changed

    class Handler(FileSystemEventHandler):
        """Sets the event, whatever happened."""

        def on_any_event(self, event: object) -> None:
            changed.set()

    observer = Observer()
    try:
        for folder in {os.path.dirname(path) or '.' for path in paths}:
            observer.schedule(Handler(), folder)
        observer.start()
    except OSError:
        # A folder is gone, or the system has no more watches.
        return None, changed
    return observer, changed
