"""Parts on their way: given out to the workers of a Dask cluster, a bounded number at once, and given out again where a
worker or the scheduler was lost."""
import time
from collections import Counter
from concurrent.futures import CancelledError
from dataclasses import dataclass, field
from typing import Any, Callable, Dict, Iterator, List, Optional, Tuple

from distributed import Client, as_completed
from distributed.scheduler import KilledWorker

from rtlsyn.cluster_parts import Cutting, Part, digest
from rtlsyn.cluster_program import Trouble
from rtlsyn.cluster_work import Answer, Order, build, hand_on

# A task whose workers die, or whose scheduler goes, is given out again so many times; one whose program had no answer is
# run again so many times.
MOST_TRIES, RETRIES = 6, 2
# Parts that are given out at once, for each thread of a worker: some wait, so that no worker has nothing to do.
AHEAD = 4


class Gone(Exception):
    """The scheduler cannot be reached any more."""


@dataclass
class Figures:
    """What was done: modules, how many of them differ, how many of these were found and built, netlists that could not be
    kept, parts and how many were given out again, bytes out and back, seconds, and why the whole was run."""
    modules: int = 0
    distinct: int = 0
    kept: int = 0
    built: int = 0
    unkept: int = 0
    parts: int = 0
    again: int = 0
    bytes_out: int = 0
    bytes_back: int = 0
    seconds: Dict[str, float] = field(default_factory=dict)
    whole: str = ''


@dataclass
class Link:
    """The way to the workers: the client, how long a lost scheduler is waited for, and how often it was lost."""
    client: Client
    patience: float
    figures: Figures
    losses: int = 0

    def threads(self) -> int:
        """The threads of all workers now."""
        try:
            return sum(self.client.nthreads().values()) or 1
        except OSError:
            return 1

    def wait(self) -> None:
        """Waits until the scheduler can be reached again. Raises Gone where it stays away."""
        until = time.monotonic() + self.patience
        self.losses += 1
        while self.client.status != 'running':
            if self.client.status in ('closing', 'closed') or time.monotonic() > until:
                raise Gone('the scheduler is gone')
            time.sleep(0.1)

    def submit(self, task: Callable[..., Any], *given: Any, key: str, **named: Any) -> Any:
        """A task under a name of its own for each loss of the scheduler."""
        return self.client.submit(task, *given, key='%s-%d' % (key, self.losses), retries=RETRIES, **named)

    def result(self, task: Callable[..., Any], *given: Any, key: str) -> Any:
        """What one task gives."""
        for _ in range(MOST_TRIES):
            try:
                return self.submit(task, *given, key=key).result()
            except (CancelledError, KilledWorker):
                self.figures.again += 1
                self.wait()
        raise Trouble('the workers died %d times over one text' % MOST_TRIES)


@dataclass
class Orders:
    """Makes the order of a part. A piece that several parts have is sent once, as a task of its own."""
    link: Link
    cutting: Cutting
    keys: List[str]
    script: Optional[str]
    program: str
    folder: Optional[str]
    shared: Dict[int, Any] = field(default_factory=dict)
    counts: Dict[int, int] = field(default_factory=Counter)
    sent_at: int = 0

    def submit(self, part: Part) -> Any:
        """The part as a task of the cluster."""
        pieces = self.cutting.pieces(part)
        apart = [place for place, at in enumerate(part.all) if self.cutting.is_deep and self.counts[at] > 1]
        shared = [self._share(part.all[place], pieces[place]) for place in apart]
        for place in apart:
            pieces[place] = b''
        order = self._order(part, pieces)
        self.link.figures.bytes_out += sum(map(len, pieces))
        name = 'rtlsyn-part-' + digest(*(key.encode() for key in order.keys), (order.folder or '').encode()).hex()
        return self.link.submit(build, order, *shared, key=name, places=apart)

    def _order(self, part: Part, pieces: List[bytes]) -> Order:
        place = {at: number for number, at in enumerate(part.all)}
        modules = self.cutting.design.modules
        return Order(tuple(pieces), tuple(place[at] for at in part.own), tuple(modules[at].name for at in part.own),
                     tuple(self.keys[at] for at in part.own), self.script, self.program, self.folder)

    def _share(self, at: int, piece: bytes) -> Any:
        """A piece that was sent already, or is sent now."""
        if self.sent_at != self.link.losses:
            self.shared, self.sent_at = {}, self.link.losses
        if at not in self.shared:
            self.link.figures.bytes_out += len(piece)
            self.shared[at] = self.link.submit(hand_on, piece, key='rtlsyn-text-' + digest(piece).hex())
        return self.shared[at]


class Flight:
    """Parts that are given out, and how often each was."""

    def __init__(self, link: Link, orders: Orders, parts: Iterator[Part]) -> None:
        self.link = link
        self.orders = orders
        self.parts = parts
        self.out: Dict[str, Tuple[Any, Part, int]] = {}
        self.arriving = as_completed([], loop=link.client.loop)
        self.most = AHEAD * link.threads()

    def answers(self) -> Iterator[Tuple[Part, Answer]]:
        """Each part with its answer, in the order in which they come."""
        try:
            while self._fill():
                task = next(self.arriving)
                _, part, tries = self.out.pop(task.key)
                answer = self._answer(task, part, tries)
                if answer is not None:
                    yield part, answer
        finally:
            # Let go, and not cancelled: another client may wait for a part of the same name.
            for task, _, _ in self.out.values():
                task.release()

    def _fill(self) -> bool:
        """Gives out parts while there is room; whether any is out."""
        while len(self.out) < self.most:
            part = next(self.parts, None)
            if part is None:
                break
            self._send(part, 1)
        return bool(self.out)

    def _send(self, part: Part, tries: int) -> None:
        task = self.orders.submit(part)
        self.out[task.key] = task, part, tries
        self.arriving.add(task)

    def _answer(self, task: Any, part: Part, tries: int) -> Optional[Answer]:
        """What came of a part; nothing where it was lost and is given out again."""
        try:
            answer: Answer = task.result()
            return answer
        except (CancelledError, KilledWorker) as lost:
            if tries == MOST_TRIES:
                raise Trouble('the workers died %d times over one part' % MOST_TRIES) from lost
        self.link.figures.again += 1
        self.link.wait()
        self._send(part, tries + 1)
        return None
