"""A design synthesised by the workers of a Dask cluster: the modules that are not kept are built, wherever there is room,
and the netlist is put together in the order of the design. Its bytes are those of one run of the program."""
import time
from collections import Counter
from dataclasses import dataclass
from typing import Any, Callable, Dict, List, Optional, Union

from distributed import Client

from rtlsyn.cluster_cut import Design, NotCut, cut
from rtlsyn.cluster_flight import Figures, Flight, Link, Orders
from rtlsyn.cluster_netlist import unpacked
from rtlsyn.cluster_parts import Cutting, Part, digest, part_size
from rtlsyn.cluster_program import DONE, Trouble, identity
from rtlsyn.cluster_store import Folder, SchedulerMemory
from rtlsyn.cluster_work import Answer, run_whole

Store = Union[Folder, SchedulerMemory]


@dataclass
class Reply:
    """The exit status that one run has, what it writes, and what was done for it."""
    status: int
    written: bytes
    figures: Figures


class Refused(Exception):
    """A part was refused: the whole is asked."""


class Synthesis:
    """One design on its way through a cluster."""

    def __init__(self, client: Client, script: Optional[str] = None, store: Optional[Store] = None,
                 part_bytes: Optional[int] = None, patience: float = 30.0,
                 show: Callable[[Figures], None] = lambda figures: None) -> None:
        self.script = script
        self.store = store if store is not None else SchedulerMemory(client)
        self.part_bytes = part_bytes
        self.show = show
        self.figures = Figures()
        self.link = Link(client, patience, self.figures)
        self.program = ''

    def run(self, text: bytes) -> Reply:
        """The reply of one run over the text. Raises Trouble or Gone where there is none."""
        self.program = self._program()
        try:
            design = self._timed('cut', lambda: cut(text))
            return Reply(DONE, self._netlist(design), self.figures)
        except (NotCut, Refused) as why:
            self.figures.whole = str(why)
            return self._timed('whole', lambda: self._whole(text))

    def _timed(self, name: str, step: Callable[[], Any]) -> Any:
        begun = time.monotonic()
        try:
            return step()
        finally:
            self.figures.seconds[name] = self.figures.seconds.get(name, 0.0) + time.monotonic() - begun

    def _program(self) -> str:
        """The program that all workers have."""
        self.link.client.wait_for_workers(1, timeout=self.link.patience)
        found = set(self.link.client.run(identity, on_error='ignore').values())
        if len(found) != 1:
            raise Trouble('the workers have %d different programs' % len(found) if found else 'no worker has the program')
        return str(found.pop())

    def _netlist(self, design: Design) -> bytes:
        """The netlist of a design. Raises Refused where a part is."""
        cutting = Cutting(design, self.script, self.program)
        keys = self._timed('keys', lambda: [cutting.key(at) for at in range(len(design.modules))])
        bodies: Dict[str, bytes] = self._timed('look', lambda: self.store.get(set(keys)))
        self.figures.modules, self.figures.distinct = len(keys), len(set(keys))
        self.figures.kept = sum(key in bodies for key in set(keys))
        self.show(self.figures)
        first = {key: at for at, key in reversed(list(enumerate(keys)))}
        wanted = sorted(at for key, at in first.items() if key not in bodies)
        self._timed('build', lambda: self._build(cutting, wanted, keys, bodies))
        return self._timed('join', lambda: b''.join(
            unpacked(bodies[key], module.name) for key, module in zip(keys, design.modules)))

    def _build(self, cutting: Cutting, wanted: List[int], keys: List[str], bodies: Dict[str, bytes]) -> None:
        """Builds the wanted modules into the bodies, part by part."""
        size = self.part_bytes or part_size(cutting.bytes_of(wanted), self.link.threads())
        parts = list(cutting.parts(wanted, size))
        self.figures.parts = len(parts)
        folder = str(self.store.path) if isinstance(self.store, Folder) else None
        orders = Orders(self.link, cutting, keys, self.script, self.program, folder,
                        counts=Counter(at for part in parts for at in part.all))
        for part, answer in Flight(self.link, orders, iter(parts)).answers():
            if answer.status != DONE:
                raise Refused('a part is refused')
            self._take([keys[at] for at in part.own], answer, bodies)

    def _take(self, keys: List[str], answer: Answer, bodies: Dict[str, bytes]) -> None:
        """The netlists of a part that has come back."""
        entries = dict(zip(keys, answer.netlists))
        bodies.update(entries)
        if isinstance(self.store, SchedulerMemory):
            self.figures.unkept += len(entries) - self.store.put(entries)
        self.figures.built += answer.built
        self.figures.kept += len(entries) - answer.built
        self.figures.unkept += answer.unkept
        self.figures.bytes_back += sum(map(len, answer.netlists))
        self.show(self.figures)

    def _whole(self, text: bytes) -> Reply:
        """One run over the whole text, on a worker."""
        name = 'rtlsyn-whole-' + digest(self.program.encode(), (self.script or '').encode(), text).hex()
        self.figures.bytes_out += len(text)
        status, written = self.link.result(run_whole, text, self.script, self.program, key=name)
        self.figures.bytes_back += len(written)
        return Reply(status, written, self.figures)
