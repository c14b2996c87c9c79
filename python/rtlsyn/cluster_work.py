"""What a worker does: it runs the program over one part and gives the netlists of the part's own modules."""
from dataclasses import dataclass
from typing import Dict, Optional, Sequence, Tuple

from rtlsyn.cluster_netlist import netlists, packed
from rtlsyn.cluster_program import DONE, REFUSED, run
from rtlsyn.cluster_store import Folder


@dataclass(frozen=True)
class Order:
    """A part as a worker gets it: the pieces of its text in their order, one a module; of its own modules their places
    among these, their names and their keys."""
    pieces: Tuple[bytes, ...]
    own: Tuple[int, ...]
    names: Tuple[bytes, ...]
    keys: Tuple[str, ...]
    script: Optional[str]
    program: str
    folder: Optional[str]


@dataclass(frozen=True)
class Answer:
    """What came of a part: the netlists of its own modules in their order, how many of them the folder did not take, and
    how many are built now. Or the program's status where it refused the part, and what it wrote."""
    netlists: Tuple[bytes, ...]
    status: int = DONE
    written: bytes = b''
    unkept: int = 0
    built: int = 0


def run_whole(text: bytes, script: Optional[str], program: str) -> Tuple[int, bytes]:
    """One run over a whole text."""
    return run(text, script, program)


def build(order: Order, *shared: bytes, places: Sequence[int] = ()) -> Answer:
    """The netlists of a part. Shared pieces come beside the order, with their places among its pieces."""
    kept = _kept(order)
    if kept is not None:
        return Answer(kept)
    pieces = list(order.pieces)
    for place, piece in zip(places, shared):
        pieces[place] = piece
    status, written = run(b''.join(pieces), order.script, order.program)
    if status != DONE:
        return Answer((), status, written)
    return _answer(order, written, len(pieces))


def _answer(order: Order, written: bytes, count: int) -> Answer:
    """The netlists out of what was written for a part of so many modules. Where it is not of these modules, the part is
    refused, and the whole will be asked."""
    printed = list(netlists(written))
    if len(printed) != count or tuple(printed[at].name for at in order.own) != order.names:
        return Answer((), REFUSED)
    built = tuple(packed(printed[at]) for at in order.own)
    return Answer(built, unkept=_keep(order, built), built=len(built))


def _kept(order: Order) -> Optional[Tuple[bytes, ...]]:
    """All netlists of the part, where they were built and kept since it was ordered."""
    if order.folder is None:
        return None
    found = Folder(order.folder).get(order.keys)
    return tuple(found[key] for key in order.keys) if len(found) == len(set(order.keys)) else None


def _keep(order: Order, built: Tuple[bytes, ...]) -> int:
    """Keeps netlists in the folder; how many it did not take."""
    if order.folder is None:
        return 0
    entries: Dict[str, bytes] = dict(zip(order.keys, built))
    return len(entries) - Folder(order.folder).put(entries)


def hand_on(piece: bytes) -> bytes:
    """A text that several parts share: sent to the scheduler once, and from worker to worker where it is needed."""
    return piece
