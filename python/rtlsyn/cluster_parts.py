"""Parts of a design: texts that the program takes alone, and the keys under which the netlists of their modules are kept.

A part has modules of its own and what these need besides: of each module that they instantiate its ports alone, or, where
the script has a word that replaces instances, every module that they reach, whole. The netlist of a module is the same in
each part that has it, and in the whole design.
"""
import hashlib
from dataclasses import dataclass
from typing import Dict, Iterable, Iterator, List, Optional, Sequence, Set, Tuple

from rtlsyn.cluster_cut import MOST_MODULES, Design

# Words of a script that read the bodies of what a module instantiates.
DEEP_WORDS = ('flatten', 'flatten_keep')
# Parts have at least so many bytes where the design is cut for its workers, and at most so many.
LEAST_PART, MOST_PART = 8_192, 1_048_576
PARTS_A_WORKER = 8


@dataclass(frozen=True)
class Part:
    """The modules of a part in the order of the design: its own, and all that its text has."""
    own: Tuple[int, ...]
    all: Tuple[int, ...]


def is_deep(script: Optional[str]) -> bool:
    """Whether the script reads bodies below a module."""
    words = (script or '').replace(';', ' ').split()
    return any(word in DEEP_WORDS for word in words)


def digest(*pieces: bytes) -> bytes:
    """The sha256 of some pieces, each with its length before it."""
    total = hashlib.sha256()
    for piece in pieces:
        total.update(b'%d ' % len(piece))
        total.update(piece)
    return total.digest()


class Cutting:
    """How a design is cut for a script: what belongs to a module, its key, and the text of a part."""

    def __init__(self, design: Design, script: Optional[str], program: str) -> None:
        self.design = design
        self.is_deep = is_deep(script)
        given = b'default' if script is None else b'given ' + script.encode('utf-8', 'surrogateescape')
        self.head = digest(b'rtlsyn module 1', program.encode(), given)
        self._shown: Dict[int, bytes] = {}

    def needs(self, at: int) -> Iterable[int]:
        """The modules that a module needs beside it."""
        return self.design.reached(at) if self.is_deep else self.design.below[at]

    def shown(self, at: int) -> bytes:
        """What a module shows of itself to those that need it."""
        return self.design.block(at) if self.is_deep else self.design.face(at)

    def _digest_shown(self, at: int) -> bytes:
        if at not in self._shown:
            self._shown[at] = digest(self.shown(at))
        return self._shown[at]

    def key(self, at: int) -> str:
        """The key of a module: its text without its name, what it needs, the script and the program."""
        below = sorted((self.design.modules[child].name, self._digest_shown(child)) for child in self.needs(at))
        pieces = [piece for pair in below for piece in pair]
        return digest(self.head, self.design.nameless(at), *pieces).hex()

    def pieces(self, part: Part) -> List[bytes]:
        """The text of a part, a piece for each module."""
        own = set(part.own)
        return [self.design.block(at) if at in own else self.shown(at) for at in part.all]

    def bytes_of(self, wanted: Iterable[int]) -> int:
        """The bytes of some modules."""
        return sum(map(self._size, wanted))

    def parts(self, wanted: Sequence[int], size: int) -> Iterator[Part]:
        """The wanted modules in parts of some size, each in one part."""
        groups = self._families(wanted) if self.is_deep else self._beside(wanted)
        return self._packed(groups, size)

    def _beside(self, wanted: Sequence[int]) -> Iterator[List[int]]:
        """One module after another, those together that instantiate the same."""
        for at in sorted(wanted, key=lambda at: (self.design.below[at], at)):
            yield [at]

    def _families(self, wanted: Sequence[int]) -> Iterator[List[int]]:
        """Each wanted module that no other reaches, with the wanted ones that it reaches and no family before has: the
        program builds all that a part has, so they come for nothing."""
        left = set(wanted)
        covered: Set[int] = set()
        for at in self._tops_first(wanted):
            if at not in covered:
                family = {at, *self.design.reached(at)}
                covered |= family
                yield sorted(family & left)
                left -= family

    def _tops_first(self, wanted: Sequence[int]) -> List[int]:
        """The wanted modules, each after the wanted ones that reach it."""
        ordered: List[int] = []
        seen: Set[int] = set()
        for at in wanted:
            stack = [(at, False)]
            while stack:
                here, is_done = stack.pop()
                if is_done:
                    ordered.append(here)
                elif here not in seen:
                    seen.add(here)
                    stack.append((here, True))
                    stack.extend((child, False) for child in self.design.below[here])
        chosen = set(wanted)
        return [at for at in reversed(ordered) if at in chosen]

    def _packed(self, groups: Iterable[List[int]], size: int) -> Iterator[Part]:
        """Groups one after another in a part, up to the size and to what one run takes."""
        own: List[int] = []
        rest: Set[int] = set()
        used = 0
        for group in groups:
            needed = {child for at in group for child in self.needs(at)}
            adds = sum(map(self._size, group)) + sum(self._shown_size(child) for child in needed - rest)
            if own and (used + adds > size or len(rest) + len(needed) + len(own) + len(group) > MOST_MODULES):
                yield self._part(own, rest)
                own, rest, used = [], set(), 0
                adds = sum(map(self._size, group)) + sum(map(self._shown_size, needed))
            own, rest, used = own + group, rest | needed, used + adds
        if own:
            yield self._part(own, rest)

    def _part(self, own: List[int], rest: Set[int]) -> Part:
        return Part(tuple(sorted(own)), tuple(sorted(rest.union(own))))

    def _size(self, at: int) -> int:
        module = self.design.modules[at]
        return module.end - module.start

    def _shown_size(self, at: int) -> int:
        module = self.design.modules[at]
        if self.is_deep:
            return module.end - module.start
        return sum(after - first for first, after in module.ports) + len(module.name) + 16


def part_size(total: int, workers: int) -> int:
    """Bytes of a part, so that each worker gets some: parts end at different times."""
    return min(MOST_PART, max(LEAST_PART, total // (PARTS_A_WORKER * max(1, workers))))
