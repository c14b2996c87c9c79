"""Decision trees of processes: the rules by which switches are read, the tree of each bit, and its value."""
from itertools import product
from typing import Callable, Dict, List, NamedTuple, Optional, Sequence, Tuple, Union

from order.bits import NOT, SEEN, X, Bit, and_of, merge, or_of, xor_of
from order.rtlil import At, Case, SigBit, Signal, Switch


def is_constant(pattern: Signal) -> bool:
    """Whether each place is a constant."""
    return not any(isinstance(bit, At) for bit in pattern)


def differs(pattern: Signal, signal: Signal) -> bool:
    """Whether a known constant faces a different known constant."""
    return any(not isinstance(p, At) and not isinstance(s, At) and p < X and s < X and p != s for p, s in zip(pattern, signal))


def covers(earlier: Signal, pattern: Signal) -> bool:
    """Whether the earlier pattern has, at each of its known bits, the same known bit here."""
    return all(e >= X or e == p for e, p in zip(earlier, pattern))


def matches_always(pattern: Signal, signal: Signal) -> bool:
    """Whether each place is an unknown constant or a known one that faces an equal one."""
    return all(not isinstance(p, At) and (p >= X or (not isinstance(s, At) and p == s)) for p, s in zip(pattern, signal))


def matches_every(patterns: List[Signal], width: int) -> bool:
    """Whether constant patterns together match each value of a signal of few bits."""
    if width > 8 or not patterns:
        return False
    values = product((0, 1), repeat=width)
    return all(any(all(p >= X or p == v for p, v in zip(pattern, value)) for pattern in patterns) for value in values)


def by_rules(switch: Switch) -> Switch:
    """A switch as it is read: without dropped patterns and cases, with a default where a case is one."""
    cases: List[Case] = []
    seen: List[Signal] = []
    for case in switch.cases:
        kept = []
        for pattern in case.patterns:
            constant = is_constant(pattern)
            if differs(pattern, switch.signal) or (constant and any(covers(it, pattern) for it in seen)):
                continue
            kept.append(pattern)
            seen += [pattern] if constant else []
        if case.patterns and not kept:
            continue
        default = any(matches_always(it, switch.signal) for it in kept) or matches_every(seen, len(switch.signal))
        cases.append(case_by_rules(Case([] if default else kept, case.assigns, case.switches)))
        if not cases[-1].patterns:
            break
    return Switch(switch.signal, cases)


def case_by_rules(case: Case) -> Case:
    """A case with its switches as they are read."""
    return Case(case.patterns, case.assigns, [by_rules(switch) for switch in case.switches])


def tree_bits(case: Case) -> List[At]:
    """The bits that assigns name, each once."""
    found = {bit: None for left, _ in case.assigns for bit in left}
    for switch in case.switches:
        for inner in switch.cases:
            found.update(dict.fromkeys(tree_bits(inner)))
    return list(found)


class Branch(NamedTuple):
    """A choice by a signal and patterns: one tree where a pattern matches, another where none does. It is plain where all
    patterns of its switch are constants. The choice is the same for each bit that its case assigns: `case` is its number."""
    signal: Tuple[SigBit, ...]
    patterns: Tuple[Tuple[SigBit, ...], ...]
    met: 'Tree'
    other: 'Tree'
    plain: bool
    case: int


class Leaf(NamedTuple):
    """A bit or a constant."""
    bit: SigBit


Tree = Union[Leaf, Branch]


def case_tree(case: Case, bit: At, earlier: Tree) -> Tree:
    """What a case makes of an earlier value of a bit: its last assign, and then each switch."""
    for left, right in case.assigns:
        for place, source in zip(left, right):
            earlier = Leaf(source) if place == bit else earlier
    for switch in case.switches:
        earlier = switch_tree(switch, bit, earlier)
    return earlier


def switch_tree(switch: Switch, bit: At, earlier: Tree) -> Tree:
    """What a switch makes of an earlier value of a bit."""
    tree = earlier
    plain = all(is_constant(pattern) for case in switch.cases for pattern in case.patterns)
    for case in reversed(switch.cases):
        body = case_tree(case, bit, earlier)
        patterns = tuple(map(tuple, case.patterns))
        tree = Branch(tuple(switch.signal), patterns, body, tree, plain, id(case)) if patterns else body
    return tree


Read = Callable[[SigBit], Bit]
Test = Callable[[Branch], Optional[Bit]]


class Reading:
    """The value of trees under one reading of bits. A leaf may have a value of its own, and a test of a reset may be told."""

    def __init__(self, read: Read, leaf: Optional[Callable[['Reading', SigBit], Bit]] = None, test: Optional[Test] = None):
        self.read = read
        self.leaf = leaf
        self.test = test
        self.known: Dict[int, Bit] = {}
        self.matches: Dict[int, Bit] = {}

    def value(self, tree: Tree) -> Bit:
        """The value of a tree; one that stands in several places is read once."""
        if isinstance(tree, Leaf):
            return self.leaf(self, tree.bit) if self.leaf else self.read(tree.bit)
        if id(tree) not in self.known:
            self.known[id(tree)] = self.chosen(tree)
        return self.known[id(tree)]

    def chosen(self, tree: Branch) -> Bit:
        """One arm where the choice is known, else what both have in common."""
        met = self.matches.get(tree.case)
        if met is None:
            met = self.matches[tree.case] = self.match(tree)
        if met == X:
            return merge(self.value(tree.met), self.value(tree.other))
        return self.value(tree.met if met else tree.other)

    def match(self, tree: Branch) -> Bit:
        """Whether a pattern matches: 1, 0, or open."""
        tested = self.test(tree) if self.test else None
        signal = [self.read(bit) for bit in tree.signal] if tested is None else [tested]
        found = 0
        for pattern in tree.patterns:
            found = or_of(found, self.match_one(signal, pattern))
        return found

    def match_one(self, signal: Sequence[Bit], pattern: Sequence[SigBit]) -> Bit:
        """0 where a known bit differs, 1 where all are known and equal; an unknown constant matches anything."""
        found = 1
        for s, p in zip(signal, pattern):
            if isinstance(p, At):
                found = and_of(found, NOT[xor_of(SEEN[s], SEEN[self.read(p)])])
            elif p < X:
                found = and_of(found, NOT[xor_of(SEEN[s], p)])
        return found


def leaves_of(tree: Tree, through: Dict[At, Tree], decide: Optional[Callable[[Branch], Optional[bool]]] = None) -> List[SigBit]:
    """All leaves that a tree may come to through these trees of bits, where some choices may be decided."""
    found: Dict[SigBit, None] = {}
    seen = set()
    stack = [tree]
    while stack:
        top = stack.pop()
        if id(top) in seen:
            continue
        seen.add(id(top))
        if isinstance(top, Branch):
            met = decide(top) if decide else None
            stack += [top.met] * (met is not False) + [top.other] * (met is not True)
        elif top.bit in through:
            stack.append(through[top.bit])
        else:
            found[top.bit] = None
    return list(found)


def bits_read(trees: Sequence[Tree]) -> List[At]:
    """The bits that trees read: leaves, signals and patterns."""
    found: Dict[At, None] = {}
    seen = set()
    stack = list(trees)
    while stack:
        top = stack.pop()
        if id(top) in seen:
            continue
        seen.add(id(top))
        places = [top.bit] if isinstance(top, Leaf) else [*top.signal, *(bit for pattern in top.patterns for bit in pattern)]
        found.update((bit, None) for bit in places if isinstance(bit, At))
        stack += [] if isinstance(top, Leaf) else [top.met, top.other]
    return list(found)
