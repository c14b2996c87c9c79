"""Rows of processes: tree bits, and bits that the rules update."""
from typing import Callable, Dict, List, NamedTuple, Optional, Sequence, Set, Tuple

from order.bits import NOT, SEEN, X, Bit, Bits, active, edge, merge, or_of, pick
from order.cells import GATES, WORDS, inputs_of, value_of
from order.registers import store_node, values_of
from order.release import Order
from order.rtlil import At, Case, Cell, Process, Rule, SigBit, Switch
from order.scope import Node, Scope, Valuation, reader
from order.storage import Store
from order.trees import Branch, Leaf, Reading, Tree, bits_read, case_by_rules, case_tree, is_constant, leaves_of, tree_bits

Join = Tuple[At, SigBit]


class Trees:
    """The trees of a process in its scope."""

    def __init__(self, scope: Scope, process: Process):
        self.scope = scope
        self.process = process
        self.root = case_by_rules(process.root)
        self.of: Dict[At, Tree] = {bit: case_tree(self.root, bit, Leaf(X)) for bit in tree_bits(self.root)}
        updated = [source for rule in process.rules for _, right in rule.updates for source in right if isinstance(source, At)]
        events = [bit for rule in process.rules for bit in rule.signal]
        self.places = {bit: scope.at(bit) for bit in [*bits_read(list(self.of.values())), *updated, *events] if isinstance(bit, At)}
        self.reads = list(self.places.values())

    def expand(self, reading: Reading, bit: SigBit, end: Callable[[SigBit], Bit]) -> Bit:
        """The value of a leaf: of a tree bit of the process, that of its tree; of any other, what it has at the end."""
        return reading.value(self.of[bit]) if bit in self.of else end(bit)


def joins_of(rule: Rule) -> List[Join]:
    """The updates of a rule bit by bit."""
    return [(place, source) for left, right in rule.updates for place, source in zip(left, right)]


def tree_node(trees: Trees) -> Node:
    """The row of the tree bits."""
    def step(before: Valuation, now: Valuation, first: bool) -> Bits:
        reading = Reading(reader(now, trees.places))
        return [reading.value(tree) for tree in trees.of.values()]
    return Node([trees.scope.raw(bit) for bit in trees.of], trees.reads, step)


def always_node(trees: Trees, join: Join) -> Node:
    """The row of a bit that is always updated: it holds where its value comes to itself."""
    own, source = join
    scope = trees.scope
    out, at = scope.raw(own), scope.at(source)
    if own not in leaves_of(Leaf(source), trees.of):
        return Node([out], [at], lambda before, now, first: [now[at]])

    def step(before: Valuation, now: Valuation, first: bool) -> Bits:
        reading = Reading(reader(now, trees.places), lambda self, bit: trees.expand(self, bit, lambda leaf: int(leaf == own)))
        holds = reading.value(Leaf(source))
        return [X if holds == X else SEEN[before[out] if holds else now[at]]]
    return Node([out], [at, *trees.reads], step, [scope.start(own)])


class Paths:
    """What drives the bits of a module: connections and cells of the library."""

    def __init__(self, scope: Scope):
        self.links = {place: source for left, right in scope.module.links for place, source in zip(left, right)}
        self.cells = {bit: cell for cell in scope.module.cells if cell.kind in GATES or cell.kind in WORDS
                      for bit in cell.pins['\\Y']}

    def followed(self, bit: SigBit) -> SigBit:
        """Where connections lead from a bit."""
        seen: Set[SigBit] = set()
        while bit in self.links and bit not in seen:
            seen.add(bit)
            bit = self.links[bit]
        return bit

    def tests(self, bit: SigBit, target: At) -> Optional[int]:
        """Whether a bit is a test of an event bit: 1 where it is its inverse, 0 where it is the bit, None where it is no test."""
        inverse, count, seen = 0, 0, set()
        while bit != target:
            if bit in seen or not isinstance(bit, At):
                return None
            seen.add(bit)
            if bit in self.links:
                bit = self.links[bit]
                continue
            found = self.through(self.cells[bit]) if bit in self.cells and count < 4 else None
            if found is None:
                return None
            bit, turned = found
            inverse, count = inverse ^ turned, count + 1
        return inverse

    def through(self, cell: Cell) -> Optional[Tuple[SigBit, int]]:
        """The one bit on which a cell of a one-bit result depends, and whether the result is its inverse."""
        pins = [cell.pins[name] for name in inputs_of(cell.kind, cell.pins)]
        open_bits = [bit for pin in pins for bit in pin if isinstance(self.followed(bit), At)]
        if len(open_bits) != 1 or len(cell.pins['\\Y']) != 1:
            return None
        value = value_of(cell.kind, numbers_of(cell))

        def given(level: Bit) -> Bit:
            ends = [[level if isinstance(end, At) else end for end in map(self.followed, pin)] for pin in pins]
            return value(ends)[0]
        low, high = given(0), given(1)
        return (open_bits[0], low) if low < X and high < X and low != high else None


def numbers_of(cell: Cell) -> Dict[str, int]:
    """The parameters of a cell that are numbers."""
    return {name: sum((bit & 1) << at for at, bit in enumerate(bits)) for name, bits in values_of(cell).items()}


def switches_of(case: Case) -> List[Switch]:
    """All switches of a case, with those inside them."""
    return [it for switch in case.switches for it in [switch, *(deep for inner in switch.cases for deep in switches_of(inner))]]


class Race(NamedTuple):
    """A process with two edges: its clock and its reset with the levels after their edges, and the tests of the reset."""
    clock: At
    clock_level: int
    reset: At
    reset_level: int
    paths: Paths

    def test(self, value: Bit) -> Callable[[Branch], Optional[Bit]]:
        """What a choice by a test of the reset reads where the reset has this value."""
        def tested(tree: Branch) -> Optional[Bit]:
            inverse = self.paths.tests(tree.signal[0], self.reset) if len(tree.signal) == 1 and tree.plain else None
            return None if inverse is None else NOT[value] if inverse else SEEN[value]
        return tested


def race_of(trees: Trees, rules: Sequence[Rule]) -> Race:
    """Which of two edges is the reset: the one that a switch tests."""
    paths = Paths(trees.scope)
    sides = [(rule.signal[0], int(rule.event == 'posedge')) for rule in rules]

    def is_tested(bit: At) -> bool:
        return any(len(switch.signal) == 1 and paths.tests(switch.signal[0], bit) is not None
                   and all(is_constant(pattern) for case in switch.cases for pattern in case.patterns)
                   for switch in switches_of(trees.root))
    clock, reset = sides if is_tested(sides[1][0]) else reversed(sides)
    return Race(*clock, *reset, paths)


def common_of(bits: Bits) -> Bit:
    """What all of these bits have in common."""
    found = SEEN[bits[0]] if bits else X
    for bit in bits[1:]:
        found = merge(found, bit)
    return found


def raced_node(order: Order, trees: Trees, race: Race, join: Join) -> Node:
    """The row of a bit of a process with two edges."""
    own, source = join
    scope = trees.scope
    out, clock, reset = scope.raw(own), scope.at(race.clock), scope.at(race.reset)

    def step(before: Valuation, now: Valuation, first: bool) -> Bits:
        read = reader(before, trees.places)
        old = before[out]
        was = X if first else before[reset]
        risen = edge(active(race.clock_level, X if first else before[clock]), active(race.clock_level, now[clock]))

        def value(level: Bit, kept: Bit) -> Bit:
            def end(bit: SigBit) -> Bit:
                return kept if bit == own else read(bit)
            reading = Reading(read, lambda self, bit: trees.expand(self, bit, end), race.test(level))
            return reading.value(Leaf(source))
        if order is Order.RELEASED:
            taken = pick(risen, value(was, old), old) if risen else SEEN[old]
            under = active(race.reset_level, now[reset])
            return [pick(under, value(race.reset_level, taken), taken) if under else SEEN[taken]]
        falls = edge(active(race.reset_level, was), active(race.reset_level, now[reset]))
        counting = [value(was, old), value(now[reset], old)] if risen != 0 else []
        counting += [value(race.reset_level, old)] if falls != 0 else []
        counting += [old] if or_of(risen, falls) != 1 else []
        return [common_of(counting)]
    return Node([out], [clock, reset], step, [scope.start(own)])


def one_rule_nodes(order: Order, trees: Trees, rule: Rule) -> List[Node]:
    """The rows of a process with one rule."""
    joins = joins_of(rule)
    if rule.event == 'always':
        return [always_node(trees, join) for join in joins]
    if rule.event == 'global':
        return stored(order, trees.scope, Store('ff'), joins, {})
    if rule.event in ('low', 'high'):
        return stored(order, trees.scope, Store('dlatch', {'en': int(rule.event == 'high')}), joins, {'en': rule.signal})
    return stored(order, trees.scope, Store('dff', {'clk': int(rule.event == 'posedge')}), joins, {'clk': rule.signal})


def stored(order: Order, scope: Scope, store: Store, joins: List[Join], pins: Dict[str, List[SigBit]]) -> List[Node]:
    """The row of the bits that a storage cell keeps for a rule."""
    if not joins:
        return []
    return [store_node(order, scope, store, {**pins, 'd': [source for _, source in joins]}, [place for place, _ in joins])]


def loaded_nodes(order: Order, scope: Scope, edged: Rule, level: Rule) -> List[Node]:
    """The rows of an edge rule and a level rule: a bit of both is loaded."""
    edges, loads = joins_of(edged), dict(joins_of(level))
    both = [join for join in edges if join[0] in loads]
    levels = {'clk': int(edged.event == 'posedge'), 'aload': int(level.event == 'high'), 'en': int(level.event == 'high')}
    pins = {'clk': edged.signal, 'aload': level.signal, 'ad': [loads[place] for place, _ in both]}
    return [*stored(order, scope, Store('aldff', levels), both, pins),
            *stored(order, scope, Store('dff', levels), [join for join in edges if join[0] not in loads], {'clk': edged.signal}),
            *stored(order, scope, Store('dlatch', levels),
                    [join for join in loads.items() if join[0] not in dict(edges)], {'en': level.signal})]


def process_nodes(order: Order, scope: Scope, process: Process) -> List[Node]:
    """The rows of a process."""
    trees = Trees(scope, process)
    nodes = [tree_node(trees)] if trees.of else []
    rules = [rule for rule in process.rules if rule.event != 'init' and rule.updates]
    if len(rules) == 1:
        return nodes + one_rule_nodes(order, trees, rules[0])
    if len(rules) == 2:
        level = next((at for at, rule in enumerate(rules) if rule.event in ('low', 'high')), None)
        if level is not None:
            return nodes + loaded_nodes(order, scope, rules[1 - level], rules[level])
        race = race_of(trees, rules)
        return nodes + [raced_node(order, trees, race, join) for join in joins_of(rules[0])]
    return nodes
