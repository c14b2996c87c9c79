"""The model beside the program: traces of sources and of netlists, and refinement."""
import glob
import json
import os
from typing import Iterator, List, NamedTuple, Sequence, Tuple

from order.modules import sample_of
from order.nets import net_of, stimulus
from order.program import SCRIPTS, TOP, Program
from order.release import Order
from order.rtlil import Design, read_design
from order.run import trace
from order.verilog import rtlil_text


class Text(NamedTuple):
    """A design as a text, with the modules that are run."""
    name: str
    text: str
    modules: Sequence[str]


def example_texts() -> Iterator[Text]:
    """The designs of examples/designs and examples/order."""
    for path in sorted(glob.glob(os.path.join(TOP, 'examples', 'designs', '*.il')) + glob.glob(os.path.join(TOP, 'examples', 'order', '*.il'))):
        with open(path) as file:
            text = file.read()
        yield Text(os.path.basename(path)[:-3], text, list(read_design(text)))


def random_texts(count: int) -> Iterator[Text]:
    """Random designs: modules of storage cells, and as many modules in Verilog, as Yosys writes them."""
    for name, text in map(net_of, range(count)):
        yield Text(name, text, [f'\\{name}'])
    samples = [sample_of(number, 1) for number in range(count)]
    if samples:
        text = rtlil_text('\n'.join(sample.verilog for sample in samples))
        yield Text('modules in Verilog', text, [f'\\{sample.name}' for sample in samples])


class Differs(NamedTuple):
    """A run in which two traces are not as they should be: where, and the two lines."""
    place: str
    wanted: str
    found: str


def first_difference(place: str, wanted: List[str], found: List[str]) -> List[Differs]:
    """The first step in which two traces differ."""
    pairs = enumerate(zip(wanted, found), 1)
    return [Differs(f'{place}, step {at}', a, b) for at, (a, b) in pairs if a != b][:1]


def agreements(program: Program, text: Text, orders: Sequence[Order], steps: int) -> Iterator[List[Differs]]:
    """For each module and order, whether the program's traces of source and netlist are those of the model."""
    program.load(text.text)
    design = read_design(text.text)
    netlist = read_design(program.netlist(SCRIPTS[1]))
    for module in text.modules:
        lines = stimulus(design, module, steps, len(text.text))
        for order in orders:
            for what, body in (('source', design), ('netlist', netlist)):
                place = f'{text.name} {module} {what} {order.value}'
                yield first_difference(place, trace(body, module, lines, order), program.trace(what, module, lines, order))


def loses(source: List[str], netlist: List[str]) -> List[int]:
    """The steps in which the netlist does not have a bit that the source knows."""
    pairs = enumerate(zip(source, netlist))
    return [at for at, (a, b) in pairs if any(p in '01' and p != q for p, q in zip(a, b))]


def refinements(program: Program, text: Text, steps: int) -> Iterator[List[Differs]]:
    """For each script, module and order, whether the netlist has each output bit that the source knows, by the model."""
    program.load(text.text)
    design = read_design(text.text)
    for script in SCRIPTS:
        netlist = read_design(program.netlist(script))
        for module in text.modules:
            yield from refines(f'{text.name} {module} by {script}', design, netlist, module, stimulus(design, module, steps, len(text.text)))


def refines(place: str, design: Design, netlist: Design, module: str, lines: List[str]) -> Iterator[List[Differs]]:
    """Whether one netlist refines its source over a stimulus, in each order."""
    for order in Order:
        source, found = trace(design, module, lines, order), trace(netlist, module, lines, order)
        yield [Differs(f'{place}, {order.value}, step {at + 1}', source[at], found[at]) for at in loses(source, found)[:1]]


def cases(path: str) -> Iterator[List[Differs]]:
    """Cases of a file, an object of JSON in each line, with a design, a module, steps and the trace in the order of today."""
    with open(path) as file:
        for number, line in enumerate(file, 1):
            case = json.loads(line)
            yield first_difference(f'{path}:{number}', case['trace'], trace(read_design(case['design']), case['module'], case['steps']))


def tally(found: Iterator[List[Differs]]) -> Tuple[int, List[Differs]]:
    """How many runs there were, and those that are not as they should be."""
    runs = list(found)
    return len(runs), [difference for run in runs for difference in run]
