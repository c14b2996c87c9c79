"""Designs looked at from outside, and what is counted in them."""
from __future__ import annotations

import pytest
from conftest import example, text

from rtlsyn.depth import longest
from rtlsyn.liberty import cells_of
from rtlsyn.kinds import kind_of
from rtlsyn.netlist import Body, Wire, bits_of_constant, design_of, number_of, parents_first, shown, top_of, uses_of
from rtlsyn.statistics import statistics

CHAIN = """module \\part
  wire input 1 \\a
  wire output 2 \\y
  cell $_NOT_ $1
    connect \\A \\a
    connect \\Y \\y
  end
end
attribute \\top 1
module \\whole
  wire input 1 \\c
  wire output 2 \\q
  wire \\d
  wire \\e
  cell \\part \\one
    connect \\a \\q
    connect \\y \\d
  end
  cell \\part \\two
    connect \\a \\d
    connect \\y \\e
  end
  cell $_DFF_P_ $2
    connect \\C \\c
    connect \\D \\e
    connect \\Q \\q
  end
end
"""
LOOP = """module \\m
  wire output 1 \\y
  wire \\z
  cell $_NOT_ $1
    connect \\A \\z
    connect \\Y \\y
  end
  cell $_NOT_ $2
    connect \\A \\y
    connect \\Y \\z
  end
end
"""


def body() -> Body:
    """A module with the wires a and b."""
    return Body('\\m', wires={'\\a': Wire('\\a', 4), '\\b': Wire('\\b')})


@pytest.mark.parametrize('signal, bits', [
    ('\\b', [('\\b', 0)]),
    ('\\a [2:1]', [('\\a', 1), ('\\a', 2)]),
    ('{ \\b \\a [3] 2\'01 }', ['1', '0', ('\\a', 3), ('\\b', 0)]),
    ('{ \\a [1:0] { \\b 1\'x } } [1]', [('\\b', 0)]),
])
def test_bits_of_signals(signal, bits):
    assert body().bits(signal) == bits


@pytest.mark.parametrize('text_of, bits', [
    ("4'1", '1000'), ("3'", 'xxx'), ("2'0110", '01'), ('"A"', '10000010'), ('5', '101' + '0' * 29), ("4'sz", 'zzzz'),
])
def test_bits_of_constants(text_of, bits):
    assert bits_of_constant(text_of) == bits


def test_numbers_of_constants():
    assert (number_of("4'1010"), number_of('-1'), number_of("2'0x")) == (10, 2 ** 32 - 1, None)


@pytest.mark.parametrize('name, parameters, said', [
    ("$paramod\\fifo\\DEPTH=s32'00000000000000000000000000010000", {}, '\\fifo #(DEPTH=16)'),
    ("$paramod\\f\\A=s4'1111\\B=1'0", {}, '\\f #(A=-1, B=0)'),
    (f'$paramod${"0" * 40}\\fifo', {'\\DEPTH': '8'}, '\\fifo #(DEPTH=8)'),
    ('\\fifo', {'\\DEPTH': '8'}, '\\fifo'),
])
def test_names_with_parameters(name, parameters, said):
    assert shown(name, Body(name, parameters=parameters)) == said


def test_hierarchy():
    design = design_of(CHAIN)
    assert top_of(design) == '\\whole' and parents_first(design) == ['\\whole', '\\part']
    assert uses_of(design, ['\\whole']) == {'\\part': 2, '\\whole': 1}


def test_depth_ends_at_registers_and_goes_through_instances():
    design = design_of(CHAIN)
    alone, below = (longest(design, '\\whole', {}, is_whole) for is_whole in (False, True))
    assert (alone.depth, below.depth) == (0, 2)
    assert (below.start, below.end) == ('q', 'q')
    assert [stage.bit for stage in below.stages] == ['one.y', 'two.y']


def test_a_loop_is_cut_and_told():
    path = longest(design_of(LOOP), '\\m', {}, True)
    assert (path.depth, path.loops) == (2, 0) or path.loops == 1 and path.depth in (1, 2)


def test_figures_of_the_hierarchy():
    found = statistics(CHAIN)
    assert found.tops == ['\\whole']
    assert dict(found.hierarchy.cells) == {'$_NOT_': 2, '$_DFF_P_': 1}
    assert (found.hierarchy.flip_flops, found.hierarchy.instances, found.hierarchy.path.depth) == (1, 2, 2)


def test_bits_of_word_registers_and_memories():
    found = statistics(text('designs', 'soc.il'))
    assert found.hierarchy.memory_bits == 512
    assert statistics(text('designs', 'soc.out')).hierarchy.latches == 8


@pytest.mark.parametrize('name, kind', [
    ('$_DFF_PN0_', 'flip-flop'), ('$_SDFFCE_PP0N_', 'flip-flop'), ('$_ALDFFE_PPP_', 'flip-flop'),
    ('$dffsre', 'flip-flop'), ('$_FF_', 'flip-flop'), ('$_DLATCHSR_PPN_', 'latch'), ('$sr', 'latch'),
    ('$memwr_v2', 'write'), ('$_MUX_', 'logic'), ('$memrd', 'logic'), ('\\DFF', 'flip-flop'), ('\\NAND', 'logic'),
])
def test_kinds_of_cells(name, kind):
    assert kind_of(name, cells_of(example('cells.lib'))).name == kind


def test_areas_of_a_library():
    library = cells_of(example('cells.lib'))
    assert (library['NAND'].area, library['DFF'].area, library['DFF'].keeps) == (4, 18, True)
    found = statistics('module \\m\n  cell \\NAND $1\n  end\n  cell \\NOR $2\n  end\n  cell \\X $3\n  end\nend\n',
                       example('cells.lib'))
    assert found.hierarchy.area == 8 and found.unknown == ['\\X']
