"""Stimuli, waveforms and simulations."""
from __future__ import annotations

import pytest
from conftest import example, text

from rtlsyn import vcd, waves
from rtlsyn.cli import run
from rtlsyn.errors import Failed
from rtlsyn.netlist import Port
from rtlsyn.simulation import Simulation, vcd_of
from rtlsyn.stimuli import at_random, from_file
from rtlsyn.traces import Row

CLOCK, RESET, WORD = (Port('\\clk', 1, 'input', 1), Port('\\rst_n', 1, 'input', 2), Port('\\d', 8, 'input', 3))
OUT = Port('\\q', 2, 'output', 4)
SYSTEM = [example('system', 'system.il'), example('system', 'steps')]


def small() -> Simulation:
    """Two steps, in the second of which only the netlist knows a bit."""
    return Simulation('\\m', [CLOCK], [OUT], [Row('0', '0x', '0x'), Row('1', 'x1', '01')])


def test_random_steps_keep_to_clock_and_reset():
    steps = [step.split(' ') for step in at_random([CLOCK, RESET, WORD], 8, 7, 'clk', 'rst_n').steps]
    assert [step[0] for step in steps] == list('01010101')
    assert [step[1] for step in steps] == list('00001111')
    assert all(one[2] == other[2] for one, other in zip(steps[::2], steps[1::2]))
    assert at_random([WORD], 5, 7) == at_random([WORD], 5, 7) != at_random([WORD], 5, 8)
    assert at_random([CLOCK, RESET], 1, 1, 'clk', 'rst_n=1').steps == ['0 1']
    assert at_random([], 2, 1).steps == ['-', '-']


@pytest.mark.parametrize('named', ['d', 'none', 'rst_n=2'])
def test_a_clock_or_reset_that_is_none(named):
    with pytest.raises(Failed):
        at_random([CLOCK, RESET, WORD], 8, 7, 'clk', named)


def test_a_vcd_is_read_as_it_was_written(tmp_path):
    path = tmp_path / 'small.vcd'
    path.write_text(vcd_of(small()), encoding='utf-8')
    found = vcd.read(path.read_text(encoding='utf-8'))
    assert found.times == [1, 2]
    assert found.signal('q', 2, 'source') == ['0x', 'x1'] and found.signal('q', 2, 'netlist') == ['0x', '01']
    assert found.signal('only_netlist', 1) == ['0', '1'] and found.signal('q', 2, 'differences') == ['00', '10']
    assert from_file(str(path), [CLOCK]).steps == ['0', '1']
    with pytest.raises(Failed, match='no signal rst_n'):
        from_file(str(path), [RESET])
    with pytest.raises(Failed, match='2 bits in the VCD'):
        found.signal('q', 3)


def test_values_of_a_vcd_are_filled():
    found = vcd.read('$scope module a $end $var reg 4 ! w [3:0] $end $var real 64 " r $end $upscope $end\n'
                     '$enddefinitions $end\n#0\nb1 !\n#5\nbx !\nr1.5 "\n#7\n$dumpvars\nbz1 !\n$end\n')
    assert (found.times, found.signal('w', 4)) == ([0, 5, 7], ['0001', 'xxxx', 'zzz1'])


def test_many_signals_have_different_names():
    assert len({vcd.code_of(number) for number in range(20_000)}) == 20_000


def test_the_picture():
    lines = waves.picture(small(), 40)
    assert lines[1].endswith('▁▁╱▔') and lines[-1].rstrip().endswith('^')
    assert waves.word_line(['0' * 8] * 3 + ['1' * 8] * 3, 8) == '│00   │ff   '
    assert waves.hexadecimal('xxxx01x0', 8) == 'xX'
    assert (waves.step_of([1, 32, 8], 60), waves.step_of([1, 32, 8], 50), waves.step_of([1], 60)) == (9, 2, 2)
    assert (waves.bit_line('01', 3), waves.word_line(['00', '11'], 2, 3)) == ('▁▁▁╱▔▔', '│0 │3 ')


def test_the_table_is_the_recorded_one(program, capsys):
    assert run(['sim', *SYSTEM, '--table']) == 0
    assert capsys.readouterr().out == text('system', 'traces')


def test_a_vcd_is_a_stimulus(program, tmp_path, capsys):
    path = str(tmp_path / 'system.vcd')
    assert run(['sim', *SYSTEM, '--vcd', path, '--table']) == 0
    assert run(['sim', SYSTEM[0], path, '--scope', 'netlist', '--table']) == 0
    said = capsys.readouterr().out
    assert said == 2 * text('system', 'traces')


def test_a_wrong_line_is_told_with_its_place(program, tmp_path, capsys):
    path = tmp_path / 'wrong'
    path.write_text('# head\n0 1 1 0 0 000 00000001\n0 1\n', encoding='utf-8')
    assert run(['sim', SYSTEM[0], str(path)]) == 1
    assert f'{path}:3: error 23 2' in capsys.readouterr().err


def test_the_other_order(program, capsys):
    status = run(['sim', *SYSTEM, '--order', 'released', '--table'])
    if 'does not know the order' in capsys.readouterr().err:
        pytest.skip('the program does not know the order released')
    assert status == 0
