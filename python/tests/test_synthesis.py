"""Netlists: of one text, in parts, in other formats, and after each edit."""
from __future__ import annotations

import glob
import json
import os
import shutil

import pytest
from conftest import PYTHON, example, rtlsyn, text

import rtlsyn as package
from rtlsyn import equivalence
from rtlsyn.cli import run
from rtlsyn.drawing import schematic
from rtlsyn.errors import Failed
from rtlsyn.synthesis import module_texts, of_text, parts_of
from rtlsyn.writers import write_netlist

DESIGNS = sorted(os.path.basename(path)[:-3] for path in glob.glob(example('designs', '*.il')))


@pytest.mark.parametrize('name', DESIGNS)
def test_designs_have_their_netlists(program, name):
    assert package.synth(example('designs', f'{name}.il')).netlist == text('designs', f'{name}.out')


def test_a_text_or_a_path(program):
    one, other = package.synth(text('and.il')), package.synth(example('and.il'), workers=1)
    assert one == other and (one.modules, one.built, one.reused) == (1, 1, 0)
    assert package.synth(text('designs', 'soc.il'), script='proc').netlist.count('process') == 0


def test_parts_give_the_same_bytes(program):
    told = []
    done = of_text(text('designs', 'soc.il'), progress=lambda *counts: told.append(counts))
    assert done.netlist == text('designs', 'soc.out') and told[-1] == (6, 6) and done.built == 6


def test_parts_have_each_module_once():
    texts = module_texts(text('designs', 'soc.il'))
    names = [name for part, _ in parts_of(text('designs', 'soc.il')) for name in part]
    assert sorted(names) == sorted(texts) and names[-1] == '\\soc'


def test_a_fault_in_a_part_is_that_of_the_whole(program):
    wrong = text('designs', 'soc.il').replace('connect \\A ', 'connect \\A 1\'1 ', 1)
    lines = []
    for progress in (None, lambda *counts: None):
        with pytest.raises(package.Refused) as refused:
            of_text(wrong, progress=progress)
        lines.append(refused.value.line)
    assert lines[0] == lines[1]


@pytest.mark.parametrize('name, begins', [('a.v', '/* Generated'), ('a.json', '{'), ('a.blif', '# Generated')])
def test_other_formats(yosys, tmp_path, name, begins):
    write_netlist(str(tmp_path / name), text('designs', 'counter_en.out'))
    assert (tmp_path / name).read_text(encoding='utf-8').startswith(begins)


def test_a_format_that_is_none(tmp_path):
    with pytest.raises(Failed, match='.blif'):
        write_netlist(str(tmp_path / 'a.vhd'), '')


def test_the_command_tells_what_was_done(program, tmp_path, capsys):
    path = str(tmp_path / 'gates.il')
    assert run(['synth', example('and.il'), '-o', path, '--json']) == 0
    told = json.loads(capsys.readouterr().out)
    assert (told['modules'], told['built'], told['netlist']) == (1, 1, path)
    assert run(['synth', example('refused', 'pow.il')]) == 1
    said = capsys.readouterr().err
    assert said.startswith('rtlsyn: pow.v:3:16: error 9 \\cube') and '\nhint: write the product' in said
    assert run(['synth', example('and.il'), '--wrong']) == 2


def test_verilog_to_gates(program, yosys, tmp_path, capsys):
    path = str(tmp_path / 'gates.v')
    assert run(['verilog', '-o', path, '--liberty', example('cells.lib'), '--check', example('mask.v')]) == 0
    said = capsys.readouterr().out
    assert 'proven' in said and 'area' in said and os.path.exists(path)


def test_a_netlist_of_another_design_is_not_proven(program, yosys, tmp_path, capsys):
    path = tmp_path / 'wrong.il'
    path.write_text(text('designs', 'gray_counter.out').replace('$_AND_', '$_OR_', 1), encoding='utf-8')
    assert run(['check', example('designs', 'gray_counter.il')]) == 0
    assert run(['check', example('designs', 'gray_counter.il'), str(path)]) == 1
    said = capsys.readouterr().out.split('\n')
    assert 'proven by induction' in said[0] and 'not proven' in said[1]


#: Wires and a module that have the names of pins.
PINS = '''
module \\Q
  wire input 1 \\CLK
  wire input 2 \\A
  wire input 3 \\D
  wire output 4 \\Y
  wire \\Q
  cell $_DFF_P_ \\S
    connect \\C \\CLK
    connect \\D \\D
    connect \\Q \\Q
  end
  cell $_XOR_ \\B
    connect \\A \\A
    connect \\B \\Q
    connect \\Y \\Y
  end
end
'''


@pytest.mark.parametrize('given', [PINS, text('refused', 'black_box.ok.il')])
def test_names_of_pins_and_black_boxes_are_proven(program, yosys, given):
    assert equivalence.check(given).is_proven


def test_what_newer_versions_of_yosys_write(program):
    newer = ('module \\m\n  wire width 4 signed output 1 \\y\n  cell $buf $1\n    parameter \\WIDTH 4\n'
             "    connect \\A 4's1010\n    connect \\Y \\y\n  end\nend\n")
    assert package.synth(newer).netlist == \
        "module \\m\n  wire width 4 output 1 signed \\y\n  connect \\y 4'1010\nend\n"
    with pytest.raises(package.Refused, match='error 2 5:19'):
        package.synth(newer.replace("4's1010", "4'sd5"))


def test_watch_once(program, tmp_path):
    done = rtlsyn('watch', '--once', '--simulate', example('system', 'steps'), '-o', 'a.il',
                  example('system', 'system.il'), folder=str(tmp_path))
    assert done.returncode == 0 and done.stdout.startswith('loaded 6 modules, built 6 reused 0')
    assert done.stdout.split('\n', 1)[1] == text('system', 'traces') and (tmp_path / 'a.il').exists()
    assert rtlsyn('watch', '--once', 'none.il', folder=str(tmp_path)).returncode == 1


def test_other_words_go_to_the_program(program):
    done = rtlsyn(given=text('and.il'))
    assert done.returncode == 0 and done.stdout.startswith('module \\m\n')
    assert rtlsyn('--session', given='jump\n').stdout == 'error 21\n'
    assert rtlsyn('--gen', '2').stdout == 'modules 2 built 2 reused 0 cells 8\n'


def test_the_commands_are_listed():
    done = rtlsyn('help')
    assert done.returncode == 0
    for name in ('watch', 'synth', 'stat', 'sim', 'verilog', 'check', 'explain', 'report'):
        assert f'\n  {name} ' in done.stdout or not os.path.exists(os.path.join(PYTHON, f'rtlsyn/commands/{name}.py'))


def test_figures_as_json_and_side_by_side(capsys):
    assert run(['stat', '--json', example('designs', 'counter_en.out')]) == 0
    assert json.loads(capsys.readouterr().out)['hierarchy']['flip_flops'] == 8
    assert run(['stat', example('designs', 'counter_en.out'), '--against', example('designs', 'traffic.out')]) == 0
    assert 'change' in capsys.readouterr().out
    assert run(['stat', '/none/such']) == 1


def test_a_page_about_a_design(program, tmp_path, capsys):
    path = tmp_path / 'page.html'
    assert run(['report', example('system', 'inserted.il'), '--before', example('system', 'system.il'), '--simulate',
                example('system', 'steps'), '--cells', '0', '-o', str(path)]) == 0
    page = path.read_text(encoding='utf-8')
    for part in ('6 modules, built 1 reused 5', 'changed: \\prescaler', '<svg', 'scratch', '20 steps'):
        assert part in page
    assert 'src=' not in page and 'href=' not in page and 'http' not in page


def test_a_page_says_the_cause_as_the_other_commands_do(program, tmp_path, capsys):
    for words in (['synth'], ['report', '-o', str(tmp_path / 'page.html')], ['watch', '--once']):
        assert run([*words, example('refused', 'black_box.il')]) == 1
        said = ''.join(capsys.readouterr())
        assert 'black_box.v:5:23: error 10 \\top \\u: an instance of a black box has a parameter' in said, words


def test_a_schematic(program, yosys):
    if shutil.which('dot') is None:
        pytest.skip('Graphviz is not installed')
    drawing = schematic(text('designs', 'counter_en.out'), '\\counter_en')
    assert drawing.startswith('<svg') and '$_DFF_P_' in drawing
