"""What error lines mean: each text of examples/refused."""
from __future__ import annotations

import json
import re

import pytest
from conftest import example, rtlsyn, text

from rtlsyn.causes import cause_of, causes
from rtlsyn.cli import run
from rtlsyn.errors import Failed
from rtlsyn.explaining import bare, explanation

CASES = [[field.strip() for field in line.split('|')] for line in text('refused', 'cases').split('\n')
         if line.count('|') == 3 and not line.startswith('#')]


@pytest.mark.parametrize('name, answer', [(name, answer) for name, _, answer, _ in CASES if answer.startswith('error')])
def test_examples_have_their_cause(name, answer):
    found = explanation(answer, text('refused', f'{name}.il'))
    assert found.cause.words and '{' not in found.cause.words + found.cause.hint
    assert found.cause.error == int(answer.split()[1])
    own = [cause.cause for cause in causes() if cause.example == name and cause.error == found.cause.error]
    # The instance of `parameters` has a parameter, of which another text is the example.
    assert not own or found.cause.cause in own or name == 'parameters'


def test_places_are_those_of_the_source():
    assert explanation('error 9 \\cube $pow$pow.v:3$1', text('refused', 'pow.il')).place == 'pow.v:3:16'
    found = explanation('error 2 18:15', text('refused', 'real_parameter.il'))
    assert found.excerpt[1].index('^') == found.excerpt[0].index('real') and found.cause.cause == 'real-parameter'


def test_a_type_stands_in_its_words():
    assert cause_of('error 9 \\m $pow$a.v:1$2').words.count('$pow') == 1
    assert 'TYPE' in cause_of('error 9 \\m \\u').hint
    assert cause_of('error 99').cause == 'unknown'


def test_lines_that_are_none():
    with pytest.raises(Failed):
        explanation('ok built 1')


@pytest.mark.parametrize('line, alone', [
    ('rtlsyn: pow.v:3:16: error 9 \\cube $pow$pow.v:3$1: cell type $pow is not supported: a power',
     'error 9 \\cube $pow$pow.v:3$1'),
    ('pow.v:3:14: error 9: cell type $pow is not supported: a power (module \\cube, cell $pow$pow.v:3$1)',
     'error 9 \\cube $pow$pow.v:3$1'),
    ('a.v:2:39: error 12: a bit has two drivers (module \\m, wire \\y, bit 0; driven by connection 1 and cell \\c)',
     'error 12 \\m \\y 0'),
    ('error 7: the sides of a connection have unequal widths (module \\m, connection 3)', 'error 7 \\m connect 3'),
    ('in.il:18:15: error 2: a parameter that is a real number', 'error 2 18:15'),
    ('error 20 \\m techmap built 1 reused 0', 'error 20 \\m techmap built 1 reused 0'), ('error 22', 'error 22')])
def test_what_stands_around_an_error_line(line, alone):
    assert bare(line) == alone


def test_what_the_text_does_not_have_is_told():
    assert 'no module \\cubes' in explanation('error 9 \\cubes $1', text('refused', 'pow.il')).about
    assert 'has no $1 ' in explanation('error 9 \\cube $1', text('refused', 'pow.il')).about


def test_the_command_reads_a_pipe():
    done = rtlsyn('explain', '-', example('refused', 'pow.il'), '--json', given='error 9 \\cube $pow$pow.v:3$1\n')
    assert done.returncode == 0, done.stderr
    assert json.loads(done.stdout)['cause'] == 'power'


@pytest.mark.parametrize('name', [name for name, *_ in CASES if name != 'too_large'])
def test_each_command_takes_each_text(program, name, tmp_path, capsys):
    """No command breaks; one that is refused says the error line with its cause."""
    path, out = example('refused', f'{name}.il'), ['-o', str(tmp_path / 'gates.il')]
    for words in (['synth', path, *out], ['watch', '--once', path, *out], ['sim', path, '--random', '2'],
                  ['stat', path]):
        status = run(words)
        said = ''.join(capsys.readouterr())
        assert status in (0, 1) and (status == 0 or said)
        assert 'error' not in said or re.search(r'error \d+ .*: [a-z`]', said), said
