"""The client of sessions."""
from __future__ import annotations

import os
import stat

import pytest

import rtlsyn
from rtlsyn.session import Session, command_bytes
from rtlsyn.traces import Row, lost_bits, steps_of, table_of

WIRE = 'module \\m\n  wire input 1 \\a\n  wire output 2 \\y\n  connect \\y \\a\nend\n'
HIGH = 'module \\h\n  wire output 1 \\y\n  connect \\y 1\'1\nend\n'


def script(folder, text: str) -> list[str]:
    """A program that a shell script stands in for."""
    path = os.path.join(str(folder), 'program')
    with open(path, 'w', encoding='utf-8') as file:
        file.write(f'#!/bin/sh\n{text}\n')
    os.chmod(path, os.stat(path).st_mode | stat.S_IXUSR)
    return [path]


def test_commands_give_their_counts(program):
    with Session() as session:
        assert session.load(WIRE + HIGH) == 2
        assert session.run() == {'built': 2, 'reused': 0}
        assert session.edit(HIGH.replace("1'1", "1'0")) == 2
        reply = session.print()
        assert reply.counts['built'] == 1 and reply.counts['bytes'] == len(reply.body)
        assert session.show('\\m') == WIRE
        assert session.script('proc opt') == 2
        assert session.drop('\\h') == 1
        assert session.close() == 0


def test_each_simulation_starts_anew(program):
    with Session(workers=1) as session:
        session.load(WIRE)
        assert session.sim('source', '\\m', ['1', 'x', '0']) == ['1', 'x', '0']
        assert session.sim('netlist', '\\m', ['1']) == ['1']


def test_refused_says_number_module_name_and_cause(program):
    with Session() as session:
        with pytest.raises(rtlsyn.Refused) as refused:
            session.load(WIRE.replace('connect \\y \\a', 'connect \\y \\a\n  connect \\y \\a'))
        fault = refused.value
        assert (fault.line, fault.number, fault.module, fault.name, fault.place) == \
            ('error 12 \\m \\y 0', 12, '\\m', '\\y', None)
        assert 'two drivers' in fault.cause and fault.hint
        with pytest.raises(rtlsyn.Refused) as refused:
            session.load('module \\m\n  wire 3\nend\n')
        assert refused.value.place == '2:8' and refused.value.module is None
        assert session.load(WIRE) == 1


@pytest.mark.parametrize('text, words', [
    ('exit 5', 'status 5: there was no memory'),
    ('printf "ok modules"; exit 4', 'status 4: its standard output failed'),
    ('echo hello; cat >/dev/null', 'this is no reply: hello'),
])
def test_a_program_that_ends(tmp_path, text, words):
    with Session(script(tmp_path, text)) as session, pytest.raises(rtlsyn.Ended, match=words):
        session.run()


def test_a_program_that_does_not_start():
    with pytest.raises(rtlsyn.Ended, match='does not start'):
        Session(['/dev/null/none'])


@pytest.mark.parametrize('text', ['sleep 30', 'cat >/dev/null; sleep 30'])
def test_a_reply_that_does_not_come_in_time(tmp_path, text):
    session = Session(script(tmp_path, text))
    with pytest.raises(rtlsyn.TimedOut):
        session.ask('load', WIRE * 40_000, timeout=0.3)
    with pytest.raises(rtlsyn.Ended, match='the session is closed'):
        session.run()


def test_a_block_cannot_end_itself():
    with pytest.raises(ValueError):
        command_bytes('load', 'module \\m\n.\nend\n')
    assert command_bytes('load', 'module \\m\nend') == b'load\nmodule \\m\nend\n.\n'


def test_room_is_counted(program):
    with Session(limit=200) as session:
        session.load(WIRE)
        assert session.has_room([command_bytes('edit', HIGH)])
        assert not session.has_room([command_bytes('edit', WIRE * 3)])


def test_traces_beside_each_other():
    rows = [Row('0', 'x0', '10'), Row('1', '01', '11')]
    assert lost_bits(rows) == 1
    assert table_of(rows)[2] == ' ' * 24 + '^'
    assert table_of(rows)[4] == ' ' * 24 + '!'
    assert steps_of('# a\n\n 0 1 \r\n1 1') == [(3, '0 1'), (4, '1 1')]
