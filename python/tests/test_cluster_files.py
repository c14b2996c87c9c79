"""Parts as files: what the flows for Make and Bazel build is what one run prints."""
import os
import shutil
import subprocess
from pathlib import Path

import pytest

from cluster_designs import DESIGNS, SYSTEM, TOP, RandomDesign
from rtlsyn.cluster_files import cut_into_files, files_of, join_files
from rtlsyn.program import find

if not os.access(find()[-1], os.X_OK):
    pytest.skip('the program is not there', allow_module_level=True)

DEFAULT = 'proc opt fsm opt memory opt techmap opt'
FLAT = 'proc flatten opt fsm opt memory opt techmap opt'


def one_run(text: bytes, script: str) -> bytes:
    """What one run writes."""
    return subprocess.run(find() + ['--script', script], input=text, stdout=subprocess.PIPE, check=False).stdout


@pytest.mark.parametrize('script', [DEFAULT, FLAT])
@pytest.mark.parametrize('text', [(DESIGNS / 'soc.il').read_bytes(), RandomDesign(3).text(), b'', b'module \\m\n'],
                         ids=['soc', 'random', 'empty', 'refused'])
def test_parts_are_joined(tmp_path: Path, capfdbinary, text: bytes, script: str) -> None:
    (tmp_path / 'design.il').write_bytes(text)
    cut_into_files(tmp_path / 'design.il', tmp_path, script)
    (tmp_path / 'nets').mkdir()
    for part in (tmp_path / 'parts').iterdir():
        (tmp_path / 'nets' / part.name).write_bytes(one_run(part.read_bytes(), script))
    join_files(tmp_path)
    assert capfdbinary.readouterr().out == one_run(text, script)


def edited(text: bytes) -> bytes:
    """The text of the system with a wire more in one of its parts."""
    return text.replace(b'module \\limit\n', b'module \\limit\n  wire \\more\n')


def test_an_edit_changes_one_part() -> None:
    text = (SYSTEM / 'system.il').read_bytes()
    before = {key for key, *_ in files_of(text, DEFAULT)}
    after = {key for key, *_ in files_of(edited(text), DEFAULT)}
    assert len(before) == len(after) == 6 and len(before - after) == 1


def make(folder: Path, design: Path) -> 'subprocess.CompletedProcess[str]':
    """The flow for Make."""
    command = ' '.join(find())
    return subprocess.run(
        ['make', '-j2', '-f', str(TOP / 'examples' / 'flows' / 'make' / 'Makefile'), f'DESIGN={design}',
         f'BUILD={folder}', f"RTLSYN={command} --script '{DEFAULT}'"],
        stdout=subprocess.PIPE, stderr=subprocess.PIPE, check=False, text=True)


@pytest.mark.skipif(shutil.which('make') is None, reason='make is not installed')
def test_make(tmp_path: Path) -> None:
    design = tmp_path / 'design.il'
    shutil.copy(SYSTEM / 'system.il', design)
    first = make(tmp_path / 'build', design)
    assert first.returncode == 0, first.stderr
    netlist = tmp_path / 'build' / 'netlist.il'
    assert netlist.read_bytes() == one_run(design.read_bytes(), DEFAULT)
    assert first.stdout.count('--workers 1') == 6
    assert make(tmp_path / 'build', design).stdout.count('--workers 1') == 0
    design.write_bytes(edited(design.read_bytes()))
    assert make(tmp_path / 'build', design).stdout.count('--workers 1') == 1
    assert netlist.read_bytes() == one_run(design.read_bytes(), DEFAULT)
    shutil.copy(SYSTEM / 'refused.il', design)
    refused = make(tmp_path / 'build', design)
    assert refused.returncode and one_run(design.read_bytes(), DEFAULT).decode() in refused.stdout
