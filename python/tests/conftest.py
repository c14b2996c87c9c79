"""What the tests share: the program, a folder of texts, and the command as a new user starts it."""
from __future__ import annotations

import os
import shutil
import subprocess
import sys

import pytest

PYTHON = os.path.dirname(os.path.dirname(os.path.abspath(__file__)))
TOP = os.path.dirname(PYTHON)
sys.path.insert(0, PYTHON)

BUILT = os.path.join(TOP, 'crates/rtlsyn/out/rtlsyn')


def pytest_configure() -> None:
    """Where no program is named it is the one that is built, be it there or not: the script of the clone would begin to
    prove one."""
    os.environ.setdefault('RTLSYN_PROGRAM', BUILT)


@pytest.fixture(scope='session')
def program() -> str:
    """The path of the program, or the test is skipped."""
    path = os.environ.get('RTLSYN_PROGRAM', '')
    if not os.access(path, os.X_OK):
        pytest.skip('the program is not built')
    return path


@pytest.fixture(scope='session')
def yosys() -> str:
    """The path of Yosys, or the test is skipped."""
    path = shutil.which('yosys')
    if path is None:
        pytest.skip('Yosys is not installed')
    return path


def example(*names: str) -> str:
    """The path of a file of `examples`."""
    return os.path.join(TOP, 'examples', *names)


def text(*names: str) -> str:
    """The text of a file of `examples`."""
    with open(example(*names), encoding='utf-8', errors='surrogateescape', newline='') as file:
        return file.read()


def rtlsyn(*words: str, folder: str | None = None, given: str = '') -> subprocess.CompletedProcess:
    """The command with these words, its output in a pipe."""
    environment = {**os.environ, 'PYTHONPATH': PYTHON, 'PYTHONDONTWRITEBYTECODE': '1'}
    return subprocess.run([sys.executable, '-m', 'rtlsyn', *words], cwd=folder, env=environment, input=given,
                          capture_output=True, text=True, timeout=120, check=False)
