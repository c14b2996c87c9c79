"""The cluster beside one run of the program: equal bytes and statuses, whatever is lost on the way.

  RTLSYN_RANDOM_DESIGNS=100     so many random designs, and as many texts with a fault; five of each without it
  RTLSYN_LONG=1                 also 4,096 modules, 20 variants of a system, what takes long to be refused, and a worker
                                killed at each of ten moments; without it at two
"""
import contextlib
import os
import shutil
import signal
import subprocess
import sys
import threading
from pathlib import Path
from typing import Any, Iterator, List, Optional, Tuple

import pytest
from click.testing import CliRunner

from cluster_designs import DESIGNS, SCRIPTS, SYSTEM, TOP, RandomDesign, different, hostile, soc_variants
from rtlsyn.program import find

distributed = pytest.importorskip('distributed')
if not os.access(find()[-1], os.X_OK):
    pytest.skip('the program is not there', allow_module_level=True)

from rtlsyn.cluster import UNREACHED, cluster as command, connect, local_cluster  # noqa: E402
from rtlsyn.cluster_flight import Gone  # noqa: E402
from rtlsyn.cluster_program import Trouble  # noqa: E402
from rtlsyn.cluster_run import Synthesis  # noqa: E402
from rtlsyn.cluster_store import Folder, SchedulerMemory  # noqa: E402

COUNT = int(os.environ.get('RTLSYN_RANDOM_DESIGNS', '5'))
IS_LONG = bool(os.environ.get('RTLSYN_LONG'))
WORKERS = 2
MANY = different(160, 8)


def one_run(text: bytes, script: Optional[str] = None) -> Tuple[int, bytes]:
    """The status and the bytes of one run."""
    words = [] if script is None else ['--script', script]
    done = subprocess.run(find() + words, input=text, stdout=subprocess.PIPE, stderr=subprocess.DEVNULL, check=False)
    return done.returncode, done.stdout


class Nothing:
    """A store that keeps nothing."""

    def get(self, keys: Any) -> dict:
        """Nothing."""
        return {}

    def put(self, entries: dict) -> int:
        """As if all were kept."""
        return len(entries)


@pytest.fixture(scope='module')
def machines() -> Iterator[Any]:
    """A cluster of worker processes, as the command makes it."""
    import dask
    with dask.config.set({'distributed.scheduler.allowed-failures': 16}), contextlib.ExitStack() as stack:
        yield local_cluster(stack, WORKERS)


@pytest.fixture
def client(machines: Any) -> Iterator[Any]:
    """A client of the cluster."""
    with distributed.Client(machines) as made:
        yield made


@pytest.fixture(scope='module')
def many() -> Tuple[int, bytes]:
    """One run over the many modules."""
    return one_run(MANY)


def told(reply: Any) -> Tuple[int, bytes]:
    """What a user sees of a reply."""
    return reply.status, reply.written


@pytest.mark.parametrize('script', [None, 'proc', 'proc flatten opt fsm opt memory opt techmap opt'])
def test_examples(client: Any, script: Optional[str]) -> None:
    files = sorted(DESIGNS.glob('*.il')) + sorted(SYSTEM.glob('*.il')) if script is None else [
        DESIGNS / 'soc.il', SYSTEM / 'system.il']
    for file in files:
        text = file.read_bytes()
        reply = Synthesis(client, script, Nothing(), part_bytes=2_000).run(text)
        assert told(reply) == one_run(text, script), file.name
        if reply.status == 0:
            assert not reply.figures.whole, file.name


def test_refused_examples(client: Any) -> None:
    # The two that grow take longer than all others together.
    for file in sorted((TOP / 'examples' / 'refused').glob('*.il')):
        if file.name.startswith('too_large.') and not IS_LONG:
            continue
        text = file.read_bytes()
        assert told(Synthesis(client, None, Nothing(), part_bytes=1).run(text)) == one_run(text), file.name


@pytest.mark.parametrize('seed', range(COUNT))
def test_random_designs(client: Any, seed: int) -> None:
    text, script = RandomDesign(seed).text(), SCRIPTS[seed % len(SCRIPTS)]
    reply = Synthesis(client, script, Nothing(), part_bytes=(1, 700, 4_000)[seed % 3]).run(text)
    assert told(reply) == one_run(text, script)


@pytest.mark.parametrize('seed', range(COUNT))
def test_texts_with_a_fault(client: Any, seed: int) -> None:
    text, script = hostile(seed), SCRIPTS[seed % len(SCRIPTS)]
    assert told(Synthesis(client, script, Nothing(), part_bytes=1).run(text)) == one_run(text, script)


@pytest.mark.parametrize('script', ['', 'opt', 'proc techmpa', '-x', 'proc opt flatten'])
def test_scripts_that_are_none(client: Any, script: str) -> None:
    text = (SYSTEM / 'system.il').read_bytes()
    assert told(Synthesis(client, script, Nothing()).run(text)) == one_run(text, script)


def test_past_a_limit(client: Any) -> None:
    wide = ''.join(f'  wire width 1048576 $w{at}\n' for at in range(4))
    text = (f'module \\first\nend\nmodule \\m\n{wide}  wire output 1 \\y\n  wire input 2 \\a\n  cell $not $n\n'
            f'    parameter \\A_SIGNED 0\n    parameter \\A_WIDTH 1\n    parameter \\Y_WIDTH 1\n    connect \\A \\a\n'
            f'    connect \\Y \\y\n  end\nend\n').encode()
    assert told(Synthesis(client, None, Nothing(), part_bytes=1).run(text)) == one_run(text)


def test_many_modules_and_the_memory_of_the_scheduler(client: Any, many: Tuple[int, bytes]) -> None:
    memory = SchedulerMemory(client)
    first = Synthesis(client, None, memory).run(MANY)
    assert told(first) == many and first.figures.built == 160 and first.figures.parts > WORKERS
    second = Synthesis(client, None, memory).run(MANY)
    assert told(second) == many and (second.figures.built, second.figures.kept) == (0, 160)
    edited = MANY.replace(b'\\m7\n', b'\\m7\n  wire \\more\n', 1)
    third = Synthesis(client, None, memory).run(edited)
    assert told(third) == one_run(edited) and third.figures.built == 1


def test_a_folder_and_broken_entries(client: Any, tmp_path: Path) -> None:
    text = different(40, 8)
    due = one_run(text)
    folder = Folder(str(tmp_path))
    assert told(Synthesis(client, None, folder).run(text)) == due
    entries = sorted(file for file in tmp_path.rglob('*') if file.is_file())
    assert len(entries) == 40
    entries[3].write_bytes(entries[3].read_bytes()[:-9])
    entries[8].write_bytes(entries[9].read_bytes())
    entries[20].write_bytes(b'')
    entries[30].unlink()
    again = Synthesis(client, None, folder).run(text)
    assert told(again) == due and again.figures.built == 4
    assert Synthesis(client, None, folder).run(text).figures.kept == 40


def test_a_full_disk(client: Any, tmp_path: Path) -> None:
    mounted = subprocess.run(['mount', '-t', 'tmpfs', '-o', 'size=64k', 'tmpfs', str(tmp_path)], check=False,
                             stderr=subprocess.DEVNULL)
    if mounted.returncode:
        pytest.skip('no small disk can be made here')
    try:
        text = different(60, 8)
        folder = Folder(str(tmp_path))
        first = Synthesis(client, None, folder).run(text)
        assert told(first) == one_run(text) and first.figures.unkept > 0
        second = Synthesis(client, None, folder).run(text)
        assert told(second) == one_run(text) and 0 < second.figures.kept < 60
        assert not list(tmp_path.rglob('.new-*'))
    finally:
        subprocess.run(['umount', str(tmp_path)], check=True)


def kill_a_worker(client: Any) -> None:
    """Ends one worker process at once."""
    os.kill(next(iter(client.run(os.getpid).values())), signal.SIGKILL)


@pytest.mark.parametrize('moment', range(10) if IS_LONG else (0, 6))
def test_a_worker_killed(client: Any, many: Tuple[int, bytes], moment: int) -> None:
    killed: List[int] = []

    def show(figures: Any) -> None:
        if not killed and figures.built >= 16 * moment:
            killed.append(figures.built)
            kill_a_worker(client)

    reply = Synthesis(client, None, Nothing(), show=show).run(MANY)
    assert told(reply) == many and killed
    assert reply.figures.built == 160 and not reply.figures.whole


def test_two_clients_at_once(machines: Any, client: Any, many: Tuple[int, bytes]) -> None:
    replies: List[Any] = []

    def ask() -> None:
        with distributed.Client(machines.scheduler_address, set_as_default=False) as other:
            replies.append(Synthesis(other, 'proc opt fsm opt memory opt techmap opt', SchedulerMemory(other)).run(MANY))

    threads = [threading.Thread(target=ask) for _ in range(2)]
    for thread in threads:
        thread.start()
    for thread in threads:
        thread.join()
    assert [told(reply) for reply in replies] == [many, many]


@contextlib.contextmanager
def another_program(client: Any, program: Path, workers: List[str]) -> Iterator[None]:
    """Some workers with another program."""
    def name(path: Optional[str]) -> None:
        client.run(lambda: os.environ.pop('RTLSYN_PROGRAM', '') if path is None else os.environ.__setitem__(
            'RTLSYN_PROGRAM', path), workers=workers)
    name(str(program))
    try:
        yield
    finally:
        name(os.environ.get('RTLSYN_PROGRAM'))


def test_a_worker_with_another_program(client: Any, tmp_path: Path) -> None:
    other = tmp_path / 'rtlsyn'
    shutil.copy(find()[-1], other)
    with open(other, 'ab') as file:
        file.write(b'\n')
    first = next(iter(client.scheduler_info()['workers']))
    with another_program(client, other, [first]), pytest.raises(Trouble, match='2 different programs'):
        Synthesis(client, None, Nothing()).run(b'module \\m\nend\n')


def test_a_program_that_gives_no_answer(client: Any, tmp_path: Path) -> None:
    other = tmp_path / 'rtlsyn'
    other.write_text('#!/bin/sh\nexit 5\n')
    other.chmod(0o755)
    with another_program(client, other, list(client.scheduler_info()['workers'])), pytest.raises(Trouble, match='status 5'):
        Synthesis(client, None, Nothing()).run(b'module \\m\nend\n')


def test_a_program_that_prints_other_modules(client: Any, tmp_path: Path) -> None:
    other = tmp_path / 'rtlsyn'
    other.write_text('#!/bin/sh\n[ "$1" = --version ] || printf "module \\\\other\nend\n"\n')
    other.chmod(0o755)
    with another_program(client, other, list(client.scheduler_info()['workers'])):
        reply = Synthesis(client, None, Nothing()).run(b'module \\m\nend\n')
    assert reply.figures.whole and reply.written == b'module \\other\nend\n'


def ask(machines: Any, *words: str, text: bytes = b'') -> Any:
    """The command, over the cluster."""
    runner = CliRunner(mix_stderr=False)
    return runner.invoke(command, ['--scheduler', machines.scheduler_address, *words], input=text)


def test_the_command(machines: Any, tmp_path: Path) -> None:
    text = (SYSTEM / 'system.il').read_bytes()
    asked = ask(machines, '--figures', text=text)
    assert (asked.exit_code, asked.stdout_bytes) == one_run(text) and 'parts' in asked.stderr
    into = tmp_path / 'netlist.il'
    asked = ask(machines, '--script', 'proc', '-o', str(into), str(SYSTEM / 'system.il'))
    assert (asked.exit_code, into.read_bytes(), asked.stdout_bytes) == (*one_run(text, 'proc'), b'')
    asked = ask(machines, text=b'module \\m\n')
    assert (asked.exit_code, asked.stdout_bytes) == (1, b'error 2 2:1\n')
    assert ask(machines, '-o', str(tmp_path / 'none' / 'x'), text=b'').exit_code == 4
    assert ask(machines, '--part', '0', text=b'').exit_code == 2


def test_no_scheduler() -> None:
    asked = CliRunner(mix_stderr=False).invoke(
        command, ['--scheduler', 'tcp://127.0.0.1:9', '--patience', '1'], input=b'module \\m\nend\n')
    assert (asked.exit_code, asked.stdout_bytes) == (UNREACHED, b'') and asked.stderr


SCHEDULER = """
from distributed import LocalCluster
with LocalCluster(n_workers=1, threads_per_worker=1, processes=False, protocol='tcp', dashboard_address=None) as machines:
    print(machines.scheduler_address, flush=True)
    input()
"""


@contextlib.contextmanager
def scheduler_process(folder: Path) -> Iterator[Tuple[str, Any]]:
    """A scheduler with a worker in a process of its own: its address, and the process."""
    process = subprocess.Popen([sys.executable, '-c', SCHEDULER], stdin=subprocess.PIPE, stdout=subprocess.PIPE,
                               stderr=subprocess.DEVNULL, cwd=str(folder), env={**os.environ, 'PYTHONPATH': os.pathsep.join(sys.path)})
    try:
        yield process.stdout.readline().decode().strip(), process
    finally:
        process.kill()
        process.communicate()


def test_a_scheduler_gone(client: Any, many: Tuple[int, bytes], tmp_path: Path) -> None:
    folder = Folder(str(tmp_path / 'kept'))
    with scheduler_process(tmp_path) as (address, process):
        def show(figures: Any) -> None:
            if figures.built >= 40 and process.poll() is None:
                process.kill()
                process.wait()

        with pytest.raises((Gone, OSError)), contextlib.ExitStack() as stack:
            Synthesis(connect(stack, address, 0, 5), None, folder, patience=5, show=show).run(MANY)
    again = Synthesis(client, None, folder).run(MANY)
    assert told(again) == many and again.figures.kept >= 40 and again.figures.built < 160


@pytest.mark.skipif(not IS_LONG, reason='RTLSYN_LONG is not set')
def test_4096_modules(client: Any) -> None:
    text = different(4_096, 8)
    reply = Synthesis(client, None, Nothing()).run(text)
    assert told(reply) == one_run(text) and reply.figures.built == 4_096 and not reply.figures.whole
    more = different(4_097, 8)
    assert told(Synthesis(client, None, Nothing()).run(more)) == one_run(more)


@pytest.mark.skipif(not IS_LONG, reason='RTLSYN_LONG is not set')
def test_variants_of_a_system(client: Any) -> None:
    memory = SchedulerMemory(client)
    for number, text in enumerate(soc_variants(20)):
        reply = Synthesis(client, None, memory).run(text)
        assert told(reply) == one_run(text) and (number == 0 or reply.figures.built == 1)
