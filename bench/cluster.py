#!/usr/bin/env python3
"""Designs by the workers of a cluster on this machine: speed-up, bytes moved, what a part costs beside its run.

usage: bench/cluster.py [--cut BYTES] [--modules N] [--parts N] [--variants N] [--equal N] [--workers N,N]

A text of 60,000,000 bytes that is cut, 2,000 different modules, 200 small parts, the system on a chip of the examples a
thousand times with a small change, and equal bytes over 4,096 modules, by 1, 2 and 4 worker processes. 0 leaves a part out.

Needs Dask distributed, as Debian's python3-distributed, and the Python that has it. Prints tables for bench/cluster.md. Ends
with 1 where a byte is not that of one run.
"""
import argparse
import os
import subprocess
import sys
import time
from concurrent.futures import ThreadPoolExecutor
from contextlib import ExitStack
from pathlib import Path
from typing import Any, Iterator, List, Optional, Tuple

TOP = Path(__file__).resolve().parents[1]
sys.dont_write_bytecode = True
sys.path[:0] = [str(TOP / 'python'), str(TOP / 'python' / 'tests')]
os.environ['PYTHONPATH'] = os.pathsep.join(sys.path[:2] + [os.environ.get('PYTHONPATH', '')])

from cluster_designs import different, soc_variants  # noqa: E402
from rtlsyn.cluster_cut import cut  # noqa: E402
from rtlsyn.cluster_parts import Cutting  # noqa: E402
from rtlsyn.program import find  # noqa: E402


class Nothing:
    """A store that keeps nothing."""

    def get(self, keys: Any) -> dict:
        """Nothing."""
        return {}

    def put(self, entries: dict) -> int:
        """As if all were kept."""
        return len(entries)


def timed(step: Any) -> Tuple[float, Any]:
    """The seconds of a step, and what it gives."""
    begun = time.monotonic()
    given = step()
    return time.monotonic() - begun, given


def one_run(text: bytes, workers: int = 1) -> bytes:
    """The netlist by one run."""
    return subprocess.run(find() + ['--workers', str(workers)], input=text, stdout=subprocess.PIPE, check=True).stdout


def clients(counts: List[int]) -> Iterator[Tuple[int, Any]]:
    """A client of each number of worker processes, one after another."""
    from rtlsyn.cluster import connect
    for count in counts:
        with ExitStack() as stack:
            client = connect(stack, None, count, 60)
            client.wait_for_workers(count)
            yield count, client


def row(*cells: Any) -> None:
    """A line of a table."""
    print('| ' + ' | '.join(map(str, cells)) + ' |', flush=True)


def head(*cells: str) -> None:
    """The head of a table."""
    print()
    row(*cells)
    print('|' + '---|' * len(cells), flush=True)


def due(is_equal: bool, what: str) -> None:
    """Ends the script where bytes are not those of one run."""
    if not is_equal:
        sys.exit(f'{what}: not the bytes of one run')


def run(client: Any, text: bytes, store: Optional[Any] = None, part: Optional[int] = None) -> Any:
    """The reply of the cluster."""
    from rtlsyn.cluster_run import Synthesis
    return Synthesis(client, None, Nothing() if store is None else store, part).run(text)


def measure_modules(count: int, counts: List[int]) -> None:
    """A design of different modules by each number of workers, and by one run in as many threads."""
    text = different(count)
    head('Workers', 'One run, as many threads', 'Cluster', 'Speed-up', 'Parts', 'Bytes to the workers', 'Bytes back')
    first = None
    for workers, client in clients(counts):
        alone, netlist = timed(lambda: one_run(text, workers))
        seconds, reply = timed(lambda: run(client, text))
        due(reply.written == netlist, f'{count} modules')
        first = first or seconds
        figures = reply.figures
        row(workers, f'{alone:.2f} s', f'{seconds:.2f} s', f'{first / seconds:.2f}', figures.parts,
            f'{figures.bytes_out:,}', f'{figures.bytes_back:,}')


def measure_overhead(parts: int, counts: List[int]) -> None:
    """What a part costs beside the run of the program: parts of one small module each."""
    text = b''.join(b'module \\m%d\n  wire input 1 \\a\n  wire \\w%d\nend\n' % (at, at) for at in range(parts))
    small = b'module \\m\n  wire input 1 \\a\n  wire \\w\nend\n'
    alone, _ = timed(lambda: [one_run(small) for _ in range(parts)])
    head('Workers', 'A small part', 'The run of the program in it')
    for workers, client in clients(counts):
        run(client, small)
        seconds, _ = timed(lambda: run(client, text, part=1))
        row(workers, f'{seconds / parts * 1e3:.1f} ms', f'{alone / parts * 1e3:.1f} ms')


def measure_variants(count: int, counts: List[int]) -> None:
    """Variants of one design, several at once, which share what is kept in the memory of the scheduler."""
    from rtlsyn.cluster_store import SchedulerMemory
    texts = list(soc_variants(count))
    head('Workers', 'Designs', 'Cluster', 'Speed-up', 'Modules built', 'Modules found')
    first = None
    for workers, client in clients(counts):
        store = SchedulerMemory(client)
        with ThreadPoolExecutor(2 * workers) as at_once:
            seconds, replies = timed(lambda: list(at_once.map(lambda text: run(client, text, store), texts)))
        first = first or seconds
        row(workers, count, f'{seconds:.1f} s', f'{first / seconds:.2f}', sum(r.figures.built for r in replies),
            sum(r.figures.kept for r in replies))
        for at in range(0, count, max(1, count // 10)):
            due(replies[at].written == one_run(texts[at]), f'variant {at}')


def check_equal(count: int, workers: int) -> None:
    """Equal bytes over many modules."""
    text = different(count, 8)
    for _, client in clients([workers]):
        reply = run(client, text)
        due(reply.written == one_run(text) and reply.figures.built == count, f'{count} modules')
        print(f'\n{count:,} modules, {len(text):,} bytes: the {len(reply.written):,} bytes of one run.', flush=True)


def measure_cutter(size: int) -> None:
    """How fast a text is cut, and keys are made, in processor time."""
    made = subprocess.run([sys.executable, str(TOP / 'bench' / 'modules.py'), str(size)], stdout=subprocess.PIPE,
                          stderr=subprocess.DEVNULL, check=True).stdout
    begun = time.process_time()
    design = cut(made)
    between = time.process_time()
    cutting = Cutting(design, None, '')
    for at in range(len(design.modules)):
        cutting.key(at)
    ended = time.process_time()
    head('Bytes', 'Modules', 'Cut', 'Keys')
    row(f'{len(made):,}', f'{len(design.modules):,}', f'{between - begun:.2f} s', f'{ended - between:.2f} s')


def main() -> None:
    """The measures that were asked for."""
    words = argparse.ArgumentParser(description='Designs by the workers of a cluster on this machine.')
    words.add_argument('--modules', type=int, default=2_000)
    words.add_argument('--parts', type=int, default=200)
    words.add_argument('--variants', type=int, default=1_000)
    words.add_argument('--equal', type=int, default=4_096)
    words.add_argument('--cut', type=int, default=60_000_000)
    words.add_argument('--workers', default='1,2,4')
    given = words.parse_args()
    counts = [int(count) for count in given.workers.split(',')]
    if given.cut:
        measure_cutter(given.cut)
    if given.modules:
        measure_modules(given.modules, counts)
    if given.parts:
        measure_overhead(given.parts, counts)
    if given.variants:
        measure_variants(given.variants, counts)
    if given.equal:
        check_equal(given.equal, counts[-1])


if __name__ == '__main__':
    main()
