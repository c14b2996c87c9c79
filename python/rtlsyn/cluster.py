"""The command `rtlsyn cluster`: a design synthesised by many machines, with the bytes of one run."""
import os
import sys
import tempfile
from contextlib import ExitStack
from typing import Any, Optional

import click

# Exit statuses beside those of the program: no answer for want of machines, and for want of a program that answers.
WRITE_FAULT, UNREACHED, TROUBLED = 4, 69, 70


def local_cluster(stack: ExitStack, workers: int) -> Any:
    """A cluster of worker processes on this machine, which ends with the stack."""
    from distributed import LocalCluster
    folder = stack.enter_context(tempfile.TemporaryDirectory(prefix='rtlsyn-'))
    return stack.enter_context(LocalCluster(
        n_workers=workers, threads_per_worker=1, processes=True, memory_limit=0, local_directory=folder, silence_logs=50,
        scheduler_kwargs={'dashboard': False, 'dashboard_address': ':0'}))


def connect(stack: ExitStack, scheduler: Optional[str], workers: int, patience: float) -> Any:
    """A client of the scheduler at an address, or of a cluster on this machine. Ends with the stack."""
    import dask
    from distributed import Client
    stack.enter_context(dask.config.set({
        'distributed.comm.timeouts.connect': '%gs' % patience, 'distributed.scheduler.allowed-failures': 16}))
    return stack.enter_context(Client(scheduler or local_cluster(stack, workers), timeout='%gs' % patience))


class Progress:
    """What has been done so far, on a terminal."""

    def __init__(self, stack: ExitStack, is_quiet: bool) -> None:
        from rich.console import Console
        from rich.progress import BarColumn, MofNCompleteColumn, Progress as Bar, TextColumn, TimeElapsedColumn
        console = Console(stderr=True)
        self.bar = Bar(TextColumn('{task.description}'), BarColumn(), MofNCompleteColumn(), TimeElapsedColumn(),
                       console=console, disable=is_quiet or not console.is_terminal)
        stack.enter_context(self.bar)
        self.task = self.bar.add_task('modules', total=None)

    def show(self, figures: Any) -> None:
        """Figures of a run."""
        self.bar.update(self.task, total=figures.distinct or None, completed=figures.kept + figures.built,
                        description='%d parts, %d modules found' % (figures.parts, figures.kept))


def write_out(written: bytes, output: Optional[str]) -> None:
    """Writes the reply: to standard output, or whole into a file, which is never seen in part."""
    if output is None:
        sys.stdout.buffer.write(written)
        sys.stdout.buffer.flush()
        return
    handle, beside = tempfile.mkstemp(dir=os.path.dirname(os.path.abspath(output)), prefix='.rtlsyn-')
    try:
        with os.fdopen(handle, 'wb') as out:
            out.write(written)
        os.chmod(beside, 0o644)
        os.replace(beside, output)
    except OSError:
        os.unlink(beside)
        raise


def say(words: str) -> None:
    """A line on standard error."""
    click.echo('rtlsyn cluster: ' + words, err=True)


def tell(figures: Any) -> None:
    """A table of what was done, on standard error."""
    from rich.console import Console
    from rich.table import Table
    table = Table('Figure', 'Value')
    rows = {'modules': figures.modules, 'different modules': figures.distinct, 'found': figures.kept,
            'built': figures.built, 'parts': figures.parts, 'given out again': figures.again,
            'bytes to the workers': figures.bytes_out, 'bytes back': figures.bytes_back}
    for name, value in rows.items():
        table.add_row(name, '%d' % value)
    for name, seconds in figures.seconds.items():
        table.add_row('seconds to ' + name, '%.3f' % seconds)
    Console(stderr=True).print(table)


def synthesise(text: bytes, script: Optional[str], scheduler: Optional[str], workers: int, cache: Optional[str],
               part: Optional[int], patience: float, is_quiet: bool) -> Any:
    """The reply of one run over the text, by the workers of a cluster."""
    from rtlsyn.cluster_run import Synthesis
    from rtlsyn.cluster_store import Folder
    with ExitStack() as stack:
        client = connect(stack, scheduler, workers, patience)
        progress = Progress(stack, is_quiet)
        store = None if cache is None else Folder(os.path.abspath(cache))
        return Synthesis(client, script, store, part, patience, progress.show).run(text)


def reply_to(text: bytes, **given: Any) -> Any:
    """The reply, or the end of this program with words on why there is none. Nothing was written then, and what was kept
    stays kept."""
    try:
        from rtlsyn.cluster_flight import Gone
    except ModuleNotFoundError as missing:
        say('Python has no package %s: apt-get install python3-distributed' % missing.name)
        sys.exit(TROUBLED)
    from rtlsyn.cluster_program import Trouble
    try:
        return synthesise(text, **given)
    except (Gone, OSError, TimeoutError) as why:
        say('%s; what is kept is found by the next run' % (str(why) or 'the scheduler does not answer'))
        sys.exit(UNREACHED)
    except Trouble as why:
        say(str(why))
        sys.exit(TROUBLED)


@click.command()
@click.argument('design', type=click.File('rb'), default='-')
@click.option('-o', '--output', type=click.Path(dir_okay=False), help='The file of the netlist; standard output else.')
@click.option('--script', help='The script; that of the program else.')
@click.option('--scheduler', metavar='ADDRESS', help='A Dask scheduler, as tcp://host:8786, instead of workers here.')
@click.option('--workers', type=click.IntRange(1, 64), default=4, show_default=True,
              help='Worker processes on this machine.')
@click.option('--cache', metavar='DIR', type=click.Path(file_okay=False),
              help='A folder that all machines see, where netlists are kept; the memory of the scheduler else.')
@click.option('--part', type=click.IntRange(min=1), metavar='BYTES', help='The bytes of a part; chosen else.')
@click.option('--patience', type=click.FloatRange(min=0.1), default=30.0, show_default=True, metavar='SECONDS',
              help='How long a scheduler is waited for.')
@click.option('--figures', is_flag=True, help='Says at the end what was done.')
@click.option('--quiet', is_flag=True, help='Shows no progress on a terminal.')
def cluster(design: Any, output: Optional[str], figures: bool, quiet: bool, **given: Any) -> None:
    """Synthesises DESIGN, a text of RTLIL, by many machines: it is cut at its modules, which are built by the workers of a
    Dask cluster. The bytes and the exit status are those of one run of the program."""
    reply = reply_to(design.read(), is_quiet=quiet, **given)
    if reply.figures.unkept:
        say('%d netlists could not be kept' % reply.figures.unkept)
    try:
        write_out(reply.written, output)
    except OSError as why:
        say(str(why))
        sys.exit(WRITE_FAULT)
    if figures:
        tell(reply.figures)
    sys.exit(reply.status)
