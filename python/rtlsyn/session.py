"""A client of `rtlsyn --session`: a command goes out, its reply comes in, over two pipes. docs/SESSION.md has the
protocol.

    with Session() as session:
        session.load(text)
        reply = session.print()
        print(reply.counts['built'], reply.body)
"""
from __future__ import annotations

import os
import select
import subprocess
import time
from typing import Iterable, NamedTuple, Optional, Sequence

from . import program
from .errors import Ended, Refused, TimedOut
from .files import BYTES

# The greatest input of a session in bytes, commands and blocks together. A longer one ends with `error 17 input`.
LIMIT = 67_108_864
# How much is written or read at once.
PIECE = 65_536

# Why the program ended, by its exit status.
STATUS = {
    0: 'its input ended',
    1: 'its input ended after an error',
    2: 'the words of its command line have no meaning',
    3: 'its standard input failed',
    4: 'its standard output failed',
    5: 'there was no memory',
    70: 'it could not be built',
}


class Reply(NamedTuple):
    """The numbers after `ok`, as {'built': 1, 'reused': 4, 'bytes': 297}, and what they announce."""
    counts: dict[str, int]
    body: str


class Port(NamedTuple):
    """A port: its name, its direction (`input` or `output`) and its width in bits."""
    name: str
    direction: str
    width: int


def port_of(line: str) -> Port:
    """The port of a line of `ports`."""
    name, direction, width = line.split(' ')
    return Port(name, direction, int(width))


def command_bytes(command: str, block: Optional[str] = None) -> bytes:
    """A command with its block, as it is sent."""
    if block is None:
        return f'{command}\n'.encode(**BYTES)
    if any(line.rstrip('\r') == '.' for line in block.split('\n')):
        raise ValueError('a line of the block is "." alone, which would end it')
    end = '.\n' if block.endswith('\n') or not block else '\n.\n'
    return f'{command}\n{block}{end}'.encode(**BYTES)


def words_of(script: Optional[str] = None, workers: Optional[int] = None) -> list[str]:
    """The words of the command line for a script and a number of threads."""
    words = [] if script is None else ['--script', script]
    return words if workers is None else [*words, '--workers', str(workers)]


class Session:
    """A session with the program, which runs until `close`. As a context manager it closes itself.

    Each command gives its reply, or raises `Refused` where the program answers with an error line (the session goes
    on), `Ended` where the program is gone, and `TimedOut` where the reply did not come in time (the program is then
    stopped).
    """

    def __init__(self, words: Optional[Sequence[str]] = None, *, script: Optional[str] = None,
                 workers: Optional[int] = None, limit: int = LIMIT, timeout: Optional[float] = None) -> None:
        """`words` is the command of the program, where it is not the one that is found; `script` and `workers` are
        those of its command line. `timeout` is the time in seconds for each command that has none of its own."""
        command = [*(program.find() if words is None else words), *words_of(script, workers), '--session']
        #: How many bytes were sent.
        self.sent = 0
        self.limit, self.timeout = limit, timeout
        self._held = b''
        self._until: Optional[float] = None
        try:
            self.program = subprocess.Popen(command, stdin=subprocess.PIPE, stdout=subprocess.PIPE, bufsize=0)
        except OSError as error:
            raise Ended(f'{command[0]} does not start: {error.strerror}') from error
        assert self.program.stdin is not None and self.program.stdout is not None
        self._input, self._output = self.program.stdin, self.program.stdout
        os.set_blocking(self._input.fileno(), False)

    def __enter__(self) -> Session:
        return self

    def __exit__(self, *_: object) -> None:
        self.close()

    # Commands

    def load(self, text: str, timeout: Optional[float] = None) -> int:
        """Makes the text the design, and gives the number of its modules."""
        return self.ask('load', text, timeout).counts['modules']

    def edit(self, text: str, timeout: Optional[float] = None) -> int:
        """Puts each module of the text in the place of the one of its name, or last; gives the number of modules."""
        return self.ask('edit', text, timeout).counts['modules']

    def drop(self, module: str, timeout: Optional[float] = None) -> int:
        """Takes a module away, and gives the number of those that are left."""
        return self.ask(f'drop {module}', timeout=timeout).counts['modules']

    def script(self, text: str, timeout: Optional[float] = None) -> int:
        """Sets the script, and gives the number of its words."""
        return self.ask(f'script {text}', timeout=timeout).counts['script']

    def run(self, timeout: Optional[float] = None) -> dict[str, int]:
        """Builds what is not kept, and gives how many results were `built` and `reused`."""
        return self.ask('run', timeout=timeout).counts

    def print(self, timeout: Optional[float] = None) -> Reply:
        """As `run`; the body of the reply is the netlist."""
        return self.ask('print', timeout=timeout)

    def show(self, module: str, timeout: Optional[float] = None) -> str:
        """The present source of a module."""
        return self.ask(f'show {module}', timeout=timeout).body

    def version(self, timeout: Optional[float] = None) -> str:
        """The name and the version of the program."""
        return self.ask('version', timeout=timeout).body.strip()

    def modules(self, timeout: Optional[float] = None) -> list[str]:
        """The names of the modules of the present design, in its order."""
        return self.ask('modules', timeout=timeout).body.splitlines()

    def ports(self, module: str, timeout: Optional[float] = None) -> list[Port]:
        """The ports of a module of the present design, in the order of their numbers."""
        return [port_of(line) for line in self.ask(f'ports {module}', timeout=timeout).body.splitlines()]

    def sim(self, design: str, module: str, steps: Iterable[str], order: str = 'together',
            timeout: Optional[float] = None) -> list[str]:
        """Runs the steps of a stimulus through a module of the `source` or of the `netlist`, and gives a line of
        outputs for each. Each call starts anew: before the first step all inputs are x, and all that is stored has its
        start value or is x. The order `released` is another order in which the edges of a step act."""
        block = ''.join(f'{line}\n' for line in steps)
        return self.ask(sim_command(design, module, order), block, timeout).body.split('\n')[:-1]

    def ask(self, command: str, block: Optional[str] = None, timeout: Optional[float] = None) -> Reply:
        """The reply to any command. A command is sent whole before its reply is read; since the program answers only
        when it has read a command whole, neither waits for the other."""
        limit = self.timeout if timeout is None else timeout
        self._until = None if limit is None else time.monotonic() + limit
        self._send(command_bytes(command, block))
        return self._reply()

    def has_room(self, commands: Iterable[bytes]) -> bool:
        """Whether these commands, as they are sent, and a `quit` may still come in this session. Where they may not, it
        is time to begin a new one."""
        return self.sent + sum(map(len, commands)) + len(b'quit\n') <= self.limit

    def close(self) -> int:
        """Ends the session, and gives the exit status. That the program is gone already is no fault here."""
        if not self._input.closed:
            try:
                self._input.write(b'quit\n')
                self._input.close()
            except (BrokenPipeError, BlockingIOError):
                self.program.kill()
        if not self._output.closed:
            # To the end: the program writes its last reply before it ends.
            self._output.read()
            self._output.close()
        return self.program.wait()

    # The pipes

    def _left(self) -> Optional[float]:
        """The seconds that are left for this command."""
        return None if self._until is None else max(0.0, self._until - time.monotonic())

    def _stop(self) -> None:
        """The time is over: whatever the program would still write could not be told from later replies."""
        self.program.kill()
        for pipe in (self._input, self._output):
            pipe.close()
        self.program.wait()
        raise TimedOut('the program did not reply in time, and was stopped')

    def _send(self, data: bytes) -> None:
        self.sent += len(data)
        rest = memoryview(data)
        try:
            while rest:
                if not select.select([], [self._input], [], self._left())[1]:
                    self._stop()
                rest = rest[self._input.write(rest[:PIECE]) or 0:]
        except (BrokenPipeError, ValueError):
            # The program reads no more. What it wrote before it ended is still in the other pipe: see `_reply`.
            pass

    def _more(self) -> bytes:
        """What comes next from the program: nothing at the end of its output."""
        if self._output.closed:
            raise Ended('the session is closed')
        if not select.select([self._output], [], [], self._left())[0]:
            self._stop()
        return os.read(self._output.fileno(), PIECE)

    def _reply(self) -> Reply:
        line = self._line()
        words = line.split(' ')
        if words[0] == 'error' and len(words) > 1 and words[1].isdecimal():
            raise Refused(line)
        if words[0] != 'ok' or len(words) % 2 == 0 or not all(number.isdecimal() for number in words[2::2]):
            raise Ended(f'this is no reply: {line[:200]}')
        counts = {name: int(number) for name, number in zip(words[1::2], words[2::2])}
        if 'steps' in counts:
            return Reply(counts, ''.join(f'{self._line()}\n' for _ in range(counts['steps'])))
        return Reply(counts, self._bytes(counts.get('bytes', 0)))

    def _line(self) -> str:
        """The next line. What is held is searched for its end only once."""
        pieces = [self._held]
        while b'\n' not in pieces[-1]:
            pieces.append(self._more())
            if not pieces[-1]:
                self._end()
        line, self._held = b''.join(pieces).split(b'\n', 1)
        return line.decode(**BYTES)

    def _bytes(self, count: int) -> str:
        pieces, there = [self._held], len(self._held)
        while there < count:
            pieces.append(self._more())
            there += len(pieces[-1])
            if not pieces[-1]:
                self._end()
        data = b''.join(pieces)
        self._held = data[count:]
        return data[:count].decode(**BYTES)

    def _end(self) -> None:
        """The pipe of replies ended where a reply, or more of one, was to come."""
        status = self.close()
        raise Ended(f'the program ended with status {status}: {STATUS.get(status, "this is none of its own")}')


def sim_command(design: str, module: str, order: str = 'together') -> str:
    """The command that runs a stimulus: `released` is said, `together` is what is meant without a word."""
    return f'sim {design} {module}' + ('' if order == 'together' else f' {order}')
