"""Makes the netlist anew after every edit of the sources, and builds only what the edit changed.

Verilog is read by Yosys (`read_verilog; hierarchy; write_rtlil`). Files that end in .il are RTLIL of any front end,
with one statement a line, and are read as they are. One session with rtlsyn stays open: the first texts go there by
`load`; after an edit the modules whose texts changed go by `edit`, and those that are gone by `drop`; then `print`
builds what is new. `stable` makes the texts, so that a line inserted into one module leaves the others as they are.
"""
from __future__ import annotations

import os
import sys
import time
from dataclasses import dataclass, field
from typing import Optional, Sequence

from . import files
from .changes import Change, changes_between
from .errors import Ended, Failed, Refused
from .explaining import refusal_of
from .places import files_of
from .session import LIMIT, Reply, Session, command_bytes, sim_command
from .stable import Module, NotStatements, modules_of
from .stamps import Stamp, stamps_of, wait_for_change
from .traces import Row, lost_bits, steps_of, table_of
from .yosys import Reading, rtlil_of


@dataclass
class Options:
    """What is watched, and what is made of it."""
    #: Verilog files, or RTLIL files that end in .il.
    sources: Sequence[str]
    #: Where the netlist goes.
    netlist: str = 'netlist.il'
    #: Whether to end after the first netlist or error.
    once: bool = False
    #: The file of a stimulus: a line a step, with a word for each input port.
    simulate: Optional[str] = None
    #: The module to simulate, where it is not the top.
    module: Optional[str] = None
    #: Whether the `src` attributes stay in the texts and the netlist.
    keep_src: bool = False
    #: How Verilog is read.
    reading: Reading = Reading()
    #: Further files to watch.
    also: Sequence[str] = field(default_factory=tuple)
    script: Optional[str] = None
    workers: Optional[int] = None
    #: The command of the program, where it is not the one that is found.
    program: Optional[Sequence[str]] = None
    #: The bytes of a session before which a new one begins.
    limit: int = LIMIT


def follow(options: Options) -> int:
    """Goes from the sources to the netlist after every edit, until it is interrupted, and gives the exit status. With
    `once` that is 0 where a netlist was written, 1 where the design was refused or a file could not be read or written,
    and 3 where rtlsyn ended or did not start."""
    watch = Watch(options)
    try:
        status = watch.turn()
        while not options.once:
            wait_for_change(watch.seen)
            watch.turn()
        return status
    except KeyboardInterrupt:
        return 0
    except BrokenPipeError:
        # Nobody reads the output any more: Python must not try to write the rest of it at exit.
        os.dup2(os.open(os.devnull, os.O_WRONLY), sys.stdout.fileno())
        return 1
    finally:
        watch.close()


def say(text: str) -> None:
    """Prints a line at once, with a question mark for what cannot be shown."""
    encoding = sys.stdout.encoding
    print(text.encode(encoding, 'replace').decode(encoding), flush=True)


def full_name(name: str) -> str:
    """The name of a module with its backslash."""
    return name if name[0] in '\\$' else f'\\{name}'


class Watch:
    """A session, the modules that it has, and what was read last."""

    def __init__(self, options: Options) -> None:
        self.options = options
        self.session: Optional[Session] = None
        self.held: dict[str, Module] = {}
        # Whether the netlist of the held modules is written.
        self.is_written = False
        self.modules: dict[str, Module] = {}
        self.stimulus: list[tuple[int, str]] = []
        # The files that the last turn may have read, as they were before it.
        self.seen: dict[str, Stamp] = {}

    def close(self) -> None:
        """Ends the session."""
        if self.session:
            self.session.close()
        self.session, self.held, self.is_written = None, {}, False

    def turn(self) -> int:
        """Goes from the sources to the netlist, tells what was done, and gives the exit status."""
        before = stamps_of(self.paths())
        status = 0
        try:
            self.make()
        except Ended as end:
            say(f'rtlsyn: {end}')
            self.close()
            status = 3
        except Failed as fault:
            say(str(fault))
            status = 1
        self.seen = {**stamps_of(self.paths()), **before}
        return status

    def paths(self) -> set[str]:
        """The files to look at: those that were given, and those that the modules come from."""
        options = self.options
        paths = {*options.sources, *options.also, *([options.simulate] if options.simulate else [])}
        return paths.union(*(files_of(module.places) for module in self.modules.values()))

    def make(self) -> None:
        """Reads the sources, has the netlist built and written, and runs the stimulus where there is one."""
        begun = time.monotonic()
        self.modules = self.front_end()
        self.stimulus = steps_of(files.read(self.options.simulate)) if self.options.simulate else []
        ready = time.monotonic()
        done = self.build()
        say(f'{done} in {time.monotonic() - ready:.2f} s (front end {ready - begun:.2f} s)')
        if self.options.simulate:
            self.simulate()

    def front_end(self) -> dict[str, Module]:
        """The modules of the sources by their names, with stable texts. What Yosys warns of is shown as it is."""
        try:
            return modules_of(rtlil_of(self.options.sources, self.options.reading, say), self.options.keep_src)
        except NotStatements as fault:
            raise Failed(f'the RTLIL text: {fault}') from fault

    # The session

    def build(self) -> str:
        """Brings the session to the modules, and writes the netlist if it is a new one. Says in words what was done."""
        changes = self.changes_with_room()
        if self.is_written and not changes:
            return 'no module changed'
        for change in changes:
            self.ask(change.command, change.block)
            self.held, self.is_written = change.after, False
        reply = self.ask('print')
        files.write(self.options.netlist, reply.body)
        self.is_written = True
        built = f'built {reply.counts["built"]} reused {reply.counts["reused"]}'
        return ', '.join([*(change.told for change in changes), built])

    def changes_with_room(self) -> list[Change]:
        """The changes to send, in a session that takes them and what comes after them: this one, or a new one."""
        options = self.options
        changes = changes_between(self.held, self.modules)
        if self.session and self.has_room(changes):
            return changes
        if self.session:
            say(f'a new session begins, since {self.session.sent} bytes were sent in this one')
        self.close()
        self.session = Session(options.program, script=options.script, workers=options.workers, limit=options.limit)
        changes = changes_between(self.held, self.modules)
        if not self.has_room(changes):
            raise Failed('the design has more bytes than a session takes')
        return changes

    def held_session(self) -> Session:
        """The session that is open."""
        if self.session is None:
            raise Ended('no session is open')
        return self.session

    def has_room(self, changes: Sequence[Change]) -> bool:
        """Whether the session takes these changes, a `print` and the runs of the stimulus."""
        commands: list[tuple[str, Optional[str]]] = [(change.command, change.block) for change in changes]
        commands.append(('print', None))
        if self.options.simulate:
            commands += [self.simulation('source'), self.simulation('netlist')]
        return self.held_session().has_room([command_bytes(*command) for command in commands])

    def ask(self, command: str, block: Optional[str] = None) -> Reply:
        """The reply of the session. An error line is told with the place in the source that it speaks of."""
        try:
            return self.held_session().ask(command, block)
        except Refused as refused:
            raise Failed(self.explained(refused, block)) from refused

    def explained(self, refused: Refused, block: Optional[str]) -> str:
        """The error line between the place in the stimulus or in the source and the cause."""
        if refused.number == 23:
            line = self.stimulus[int(refused.words[0]) - 1][0]
            return f'{self.options.simulate}:{line}: {refused.line}: {refused.cause}'
        return refusal_of(refused, self.modules, block)

    # Simulation

    def simulation(self, design: str) -> tuple[str, str]:
        """The command that runs the stimulus through the source or the netlist, and its block."""
        name = self.options.module or next((name for name, module in self.modules.items() if module.is_top), None)
        if name is None:
            raise Failed('no module is the top: name one by --module')
        return sim_command(design, full_name(name)), ''.join(f'{line}\n' for _, line in self.stimulus)

    def simulate(self) -> None:
        """Prints what source and netlist give for the stimulus, side by side."""
        source, netlist = (self.ask(*self.simulation(design)).body.split('\n') for design in ('source', 'netlist'))
        rows = [Row(*row) for row in zip((line for _, line in self.stimulus), source, netlist)]
        for line in table_of(rows):
            say(line)
        if lost_bits(rows):
            raise Failed('the netlist does not have a bit that the source knows: that is a fault of rtlsyn')
