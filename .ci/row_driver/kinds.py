"""The ways in which a row can be asked of the program. Each gives what is otherwise than the row says, or nothing."""
import re
from typing import Callable, Dict, Iterator, List, Optional, Tuple

from .calls import Answer, call
from .gates import with_gates
from .table import Row

MODULE = re.compile(rb'^[ \t]*module[ \t]+([^\s]+)', re.M)
BYTES = re.compile(rb'ok bytes (\d+)\n')
Fault = Optional[str]


def differs(found: bytes, wanted: bytes) -> str:
    """Where two texts part."""
    ours, theirs = found.split(b'\n'), wanted.split(b'\n')
    at = next((k for k, (one, other) in enumerate(zip(ours, theirs)) if one != other), min(len(ours), len(theirs)))
    return f'line {at + 1} is {ours[at:at + 1]}, and not {theirs[at:at + 1]}'


def counted(row: Row, output: bytes) -> Fault:
    """Whether the output has as many lines with these starts as are told."""
    lines = b'\n' + output
    for number, start in row.counts:
        found = lines.count(b'\n' + start)
        if found != number:
            return f'{found} lines begin with {start!r}, and not {number}'
    return None


def judged(row: Row, answer: Answer) -> Fault:
    """Whether an answer is what the row says."""
    output, status = answer
    wanted_status = row.number('status', 0)
    if row.wanted is not None or not row.counts:
        wanted = row.wanted or b''
        if output != wanted:
            return differs(output, wanted)
    if status != wanted_status:
        return f'the status is {status}, and not {wanted_status}'
    return counted(row, output)


def first_fault(faults: Iterator[Fault]) -> Fault:
    """The first fault, where there is one."""
    return next((fault for fault in faults if fault), None)


def sizes_of(row: Row) -> List[Optional[int]]:
    """The sizes of the pieces in which the input is given; none where it is given whole."""
    return [int(size) for size in row.settings.get('pieces', b'').split()] or [None]


def by_call(row: Row) -> Fault:
    """One call, for each of the further words and each size of pieces, and so many times."""
    words, text = row.words(), row.given()
    return first_fault(judged(row, call(words + further, text, most))
                       for further in row.each or [[]] for most in sizes_of(row)
                       for _ in range(row.number('times', 1)))


def shown_in(reply: bytes, names: List[bytes]) -> Tuple[bytes, bytes]:
    """The sources that a desk shows of the modules of its design, and what is written behind them."""
    head, rest = reply.split(b'\n', 1)
    if head != b'ok modules %d' % len(names):
        raise ValueError(head)
    shown = b''
    for _ in names:
        found = BYTES.match(rest)
        if not found:
            raise ValueError(rest[:80])
        end = found.end() + int(found[1])
        shown, rest = shown + rest[found.end():end], rest[end:]
    return shown, rest


def loaded(text: bytes, names: List[bytes]) -> bytes:
    """The commands that load a text and show its modules."""
    last = b'' if text.endswith(b'\n') or not text else b'\n'
    return b'load\n' + text + last + b'.\n' + b''.join(b'show %s\n' % name for name in names)


def sources_of(texts: List[bytes]) -> List[bytes]:
    """For each text the sources of its modules, as a desk of its own shows them."""
    names = [MODULE.findall(text) for text in texts]
    asked = b''.join(b'desk %d\n%s' % (at, loaded(*one)) for at, one in enumerate(zip(texts, names), 1))
    rest, _ = call([b'--session', b'--desks', b'%d' % len(texts)], asked)
    sources = []
    for at, one in enumerate(names, 1):
        head, rest = rest.split(b'\n', 1)
        if head != b'ok desk %d' % at:
            raise ValueError(head)
        shown, rest = shown_in(rest, one)
        sources.append(shown)
    return sources


def source_fault(row: Row, once: bytes, again: bytes) -> Fault:
    """Whether these are the sources that the row wants, and the same once more."""
    if row.wanted is not None and once != row.wanted:
        return differs(once, row.wanted)
    return None if once == again else 'what is shown is shown otherwise'


def by_sources(rows: List[Row]) -> List[Fault]:
    """For each row the sources of what is loaded, and of what was shown."""
    once = sources_of([row.given() for row in rows])
    return [source_fault(*one) for one in zip(rows, once, sources_of(once))]


def by_source(row: Row) -> Fault:
    """The sources of what is loaded, and of what was shown."""
    try:
        return by_sources([row])[0]
    except ValueError as fault:
        return f'is answered {fault}'


def by_bitwise(row: Row) -> Fault:
    """The netlist with the gates of bitwise cells."""
    netlist, status = call([b'--script', b'proc opt memory opt'], row.given())
    if status:
        return f'is answered {netlist[:80]!r}'
    return judged(row, call([b'--script', b'proc opt'], with_gates(netlist)))


KINDS: Dict[bytes, Callable[[Row], Fault]] = {b'call': by_call, b'source': by_source, b'bitwise': by_bitwise}


def fault_of(row: Row) -> Fault:
    """What is otherwise than the row says, or nothing."""
    return KINDS[row.settings.get('by', b'call')](row)
