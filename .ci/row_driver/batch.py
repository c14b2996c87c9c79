"""Rows of sessions that one call answers: each is a desk of its own, which answers what a session of it alone would."""
import subprocess
from typing import Iterator, List

from .calls import call
from .kinds import by_sources, fault_of
from .table import Row

DESKS = 16
APART = ('pieces', 'times', 'prefix')


def how(row: Row) -> bytes:
    """The way in which a row is asked."""
    return row.settings.get('by', b'call')


def can_join(row: Row) -> bool:
    """Whether a row is a session that others can stand beside: whole commands, and none that ends the input."""
    if how(row) == b'source':
        return True
    if row.words() != [b'--session'] or how(row) != b'call' or row.each or row.counts:
        return False
    text = b'\n' + (row.input or b'')
    ends = not text.endswith(b'\n') or b'\nquit' in text or b'error 22\n' in (row.wanted or b'')
    return not ends and b'\ndesk' not in text and not any(name in row.settings for name in APART)


def groups(rows: List[Row]) -> Iterator[List[Row]]:
    """The rows in groups: those of a table that can stand beside each other, and each other one alone."""
    held: List[Row] = []
    for row in rows:
        if not can_join(row):
            yield [row]
            continue
        if held and ((held[0].table, how(held[0])) != (row.table, how(row)) or len(held) == DESKS):
            yield held
            held = []
        held.append(row)
    if held:
        yield held


def hold(rows: List[Row]) -> bool:
    """Whether calls with a desk for each row answer what they all want."""
    if how(rows[0]) == b'source':
        return not any(by_sources(rows))
    text = b''.join(b'desk %d\n%s' % (at, row.given()) for at, row in enumerate(rows, 1))
    wanted = b''.join(b'ok desk %d\n%s' % (at, row.wanted or b'') for at, row in enumerate(rows, 1))
    status = 1 if any(row.number('status', 0) for row in rows) else 0
    return call([b'--session', b'--desks', b'%d' % len(rows)], text) == (wanted, status)


def hold_together(rows: List[Row]) -> bool:
    """Whether several rows hold at once; what cannot be read as their replies is none of them."""
    try:
        return len(rows) > 1 and hold(rows)
    except (ValueError, OSError, subprocess.SubprocessError):
        return False


def faults_of(rows: List[Row]) -> List[str]:
    """What is otherwise than each row of a group says, or nothing. Where the call of all differs, each is called alone."""
    if hold_together(rows):
        return [''] * len(rows)
    return [alone(row) for row in rows]


def alone(row: Row) -> str:
    """What is otherwise than a row says, or nothing."""
    try:
        return fault_of(row) or ''
    except Exception as error:  # A row that cannot be run does not hold, whatever the reason.
        return f'{type(error).__name__}: {error}'
