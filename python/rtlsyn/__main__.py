"""The command `rtlsyn`: commands of this package by their names; all other words go to the proved program."""
from __future__ import annotations

import os
import sys
from importlib.util import find_spec
from typing import NoReturn, Optional, Sequence

#: The packages that the commands take.
NEEDED = ('click', 'rich')
#: The system's Python, and what says that this is the second try.
SYSTEM, MARK = '/usr/bin/python3', 'RTLSYN_SECOND_PYTHON'


def main(words: Optional[Sequence[str]] = None) -> NoReturn:
    """Does what the words say, and ends with the exit status."""
    given = list(sys.argv[1:] if words is None else words)
    if given and (given[0] in ('help', '-h') or is_command(given[0])):
        sys.exit(by_click(given))
    sys.exit(hand_on(given))


def by_click(words: Sequence[str]) -> int:
    """Does what the words say. Where this Python lacks a package, the system's may have it: that goes on."""
    missing = missing_for(words[0])
    if missing and os.path.exists(SYSTEM) and MARK not in os.environ:
        folder = os.path.dirname(os.path.dirname(os.path.abspath(__file__)))
        paths = filter(None, [folder, os.environ.get('PYTHONPATH')])
        environment = {**os.environ, MARK: '1', 'PYTHONPATH': os.pathsep.join(paths)}
        os.execve(SYSTEM, [SYSTEM, '-m', 'rtlsyn', *words], environment)
    if missing in NEEDED:
        print(f'rtlsyn: Python has no package {missing}: apt-get install python3-click python3-rich', file=sys.stderr)
        return 70
    from .cli import run
    return run(words)


def missing_for(command: str) -> Optional[str]:
    """The first package that the command takes and this Python does not have."""
    packages = (*NEEDED, 'distributed') if command == 'cluster' else NEEDED
    return next((name for name in packages if find_spec(name) is None), None)


def is_command(word: str) -> bool:
    """Whether the word is a command of this package."""
    from .commands import path_of
    return path_of(word) is not None


def hand_on(words: Sequence[str]) -> int:
    """Becomes the proved program, with these words. Where there is none, says so."""
    from .errors import Failed
    from .program import find
    try:
        command = [*find(), *words]
        os.execvp(command[0], command)
    except (Failed, OSError) as fault:
        print(f'rtlsyn: {fault}', file=sys.stderr)
    return 70


if __name__ == '__main__':
    main()
