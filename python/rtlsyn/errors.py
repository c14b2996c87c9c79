"""What can go wrong, as exceptions: each has its words for people as its text.

    Failed            there is no result, and this is why
      Refused         the program answered with an error line
      Ended           the program is gone, or what it wrote is no reply
        TimedOut      the reply did not come in time
"""
from __future__ import annotations

import re
from typing import Optional

# The errors whose first word is a place in a text, unless it is `input`.
IN_TEXT = (1, 2, 3, 4, 5, 6, 17)


class Failed(Exception):
    """There is no result, and this is why."""


class Refused(Failed):
    """The reply is an error line.

    The design and the script are as they were before the command, and so are the kept results, but that error 20 keeps
    those of its command.
    """

    def __init__(self, line: str) -> None:
        super().__init__(line)
        words = line.split(' ')
        #: The error line as the program wrote it, without its LF.
        self.line: str = line
        #: The number after the word `error`.
        self.number: int = int(words[1])
        #: The words after the number.
        self.words: list[str] = words[2:]

    @property
    def place(self) -> Optional[str]:
        """`LINE:COLUMN` in the text of the command, for a fault of a text."""
        is_place = self.number in IN_TEXT and self.words and re.fullmatch('[0-9]+:[0-9]+', self.words[0])
        return self.words[0] if is_place else None

    @property
    def module(self) -> Optional[str]:
        """The name of the module at fault, with its backslash or dollar."""
        named = 7 <= self.number <= 16 or self.number in (18, 20)
        return self.words[0] if named and self.words else None

    @property
    def name(self) -> Optional[str]:
        """What is at fault in the module: a cell, process, memory or wire by its name, or `connect N`."""
        if not 7 <= self.number <= 15 or len(self.words) < 2:
            return None
        return f'connect {self.words[2]}' if self.words[1] == 'connect' and len(self.words) > 2 else self.words[1]

    @property
    def cause(self) -> str:
        """The cause in words."""
        from .causes import cause_of
        return cause_of(self.line).words

    @property
    def hint(self) -> str:
        """The command or the edit that takes the cause away, or nothing."""
        from .causes import cause_of
        return cause_of(self.line).hint


class Ended(Failed):
    """There was no whole reply: the program is gone, or what it wrote is none."""


class TimedOut(Ended):
    """A reply did not come in time. The program was stopped, and the session is over."""
