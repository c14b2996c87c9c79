"""The commands by which a session comes from one design to another."""
from __future__ import annotations

from typing import Mapping, NamedTuple, Optional

from .stable import Module
from .tables import counted


class Change(NamedTuple):
    """A command that changes the design of the session: what it does, in words; the command and its block; and the
    modules that the session has after it."""
    told: str
    command: str
    block: Optional[str]
    after: dict[str, Module]


def changes_between(held: Mapping[str, Module], modules: Mapping[str, Module]) -> list[Change]:
    """The commands by which a session that has the modules `held` comes to have `modules`."""
    if not held:
        told = f'loaded {counted(len(modules), "module")}'
        return [Change(told, 'load', text_of(modules), dict(modules))]
    changes, after = [], dict(held)
    edited = {name: it for name, it in modules.items() if name not in held or held[name].text != it.text}
    if edited:
        after.update(edited)
        told = ' '.join(edited) if len(edited) <= 8 else f'{len(edited)} modules'
        changes.append(Change(f'edited {told}', 'edit', text_of(edited), dict(after)))
    for name in in_drop_order({name: it for name, it in held.items() if name not in modules}):
        del after[name]
        changes.append(Change(f'dropped {name}', f'drop {name}', None, dict(after)))
    return changes


def text_of(modules: Mapping[str, Module]) -> str:
    """The text of the modules, in their order."""
    return ''.join(module.text for module in modules.values())


def in_drop_order(gone: Mapping[str, Module]) -> list[str]:
    """The names of the modules, each before those that it has instances of: as long as an instance is there, its module
    cannot be dropped."""
    order, left = [], dict(gone)
    while left:
        used = set().union(*(module.types for module in left.values()))
        free = [name for name in left if name not in used] or list(left)
        order += free
        left = {name: module for name, module in left.items() if name not in free}
    return order
