"""A page of HTML about a design and its netlist, which needs nothing from outside."""
from __future__ import annotations

from dataclasses import dataclass, field
from html import escape
from typing import Iterator, Mapping, Optional, Sequence

from .netlist import Body, instances_in, plain, shown
from .statistics import Module, Statistics

STYLE = """
body { font: 15px/1.5 system-ui, sans-serif; margin: 0 auto; max-width: 1100px; padding: 24px; color: #1f2328; }
h1 { font-size: 26px; margin: 0 0 4px; } h2 { font-size: 19px; margin: 36px 0 8px; border-bottom: 1px solid #d1d9e0; }
p.note { color: #59636e; margin: 4px 0 12px; }
code, td.name, li { font-family: ui-monospace, monospace; font-size: 13px; }
table { border-collapse: collapse; } td, th { padding: 3px 14px 3px 0; text-align: right; vertical-align: top; }
th { font-weight: 600; border-bottom: 1px solid #d1d9e0; }
td.name, th.name { text-align: left; word-break: break-word; }
tr.sum td { border-top: 1px solid #d1d9e0; font-weight: 600; } td.bar { width: 320px; text-align: left; }
td.bar div { background: #54aeff; height: 12px; margin-top: 5px; } ul { padding-left: 20px; margin: 2px 0; }
.scroll { overflow: auto; max-height: 640px; border: 1px solid #d1d9e0; border-radius: 6px; padding: 8px; }
details { margin: 6px 0; } summary { cursor: pointer; } svg { display: block; }
label { font-size: 13px; color: #59636e; } .fit svg { max-width: 100%; max-height: 620px; }
input:checked ~ .fit svg { max-width: none; max-height: none; }
svg .name, svg .value, svg .step { font: 12px ui-monospace, monospace; fill: #1f2328; } svg .name { text-anchor: end; }
svg .value { font-size: 10px; text-anchor: middle; } svg .step { font-size: 10px; text-anchor: middle; fill: #59636e; }
svg .grid { stroke: #eaeef2; } svg .line { fill: none; stroke-width: 1.6; }
svg .box { fill: #f6f8fa; } svg .unknown { fill: #d8dee4; }
"""


@dataclass
class Report:
    """What the page says."""
    title: str
    design: Mapping[str, Body]
    tops: Sequence[str]
    figures: Statistics
    #: What was done, a line each.
    done: list[str] = field(default_factory=list)
    waveform: Optional[str] = None
    waveform_note: str = ''
    #: The schematics of modules by their names.
    schematics: dict[str, str] = field(default_factory=dict)
    schematics_note: str = ''


def page_of(report: Report) -> str:
    """The whole page."""
    parts = [f'<h1>{escape(report.title)}</h1>', *(f'<p class="note">{escape(line)}</p>' for line in report.done),
             '<h2>Hierarchy</h2>', *hierarchy(report.design, report.tops),
             '<h2>Modules</h2>', *modules(report.figures), '<h2>Cells of the hierarchy</h2>', *cells(report.figures),
             *waveform(report), *schematics(report)]
    head = f'<meta charset="utf-8">\n<title>{escape(report.title)}</title>\n<style>{STYLE}</style>'
    body = '\n'.join(parts)
    return f'<!DOCTYPE html>\n<html lang="en">\n<head>\n{head}\n</head>\n<body>\n{body}\n</body>\n</html>\n'


def hierarchy(design: Mapping[str, Body], tops: Sequence[str]) -> Iterator[str]:
    """A tree of instances. A module that stands in another many times is said once, with how often."""
    yield '<ul>'
    for name in tops:
        yield from branch(design, name, escape(shown(name, design[name])))
    yield '</ul>'


def branch(design: Mapping[str, Body], name: str, label: str) -> Iterator[str]:
    """A module of the tree with what is below it."""
    inner: dict[str, list[str]] = {}
    for cell in instances_in(design, name):
        inner.setdefault(cell.type, []).append(plain(cell.name))
    yield f'<li>{label}'
    if inner:
        yield '<ul>'
        for kind, names in inner.items():
            said = ', '.join(names) if len(names) <= 3 else f'{names[0]}, .. ({len(names)} times)'
            yield from branch(design, kind, f'{escape(said)}: {escape(shown(kind, design[kind]))}')
        yield '</ul>'
    yield '</li>'


def modules(figures: Statistics) -> Iterator[str]:
    """The table of the modules."""
    has_area = figures.hierarchy.area is not None
    heads = ['uses', 'cells', 'flip-flops', 'latches', *(['area'] if has_area else []), 'depth']
    yield '<table><tr><th class="name">module</th>' + ''.join(f'<th>{head}</th>' for head in heads)
    yield '<th class="name">longest path</th></tr>'
    for module in figures.modules:
        yield row_of(module, has_area, '')
    yield row_of(figures.hierarchy, has_area, ' class="sum"')
    yield '</table>'


def row_of(module: Module, has_area: bool, kind: str) -> str:
    """A row of that table."""
    numbers = [module.uses, sum(module.cells.values()), module.flip_flops, module.latches,
               *([f'{module.area or 0:g}'] if has_area else []), module.path.depth]
    path = f'{module.path.start} → {module.path.end}' if module.path.depth else ''
    return f'<tr{kind}><td class="name">{escape(module.name)}</td>' + ''.join(f'<td>{it}</td>' for it in numbers) + \
           f'<td class="name">{escape(path)}</td></tr>'


def cells(figures: Statistics) -> Iterator[str]:
    """The cells of the hierarchy by their types, with bars."""
    counts = sorted(figures.hierarchy.cells.items(), key=lambda it: (-it[1], it[0]))
    if not counts:
        yield '<p class="note">The netlist has no cells.</p>'
        return
    yield '<table>'
    for name, count in counts:
        share = 100 * count / counts[0][1]
        yield f'<tr><td class="name">{escape(name)}</td><td>{count}</td>' \
              f'<td class="bar"><div style="width:{share:.1f}%"></div></td></tr>'
    yield '</table>'


def waveform(report: Report) -> Iterator[str]:
    """The waveform with what it shows."""
    yield f'<h2>Simulation</h2><p class="note">{escape(report.waveform_note)}</p>'
    if report.waveform:
        yield f'<div class="scroll">{report.waveform}</div>'


def schematics(report: Report) -> Iterator[str]:
    """The schematics, the first of them open. Each is seen whole, or with a tick in its full size."""
    yield f'<h2>Schematics</h2><p class="note">{escape(report.schematics_note)}</p>'
    for number, (name, drawing) in enumerate(report.schematics.items()):
        is_open = ' open' if number == 0 else ''
        yield f'<details{is_open}><summary><code>{escape(name)}</code></summary>'
        yield f'<input type="checkbox" id="full{number}"><label for="full{number}"> full size</label>'
        yield f'<div class="scroll fit">{drawing}</div></details>'
