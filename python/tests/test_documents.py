"""What README.md, docs/FRONTENDS.md and the scripts of examples show."""
from __future__ import annotations

import os
import re
import shutil
import subprocess
import sys

from conftest import TOP, example

import rtlsyn as package


def page(name: str) -> str:
    """The text of a page of docs."""
    with open(os.path.join(TOP, 'docs', name), encoding='utf-8') as file:
        return file.read()


def test_the_text_of_the_page_is_accepted(program):
    texts = re.findall(r'^```\n((?:attribute|module).*?)^```', page('FRONTENDS.md'), re.M | re.S)
    assert texts
    for text in texts:
        assert package.synth(text).netlist.count('$_DFF_PP0_') == 4


def test_a_reset_starts_as_the_page_says(program):
    found = re.search(r'reset \(low\)(.*)\nclock(.*)\ncount(.*)\n', page('SESSION.md'))
    resets, clocks, counts = (re.split(r'\s{4,}', row.strip()) for row in found.groups())
    with package.Session() as session, open(example('designs', 'counter_async.il'), encoding='utf-8') as file:
        session.load(file.read())
        for reset, clock, count in zip(resets, clocks, counts):
            steps = [f'{c} {r} 1' for c, r in zip(clock.split(), reset.split())]
            outputs = [line.split()[0][-1] for line in session.sim('source', '\\counter_async', steps)]
            assert outputs == count.split()


def test_the_scripts_of_examples(program):
    texts = [example('system', name) for name in ('system.il', 'dropped.il')]
    for words, said in ([['session.py'], "after an edit: {'built': 1, 'reused': 1}"],
                        [['stable.py', *texts], 'gone \\limit']):
        done = subprocess.run([sys.executable, '-B', example(words[0]), *words[1:]], capture_output=True, text=True,
                              check=True)
        assert said in done.stdout


def shown_by_readme() -> list[tuple[str, str]]:
    """The commands of the part "Every day" of README.md, each with a pattern of what it prints: `..` is any text, and a
    line of it alone any lines."""
    with open(os.path.join(TOP, 'README.md'), encoding='utf-8') as file:
        block = re.search(r'^## Every day$.*?^```\n(.*?)^```', file.read(), re.M | re.S)
    commands = []
    for part in re.split(r'^\$ ', block[1], flags=re.M)[1:]:
        command, *lines = part.split('\n')[:-1]
        commands.append((command, ''.join(map(form_of, lines))))
    return commands


def form_of(line: str) -> str:
    """The pattern of a line of what is printed."""
    return r'(.*\n)*' if line.strip() == '..' else f'{re.escape(line)}\n'.replace(r'\.\.', '.*')


def test_the_commands_of_the_readme(program, yosys, tmp_path):
    shutil.copytree(os.path.join(TOP, 'examples'), tmp_path / 'examples')
    (tmp_path / 'rtlsyn').symlink_to(os.path.join(TOP, 'rtlsyn'))
    (watch, watched), *commands = shown_by_readme()
    # The watch would go on; its later lines are those of edits, which .ci/watch makes.
    commands.insert(0, (f'{watch} --once'.replace('cd examples/system; ', ''), watched.split('\n')[0] + '\n'))
    assert len(commands) == 4
    for command, form in commands:
        done = subprocess.run(['bash', '-c', command], cwd=tmp_path / 'examples' / 'system', capture_output=True,
                              text=True, check=False)
        assert re.fullmatch(form, done.stdout), f'{command}:\n{done.stdout}{done.stderr}'
