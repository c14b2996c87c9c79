"""The cutter of texts, the parts and keys, and the netlists: what needs neither the program nor a cluster."""
import random

import pytest

from cluster_designs import DESIGNS, SYSTEM, RandomDesign, different, hostile
from rtlsyn.cluster_cut import MOST_MODULES, NotCut, cut
from rtlsyn.cluster_netlist import netlists, packed, unpacked
from rtlsyn.cluster_parts import Cutting, part_size
from rtlsyn.cluster_store import Folder, Memory

CHAIN = b'module \\a\n  cell \\b \\u\n  end\nend\nmodule \\b\n  cell \\c \\u\n  end\nend\nmodule \\c\n  wire input 1 \\x\nend\n'


def cutting(text: bytes, script: str = 'proc') -> Cutting:
    """The cutting of a text."""
    return Cutting(cut(text), script, 'program')


@pytest.mark.parametrize('seed', range(60))
def test_random_designs_are_cut_at_each_module(seed: int) -> None:
    made = RandomDesign(seed)
    design = cut(made.text())
    assert {module.name.decode('latin-1') for module in design.modules} == {made._name(at) for at in range(made.count)}


@pytest.mark.parametrize('seed', range(60))
def test_blocks_hold_all_of_a_text_but_blanks_between_them(seed: int) -> None:
    text = hostile(seed)
    try:
        design = cut(text)
    except NotCut:
        return
    at = 0
    for module in design.modules:
        between = text[at:module.start].split(b'\n')
        assert all(line.strip(b' \t\r')[:1] in (b'', b'#') or line.startswith(b'autoidx') for line in between)
        at = module.end
    assert at == len(text) or not design.modules


NOT_CUT = [
    ('a string without its end', b'module \\m\n  attribute \\a "x\n  wire \\w\nend\n'),
    ('a byte that begins no token', b'module \\m\n  wire @ \\w\n  \\ \nend\n'),
    ('a module in another', b'module \\m\nmodule \\n\nend\nend\n'),
    ('an end too few', b'module \\m\n  process $p\n    switch \\a\n    end\nend\n'),
    ('an end too many', b'module \\m\nend\nend\n'),
    ('a name twice', b'module \\m\nend\nmodule \\m\nend\n'),
    ('a loop of two', b'module \\m\n  cell \\n $1\n  end\nend\nmodule \\n\n  cell \\m $1\n  end\nend\n'),
    ('a loop of one', b'module \\m\n  cell \\m $1\n  end\nend\n'),
    ('autoidx late', b'module \\m\nend\nautoidx 3\n'),
    ('autoidx out of range', b'autoidx 2147483648\nmodule \\m\nend\n'),
    ('autoidx without a number', b'autoidx\nmodule \\m\nend\n'),
    ('attributes of nothing', b'module \\m\nend\nattribute \\a 1\n'),
    ('a module without a name', b'module\nend\n'),
    ('too many modules', b''.join(b'module \\m%d\nend\n' % at for at in range(MOST_MODULES + 1))),
]


@pytest.mark.parametrize('text', [text for _, text in NOT_CUT], ids=[name for name, _ in NOT_CUT])
def test_what_is_not_sure_is_not_cut(text: bytes) -> None:
    with pytest.raises(NotCut):
        cut(text)


def test_strings_and_names_hold_what_looks_like_statements() -> None:
    design = cut(b'attribute \\a "\nend\n"\nmodule \\m"\n  attribute \\b "\\"\nend\n"\n  wire \\end\n  # end "\nend')
    assert [module.name for module in design.modules] == [b'\\m"']
    assert design.block(0).endswith(b'end\n')


def test_a_face_has_the_ports_and_what_a_module_is_marked_with() -> None:
    text = (b'attribute \\src "a"\nattribute \\blackbox 1\nmodule \\m\n  wire width 2 input 1 \\a # "\n  wire \\input\n'
            b'  wire \\o1\n  wire output 2\\o\n  cell $not \\n\n  end\nend\n')
    assert cut(text).face(0) == (b'attribute \\blackbox 1\nmodule \\m\nwire width 2 input 1 \\a # "\nwire output 2\\o\nend\n')


def test_keys_have_what_a_netlist_depends_on_and_nothing_else() -> None:
    first, deep = cutting(CHAIN), cutting(CHAIN, 'proc flatten')
    changed = CHAIN.replace(b'\\x\n', b'\\x\n  wire \\inner\n')
    assert cutting(changed).key(1) == first.key(1)
    assert cutting(changed).key(2) != first.key(2)
    assert cutting(changed, 'proc flatten').key(0) != deep.key(0)
    ports = CHAIN.replace(b'input 1', b'input 2')
    assert cutting(ports).key(1) != first.key(1) and cutting(ports).key(0) == first.key(0)
    assert cutting(CHAIN.replace(b'module \\a', b'module \\other')).key(0) == first.key(0)
    assert cutting(CHAIN, 'proc opt').key(0) != first.key(0)
    assert Cutting(cut(CHAIN), 'proc', 'another').key(0) != first.key(0)


@pytest.mark.parametrize('script', ['proc', 'proc flatten opt', 'proc;flatten_keep'])
@pytest.mark.parametrize('seed', range(20))
def test_each_module_is_owned_once_and_has_what_it_needs(seed: int, script: str) -> None:
    cuts = cutting(RandomDesign(seed).text(), script)
    chance = random.Random(seed)
    wanted = [at for at in range(len(cuts.design.modules)) if chance.random() < 0.8]
    parts = list(cuts.parts(wanted, chance.choice([1, 500, 100_000])))
    assert sorted(at for part in parts for at in part.own) == wanted
    for part in parts:
        assert list(part.all) == sorted(set(part.all))
        assert all(child in part.all for at in part.own for child in cuts.needs(at))


def test_parts_have_their_size_and_modules_that_share_stand_together() -> None:
    cuts = cutting(different(200))
    parts = list(cuts.parts(range(200), 10_000))
    assert all(sum(map(len, cuts.pieces(part))) <= 10_600 for part in parts)
    assert sum(len(piece) for part in parts for piece in cuts.pieces(part)) < 1.1 * len(cuts.design.text)
    assert part_size(10_000_000, 4) == 312_500


@pytest.mark.parametrize('file', sorted(DESIGNS.glob('*.out')) + [SYSTEM / 'flat.out'], ids=lambda file: file.name)
def test_netlists_are_cut_and_put_together(file) -> None:
    printed = file.read_bytes()
    found = list(netlists(printed))
    assert b''.join(unpacked(packed(netlist), netlist.name) for netlist in found) == printed
    assert [netlist.name for netlist in found] == [module.name for module in cut(printed).modules]


def test_what_is_no_netlist_is_refused() -> None:
    with pytest.raises(ValueError):
        list(netlists(b'module \\m\n  wire \\w\n'))


def test_a_broken_entry_is_not_taken(tmp_path) -> None:
    folder = Folder(str(tmp_path))
    key, other = 'ab' + '0' * 62, 'ab' + '1' * 62
    assert folder.write(key, b'netlist') and folder.read(key) == b'netlist'
    file = tmp_path / key[:2] / key[2:]
    whole = file.read_bytes()
    for entry in (whole[:-1], whole + b'x', whole.replace(b'netlist', b'natlist'), b'', whole.split(b'\n')[0]):
        file.write_bytes(entry)
        assert folder.read(key) is None, entry
    (tmp_path / other[:2] / other[2:]).write_bytes(whole)
    assert folder.read(other) is None
    assert not [left for left in tmp_path.rglob('.new-*')]


def test_a_folder_that_takes_nothing_is_no_fault(tmp_path) -> None:
    (tmp_path / 'file').write_bytes(b'')
    folder = Folder(str(tmp_path / 'file'))
    assert folder.put({'ab' + '0' * 62: b'netlist'}) == 0
    assert folder.get(['ab' + '0' * 62]) == {}


def test_the_memory_of_a_scheduler_lets_the_oldest_go(monkeypatch) -> None:
    monkeypatch.setattr('rtlsyn.cluster_store.MOST_MEMORY', 10)
    memory = Memory()
    for at in range(5):
        memory.put('key%d' % at, b'1234')
    assert sorted(memory.entries) == ['key3', 'key4'] and memory.bytes == 8
    memory.put('key3', b'12')
    assert memory.bytes == 6
