"""The build back end: setuptools, in pip's own environment too.

pip builds in an environment that does not see the packages of the system, and would fetch setuptools over the network.
Debian has it as a package, so this file looks there and asks pip for nothing more where it is found.
"""
import importlib.util
import os
import shutil
import sys
import tempfile
from contextlib import contextmanager

NEEDED = ('setuptools', 'wheel')


def system_folders():
    """The folders of packages of the Python that the environment was made from."""
    version = f'python{sys.version_info[0]}.{sys.version_info[1]}'
    for base in dict.fromkeys((sys.base_prefix, '/usr')):
        for name in (f'lib/{version}/site-packages', f'local/lib/{version}/dist-packages', 'lib/python3/dist-packages'):
            yield os.path.join(base, name)


def is_here(name):
    """Whether the package can be imported."""
    return importlib.util.find_spec(name) is not None


def missing():
    """The packages that a build needs and that are not there."""
    return [name for name in NEEDED if not is_here(name)]


if missing():
    sys.path += [folder for folder in system_folders() if os.path.isdir(folder) and folder not in sys.path]


def get_requires_for_build_wheel(config_settings=None):
    """What pip has to fetch before it builds: nothing where the system has it."""
    return missing()


get_requires_for_build_sdist = get_requires_for_build_wheel


@contextmanager
def copied():
    """setuptools, at work in a copy of this folder: it leaves files behind, and takes old ones of an earlier build."""
    from setuptools import build_meta
    here = os.getcwd()
    with tempfile.TemporaryDirectory() as room:
        copy = os.path.join(room, 'python')
        shutil.copytree(here, copy, ignore=shutil.ignore_patterns('build', '*.egg-info', '__pycache__'))
        os.chdir(copy)
        try:
            yield build_meta
        finally:
            os.chdir(here)


def build_wheel(wheel_directory, config_settings=None, metadata_directory=None):
    """The wheel, as setuptools makes it."""
    folder = os.path.abspath(wheel_directory)
    with copied() as setuptools:
        return setuptools.build_wheel(folder, config_settings)


def build_sdist(sdist_directory, config_settings=None):
    """The source archive, as setuptools makes it."""
    folder = os.path.abspath(sdist_directory)
    with copied() as setuptools:
        return setuptools.build_sdist(folder, config_settings)
