"""Commands, units and packages of the companions, each found by its name: a companion has a folder of its own."""
import pathlib

from kit.commands import TOP

FOLDERS = ("companions", "companions/*", "companions/*/*", "deploy/*")


def all_of(name: str) -> list[pathlib.Path]:
    """Lists what is called so in the folders of the companions."""
    return [path for folder in FOLDERS for path in TOP.glob(f"{folder}/{name}")]


def companion(name: str) -> pathlib.Path:
    """Returns the path of a command, a unit or an example of settings, of which the repository has one."""
    paths = [path for path in all_of(name) if path.is_file()]
    assert len(paths) == 1, (name, paths)
    return paths[0]


def package(name: str) -> pathlib.Path:
    """Returns the folder of a package of Python, of which the repository has one."""
    paths = [path for path in all_of(name) if path.is_dir()]
    assert len(paths) == 1, (name, paths)
    return paths[0]
