"""Which program is run."""

import os
import shutil
from typing import Optional, Union

from .errors import ProgramNotFound

PathLike = Union[str, "os.PathLike[str]"]


def program_path(path: Optional[PathLike] = None) -> str:
    """The path of the program: `path` where one is given, else what the environment variable ELIDE
    names, else `elide` on PATH, else, in a checkout, the wrapper `./elide` beside `python/`.

    Raises ProgramNotFound, which says what was looked for where. A path or an ELIDE that leads to
    no program is such a fault, and nothing further is looked for.
    """
    if path is not None:
        return _named(os.fspath(path), "the path that was given")
    named = os.environ.get("ELIDE")
    if named:
        return _named(named, "the environment variable ELIDE")
    found = shutil.which("elide")
    if found:
        return found
    top = os.path.dirname(os.path.dirname(os.path.dirname(os.path.abspath(__file__))))
    wrapper = os.path.join(top, "elide")
    # What stands there is elide's wrapper in a checkout alone, which has the list of its crates.
    if os.path.isfile(os.path.join(top, "crates.txt")) and shutil.which(wrapper):
        return wrapper
    raise ProgramNotFound(
        "no program elide: no path was given, the environment variable ELIDE is not set, there is"
        f" no `elide` on PATH ({os.environ.get('PATH', '')}), and no checkout at {top}"
    )


def _named(path: str, by: str) -> str:
    found = shutil.which(path)
    if found:
        return found
    raise ProgramNotFound(
        f"no program elide: {by} is {path!r}, which is no program that can be run"
    )
