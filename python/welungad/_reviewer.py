"""The reviewers' scripts, which share nothing with this package: where they are, and how a page names them."""
import functools
import importlib.util
import os
from types import ModuleType
from typing import Optional, Sequence

from ._library import PACKAGE

# the folder of the package with the scripts after pip; a checkout and an installation have them in the folder tools
FOLDER = "reviewer"


def _folder() -> str:
    own = os.path.join(PACKAGE, FOLDER)
    return own if os.path.isdir(own) else os.path.join(os.path.dirname(os.path.dirname(PACKAGE)), "tools")


def script_path(name: str) -> str:
    """Returns the path of a script. `OSError`: it is not there."""
    path = os.path.join(_folder(), f"{name}.py")
    if not os.path.isfile(path):
        raise OSError(f"{name}.py, which a page needs, is not found: there is no {path}")
    return path


def script_words(name: str, python: Optional[str] = None) -> str:
    """Returns the words of a command line that run a script."""
    is_own = os.path.isdir(os.path.join(PACKAGE, FOLDER))
    return f"{python or 'python3'} " + (f"-m welungad.{FOLDER}.{name}" if is_own else f"tools/{name}.py")


def digests_words(files: Sequence[str]) -> str:
    """Returns a command line that prints the digests of scripts, wherever it is run if they are in the package."""
    if os.path.isdir(os.path.join(PACKAGE, FOLDER)):
        return f"(cd \"$(python3 -c 'import welungad; print(*welungad.__path__)')/{FOLDER}\" && sha256sum {' '.join(files)})"
    return f"sha256sum {' '.join(f'tools/{it}' for it in files)}"


@functools.lru_cache(maxsize=None)
def loaded(name: str) -> ModuleType:
    """Returns a script as a module that nobody else sees."""
    path = script_path(name)
    found = importlib.util.spec_from_file_location(f"{__name__}.{name}", path)
    if found is None or found.loader is None:
        raise OSError(f"{path} cannot be loaded")
    module = importlib.util.module_from_spec(found)
    found.loader.exec_module(module)
    return module
