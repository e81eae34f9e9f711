"""A part of this package as a process of its own: python3 start.py MODULE WORD ..

MODULE is one of the package, as `commands.plot`, that has a `main`. Python takes no module from the folder that it is
called in; and the package is the one that this file is of, by whatever Python it is called.
"""

import sys
from importlib import import_module
from pathlib import Path

HERE = Path(__file__).resolve().parent


def words_of(module: str, python: str = sys.executable) -> list[str]:
    """The words that start a module of the package; its own words follow them."""
    return [python, str(HERE / "start.py"), module]


def main(module: str, words: list[str]) -> int:
    """Imports the package, and then no other module from where it lies before those of this Python."""
    others = [it for it in sys.path if Path(it).resolve() != HERE]
    sys.path[:] = [str(HERE.parent), *others]
    import_module(HERE.name)
    sys.path[:] = [*others, str(HERE.parent)]
    sys.argv = [module.rpartition(".")[2].replace("_", "-"), *words]
    status: int = import_module(f"{HERE.name}.{module}").main()
    return status


if __name__ == "__main__":
    sys.exit(main(sys.argv[1], sys.argv[2:]))
