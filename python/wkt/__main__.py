"""The command `wkt`: the proved program that the package carries, or that of a clone or of the system."""
import os
import shutil
import sys
from typing import List, NoReturn, Optional


def program() -> Optional[str]:
    """Where the proved program is."""
    here = os.path.dirname(os.path.abspath(__file__))
    clone = os.path.join(here, os.pardir, os.pardir)
    built = [
        os.path.join(clone, "dist", "out", "wkt"),
        os.path.join(clone, "crates", "wkt_command", "out", "wkt_command"),
    ]
    for path in [os.path.join(here, "_command"), *built]:
        if os.access(path, os.X_OK):
            return path
    return shutil.which("wkt")


def main(words: List[str]) -> NoReturn:
    path = program()
    if path is None:
        sys.exit("wkt: this package is without the program wkt: make -C dist in a clone of wkt makes it")
    os.execv(path, ["wkt", *words])


if __name__ == "__main__":
    main(sys.argv[1:])
