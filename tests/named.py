"""The program that a script of tests/ is given."""
import os
import sys
from pathlib import Path


def program_at(path):
    """The path of a program that is there, from the root on. Where there is none the script ends, and says so."""
    path = Path(path).resolve()
    if not (path.is_file() and os.access(path, os.X_OK)):
        sys.exit(f"{Path(sys.argv[0]).name}: no such program: {path}; build it with tools/prove-all.py, or pass another path")
    return path
