"""The kit's own module, by which its commands name a crate's libraries, build them and call the prover."""
import importlib.machinery
import os
import subprocess
import sys
import types


def load():
    """Returns the module of the kit that `rt` is of."""
    page = subprocess.run(["rt", "doc"], stdout=subprocess.PIPE, text=True, check=True).stdout.strip()
    made = types.ModuleType("rtlib")
    made.__file__ = f"{os.path.dirname(page)}/bin/rtlib.py"
    sys.modules["rtlib"] = made
    importlib.machinery.SourceFileLoader("rtlib", made.__file__).exec_module(made)
    made.guarded()
    return made
