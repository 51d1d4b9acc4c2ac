"""The toolchain's rt as a module, whose own functions the scripts beside this file use."""

import importlib.machinery
import importlib.util
import os
import shutil
import types


def load_rt() -> types.ModuleType:
    """Returns the toolchain's rt."""
    loader = importlib.machinery.SourceFileLoader("rt", os.path.realpath(shutil.which("rt")))
    made = importlib.util.module_from_spec(importlib.util.spec_from_loader("rt", loader))
    loader.exec_module(made)
    return made
