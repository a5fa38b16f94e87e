"""Loads the module of the toolchain's `rt`; the scripts of this folder prove with its parts."""

import importlib.machinery
import importlib.util
import os
import shutil
import subprocess
import sys


def stamp_once(crate_type):
    """Keeps the stamp of each crate, a sum of its sources and of those below it.

    The toolchain makes it again for each path from a crate down to another, which takes minutes in
    all.
    """
    made, kept = crate_type.stamp, {}

    def stamp(crate):
        if crate.folder not in kept:
            kept[crate.folder] = made(crate)
        return kept[crate.folder]

    crate_type.stamp = stamp


def load_kit():
    """Returns the module of the toolchain's `rt`, found through PATH, for a run over sources that stay as they are."""
    if not shutil.which("rt"):
        sys.exit(f"{os.path.basename(sys.argv[0])}: there is no rt in PATH")
    page = subprocess.run(["rt", "doc"], stdout=subprocess.PIPE, text=True, check=True).stdout.strip()
    loader = importlib.machinery.SourceFileLoader("rt_of_the_kit", os.path.join(os.path.dirname(page), "bin", "rt"))
    module = importlib.util.module_from_spec(importlib.util.spec_from_loader(loader.name, loader))
    loader.exec_module(module)
    stamp_once(module.rtlib.Crate)
    os.environ.pop(module.rtlib.ALLOW_C, None)
    # The first call sets a signal's handler, which only the main thread may.
    module.rtlib.guarded()
    return module
