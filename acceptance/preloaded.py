"""Libraries that are preloaded, so that calls of the program fail: they are compiled by `cc`."""

import os
import subprocess

HERE = os.path.dirname(os.path.abspath(__file__))


def compiled(folder, name):
    """Compiles a file of this folder, and returns the library."""
    library = os.path.join(os.path.abspath(folder), f"{name}.so")
    source = os.path.join(HERE, f"{name}.c")
    subprocess.run(["cc", "-O2", "-Wall", "-shared", "-fPIC", "-o", library, source], check=True)
    return library
