"""Libraries that are preloaded into the program, and change what single calls of it answer."""
import os
import shutil
import subprocess

from support.program import TOP


def preload(folder, name):
    """Builds tests/support/NAME.c into this folder, and gives the path of the library."""
    if shutil.which("cc") is None:
        raise AssertionError("there is no C compiler: install the Debian package gcc")
    library = os.path.join(folder, name + ".so")
    subprocess.run(["cc", "-O2", "-Wall", "-Werror", "-shared", "-fPIC", "-o", library, os.path.join(TOP, "tests", "support", name + ".c"), "-ldl"], check=True)
    return library
