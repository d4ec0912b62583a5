"""The Python of this repository, as `flake8` sees it, where that is installed."""
import os
import shutil
import subprocess

from support.program import TOP, expect


def python_files():
    """Those that git knows: by their name, or by their first line."""
    listed = subprocess.run(["git", "ls-files"], cwd=TOP, capture_output=True, text=True, check=True).stdout.splitlines()
    for name in listed:
        path = os.path.join(TOP, name)
        if name.endswith(".py"):
            yield name
        elif os.path.isfile(path) and not os.path.splitext(name)[1]:
            with open(path, "rb") as file:
                if b"python3" in file.readline():
                    yield name


def the_python_has_no_lint():
    found = subprocess.run(["flake8", *python_files()], cwd=TOP, capture_output=True, text=True, timeout=300)
    expect((found.stdout, found.stderr), ("", ""), "what flake8 finds")


def checks():
    """Each check with its name."""
    if not shutil.which("flake8"):
        print("flake8 is absent, so the Python is not looked through", flush=True)
        return []
    return [("the python has no lint", the_python_has_no_lint)]
