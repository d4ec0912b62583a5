"""Copies of the crates, in each of which one crate is proved at a time.

`rt` locks a crate and all below it while it works, so that two crates over the same one would wait for each other in one checkout.
"""
import os
import shutil


def link(source, target):
    """Gives a file a second name, or copies it where its file system has no such thing. Times are kept: `rt` looks at them."""
    try:
        os.link(source, target)
    except OSError:
        shutil.copy2(source, target)


class Copy:
    """A copy of the texts of all crates, at first without anything that was made of them."""

    def __init__(self, top, folder):
        self.top, self.folder = top, folder
        shutil.copytree(os.path.join(top, "crates"), os.path.join(folder, "crates"), ignore=shutil.ignore_patterns("out"))
        for name in ("crates.txt", "HANDLES"):
            shutil.copy2(os.path.join(top, name), folder)

    def crate(self, name):
        return os.path.join(self.folder, "crates", name)

    def made(self, name):
        """Where the checkout has what was made of a crate."""
        return os.path.join(self.top, "crates", name, "out")

    def take(self, name, below):
        """Takes what was made of the crates below one that is to be proved, and what an earlier run left of that one."""
        for it in below:
            if not os.path.exists(os.path.join(self.crate(it), "out")):
                shutil.copytree(os.path.join(self.made(it), "rlib"), os.path.join(self.crate(it), "out", "rlib"), copy_function=link)
        if os.path.exists(self.made(name)):
            # Copied, since `rt` writes into it, and without the mark that it is proved.
            shutil.copytree(self.made(name), os.path.join(self.crate(name), "out"), ignore=shutil.ignore_patterns("proved"))

    def give(self, name):
        """Gives the checkout what was made of a crate, as far as it was."""
        made = os.path.join(self.crate(name), "out")
        if os.path.exists(made):
            shutil.rmtree(self.made(name), ignore_errors=True)
            shutil.move(made, self.made(name))
