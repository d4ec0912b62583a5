"""Files that a test makes for a while."""
import contextlib
import os
import tempfile


@contextlib.contextmanager
def file_of(text):
    """The path of a file that holds a text, or bytes. Its name has a blank and a letter beyond ASCII."""
    with tempfile.TemporaryDirectory() as folder:
        path = os.path.join(folder, "é p.s")
        with open(path, "wb") as file:
            file.write(text if isinstance(text, bytes) else text.encode())
        yield path
