"""Archives whose bytes follow from their files and one time alone. Files are a dictionary: by path the bytes and the mode."""
import gzip
import io
import os
import tarfile
import time
import zipfile


def folders_of(paths):
    """The folders that paths lie in, each after the one that it lies in."""
    found = set()
    for path in paths:
        while path := os.path.dirname(path):
            found.add(path)
    return sorted(found)


def tar_gz(files, seconds, prefix="", has_folders=True):
    """A tar file, compressed; all belongs to root. Where it has the folders, unpacking sets their modes, also of those that were there."""
    made = io.BytesIO()
    with tarfile.open(fileobj=made, mode="w", format=tarfile.GNU_FORMAT) as tar:
        entries = {path: (None, 0o755) for path in folders_of(files)} if has_folders else {}
        entries.update(files)
        for path, (data, mode) in sorted(entries.items()):
            entry = tarfile.TarInfo(prefix + path)
            entry.mtime, entry.mode, entry.uname, entry.gname = seconds, mode, "root", "root"
            entry.type, entry.size = (tarfile.DIRTYPE, 0) if data is None else (tarfile.REGTYPE, len(data))
            tar.addfile(entry, None if data is None else io.BytesIO(data))
    return gzip.compress(made.getvalue(), 6, mtime=0)


def ar(members, seconds):
    """An ar file of pairs of a name and its bytes."""
    made = b"!<arch>\n"
    for name, data in members:
        made += b"%-16s%-12d%-6d%-6d%-8o%-10d`\n" % (name.encode(), seconds, 0, 0, 0o100644, len(data)) + data + b"\n" * (len(data) % 2)
    return made


def zipped(files, seconds):
    """A zip file."""
    made = io.BytesIO()
    with zipfile.ZipFile(made, "w", zipfile.ZIP_DEFLATED) as file:
        for path, (data, mode) in files.items():
            entry = zipfile.ZipInfo(path, time.gmtime(max(seconds, 315532800))[:6])  # its times begin in 1980
            entry.external_attr, entry.create_system, entry.compress_type = (0o100000 | mode) << 16, 3, zipfile.ZIP_DEFLATED
            file.writestr(entry, data)
    return made.getvalue()
