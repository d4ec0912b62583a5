"""A Debian package of the program."""
import gzip
import hashlib

from archives import ar, tar_gz

# The places that differ from those below /usr/local.
PLACES = {"share/zsh/site-functions/_rvdap": "share/zsh/vendor-completions/_rvdap"}

CONTROL = """Package: rvdap
Version: %s
Section: devel
Priority: optional
Architecture: amd64
Depends: libc6 (>= 2.34)
Suggests: python3
Installed-Size: %d
Maintainer: The authors of rvdap <rvdap@users.invalid>
Description: debug adapter for RISC-V assembly programs
 Debugs RV32I assembly on one simulated hart, in an editor that speaks the
 Debug Adapter Protocol, such as Visual Studio Code, Emacs, Kate or Helix.
"""

COPYRIGHT = """rvdap: a debug adapter for RISC-V assembly programs

No licence has been chosen for this program yet. Until its authors choose one,
nobody is given a right to copy, change or pass it on that the law does not
give: ask them first.
"""


def placed(files):
    """The files at their places below /usr, with the man page compressed, as Debian has it."""
    made = {}
    for path, (data, mode) in files.items():
        path = PLACES.get(path, path)
        if path.startswith("share/man/"):
            path, data = path + ".gz", gzip.compress(data, mtime=0)
        made["usr/" + path] = (data, mode)
    made["usr/share/doc/rvdap/copyright"] = (COPYRIGHT.encode(), 0o644)
    return made


def package(files, version, seconds):
    """The package of files that are given by their paths below /usr/local."""
    files = placed(files)
    size = sum((len(data) + 1023) // 1024 for data, _ in files.values())
    sums = "".join("%s  %s\n" % (hashlib.md5(data).hexdigest(), path) for path, (data, _) in sorted(files.items()))
    control = {"control": (CONTROL % (version, size)).encode(), "md5sums": sums.encode()}
    members = [("debian-binary", b"2.0\n"),
               ("control.tar.gz", tar_gz({name: (data, 0o644) for name, data in control.items()}, seconds, "./")),
               ("data.tar.gz", tar_gz(files, seconds, "./"))]
    return ar(members, seconds)
