"""The tarball: what ./build-c installs, and the pages and examples, in a folder that may stand anywhere."""

import gzip
import io
import os
import tarfile
from pathlib import Path

from documents import completions, documents


def contents(prefix, proved):
    """What the tarball has: a name, and bytes, a path to be read, or a link's aim."""
    for folder in ("bin", "include", "lib", "share/man"):
        for path in sorted((prefix / folder).rglob("*")):
            if path.is_symlink() or path.is_file():
                yield str(path.relative_to(prefix)), path
    for name, path in completions().items():
        yield f"share/{name}", path
    for name, path in documents().items():
        yield f"share/doc/npss/{name}", path
    yield "PROVED", proved.encode()


def entry(name, what, release):
    """The head of a file in the archive, and its bytes: nobody's, and as old as the commit."""
    head = tarfile.TarInfo(f"npss-{release.packed}/{name}")
    head.mtime = release.time
    head.uname = head.gname = "root"
    if isinstance(what, Path) and what.is_symlink():
        head.type, head.linkname = tarfile.SYMTYPE, os.readlink(what)
        return head, b""
    data = what if isinstance(what, bytes) else what.read_bytes()
    head.size = len(data)
    head.mode = 0o755 if name.startswith("bin/") or ".so" in name or "/examples/" in name and os.access(what, os.X_OK) else 0o644
    return head, data


def make_tarball(release, prefix, proved, to):
    """Makes the tarball in a folder; its path."""
    path = to / f"npss-{release.packed}-linux-{os.uname().machine}.tar.gz"
    whole = io.BytesIO()
    with tarfile.open(fileobj=whole, mode="w", format=tarfile.USTAR_FORMAT) as packed:
        for name, what in contents(prefix, proved):
            head, data = entry(name, what, release)
            packed.addfile(head, io.BytesIO(data))
    path.write_bytes(gzip.compress(whole.getvalue(), 9, mtime=release.time))
    return path
