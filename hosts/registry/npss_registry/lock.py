"""The lock of a store: one process at a time works on its file, by whichever name.

The store's own file is left alone: to close it once more would end the locks that SQLite has on it for other connections of
this process, and then another process takes itself for the last one, and removes what it hasn't written back yet.
"""

import fcntl
import os

from npss_registry.errors import InUse, StoreError


class Lock:
    """Holds the file PATH-lock beside a store, which tells the last opening. InUse where another one does.

    `path` has no symbolic links. StoreError where the store's file has another name besides.
    """

    def __init__(self, path: str):
        found = os.stat(path)
        if found.st_nlink > 1:
            raise StoreError(f"{path}: the file has another name besides, by which SQLite can't keep it whole; remove one of both")
        # The number by which the disk knows the file.
        self.inode = found.st_ino
        self._lock = _locked(f"{path}-lock", path)

    @property
    def mark(self) -> str:
        """What was told of the last opening."""
        return os.pread(self._lock, 100, 0).decode()

    def tell(self, mark: str) -> None:
        """Tells of an opening."""
        os.ftruncate(self._lock, 0)
        os.pwrite(self._lock, mark.encode(), 0)
        os.fsync(self._lock)

    def release(self) -> None:
        """Lets the store go, once SQLite has closed it."""
        os.close(self._lock)


def file_of(path: str) -> str:
    """The file of a store, without symbolic links. StoreError where there is none, or who asks may not look."""
    file = os.path.realpath(path)
    try:
        os.stat(file)
    except (FileNotFoundError, NotADirectoryError) as error:
        raise StoreError(f"{path}: there is no store; make one with `npss-registry init`") from error
    except OSError as error:
        raise StoreError(f"{path}: {error.strerror.lower()}") from error
    if not os.path.isfile(file):
        raise StoreError(f"{path}: it is no file")
    return file


def _locked(path: str, store: str) -> int:
    try:
        lock = os.open(path, os.O_RDWR | os.O_CREAT | os.O_CLOEXEC, 0o600)
    except OSError as error:
        raise StoreError(f"{path}: {error.strerror}") from error
    try:
        fcntl.flock(lock, fcntl.LOCK_EX | fcntl.LOCK_NB)
    except OSError as error:
        os.close(lock)
        raise InUse(store) from error
    return lock
