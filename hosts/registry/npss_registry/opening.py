"""A store that is opened, and a registry over it, whose every failure is told plainly."""

from collections.abc import Iterator
from contextlib import contextmanager
from typing import Optional

from npss import BadTables, Refused

from npss_registry.errors import StoreError
from npss_registry.failures import plainly
from npss_registry.registry import Registry
from npss_registry.store import Store


@contextmanager
def opening(path: str) -> Iterator[None]:
    """Raises StoreAway or StoreError where a store can't be opened, whatever is wrong with what stands in it."""
    with plainly(path):
        try:
            yield
        except Refused as error:
            raise StoreError(f"{path}: an image in the store is refused: {type(error).__name__}: {error}") from error
        except (BadTables, LookupError, TypeError, ValueError) as error:  # what has to stand in it doesn't, or is of another kind
            raise StoreError(f"{path}: the store is damaged: {type(error).__name__}: {error}") from error


def opened(path: str, store: Optional[Store] = None) -> Registry:
    """A registry over the store of a path, or over one that is open."""
    with opening(path):
        return Registry(path, store)
