"""A registry of names whose nodes run on several machines, under unlike Unicode versions.

Each machine has a store and reads one ordered log. What is registered is a function of the log, so all machines that
have read as far register the same. `Registry` is a machine's node; `npss-registry` is its command.
"""

from npss_registry.errors import (Differs, InUse, LogAway, LogBroken, NotOneChain, RegistryError, StoreError)
from npss_registry.registry import Registry, init
from npss_registry.shards import Outcome
from npss_registry.store import Registration, Version

__all__ = ["Differs", "InUse", "LogAway", "LogBroken", "NotOneChain", "Outcome", "Registration", "Registry", "RegistryError",
           "StoreError", "Version", "init"]
