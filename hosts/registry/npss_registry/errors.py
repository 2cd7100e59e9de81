"""What goes wrong, with a sentence for each."""

from npss import Break, Refused


class RegistryError(Exception):
    """Something was not done. Nothing was registered by it, but perhaps where the log is away."""


class StoreError(RegistryError):
    """A store can't be used as it is."""


class InUse(StoreError):
    """Another process works on the store."""

    def __init__(self, path: str):
        super().__init__(f"{path}: another process works on this store; ask it, or stop it first")


class NoLog(StoreError):
    """No log stands where one was named. `init` and `relog` alone make one."""

    def __init__(self, name: str):
        super().__init__(f"no log at {name}")


class UnknownScheme(StoreError):
    """A log was named by a scheme that no log has."""

    def __init__(self, name: str, schemes: str):
        super().__init__(f"{name}: no log has this scheme; one of {schemes}, or a path")


class PasswordInName(StoreError):
    """A log was named with its password, which a store doesn't keep."""

    def __init__(self, name: str):
        super().__init__(f"{name}: a password doesn't stand in a log's name; put it into a file, and name that by ?password-file=FILE, "
                         "or into the environment as NPSS_LOG_PASSWORD")


class LogUnsafe(StoreError):
    """The server of a log is set so that it may lose what it answered."""


class Differs(StoreError):
    """A store and its log were set up unlike one another."""


class NotOneChain(StoreError):
    """A version is on no chain with those that the store has."""

    def __init__(self, first: Break):
        super().__init__(f"the versions are not one chain: {first.kind} {first.code:04X}")
        self.first = first


class LogAway(RegistryError):
    """The log can't be reached. Whether a record was written isn't known: ask again with the same owner."""


class LogReadOnly(LogAway):
    """The log may be read and not written, so nothing was written."""


class LogBroken(RegistryError):
    """The log is not what nodes wrote. The node stops."""

    def __init__(self, place: int, why: str):
        super().__init__(f"the log at place {place}: {why}")
        self.place = place


class LogEnded(LogBroken):
    """The registry goes on in another log. The node stops, and what it wrote behind the end is registered nowhere."""

    def __init__(self, place: int, log: str):
        super().__init__(place, f"it ends here, the registry goes on in {log}; `npss-registry relog STORE --log LOG` brings a store over")
        self.log = log


class LogTrimmed(LogBroken):
    """The log begins behind the place up to which a store has read it. The node stops; nothing of the registry is lost."""

    def __init__(self, place: int, first: int):
        super().__init__(place, f"what stood behind it was trimmed, since the log begins at place {first} now; "
                         "put the store away, and make it anew by `npss-registry init`")
        self.first = first


class NameTooLong(Refused):
    """A name has more bytes than the registry allows.

    most: how many it allows
    """

    def __init__(self, most: int):
        super().__init__(most)
        self.most = most

    def __str__(self) -> str:
        return f"the name has more than {self.most:,} bytes, which is the most that this registry allows"


class NotTried(RegistryError):
    """The log or the store is known to be away, so nothing was written."""


class StoreAway(RegistryError):
    """The store can't be read or written just now, as on a full disk. It can be used once that is over."""


class NoProgram(RegistryError):
    """A program that the judge wants can't be run, as where it is missing."""


class CannotServe(RegistryError):
    """What a server wants is missing: a port, a file of tokens, a module."""
