"""How a log is named: by a path, or by a URL with a scheme, and where the password of a URL stands."""

import os
import re
from typing import Optional
from urllib.parse import parse_qsl, quote, unquote, urlencode, urlsplit

from npss_registry.errors import LogAway, PasswordInName, UnknownScheme

SCHEMES = ("redis", "rediss", "unix", "postgresql", "postgres", "etcd", "etcds")
# The word of a URL that names a file with the password, and the variable of the environment that goes before it.
PASSWORD_FILE, PASSWORD = "password-file", "NPSS_LOG_PASSWORD"
# A file of a password has so many bytes at most.
_MOST = 4096
_ACCOUNT = re.compile(r"(?<=://)(?P<name>[^/?#@:]*):(?P<password>[^/?#@]*)@")


def scheme_of(name: str) -> Optional[str]:
    """The scheme of a log's name; None of a path. UnknownScheme where no log has it."""
    found = re.match(r"([A-Za-z][A-Za-z0-9+.-]*)://", name)
    if found is None:
        return None
    if found[1] not in SCHEMES:
        raise UnknownScheme(name, ", ".join(f"{scheme}://" for scheme in SCHEMES))
    return found[1]


def check_name(name: str) -> None:
    """UnknownScheme or PasswordInName where a log may not be named so."""
    if scheme_of(name) and password_in(name) is not None:
        raise PasswordInName(shown(name))


def located(name: str, folder: str) -> str:
    """The name of a log, whose path, or that of its password's file, counts from a folder where it is a relative one."""
    if not scheme_of(name):
        return os.path.join(folder, name)
    file = words_of(name).get(PASSWORD_FILE)
    return name if file is None or os.path.isabs(file) else with_password_file(name, os.path.join(folder, file))


def shown(name: str) -> str:
    """The name of a log for people, without a password or what else stands before the host."""
    without = re.sub(r"(?<=://)[^/#]*@", "", name)
    return without_words(without, "password") if "password" in words_of(without) else without


def address(url: str) -> str:
    """A URL without what tells who asks."""
    return without_words(shown(url), PASSWORD_FILE)


def words_of(url: str) -> dict[str, str]:
    """The words behind the `?` of a URL, each with its value; of a word that comes twice the last."""
    return dict(parse_qsl(urlsplit(url).query, keep_blank_values=True))


def without_words(url: str, *names: str) -> str:
    """A URL without some of its words."""
    return _with_words(url, {name: value for name, value in words_of(url).items() if name not in names})


def _with_words(url: str, words: dict[str, str]) -> str:
    before, hash, fragment = url.partition("#")
    query = urlencode(words, quote_via=quote, safe="/")
    return before.partition("?")[0] + (f"?{query}" if query else "") + hash + fragment


# ---- passwords


def password_in(url: str) -> Optional[str]:
    """The password that stands in a URL; None where none does."""
    found = _ACCOUNT.search(url)
    return unquote(found["password"]) if found else words_of(url).get("password")


def with_password_file(url: str, file: str) -> str:
    """A URL whose password stands in a file, and not in itself."""
    without = _ACCOUNT.sub(lambda found: f"{found['name']}@" if found["name"] else "", url)
    return _with_words(without, {name: value for name, value in {**words_of(without), PASSWORD_FILE: file}.items() if name != "password"})


def password_of(url: str) -> Optional[str]:
    """The password for a URL: that of the environment, else of its file, else the one in it, as a store of earlier versions has it.

    None where there is none. LogAway where the file can't be read; it is looked at anew for each connection.
    """
    if PASSWORD in os.environ:
        return os.environ[PASSWORD]
    file = words_of(url).get(PASSWORD_FILE)
    if file is None:
        return password_in(url)
    try:
        with open(file, "rb") as opened:
            return opened.read(_MOST).decode().rstrip("\r\n")
    except (OSError, UnicodeDecodeError) as error:
        raise LogAway(f"the log: its password can't be read from {file}: {getattr(error, 'strerror', None) or 'it is no UTF-8'}") from error


def write_password(password: str, path: str, like: str) -> None:
    """Writes a password into a new file that nobody but its owner reads, who is that of another file. OSError where it can't be written."""
    found = os.stat(like)
    file = os.open(path, os.O_WRONLY | os.O_CREAT | os.O_EXCL | os.O_CLOEXEC, 0o600)
    try:
        os.write(file, f"{password}\n".encode())
        os.fsync(file)
        if os.geteuid() == 0:
            os.fchown(file, found.st_uid, found.st_gid)
    finally:
        os.close(file)
