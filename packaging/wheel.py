"""The wheel of the module npss: built, looked at, and packed, the same bytes each time."""

import base64
import hashlib
import os
import re
import shutil
import subprocess
import sys
import sysconfig
import time
import zipfile
from pathlib import Path

ROOT = Path(__file__).resolve().parent.parent
# The oldest Python whose stable interface the module keeps to, and the oldest glibc of the tag that installers know.
PYTHON = (3, 10)
GLIBC = (2, 17)
SUMMARY = "Stabilized Unicode strings: keys that stay the same under each version of Unicode that extends theirs"


class NotPortable(Exception):
    """The module wants what its tag doesn't promise."""


def why_not():
    """Why no module can be built here, or nothing."""
    missing = [name for name in (os.environ.get("CC", "cc"), "nm", "readelf", "strip") if not shutil.which(name)]
    if missing:
        return f"{' and '.join(missing)} not found"
    return "" if Path(sysconfig.get_path("include"), "Python.h").exists() else "Python's headers not found"


def stable_names():
    """The names that Python's headers declare of the stable interface of that Python."""
    limited = f"0x{PYTHON[0]:02X}{PYTHON[1]:02X}0000"
    words = [os.environ.get("CC", "cc"), "-E", "-P", f"-DPy_LIMITED_API={limited}", "-DPY_SSIZE_T_CLEAN", "-I", sysconfig.get_path("include"), "-x", "c", "-"]
    headers = subprocess.run(words, input="#include <Python.h>\n", stdout=subprocess.PIPE, text=True, check=True).stdout
    return set(re.findall(r"\b(_?Py\w+)\b", headers))


def look_at(module):
    """Raises where the module wants a newer glibc, another library, or a name of Python that isn't of the stable interface."""
    listed = subprocess.run(["nm", "-D", "--undefined-only", module], stdout=subprocess.PIPE, text=True, check=True).stdout
    wanted = [line.split()[-1] for line in listed.splitlines()]
    newer = [name for name in wanted for version in re.findall(r"@+GLIBC_([0-9.]+)", name)
             if tuple(map(int, version.split("."))) > GLIBC]
    names = stable_names()
    unstable = [name for name in wanted if re.match(r"_?Py", name) and name not in names]
    others = [name for name in wanted if "@" not in name and not re.match(r"_?Py|_ITM_|__gmon_start__", name)]
    dynamic = subprocess.run(["readelf", "-d", module], stdout=subprocess.PIPE, text=True, check=True).stdout
    libraries = set(re.findall(r"\(NEEDED\).*\[(.*)\]", dynamic)) - {"libc.so.6"}
    for what, found in (("a newer glibc", newer), ("unstable names of Python", unstable), ("names of nobody", others),
                        ("other libraries", sorted(libraries))):
        if found:
            raise NotPortable(f"{module.name} wants {what}: {' '.join(found)}")
    return sum(bool(re.match(r"_?Py", name)) for name in wanted)


def built(prefix, folder):
    """The module's package in a folder, without what a linker leaves for debuggers."""
    flags = "-fstack-protector-strong -Wl,-z,relro,-z,now"
    subprocess.run([sys.executable, ROOT / "bindings" / "python" / "build.py", "--prefix", prefix, folder], check=True,
                   stdout=subprocess.DEVNULL, env={**os.environ, "CFLAGS": flags})
    module = folder / "npss" / "_npss.abi3.so"
    subprocess.run(["strip", "--strip-unneeded", module], check=True)
    return module


def facts_folder(release):
    """The folder beside the module that tells what it is."""
    return f"npss-{release.packed}.dist-info"


def metadata(release):
    """What tells Python of the module, however it is packed."""
    head = (f"Metadata-Version: 2.1\nName: npss\nVersion: {release.packed}\nSummary: {SUMMARY}\n"
            f"Requires-Python: >={PYTHON[0]}.{PYTHON[1]}\nClassifier: Operating System :: POSIX :: Linux\n"
            "Classifier: Typing :: Typed\nDescription-Content-Type: text/markdown\n\n")
    page = (ROOT / "docs" / "INSTALL.md").read_text(encoding="utf-8")
    return head + page


def described(release, tag):
    """The files that tell what the wheel is."""
    wheel = "".join(["Wheel-Version: 1.0\nGenerator: npss\nRoot-Is-Purelib: false\n", f"Tag: {tag}\n"])
    return {"METADATA": metadata(release), "WHEEL": wheel, "top_level.txt": "npss\n"}


def make_wheel(release, prefix, proved, to, room):
    """Makes the wheel in a folder; its path. `room` is a folder that is empty."""
    module = built(prefix, room)
    look_at(module)
    platform = f"manylinux_{GLIBC[0]}_{GLIBC[1]}_{os.uname().machine}"
    tag = f"cp{PYTHON[0]}{PYTHON[1]}-abi3-{platform}"
    folder = facts_folder(release)
    files = {str(path.relative_to(room)): path.read_bytes() for path in sorted((room / "npss").rglob("*")) if path.is_file()}
    files.update({f"{folder}/{name}": text.encode() for name, text in {**described(release, tag), "PROVED": proved}.items()})
    record_lines = "".join(f"{name},sha256={digest(data)},{len(data)}\n" for name, data in files.items())
    files[f"{folder}/RECORD"] = f"{record_lines}{folder}/RECORD,,\n".encode()
    path = to / f"npss-{release.packed}-{tag}.whl"
    when = time.gmtime(release.time)[:6]
    with zipfile.ZipFile(path, "w", zipfile.ZIP_DEFLATED) as packed:
        for name, data in files.items():
            entry = zipfile.ZipInfo(name, when)
            entry.compress_type = zipfile.ZIP_DEFLATED
            entry.external_attr = (0o100755 if name.endswith(".so") else 0o100644) << 16
            packed.writestr(entry, data)
    return path


def digest(data):
    """As a RECORD tells it."""
    return base64.urlsafe_b64encode(hashlib.sha256(data).digest()).rstrip(b"=").decode()
