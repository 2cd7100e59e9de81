#!/usr/bin/env python3
"""bindings/python/build.py [--prefix PREFIX] [FOLDER]: builds the Python module npss into a folder, the site's where none is named.

PREFIX is where ./build-c installed the C library; without it ./build-c is called first. Wanted are a C
compiler and Python's own headers; nothing is fetched. The module serves each CPython from 3.10 on. A build that fails
leaves the folder as it was.
"""

import argparse
import os
import shutil
import subprocess
import sys
import sysconfig
import tempfile
from pathlib import Path

HERE = Path(__file__).resolve().parent
ROOT = HERE.parent.parent


def build(folder, prefix):
    """Compiles the C half with the library in it, and puts the package into the folder."""
    flags = {"darwin": ["-bundle", "-undefined", "dynamic_lookup"]}.get(sys.platform, ["-shared"])
    with tempfile.TemporaryDirectory() as room:
        made = Path(room) / "npss"
        shutil.copytree(HERE / "src" / "npss", made, ignore=shutil.ignore_patterns("__pycache__"))
        subprocess.run([os.environ.get("CC", "cc"), "-O2", "-flto", "-fPIC", *flags, "-fvisibility=hidden",
                        *os.environ.get("CFLAGS", "").split(),
                        "-I", sysconfig.get_path("include"), "-I", str(prefix / "include"),
                        *sorted(map(str, (HERE / "c").glob("*.c"))), str(prefix / "lib" / "libnpss.a"),
                        "-o", str(made / "_npss.abi3.so")], check=True)
        return Path(shutil.copytree(made, folder / "npss", dirs_exist_ok=True))


def main():
    parser = argparse.ArgumentParser(description="Builds the Python module npss.")
    parser.add_argument("--prefix", type=Path, help="where ./build-c installed the C library; else ./build-c is called")
    parser.add_argument("folder", nargs="?", type=Path, default=Path(sysconfig.get_path("platlib")),
                        help="where the package goes; else the site's folder")
    words = parser.parse_args()
    if words.prefix is None:
        subprocess.run([ROOT / "build-c"], check=True)
    try:
        print(build(words.folder, (words.prefix or ROOT / "out" / "c").resolve()))
    except subprocess.CalledProcessError as error:
        sys.exit(f"build.py: the compiler failed with status {error.returncode}; nothing was installed")


if __name__ == "__main__":
    main()
