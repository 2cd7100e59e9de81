"""The library for C with its branches counted, so that libFuzzer is led by them.

The toolchain compiles one LLVM module by the clang of its folder. A folder that has another clang in its place, which passes
the flags of SanitizerCoverage on, makes the same archive with counters in it. The library is proved for it once more, in a
copy of the tree: some six minutes.
"""

import importlib.machinery
import importlib.util
import os
import shutil
import subprocess

from harness import ROOT

COUNTERS = "-fsanitize-coverage=inline-8bit-counters,pc-table,trace-cmp"


def kit_folder():
    """Where ./prove finds the toolchain."""
    loader = importlib.machinery.SourceFileLoader("prove", str(ROOT / "prove"))
    prove = importlib.util.module_from_spec(importlib.util.spec_from_loader("prove", loader))
    loader.exec_module(prove)
    return prove.Kit().folder


def toolchain_below(folder, kit):
    """The kit's toolchain, whose clang counts branches. What links and what makes archives is the kit's own."""
    made = folder / "toolchain"
    (made / "bin").mkdir(parents=True)
    (made / "lib").symlink_to(kit / "toolchain" / "lib")
    for tool in (kit / "toolchain" / "bin").iterdir():
        if tool.name != "clang":
            (made / "bin" / tool.name).symlink_to(tool.resolve())
    clang = made / "bin" / "clang"
    clang.write_text(f'#!/bin/sh\nexec {kit}/toolchain/bin/clang "$@" {COUNTERS}\n', encoding="ascii")
    clang.chmod(0o755)
    return made


def tree_below(folder):
    """A copy of what is proved for the library, with all below it as proved as it is here."""
    subprocess.run([ROOT / "prove", "np_c"], check=True)
    tree = folder / "tree"
    for part in ("src", "specs", "proofs"):
        for found in sorted(ROOT.glob(f"crates/*/{part}")):
            shutil.copytree(found, tree / found.relative_to(ROOT))
    for name in ("prove", "crates.txt"):
        shutil.copy2(ROOT / name, tree)
    # A stamp is as old as the sources at most, and the copies are new.
    shutil.copytree(ROOT / "out" / "proved", tree / "out" / "proved", copy_function=shutil.copy, ignore=shutil.ignore_patterns("np_c.*", "lock"))
    for stamp in (tree / "out" / "proved").glob("*.stamp"):
        stamp.touch()
    return tree


def library_below(folder):
    """A prefix that has the header and the archive."""
    kit = kit_folder()
    tree = tree_below(folder)
    environment = {**os.environ, "NPSS_TOOLCHAIN": str(toolchain_below(folder, kit))}
    subprocess.run([tree / "prove", "np_c"], env=environment, check=True)
    prefix = folder / "prefix"
    (prefix / "lib").mkdir(parents=True)
    shutil.copytree(ROOT / "include", prefix / "include")
    script = f"create libnpss.a\naddlib {tree}/crates/np_c/out/libnp_c.a\naddlib {kit}/c/liblibc_c.a\nsave\nend\n"
    subprocess.run(["ar", "-M"], input=script, text=True, cwd=prefix / "lib", check=True)
    return prefix
