"""The blocks of the guide of the registry that tell what they print, typed as they stand."""

import os
import re
import shutil
import subprocess
import sys
import unittest
from pathlib import Path

from cases import FIXTURES, PROGRAM, Case

PAGE = FIXTURES.resolve().parent / "docs" / "REGISTRY.md"
BLOCK = re.compile(r"^```(sh|console)\n(.*?)^```$", re.MULTILINE | re.DOTALL)
LINE = re.compile(r"^\$ (.*)\n((?:(?!\$ ).*\n)*)", re.MULTILINE)


@unittest.skipUnless(PAGE.exists() and Path("/usr/share/unicode/UnicodeData.txt").exists() and shutil.which("bash"),
                     "the page, Debian's unicode-data or bash is not here")
class Page(Case):
    """What a reader types and sees."""

    def setUp(self):
        super().setUp()
        commands = self.folder / "bin"
        commands.mkdir()
        self.put(commands / "npss-registry", sys.executable, "-m", "npss_registry")
        for name in ("npss", "npss_lines", "npss_caseless"):
            self.put(commands / name, Path(PROGRAM).with_name(name).resolve())
        self.environment = {**os.environ, "PATH": f"{commands}:{os.environ['PATH']}", "LC_ALL": "C.UTF-8"}

    @staticmethod
    def put(path, *words):
        path.write_text(f"#!/bin/sh\nexec {' '.join(map(str, words))} \"$@\"\n", encoding="ascii")
        path.chmod(0o755)

    def typed(self, text):
        ran = subprocess.run(["bash", "-ec", text], cwd=self.folder, env=self.environment, stdin=subprocess.DEVNULL, stdout=subprocess.PIPE,
                             stderr=subprocess.STDOUT, text=True, check=False)
        return ran.returncode, ran.stdout

    def test_what_the_page_tells_is_printed(self):
        found = BLOCK.findall(PAGE.read_text(encoding="utf-8"))
        one = next(text for language, text in found if language == "sh")
        self.assertIn("init store", one)
        self.assertEqual(self.typed(one)[0], 0)
        lines = [line for language, text in found if language == "console" for line in LINE.findall(text)]
        self.assertGreater(len(lines), 8)
        for command, wanted in lines:
            self.assertEqual(self.typed(command), (0, wanted), command)
