"""The service's unit: the pauses between its restarts."""

import os
import re
import subprocess
import time
import unittest

from cases import FIXTURES, Case

UNIT = FIXTURES.parent / "packaging" / "debian" / "npss-registry.service"


@unittest.skipUnless(UNIT.exists(), "the unit isn't here")
class Pauses(Case):
    """What the unit does before each start. Each is as long as `sleep` was asked for."""

    def setUp(self):
        super().setUp()
        lines = UNIT.read_text(encoding="ascii").replace("\\\n", " ").splitlines()
        commands = [line for line in lines if line.startswith("ExecStartPre=/bin/sh")]
        self.assertEqual(len(commands), 1)
        self.script = re.fullmatch(r"ExecStartPre=/bin/sh -c '(.*)'", commands[0])[1].replace("$$", "$").replace("%%", "%")
        programs = self.folder / "programs"
        programs.mkdir()
        sleep = programs / "sleep"
        sleep.write_text(f"#!/bin/sh\necho \"$1\" >>{self.folder}/slept\n", encoding="ascii")
        sleep.chmod(0o755)
        self.environment = {"PATH": f"{programs}:{os.environ['PATH']}", "RUNTIME_DIRECTORY": str(self.folder)}

    def started(self, count=1):
        """Starts it so many times, and answers the pauses before."""
        for _ in range(count):
            subprocess.run(["/bin/sh", "-c", self.script], env=self.environment, check=True)
        slept = (self.folder / "slept").read_text(encoding="ascii").split()
        (self.folder / "slept").unlink()
        return list(map(int, slept))

    def test_pauses_grow(self):
        self.assertEqual(self.started(10), [0, 1, 2, 4, 8, 16, 32, 60, 60, 60])

    def test_they_begin_anew_behind_a_long_run(self):
        self.assertEqual(self.started(4), [0, 1, 2, 4])
        past = time.time() - 360
        os.utime(self.folder / "pause", (past, past))
        self.assertEqual(self.started(3), [0, 1, 2])

    def test_they_begin_anew_behind_a_stop(self):
        self.assertEqual(self.started(4), [0, 1, 2, 4])
        (self.folder / "pause").unlink()  # systemd removes the folder at a stop, and keeps it at a restart
        self.assertEqual(self.started(2), [0, 1])

    def test_what_keeps_the_pauses(self):
        lines = UNIT.read_text(encoding="ascii").splitlines()
        for line in ("RuntimeDirectoryPreserve=restart", "StartLimitIntervalSec=0", "Restart=on-failure", "RestartSec=1"):
            self.assertIn(line, lines)

    def test_a_damaged_file_keeps_nobody_from_starting(self):
        (self.folder / "pause").write_bytes(b"")
        self.assertEqual(self.started(2), [0, 1])
