"""A Debian in a folder, booted by systemd-nspawn with a network of its own, in which a reader types."""

import os
import re
import shlex
import shutil
import subprocess
import time
from pathlib import Path

from hosts.roots import ENVIRONMENT

# Who types, and where; what the machine calls itself, and the host of the pages' logs, which is this machine too.
READER, HOME, NAME, HOSTS = "reader", "home/reader", "bare", ("localhost", "bare", "log.example")
# Seconds for a boot, for a command, and for the end.
BOOTING, PATIENCE, ENDING = 120, 600, 30
# What a boot wants in the root beside systemd's own package.
PACKAGES = ("systemd-sysv", "sudo")


def why_not():
    """Why nothing can be booted here, or nothing."""
    missing = [name for name in ("systemd-nspawn", "nsenter") if not shutil.which(name)]
    if missing:
        return f"{' and '.join(missing)} not found"
    return "" if os.geteuid() == 0 else "only root may boot one"


class Machine:
    """The Debian of a folder, as it runs. It ends with the block that entered it."""

    def __init__(self, folder, log):
        self.folder, self.log, self.nspawn, self.leader = Path(folder), Path(log), None, None

    def __enter__(self):
        return self

    def __exit__(self, *_):
        self.stop()

    def prepare(self):
        """A reader who may call sudo, and names of hosts."""
        (self.folder / "etc/hostname").write_text(f"{NAME}\n", encoding="ascii")
        (self.folder / "etc/hosts").write_text(f"127.0.0.1 {' '.join(HOSTS)}\n", encoding="ascii")
        (self.folder / "etc/sudoers.d/reader").write_text(f"{READER} ALL=(ALL) NOPASSWD: ALL\n", encoding="ascii")
        subprocess.run(["chroot", self.folder, "useradd", "--create-home", "--shell", "/bin/bash", READER], env=ENVIRONMENT, check=True,
                       stdout=subprocess.DEVNULL, stderr=subprocess.DEVNULL)

    def start(self):
        """Boots; why that can't be, or nothing."""
        words = ["systemd-nspawn", "--quiet", "--boot", f"--directory={self.folder}", "--register=no", "--keep-unit", "--private-network",
                 "--link-journal=no", "--resolv-conf=off", "--timezone=off", "--console=pipe", f"--machine={NAME}"]
        with open(self.log, "wb") as log:
            self.nspawn = subprocess.Popen(words, stdin=subprocess.DEVNULL, stdout=log, stderr=subprocess.STDOUT)
        until = time.monotonic() + BOOTING
        while time.monotonic() < until:
            time.sleep(0.2)
            if self.nspawn.poll() is not None:
                return f"systemd-nspawn ended with status {self.nspawn.returncode}: {' '.join(self.console_text().split())[-300:]}"
            self.leader = self._child()
            if self.leader and self.run("systemctl", "is-system-running")[1].strip() in ("running", "degraded"):
                return ""
        return f"no boot within {BOOTING} seconds: {' '.join(self.console_text().split())[-300:]}"

    def _child(self):
        """The process that is the machine's first, or nothing while there is none."""
        children = Path(f"/proc/{self.nspawn.pid}/task/{self.nspawn.pid}/children").read_text(encoding="ascii").split()
        return children[0] if children else None

    def console_text(self):
        """What the machine's console has."""
        return re.sub(r"\x1b\[[0-9;]*m", "", self.log.read_text(encoding="utf-8", errors="replace"))

    def run(self, *words, given="", folder="/", user=None, patience=PATIENCE):
        """A command in the machine: its status, None where it doesn't end, and what it wrote."""
        line = f"cd {shlex.quote(folder)} && exec {shlex.join(map(str, words))}"
        become = ["setpriv", f"--reuid={user}", f"--regid={user}", "--init-groups"] if user else []
        enter = ["nsenter", f"--target={self.leader}", "--all", *become, "sh", "-c", line]
        environment = {**ENVIRONMENT, "HOME": f"/{HOME}" if user == READER else "/root"}
        try:
            done = subprocess.run(enter, input=given.encode(), stdout=subprocess.PIPE, stderr=subprocess.STDOUT, env=environment,
                                  timeout=patience, check=False)
        except subprocess.TimeoutExpired:
            return None, "no end"
        return done.returncode, done.stdout.decode(errors="replace")

    def types(self, block, folder=f"/{HOME}", given="y\n" * 9):
        """A block of a page, as a reader types it into bash: its status and what it wrote. Questions are answered yes."""
        return self.run("bash", "-e", "-o", "pipefail", "-c", block, folder=folder, user=READER, given=given)

    def stop(self):
        """Ends the machine."""
        if self.nspawn is None:
            return
        self.nspawn.terminate()
        try:
            self.nspawn.wait(ENDING)
        except subprocess.TimeoutExpired:
            self.nspawn.kill()
            self.nspawn.wait()
        self.nspawn = None
