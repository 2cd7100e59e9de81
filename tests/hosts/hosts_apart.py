"""Two hosts on one machine: a network namespace each, with an sshd that has a key of its own."""

import os
import shutil
import socket
import subprocess
import time
from pathlib import Path

# So long an sshd may take to listen.
PATIENCE = 10
# Where the hosts stand: a network that is set apart for tests (RFC 2544).
NETWORK = "198.18.77"
SBIN = "/usr/sbin"


def ip(*words):
    """The command ip; nothing, or what it told where it failed."""
    done = subprocess.run(["ip", *words], stdout=subprocess.PIPE, stderr=subprocess.STDOUT, text=True, check=False)
    return "" if done.returncode == 0 else f"ip {' '.join(words)}: {done.stdout.strip()}"


class Hosts:
    """Both hosts; their files stand in a folder."""

    def __init__(self, room):
        self.room = room
        self.names = [f"npss{os.getpid()}{one}" for one in "ab"]
        self.servers = []

    def addresses(self):
        """For each host its own address, and that of this machine beside it."""
        return [(f"{NETWORK}.{4 * number + 2}", f"{NETWORK}.{4 * number + 1}") for number in range(len(self.names))]

    def logins(self):
        """What --sshlogin takes, behind the number of jobs."""
        return [f"ssh -F {self.room / 'ssh_config'} root@{own}" for own, _ in self.addresses()]

    def log(self, name):
        return self.room / f"{name}.log"

    def served(self):
        """Whether each host let somebody in."""
        return ["Accepted publickey" in self.log(name).read_text(encoding="utf-8") for name in self.names]

    def start(self):
        """Starts both; why that can't be, or nothing."""
        if os.geteuid():
            return "only root may make a network namespace"
        os.environ["PATH"] = f"{os.environ['PATH']}:{SBIN}"
        for key in ("host_key", "key"):
            subprocess.run(["ssh-keygen", "-q", "-t", "ed25519", "-N", "", "-f", self.room / key], check=True)
        (self.room / "ssh_config").write_text(f"Host *\nIdentityFile {self.room / 'key'}\nIdentitiesOnly yes\nLogLevel ERROR\n"
                                              "StrictHostKeyChecking no\nUserKnownHostsFile /dev/null\n", encoding="ascii")
        Path("/run/sshd").mkdir(exist_ok=True)
        why = ""
        for name, (own, ours) in zip(self.names, self.addresses()):
            why = why or self.join(name, own, ours) or self.serve(name, own)
        if why:
            self.close()
        return why

    def join(self, name, own, ours):
        """A namespace and a line to it."""
        outer = f"{name}o"
        for words in (("netns", "add", name), ("link", "add", outer, "type", "veth", "peer", "name", "inner", "netns", name),
                      ("addr", "add", f"{ours}/30", "dev", outer), ("link", "set", outer, "up"),
                      ("-n", name, "addr", "add", f"{own}/30", "dev", "inner"), ("-n", name, "link", "set", "inner", "up")):
            why = ip(*words)
            if why:
                return why
        return ""

    def serve(self, name, own):
        """The sshd of a host."""
        settings = (f"ListenAddress {own}:22", f"HostKey {self.room / 'host_key'}", f"AuthorizedKeysFile {self.room / 'key.pub'}",
                    "StrictModes no", "UsePAM no", "PidFile none", "PermitRootLogin prohibit-password", "MaxStartups 100")
        config = self.room / f"{name}.sshd"
        config.write_text("".join(f"{line}\n" for line in settings), encoding="utf-8")
        words = ["ip", "netns", "exec", name, shutil.which("sshd"), "-D", "-f", config, "-E", self.log(name)]
        self.servers.append(subprocess.Popen(words, stdin=subprocess.DEVNULL, stdout=subprocess.DEVNULL, stderr=subprocess.DEVNULL))
        end = time.monotonic() + PATIENCE
        while time.monotonic() < end:
            try:
                socket.create_connection((own, 22), timeout=1).close()
                return ""
            except OSError:
                time.sleep(0.1)
        return f"no sshd at {own}: {self.log(name).read_text(encoding='utf-8') if self.log(name).exists() else 'it left no log'}"

    def close(self):
        for server in self.servers:
            server.terminate()
            server.wait()
        for name in self.names:
            ip("netns", "delete", name)

    def __enter__(self):
        return self

    def __exit__(self, *_):
        self.close()
