"""The registry's package in a root without systemd: the command, and the line of its service."""

import re
import shutil
import socket
from pathlib import Path

from harness import output_of
from hosts.roots import COMPATIBLE, FILES, FOLDING, KEY, TEXT

# The service of the registry, what it works with where systemd doesn't start it, and the most exposure by systemd's own measure.
UNIT, STATE, SECRETS, TOKEN, EXPOSURE = "lib/systemd/system/npss-registry.service", "tmp/state", "tmp/secrets", "0123456789abcdef", 20
SERVED = f"""
import json, subprocess, sys, time, urllib.error, urllib.request
line, port = sys.argv[1:]

def asked(path, body=None):
    data = None if body is None else json.dumps(body).encode()
    request = urllib.request.Request(f"http://127.0.0.1:{{port}}{{path}}", data, {{"Authorization": "Bearer {TOKEN}"}})
    try:
        return urllib.request.urlopen(request, timeout=10).status
    except urllib.error.HTTPError as error:
        return error.code

server = subprocess.Popen(["sh", "-c", f"exec {{line}}"], stderr=subprocess.PIPE, text=True)
print(server.stderr.readline().strip())
for _ in range(200):
    try:
        print(asked("/status"), asked("/claim", {{"name": {TEXT!r}, "owner": "17"}}), asked("/find", {{"name": {KEY!r}}}))
        break
    except urllib.error.URLError:
        time.sleep(0.1)
server.terminate()
print(server.wait())
"""


def check_registry(tally, root):
    """A registry over the package for Python, with the program as its judge; and a caseless one, with all three."""
    for words, wanted in ((["init", "/tmp/store", *FILES, "--form", "nfkc"], "form nfkc, room 65536, shards 1, equivalents refused, names of at most 1024 bytes\n"),
                          (["claim", "/tmp/store", TEXT, "--owner", "17"], None), (["find", "/tmp/store", COMPATIBLE], None),
                          (["check", "/tmp/store"], None),
                          (["init", "--caseless", "/tmp/people", *FILES, FOLDING],
                           "form nfc, caseless, room 65536, shards 1, equivalents refused, names of at most 1024 bytes\n"),
                          (["claim", "/tmp/people", "STRASSE", "--owner", "17"], "registered 'STRASSE' of '17' at place 2\n"),
                          (["find", "/tmp/people", "stra\u00dfe"], "2\t'STRASSE'\t17\n"), (["check", "/tmp/people"], None)):
        status, written = root.run("npss-registry", *words)
        tally.check(f"npss-registry {words[0]}", status == 0 and (wanted is None or written == wanted), f"status {status}: {written}")


def check_service(tally, root, room):
    """The registry's service is off until somebody starts it, and its line serves a store, to this machine alone."""
    text = (root.folder / UNIT).read_text(encoding="utf-8")
    started = [place for place in root.listed() if place.startswith("etc/") and place.endswith(Path(UNIT).name)]
    tally.same("the service is off", started, [])
    with socket.socket() as free:
        free.bind(("127.0.0.1", 0))
        port = free.getsockname()[1]
    # As systemd does it: the store is the service's own, and the token is lent to it.
    for folder in (STATE, SECRETS):
        (root.folder / folder).mkdir()
    status, written = root.run("npss-registry", "init", f"/{STATE}/store", *FILES)
    tally.check("a store for the service", status == 0, written)
    (root.folder / SECRETS / "token").write_text(f"{TOKEN}\n", encoding="ascii")
    root.run("chown", "-R", "nobody", f"/{STATE}", f"/{SECRETS}")
    line = re.search(r"^ExecStart=(.*)$", text, re.MULTILINE)[1]
    status, written = root.run("python3", "-c", SERVED, line, port, user="nobody", STATE_DIRECTORY=f"/{STATE}",
                               RUNTIME_DIRECTORY=f"/{SECRETS}", OPTIONS=f"--port {port}")
    served, _, answered = written.partition("\n")
    tally.check("the line of the service", served.startswith(f"npss-registry: serves /{STATE}/store at http://127.0.0.1:{port}/, one token; "), served)
    tally.same("what the service answers", (status, answered), (0, "200 201 200\n0\n"))
    if not shutil.which("systemd-analyze"):
        print("skipped: what systemd says of the service: systemd-analyze not found")
        return
    # The program isn't on this machine, nor are systemd's own units in the root.
    (room / Path(UNIT).name).write_text(text.replace("/usr/bin/npss-registry", "/bin/true"), encoding="utf-8")
    output_of(tally, "systemd reads the service", ["systemd-analyze", "verify", "--man=no", room / Path(UNIT).name])
    output_of(tally, "the service may do little", ["systemd-analyze", "security", "--offline=yes", f"--threshold={EXPOSURE}", root.folder / UNIT])
