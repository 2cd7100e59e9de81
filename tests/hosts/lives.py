"""What becomes of the packages in a Debian that is booted: the pages are typed, a service is set up and used, everything is
upgraded to the next release, used again, and removed."""

import subprocess
import time

from hosts import booted
import ucd
from hosts.roots import ENVIRONMENT
from hosts.typed import BEFORE, Reader, blocks, check_page

# What the reader of the pages has, and what the pages tell to install, which apt has ready.
HAS = (*booted.PACKAGES, "curl", "openssl", "parallel", "python3-redis", "redis-server")
TOLD = ("gcc", "libc6-dev", "pkg-config", "cargo")
FETCHING = 400
REGISTRY, PURGE = "docs/REGISTRY.md", "sudo apt purge"
UNIT, STORE, TOKEN = "npss-registry", "/var/lib/npss-registry/store", "/etc/npss-registry/token"
ASKED = ("curl -s --retry 30 --retry-connrefused --retry-delay 1 -o /dev/null -w '%{{http_code}}' http://127.0.0.1:8765{} "
         f'-H "Authorization: Bearer $(sudo cat {TOKEN})" {{}}')
# What of npss stands anywhere, but folders and what was kept for later.
LEFT = "dpkg -l | grep npss; find /usr /etc /lib /var -name '*npss*' -not -type d -not -path '/var/cache/*' -not -path '/var/lib/*npss*'"
# What the tables of the pages answer: by PostgreSQL, whose database is the README's, and by SQLite.
FOUND = """sudo -u postgres psql -qAtd readme -c "SELECT name FROM account WHERE npss_nfkc(name) COLLATE \\"C\\" = npss_nfkc('Zo\xeb')" """
TAKEN = """! sudo -u postgres psql -qAtd readme -c "INSERT INTO account (name) VALUES ('Zo' || 'e' || U&'\\0308')" """
KEPT = """sqlite3 -cmd '.load /usr/lib/sqlite3/npss' ~/databases/accounts.db "SELECT name FROM account WHERE npss_nfkc(name) = npss_nfkc('Zo\xeb')" """


def fetched(root):
    """Installs what the reader has, and fetches what the pages tell to install; what failed, or nothing."""
    (root.folder / "etc/apt/apt.conf.d/99bare").write_text('APT::Install-Recommends "false";\n', encoding="ascii")
    for words in (["apt-get", "update", "-q"], ["apt-get", "install", "-q", "-y", *HAS], ["apt-get", "install", "-q", "-y", "--download-only", *TOLD]):
        done = subprocess.run(["chroot", root.folder, *words], env=ENVIRONMENT, stdin=subprocess.DEVNULL, stdout=subprocess.PIPE, stderr=subprocess.STDOUT,
                              text=True, timeout=FETCHING, check=False)
        if done.returncode:
            return f"{' '.join(words[:2])}: {' '.join(done.stdout.split())[-300:]}"
    return ""


def why_not(root):
    """Why the Debian of the root can't be booted, or nothing, where it is ready for that."""
    return booted.why_not() or fetched(root)


def put_packages(root, made, name):
    """A folder of the reader's with packages."""
    folder = root.folder / booted.HOME / name
    for path in made.iterdir():
        root.put(path, booted.HOME, name, path.name)
    root.run("chown", "-R", booted.READER, f"/{folder.relative_to(root.folder)}")


def check_pages(tally, machine):
    """Types the pages, each in its own folder; those that install something in the folder of the packages."""
    packages = f"/{booted.HOME}/packages"
    check_page(tally, machine, "docs/INSTALL.md", packages, PURGE)
    machine.types(f"ln -s {packages}/*.deb . 2>/dev/null; mkdir -p databases && ln -s {packages}/*.deb databases/")
    check_page(tally, machine, "docs/DATABASES.md")
    check_page(tally, machine, "README.md", packages)
    for page in ("docs/DOORS.md", "docs/BULK.md", "docs/UPGRADING.md"):
        check_page(tally, machine, page)


def active(machine):
    """What systemd says of the service, and its process."""
    output = machine.run("systemctl", "show", "-p", "ActiveState,MainPID,NeedDaemonReload", UNIT)[1]
    return dict(line.partition("=")[::2] for line in output.splitlines())


def asked(machine, path, body=""):
    """The status of an answer over HTTP."""
    return machine.types(ASKED.format(path, f"-d '{body}'" if body else ""))[1].strip()[-3:]


def check_set_up(tally, machine):
    """The registry's page: one machine, a log over Redis, the service, and a claim of it."""
    reader = Reader(tally, machine, REGISTRY, f"/{booted.HOME}/registry")
    machine.types(f"mkdir -p {reader.folder}")
    reader.type(BEFORE[REGISTRY])
    one, over_redis, claim, service = [text for language, text in blocks(REGISTRY) if language == "sh"]
    reader.check(one, reader.type(one))
    for text in (text for language, text in blocks(REGISTRY) if language == "console"):
        reader.console(text)
    reader.check(over_redis, reader.type(over_redis))
    tally.same("the log over Redis has its first record", machine.types("redis-cli --raw exists names:0")[1].strip(), "1")
    machine.types("sudo rm -r /var/lib/npss-registry /etc/npss-registry")
    tally.same("the service is off where it isn't set up", active(machine)["ActiveState"], "inactive")
    reader.check(service, reader.type(service))
    tally.same("the service answers", asked(machine, "/health"), "200")
    reader.check(claim, reader.type(claim))
    tally.check("the claim of the page is registered", asked(machine, "/find", '{"name": "Zo\xeb"}') == "200")


def check_upgrade(tally, machine):
    """The next release over what runs: the service runs on by a new process, and stores, tables and tokens are as they were."""
    before, token = active(machine), machine.run("cat", TOKEN)[1]
    status, written = machine.types("sudo apt install ./*.deb", f"/{booted.HOME}/next")
    tally.check("the next release is installed over it", status == 0, written[-2000:])
    after = active(machine)
    tally.check("the service runs on by a new process", after["ActiveState"] == "active" and after["MainPID"] not in ("0", before["MainPID"]), after)
    tally.same("systemd knows the new unit", after["NeedDaemonReload"], "no")
    tally.same("the token stays", machine.run("cat", TOKEN)[1], token)
    answers = [asked(machine, path, body) for path, body in (("/find", '{"name": "Zoe\u0308"}'), ("/claim", '{"name": "Ana", "owner": "2"}'),
                                                             ("/claim", '{"name": "Zo\xeb", "owner": "2"}'))]
    tally.same("names stay, and more are registered", answers, ["200", "201", "409"])
    for name, line, wanted in (("PostgreSQL finds its name", FOUND, "Zo\xeb\n"), ("PostgreSQL refuses it again", TAKEN, "duplicate key"),
                               ("SQLite finds its name", KEPT, "Zo\xeb\n")):
        status, written = machine.types(line)
        tally.check(f"behind the upgrade {name}", status == 0 and wanted in written, f"status {status}: {written}")


def check_removal(tally, machine):
    """A removal stops the service; the page's line takes the rest away, and leaves what was made."""
    status, written = machine.types("sudo apt remove npss-registry")
    tally.check("npss-registry is removed", status == 0, written[-2000:])
    tally.same("a removal stops the service", (active(machine)["ActiveState"], machine.types("! curl -s http://127.0.0.1:8765/health")[0]), ("inactive", 0))
    text = next(text for language, text in blocks("docs/INSTALL.md") if text.startswith(PURGE))
    Reader(tally, machine, "docs/INSTALL.md", f"/{booted.HOME}").check(text, machine.types(text))
    left = machine.run("sh", "-c", LEFT)[1].split()
    made = {"/etc/postgresql/15/main/conf.d/npss.conf", "/var/lib/npss-registry"}
    tally.same("what is left is what was made", sorted(set(left) - made), [])
    tally.check("the store and the token stay", machine.run("test", "-e", STORE)[0] == 0 and machine.run("test", "-e", TOKEN)[0] == 0)


def check(tally, root, made, upgraded, room):
    """The pages and the packages in the Debian of the root, booted; where it can't boot that is told."""
    began = time.monotonic()
    why = why_not(root)
    with booted.Machine(root.folder, room / "console") as machine:
        if not why:
            machine.prepare()
            put_packages(root, made, "packages")
            if upgraded:
                put_packages(root, upgraded, "next")
            older(root)
            why = machine.start()
        if why:
            print(f"skipped: the pages typed in a Debian that is booted, and the packages over an upgrade: {why}")
            return
        print(f"a Debian is booted: {time.monotonic() - began:.0f} seconds", flush=True)
        check_pages(tally, machine)
        check_set_up(tally, machine)
        if upgraded:
            check_upgrade(tally, machine)
        check_removal(tally, machine)


def older(root):
    """Version 14.0 for the page that upgrades: that of the root, cut by the age of its characters."""
    files = ucd.folder_files(root.folder / "usr/share/unicode")[0]
    for name in ucd.write_cut(files, (14, 0), root.folder / booted.HOME)[0]:
        root.run("chown", booted.READER, f"/{booted.HOME}/{name.rpartition('/')[2]}")
